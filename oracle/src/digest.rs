//! Many numbers as one, where a case would be too long with all of them.

/// A digest with one word more. Two digests or two words that differ stay so: each of the three
/// steps can be undone.
pub fn mixed(digest: u64, word: u64) -> u64 {
    let sum = digest.wrapping_add(word);
    let spread = sum.wrapping_add(sum << 25);
    spread ^ (spread >> 29)
}

/// A digest with signed values more: of each twice the magnitude, and 1 for a negative one.
pub fn with_values(digest: u64, values: impl IntoIterator<Item = i16>) -> u64 {
    values.into_iter().fold(digest, |digest, value| {
        let word = u64::from(value.unsigned_abs()) * 2 + u64::from(value < 0);
        mixed(digest, word)
    })
}

/// A digest with bytes more.
pub fn with_bytes(digest: u64, bytes: &[u8]) -> u64 {
    with_words(digest, bytes.iter().map(|&byte| byte.into()))
}

/// A digest with words more.
pub fn with_words(digest: u64, words: impl IntoIterator<Item = u64>) -> u64 {
    words.into_iter().fold(digest, mixed)
}
