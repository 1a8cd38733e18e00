//! SRL coding: the values of places whose sign is not known yet.
//!
//! A coder keeps its state from call to call, as the bands of one component are one stream.

use crate::error::defect;
use crate::ffi;

pub use crate::error::Error as SrlError;

/// The state of a reader at the start of a stream: byte, bit, kp, zeros left of a run, whether a value
/// waits.
const DECODER_START: [u64; 5] = [0, 0, 8, 0, 0];

/// The state of a writer at the start of a stream: kp, pending zeros, unfinished bits, their count.
const ENCODER_START: [u64; 4] = [8, 0, 0, 0];

/// Reads the SRL stream of a component.
#[derive(Debug, Clone)]
pub struct SrlDecoder<'a> {
    data: &'a [u8],
    state: [u64; 5],
    missing: u64,
}

impl<'a> SrlDecoder<'a> {
    /// A decoder at the start of a stream. Past the stream's end every bit is 0.
    ///
    /// # Errors
    ///
    /// None: every list of bytes is a stream.
    pub fn new(data: &'a [u8]) -> Result<Self, SrlError> {
        Ok(Self {
            data,
            state: DECODER_START,
            missing: 0,
        })
    }

    /// Reads the next `num_values` values, each 0 or of a magnitude of `num_bits` bits. What is left of a
    /// run of zeros stays for the next call.
    ///
    /// # Errors
    ///
    /// [`SrlError::InvalidBitCount`] if a value that is not 0 is due and `num_bits` is outside 1 to 15.
    /// The decoder is as it was then.
    ///
    /// ```
    /// use tarjimp::srl::SrlDecoder;
    ///
    /// let mut decoder = SrlDecoder::new(&[0xFF])?;
    /// assert_eq!(decoder.decode(2, 16).unwrap_err().number(), 4);
    /// assert_eq!(decoder.decode(2, 1)?, [0, -1]);
    /// # Ok::<(), tarjimp::Error>(())
    /// ```
    pub fn decode(&mut self, num_values: usize, num_bits: u8) -> Result<Vec<i16>, SrlError> {
        let mut values = vec![0; num_values];
        match ffi::srl_decode(
            self.data,
            &mut self.state,
            &mut values,
            num_values,
            num_bits,
            &mut self.missing,
        ) {
            0 => Ok(values),
            4 => Err(SrlError::InvalidBitCount(num_bits)),
            number => defect("tarjimp_srl_decode", number),
        }
    }

    /// How many of the bits that the last call of [`decode`](Self::decode) read came from past the stream's
    /// end. 0: the stream had all of them. It is 0 before the first call and after one that was refused.
    ///
    /// Zeros of a run that an earlier call has read take no bit.
    ///
    /// ```
    /// use tarjimp::srl::{SrlDecoder, encode_srl};
    ///
    /// let stream = encode_srl(&[0, 0, 3, -1], 2)?;
    /// let mut whole = SrlDecoder::new(&stream)?;
    /// assert_eq!(whole.decode(4, 2)?, [0, 0, 3, -1]);
    /// assert_eq!(whole.missing_bits(), 0);
    ///
    /// // Only the first byte arrives, which ends within the last value.
    /// let mut cut = SrlDecoder::new(&stream[..1])?;
    /// assert_eq!(cut.decode(4, 2)?, [0, 0, 3, -3]);
    /// assert_eq!(cut.missing_bits(), 2);
    /// # Ok::<(), tarjimp::Error>(())
    /// ```
    pub fn missing_bits(&self) -> u64 {
        self.missing
    }
}

/// Writes the SRL stream of a component.
#[derive(Debug, Clone)]
pub struct SrlEncoder {
    bytes: Vec<u8>,
    state: [u64; 4],
}

impl SrlEncoder {
    /// An encoder at the start of a stream.
    pub fn new() -> Self {
        Self {
            bytes: Vec::new(),
            state: ENCODER_START,
        }
    }

    /// Writes values, each of a magnitude of at most `num_bits` bits. Zeros wait for the value that
    /// follows them.
    ///
    /// # Errors
    ///
    /// [`SrlError::InvalidBitCount`] if `num_bits` is outside 1 to 15, also for no values. By the earlier
    /// value, [`SrlError::MagnitudeOutOfRange`] if a magnitude is above 2^`num_bits` - 1, and
    /// [`SrlError::ZeroRunTooLong`] if more than 4,096 zeros wait. The encoder is as it was then.
    pub fn encode(&mut self, values: &[i16], num_bits: u8) -> Result<(), SrlError> {
        let from = self.bytes.len();
        let mut written = 0;
        self.bytes
            .resize(from + self.most_bytes(values, num_bits), 0);
        let out = &mut self.bytes[from..];
        let number = ffi::srl_encode(values, &mut self.state, out, num_bits, &mut written);
        self.bytes.truncate(from + written);
        match number {
            0 => Ok(()),
            4 => Err(SrlError::InvalidBitCount(num_bits)),
            5 => {
                let magnitudes = values.iter().map(|value| value.unsigned_abs());
                let refusal = too_large(magnitudes, num_bits);
                Err(refusal.unwrap_or_else(|| defect("tarjimp_srl_encode", 5)))
            }
            6 => Err(SrlError::ZeroRunTooLong),
            number => defect("tarjimp_srl_encode", number),
        }
    }

    /// Ends the stream: pending zeros, as if a value followed, bits 0 up to a whole byte, and a byte 0.
    ///
    /// # Errors
    ///
    /// None.
    ///
    /// ```
    /// use tarjimp::srl::SrlEncoder;
    ///
    /// let mut encoder = SrlEncoder::new();
    /// encoder.encode(&[0, 0], 1)?;
    /// encoder.encode(&[5], 3)?;
    /// assert_eq!(encoder.finish()?, [0x40, 0x80, 0x00]);
    /// # Ok::<(), tarjimp::Error>(())
    /// ```
    pub fn finish(mut self) -> Result<Vec<u8>, SrlError> {
        let from = self.bytes.len();
        let mut written = 0;
        self.bytes.resize(from + self.most_bytes(&[], 1) + 2, 0);
        match ffi::srl_finish(&self.state, &mut self.bytes[from..], &mut written) {
            0 => {
                self.bytes.truncate(from + written);
                Ok(self.bytes)
            }
            number => defect("tarjimp_srl_finish", number),
        }
    }

    /// No fewer bytes than values take, after what waits. A zero takes at most a bit of its run; the end
    /// of a run takes a bit and the at most ten bits of its length; a value takes its sign, and no more
    /// bits than its magnitude.
    fn most_bytes(&self, values: &[i16], num_bits: u8) -> usize {
        let [_, pending_zeros, _, bit_count] = self.state;
        let waiting = usize::try_from(pending_zeros + bit_count).expect("few bits wait");
        let bits = values.iter().map(|&value| match value {
            0 => 1,
            _ => 12 + usize::from(value.unsigned_abs().min(max_magnitude(num_bits))),
        });
        (waiting + bits.sum::<usize>() + 12) / 8
    }
}

impl Default for SrlEncoder {
    fn default() -> Self {
        Self::new()
    }
}

/// Reads one whole stream of values of one width. [`SrlDecoder::missing_bits`] says whether a stream is
/// whole.
///
/// # Errors
///
/// As [`SrlDecoder::decode`].
pub fn decode_srl(data: &[u8], num_values: usize, num_bits: u8) -> Result<Vec<i16>, SrlError> {
    SrlDecoder::new(data)?.decode(num_values, num_bits)
}

/// Writes one whole stream of values of one width.
///
/// # Errors
///
/// As [`SrlEncoder::encode`].
pub fn encode_srl(values: &[i16], num_bits: u8) -> Result<Vec<u8>, SrlError> {
    let mut encoder = SrlEncoder::new();
    encoder.encode(values, num_bits)?;
    encoder.finish()
}

/// The greatest magnitude of a width; of a width above 15, that of 15.
fn max_magnitude(num_bits: u8) -> u16 {
    (1 << num_bits.min(15)) - 1
}

/// The refusal of the first magnitude that is above the maximum of a width. The library gives its number
/// alone.
pub(crate) fn too_large(
    magnitudes: impl IntoIterator<Item = u16>,
    num_bits: u8,
) -> Option<SrlError> {
    let max = max_magnitude(num_bits);
    let magnitude = magnitudes.into_iter().find(|&magnitude| magnitude > max)?;
    Some(SrlError::MagnitudeOutOfRange { magnitude, max })
}

#[cfg(test)]
mod tests {
    use super::{SrlDecoder, SrlEncoder, SrlError, decode_srl, encode_srl};

    #[test]
    fn after_a_refusal_the_decoder_goes_on() {
        let stream = encode_srl(&[0, 7, -1, 2], 3).unwrap();
        let mut decoder = SrlDecoder::new(&stream).unwrap();
        assert_eq!(decoder.decode(1, 0), Ok(vec![0]));
        for num_bits in [0, 16, 255] {
            let refused = Err(SrlError::InvalidBitCount(num_bits));
            assert_eq!(decoder.decode(3, num_bits), refused);
        }
        assert_eq!(decoder.decode(3, 3), Ok(vec![7, -1, 2]));
    }

    /// The count of a decoder's last call, for a call on a stream from its start.
    fn missing(stream: &[u8], num_values: usize, num_bits: u8) -> u64 {
        let mut decoder = SrlDecoder::new(stream).unwrap();
        assert_eq!(decoder.missing_bits(), 0);
        decoder.decode(num_values, num_bits).unwrap();
        decoder.missing_bits()
    }

    #[test]
    fn known_counts_of_missing_bits() {
        assert_eq!(missing(&[0x80], 1, 15), 32_761);
        assert_eq!(missing(&[], 5, 1), 3);
        assert_eq!(missing(&[], 0, 1), 0);
        assert_eq!(missing(&[], 3, 16), 2);
        assert_eq!(missing(&[0xFF], 2, 1), 0);
    }

    /// Each call counts its own bits, a refusal none; zeros of a run that was read take no bit.
    #[test]
    fn missing_bits_of_calls_one_after_another() {
        let mut decoder = SrlDecoder::new(&[0x01]).unwrap();
        assert_eq!(decoder.decode(44, 2), Ok(vec![0; 44]));
        assert_eq!(decoder.missing_bits(), 0);
        let value_at_last_bit = decoder.clone();
        assert_eq!(decoder.decode(1, 2), Ok(vec![3]));
        assert_eq!(decoder.missing_bits(), 7);
        for (num_values, missing) in [(1, 1), (7, 0), (1, 1), (0, 0)] {
            assert_eq!(decoder.decode(num_values, 16), Ok(vec![0; num_values]));
            assert_eq!(decoder.missing_bits(), missing);
        }
        let mut decoder = value_at_last_bit;
        decoder.missing = 9;
        let refused = Err(SrlError::InvalidBitCount(16));
        assert_eq!(decoder.decode(1, 16), refused);
        assert_eq!(decoder.missing_bits(), 0);
    }

    #[test]
    fn missing_bits_of_cut_streams() {
        let values = [5, 0, 0, -1, 7, 0, 0, 0, 1];
        let stream = encode_srl(&values, 3).unwrap();
        let counts = (0..=stream.len()).map(|length| missing(&stream[..length], values.len(), 3));
        assert_eq!(counts.collect::<Vec<_>>(), [4, 5, 9, 1, 0, 0]);
    }

    #[test]
    fn after_a_refusal_the_encoder_goes_on() {
        let mut encoder = SrlEncoder::default();
        encoder.encode(&[0, 1, 0], 2).unwrap();
        let refused = [
            encoder.encode(&[1, 1], 16),
            encoder.encode(&[], 0),
            encoder.encode(&[1, 0, -4, 5], 2),
            encoder.encode(&[0; 4096], 2),
        ];
        let max = 3;
        assert_eq!(
            refused,
            [
                Err(SrlError::InvalidBitCount(16)),
                Err(SrlError::InvalidBitCount(0)),
                Err(SrlError::MagnitudeOutOfRange { magnitude: 4, max }),
                Err(SrlError::ZeroRunTooLong),
            ]
        );
        encoder.encode(&[-3], 2).unwrap();
        let stream = encoder.finish().unwrap();
        assert_eq!(stream, encode_srl(&[0, 1, 0, -3], 2).unwrap());
    }

    #[test]
    fn the_earlier_of_two_refusals() {
        let mut encoder = SrlEncoder::new();
        encoder.encode(&[0; 4096], 1).unwrap();
        assert_eq!(encoder.encode(&[0, 9], 1), Err(SrlError::ZeroRunTooLong));
        let too_large = Err(SrlError::MagnitudeOutOfRange {
            magnitude: 32768,
            max: 32767,
        });
        assert_eq!(encoder.encode(&[i16::MIN, 0], 15), too_large);
        assert!(encoder.finish().is_ok());
    }

    #[test]
    fn the_longest_answers_have_room() {
        for num_bits in 1..=15 {
            let max = (1i32 << num_bits) - 1;
            let values = [max as i16, -max as i16, (max - 1).max(1) as i16].repeat(100);
            let stream = encode_srl(&values, num_bits).unwrap();
            assert_eq!(decode_srl(&stream, values.len(), num_bits), Ok(values));
        }
        for zeros in 0..=4096 {
            let values = [vec![0; zeros], vec![1]].concat();
            let stream = encode_srl(&values, 1).unwrap();
            assert_eq!(decode_srl(&stream, values.len(), 1), Ok(values));
            assert!(encode_srl(&vec![0; zeros], 1).is_ok());
        }
    }

    #[test]
    fn a_stream_of_many_calls() {
        let calls: Vec<(Vec<i16>, u8)> = (0..200)
            .map(|call: i16| {
                let num_bits = 1 + (call % 15) as u8;
                let max = (1i32 << num_bits) - 1;
                let values = (0..call % 40).map(|place| match (place * call) % 7 {
                    0 => (max.min(60)) as i16,
                    1 => -1,
                    _ => 0,
                });
                (values.collect(), num_bits)
            })
            .collect();
        let mut encoder = SrlEncoder::new();
        for (values, num_bits) in &calls {
            encoder.encode(values, *num_bits).unwrap();
        }
        let stream = encoder.finish().unwrap();
        let mut decoder = SrlDecoder::new(&stream).unwrap();
        for (values, num_bits) in calls {
            assert_eq!(decoder.decode(values.len(), num_bits), Ok(values));
        }
    }
}
