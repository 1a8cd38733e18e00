//! The form of a recorded file: records one after another, each a kind (1 byte), the length of its
//! payload (4 bytes, little-endian) and the payload.

use std::io::{self, Read, Write};

use oracle::kinds::is_wrong;
use oracle::random::Random;

/// The kind of the last record, which has no payload.
pub const END: u8 = 0;

/// The longest payload of a record, in bytes.
pub const LONGEST_PAYLOAD: usize = 65536;

/// Where records go.
pub trait Sink {
    /// Takes a record. The byte at `answer` is the first in its payload that is an answer.
    fn record(&mut self, kind: u8, payload: &[u8], answer: usize) -> io::Result<()>;

    /// Is told of each case when it is made. Its record comes later.
    fn made(&mut self, _kind: u8) -> io::Result<()> {
        Ok(())
    }
}

/// Writes records in the form of a recorded file.
pub struct Written<W>(pub W);

impl<W: Write> Written<W> {
    /// Writes one record.
    pub fn write(&mut self, kind: u8, payload: &[u8]) -> io::Result<()> {
        assert!(payload.len() <= LONGEST_PAYLOAD, "the payload is too long");
        let length = u32::try_from(payload.len()).expect("the longest payload fits");
        self.0.write_all(&[kind])?;
        self.0.write_all(&length.to_le_bytes())?;
        self.0.write_all(payload)
    }

    /// Writes the record that ends a file. A file without it is cut.
    pub fn end(&mut self) -> io::Result<()> {
        self.write(END, &[])?;
        self.0.flush()
    }
}

impl<W: Write> Sink for Written<W> {
    fn record(&mut self, kind: u8, payload: &[u8], _: usize) -> io::Result<()> {
        self.write(kind, payload)
    }
}

/// Reads the fields of a case, one after another.
pub struct Fields<'a> {
    left: &'a [u8],
}

impl<'a> Fields<'a> {
    pub fn of(case: &'a [u8]) -> Self {
        Self { left: case }
    }

    /// So many bytes.
    ///
    /// # Panics
    ///
    /// Panics if the case has fewer.
    pub fn bytes(&mut self, count: usize) -> &'a [u8] {
        let (bytes, left) = self.left.split_at(count);
        self.left = left;
        bytes
    }

    fn array<const N: usize>(&mut self) -> [u8; N] {
        self.bytes(N).try_into().expect("as many as asked for")
    }

    pub fn u8(&mut self) -> u8 {
        self.array::<1>()[0]
    }

    pub fn flag(&mut self) -> bool {
        self.u8() != 0
    }

    pub fn i16(&mut self) -> i16 {
        i16::from_le_bytes(self.array())
    }

    pub fn u16(&mut self) -> u16 {
        u16::from_le_bytes(self.array())
    }

    pub fn u64(&mut self) -> u64 {
        u64::from_le_bytes(self.array())
    }

    /// A length or a count of 2 bytes.
    pub fn short(&mut self) -> usize {
        self.u16().into()
    }

    /// A number of the machine's size, of 8 bytes.
    pub fn long(&mut self) -> usize {
        self.u64() as usize
    }

    /// A number for each band.
    pub fn row(&mut self) -> [u8; 10] {
        self.array()
    }

    /// Lengths of 2 bytes each.
    pub fn shorts<const N: usize>(&mut self) -> [usize; N] {
        [(); N].map(|()| self.short())
    }

    /// Whether an answer comes next. It is passed over if it does.
    pub fn has(&mut self, answer: &[u8]) -> bool {
        match self.left.strip_prefix(answer) {
            Some(left) => {
                self.left = left;
                true
            }
            None => false,
        }
    }
}

/// Reads a record of a file; nothing at the end.
pub fn read_record(input: &mut impl Read) -> io::Result<Option<(u8, Vec<u8>)>> {
    let mut fill = |bytes: &mut [u8]| match input.read_exact(bytes) {
        Err(error) if error.kind() == io::ErrorKind::UnexpectedEof => {
            Err(io::Error::other("the recording is cut"))
        }
        filled => filled,
    };
    let mut kind = [0];
    let mut length = [0; 4];
    fill(&mut kind)?;
    fill(&mut length)?;
    let length = u32::from_le_bytes(length) as usize;
    if kind == [END] {
        return Ok(None);
    }
    if length > LONGEST_PAYLOAD {
        return Err(io::Error::other("a record is too long"));
    }
    let mut payload = vec![0; length];
    fill(&mut payload)?;
    Ok(Some((kind[0], payload)))
}

/// One run of the recorder: where the records go, and what was asked for.
pub struct Recording<'a> {
    sink: &'a mut dyn Sink,
    seed: u64,
    scale: u32,
    only: Option<u8>,
    first_cases: Vec<(Kind, Vec<u8>)>,
}

impl<'a> Recording<'a> {
    pub fn new(sink: &'a mut dyn Sink, seed: u64, scale: u32) -> Self {
        Self {
            sink,
            seed,
            scale,
            only: None,
            first_cases: Vec::new(),
        }
    }

    /// The same with the cases of one kind alone.
    pub fn only(self, kind: u8) -> Self {
        Self {
            only: Some(kind),
            ..self
        }
    }

    /// Makes the cases of a kind, unless they are not asked for. Wrong cases are made of those of all
    /// other kinds.
    pub fn kind<T: Default>(
        &mut self,
        kind: u8,
        make: impl FnOnce(&mut Self) -> io::Result<T>,
    ) -> io::Result<T> {
        match self.only {
            Some(only) if only != kind && !is_wrong(only) => Ok(T::default()),
            _ => make(self),
        }
    }

    /// Hands on a case that is a record of its own.
    pub fn record_case(&mut self, kind: u8, case: &Case) -> io::Result<()> {
        if self.hands_on(kind) {
            self.sink.made(kind)?;
            self.sink.record(kind, &case.bytes, case.answers[0])?;
        }
        Ok(())
    }

    /// Whether cases of a kind are asked for, and not made for wrong ones only.
    fn hands_on(&self, kind: u8) -> bool {
        self.only.is_none_or(|only| only == kind)
    }

    /// Random numbers for one kind. Each kind has its own, so a new kind changes no other.
    pub fn random(&self, kind: u8) -> Random {
        Random::new(self.seed, kind)
    }

    /// How many random cases to record where there are `count` at scale 1.
    pub fn scaled(&self, count: u32) -> u64 {
        u64::from(count) * u64::from(self.scale)
    }

    /// The first case of each kind whose cases all have the same size.
    pub fn first_cases(&self) -> &[(Kind, Vec<u8>)] {
        &self.first_cases
    }

    /// Begins the cases of a kind whose cases all have the same size.
    pub fn cases(&mut self, kind: Kind) -> Cases<'_, 'a> {
        Cases {
            recording: self,
            kind,
            payload: Vec::new(),
        }
    }
}

/// A case that is a record of its own, because cases of its kind differ in size.
#[derive(Clone, Default)]
pub struct Case {
    pub bytes: Vec<u8>,
    /// The places of the bytes that are answers.
    pub answers: Vec<usize>,
}

impl Case {
    /// Adds a field that is given.
    pub fn given(&mut self, field: &[u8]) {
        self.bytes.extend_from_slice(field);
    }

    /// Adds a field that is an answer.
    pub fn answer(&mut self, field: &[u8]) {
        let from = self.bytes.len();
        self.given(field);
        self.answers.extend(from..self.bytes.len());
    }
}

/// A kind whose cases all have the same size.
#[derive(Clone, Copy)]
pub struct Kind {
    pub number: u8,
    /// The bytes of a case before its answer.
    pub inputs: usize,
    /// The bytes of a case.
    pub size: usize,
}

/// Gathers cases of one kind into records, as many in each as fit.
pub struct Cases<'r, 'a> {
    recording: &'r mut Recording<'a>,
    kind: Kind,
    payload: Vec<u8>,
}

impl Cases<'_, '_> {
    /// Adds one case, given as its fields in order.
    pub fn add(&mut self, fields: &[&[u8]]) -> io::Result<()> {
        let case = fields.concat();
        let Kind { number, size, .. } = self.kind;
        assert_eq!(case.len(), size, "a case of kind {number}");
        if self.recording.hands_on(number) {
            if self.payload.len() + size > LONGEST_PAYLOAD {
                self.write()?;
            }
            self.payload.extend_from_slice(&case);
            self.recording.sink.made(number)?;
        }

        let first_cases = &mut self.recording.first_cases;
        if first_cases.iter().all(|(kind, _)| kind.number != number) {
            first_cases.push((self.kind, case));
        }
        Ok(())
    }

    /// Hands on the cases that are not handed on yet.
    pub fn finish(mut self) -> io::Result<()> {
        if self.payload.is_empty() {
            return Ok(());
        }
        self.write()
    }

    fn write(&mut self) -> io::Result<()> {
        let Kind { number, inputs, .. } = self.kind;
        self.recording.sink.record(number, &self.payload, inputs)?;
        self.payload.clear();
        Ok(())
    }
}
