//! Big-endian numbers in byte strings, and the framing of a stream of byte strings.

/// A place in a byte string; reading past its end gives nothing.
pub struct Reader<'a> {
    bytes: &'a [u8],
}

impl<'a> Reader<'a> {
    /// A reader at the start of a byte string.
    pub fn new(bytes: &'a [u8]) -> Self {
        Self { bytes }
    }

    /// The number of bytes that are left.
    pub fn left(&self) -> usize {
        self.bytes.len()
    }

    /// The next bytes.
    pub fn take(&mut self, count: usize) -> Option<&'a [u8]> {
        let (front, rest) = self.bytes.split_at_checked(count)?;
        self.bytes = rest;
        Some(front)
    }

    /// The next unsigned number of some bytes.
    pub fn number(&mut self, size: usize) -> Option<u64> {
        let add = |sum: u64, byte: &u8| (sum << 8) | u64::from(*byte);
        Some(self.take(size)?.iter().fold(0, add))
    }

    /// The next float, from its bits.
    pub fn float(&mut self) -> Option<f64> {
        self.number(8).map(f64::from_bits)
    }

    /// The next floats, as many as the array holds.
    pub fn floats<const N: usize>(&mut self) -> Option<[f64; N]> {
        let mut values = [0.0; N];
        for value in &mut values {
            *value = self.float()?;
        }
        Some(values)
    }
}

/// Appends the low bytes of a number.
pub fn put(out: &mut Vec<u8>, size: usize, value: u64) {
    out.extend_from_slice(&value.to_be_bytes()[8 - size..]);
}

/// Appends the bits of floats.
pub fn put_floats(out: &mut Vec<u8>, values: &[f64]) {
    for value in values {
        put(out, 8, value.to_bits());
    }
}

/// Appends a byte string with its length before it.
pub fn put_frame(out: &mut Vec<u8>, body: &[u8]) {
    put(out, 4, body.len() as u64);
    out.extend_from_slice(body);
}

/// The byte strings of a framed stream.
pub fn frames(stream: &[u8]) -> Vec<&[u8]> {
    let mut reader = Reader::new(stream);
    let mut list = Vec::new();
    while reader.left() > 0 {
        let length = reader.number(4).expect("a frame's length") as usize;
        list.push(reader.take(length).expect("a frame's bytes"));
    }
    list
}
