//! Bits of bytes a word at a time, the high bit of a byte first.

/// The longest string from any bit of its first byte, and a word more.
pub const WINDOW: usize = 56;

/// What makes a byte's bits the true ones, by exclusive or.
pub const STRAIGHT: u8 = 0;
pub const INVERTED: u8 = 0xFF;

/// The 64 true bits from the byte `at` on, anything past the end.
#[inline]
pub fn word<const PHASE: u8>(bytes: &[u8], at: usize) -> u64 {
    let recorded = match bytes.get(at..).and_then(|tail| tail.first_chunk()) {
        Some(chunk) => u64::from_be_bytes(*chunk),
        None => short_word(&bytes[at..]),
    };
    recorded ^ u64::from_be_bytes([PHASE; 8])
}

#[cold]
fn short_word(tail: &[u8]) -> u64 {
    let mut chunk = [0; 8];
    chunk[..tail.len()].copy_from_slice(tail);
    u64::from_be_bytes(chunk)
}

/// The field of `width` bits, 1 to 57, at a place.
#[inline]
pub fn field<const PHASE: u8>(bytes: &[u8], place: usize, width: u32) -> u64 {
    word::<PHASE>(bytes, place / 8) << (place % 8) >> (64 - width)
}

/// The 64 bits from any place on.
pub fn any_word(bytes: &[u8; WINDOW], place: usize) -> u64 {
    let (at, skip) = (place / 8, place % 8);
    word::<STRAIGHT>(bytes, at) << skip | u64::from(bytes[at + 8]) >> (8 - skip)
}

/// Gathers fields in a word and hands on whole words.
pub struct Writer {
    bytes: [u8; WINDOW],
    at: usize,
    held: u64,
    free: u32,
}

impl Writer {
    /// Starts with `offset` zeros.
    pub fn new(offset: usize) -> Self {
        Self {
            bytes: [0; WINDOW],
            at: 0,
            held: 0,
            free: 64 - offset as u32,
        }
    }

    /// Appends the `width` low bits, 1 to 64, of a value that has no others.
    #[inline]
    pub fn put(&mut self, width: u32, value: u64) {
        if width <= self.free {
            self.free -= width;
            self.held |= value << self.free;
        } else {
            let over = width - self.free;
            self.held |= value >> over;
            self.flush();
            self.free = 64 - over;
            self.held = value << self.free;
        }
    }

    /// The bytes, zeros past the last field.
    pub fn finish(mut self) -> [u8; WINDOW] {
        self.flush();
        self.bytes
    }

    fn flush(&mut self) {
        self.bytes[self.at..self.at + 8].copy_from_slice(&self.held.to_be_bytes());
        self.at += 8;
    }
}
