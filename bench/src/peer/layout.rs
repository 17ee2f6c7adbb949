//! What the types hold: lengths, check bits and information fields.

/// An information field. A signed one is a sign and a magnitude.
pub struct Field {
    pub width: u32,
    pub signed: bool,
    pub least: i64,
    pub most: i64,
}

const fn unsigned(width: u32) -> Field {
    range(width, 0, (1 << width) - 1)
}

const fn range(width: u32, least: i64, most: i64) -> Field {
    Field {
        width,
        signed: false,
        least,
        most,
    }
}

const fn signed(width: u32) -> Field {
    let most = (1 << (width - 1)) - 1;
    Field {
        width,
        signed: true,
        least: -most,
        most,
    }
}

const fn day() -> Field {
    range(11, 1, 1461)
}

static TYPE10: [Field; 16] = [
    range(5, 1, 31),
    day(),
    unsigned(3),
    unsigned(6),
    range(10, 0, 959),
    range(8, 1, 255),
    range(8, 1, 255),
    unsigned(2),
    unsigned(2),
    signed(5),
    signed(5),
    signed(32),
    signed(19),
    signed(15),
    signed(40),
    signed(13),
];

static TYPE11: [Field; 7] = [
    signed(40),
    signed(40),
    signed(40),
    signed(35),
    signed(13),
    signed(13),
    unsigned(3),
];

static TYPE12: [Field; 9] = [
    signed(13),
    signed(35),
    signed(35),
    signed(15),
    signed(15),
    signed(15),
    signed(18),
    signed(30),
    unsigned(8),
];

static TYPE20: [Field; 15] = [
    unsigned(2),
    unsigned(6),
    unsigned(6),
    day(),
    unsigned(5),
    unsigned(3),
    signed(14),
    signed(21),
    range(21, 0, 1_411_200),
    signed(15),
    unsigned(15),
    signed(16),
    signed(19),
    signed(7),
    unsigned(23),
];

static TYPE25: [Field; 15] = [
    day(),
    signed(16),
    signed(16),
    signed(9),
    signed(9),
    signed(7),
    signed(7),
    signed(25),
    signed(10),
    signed(8),
    unsigned(9),
    range(13, 0, 8000),
    range(9, 0, 500),
    signed(9),
    unsigned(26),
];

/// The information fields of a type; none where it has raw bits.
pub fn fields_of(kind: u8) -> &'static [Field] {
    match kind {
        10 => &TYPE10,
        11 => &TYPE11,
        12 => &TYPE12,
        20 => &TYPE20,
        25 => &TYPE25,
        _ => &[],
    }
}

/// The raw bits of a type.
pub fn raw_bits(kind: u8) -> usize {
    match kind {
        1 => 59,
        2 => 301,
        10 | 11 | 12 | 20 | 25 => 0,
        _ => 184,
    }
}

/// The bits of a type's string.
pub fn length(kind: u8) -> usize {
    match kind {
        1 => 125,
        2 => 375,
        _ => 250,
    }
}

/// The check bits of a type.
pub fn degree(kind: u8) -> usize {
    if kind == 2 {
        24
    } else {
        16
    }
}
