//! The inputs, from fixed seeds: an hour of strings, an hour of sets, and noise.
use crate::peer::{self, layout};
use l1oc::{Record, Set, MAX_BITS, SET_BITS};

/// An hour and its leap second at 125 bit/s.
pub const HOUR_BITS: usize = 450_125;

/// Sets of an hour.
const SETS: usize = 600;

/// The bits of an hour of sets.
pub const SETS_BITS: usize = SETS * SET_BITS;

/// The bytes of the noise.
pub const NOISE_BYTES: usize = MAX_BITS / 8;

/// A generator of numbers (splitmix64).
pub struct Numbers(u64);

impl Numbers {
    pub fn new(seed: u64) -> Self {
        Self(seed)
    }

    pub fn next(&mut self) -> u64 {
        self.0 = self.0.wrapping_add(0x9E37_79B9_7F4A_7C15);
        let mut z = self.0;
        z = (z ^ (z >> 30)).wrapping_mul(0xBF58_476D_1CE4_E5B9);
        z = (z ^ (z >> 27)).wrapping_mul(0x94D0_49BB_1331_11EB);
        z ^ (z >> 31)
    }

    /// A number from `least` to `most`.
    pub fn within(&mut self, least: i64, most: i64) -> i64 {
        least + (self.next() % (most - least + 1) as u64) as i64
    }
}

/// A recording with its strings.
pub struct Hour {
    pub bytes: Vec<u8>,
    pub starts: Vec<usize>,
    pub records: Vec<Record>,
}

/// 1800 strings of 250 bits and one of 125, end to end.
pub fn hour() -> Hour {
    let mut numbers = Numbers::new(1);
    let mut bytes = vec![0; HOUR_BITS.div_ceil(8)];
    let mut starts = Vec::new();
    let mut records = Vec::new();
    let mut place = 0;
    for i in 0..1801 {
        let kind = if i == 900 {
            1
        } else {
            common_type(&mut numbers)
        };
        let mut record = random_record(&mut numbers, kind);
        record.time = i % 43_200;
        let answer = peer::write(&mut bytes, HOUR_BITS, place, &record);
        assert_eq!(answer.number, 0, "string {i} is refused");
        starts.push(place);
        records.push(record);
        place = answer.value as usize;
    }
    assert_eq!(place, HOUR_BITS);
    Hour {
        bytes,
        starts,
        records,
    }
}

/// A recording with its sets.
pub struct Sets {
    pub bytes: Vec<u8>,
    pub starts: Vec<usize>,
    pub sets: Vec<Set>,
}

/// Sets end to end.
pub fn sets() -> Sets {
    let mut numbers = Numbers::new(6);
    let mut bytes = vec![0; SETS_BITS.div_ceil(8)];
    let starts: Vec<usize> = (0..SETS).map(|i| SET_BITS * i).collect();
    let sets: Vec<Set> = starts.iter().map(|_| random_set(&mut numbers)).collect();
    for (&start, set) in starts.iter().zip(&sets) {
        let answer = peer::write_set(&mut bytes, SETS_BITS, start, set);
        assert_eq!(answer.number, 0, "the set at {start} is refused");
    }
    Sets {
        bytes,
        starts,
        sets,
    }
}

/// The bytes of a recording in opposite phase.
pub fn complement(bytes: &[u8]) -> Vec<u8> {
    bytes.iter().map(|byte| !byte).collect()
}

/// Random bytes.
pub fn noise() -> Vec<u8> {
    let mut numbers = Numbers::new(2);
    let words = (0..NOISE_BYTES / 8).map(|_| numbers.next());
    words.flat_map(u64::to_be_bytes).collect()
}

/// The type of a string: mostly ephemerides and almanacs.
fn common_type(numbers: &mut Numbers) -> u8 {
    const TYPES: [u8; 20] = [
        10, 11, 12, 20, 20, 10, 11, 12, 20, 25, 10, 11, 12, 20, 20, 10, 11, 12, 25, 0,
    ];
    match TYPES[numbers.within(0, 19) as usize] {
        0 => [0, 16, 31, 32, 50, 60][numbers.within(0, 5) as usize],
        kind => kind,
    }
}

/// A set that can be written.
pub fn random_set(numbers: &mut Numbers) -> Set {
    let satellite = numbers.within(1, 63) as u8;
    // Now and then it goes to 0 in the set.
    let least = if numbers.within(0, 9) == 0 { 43_197 } else { 0 };
    let time = numbers.within(least, 43_199) as u64;
    let mut record = |step: u8| Record {
        satellite,
        time: (time + u64::from(step)) % 43_200,
        ..random_record(numbers, 10 + step)
    };
    Set {
        first: record(0),
        second: record(1),
        third: record(2),
    }
}

/// A record of a type that can be written.
pub fn random_record(numbers: &mut Numbers, kind: u8) -> Record {
    let mut r = Record {
        kind,
        satellite: numbers.within(1, 63) as u8,
        signal: numbers.within(0, 1) as u8,
        validity: numbers.within(0, 1) as u8,
        call: numbers.within(0, 15) as u8,
        attitude: numbers.within(0, 1) as u8,
        correction: numbers.within(0, 3) as u8,
        next: numbers.within(0, 1) as u8,
        time: numbers.within(0, 43_199) as u64,
        ..Record::BLANK
    };
    for (i, field) in layout::fields_of(kind).iter().enumerate() {
        if field.signed && numbers.within(0, 63) == 0 {
            r.minus |= 1 << i;
        } else {
            r.numbers[i] = numbers.within(field.least, field.most);
        }
    }
    if kind == 20 {
        r.numbers[0] = 0;
    }
    let count = layout::raw_bits(kind);
    for i in 0..count {
        r.raw[i / 8] |= (numbers.within(0, 1) as u8) << (7 - i % 8);
    }
    r
}
