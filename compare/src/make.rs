//! Records, strings and recordings to compare on.

use crate::plain::set::next_time;
use crate::plain::{self, check, table};
use crate::random::Random;
use l1oc::{Record, Set};

/// The types that have fields of their own.
pub const WITH_FIELDS: [u8; 5] = [10, 11, 12, 20, 25];

/// One type of every shape: with fields, and raw in each of the three lengths.
pub const SHAPES: [u8; 8] = [10, 11, 12, 20, 25, 0, 1, 2];

/// A record of the type that passes every test.
pub fn record(random: &mut Random, kind: u8) -> Record {
    let mut record = Record {
        kind,
        satellite: random.between(1, 63) as u8,
        signal: random.below(2) as u8,
        validity: random.below(2) as u8,
        call: random.below(16) as u8,
        attitude: random.below(2) as u8,
        correction: random.below(4) as u8,
        next: random.below(2) as u8,
        time: random.between(0, 43199) as u64,
        ..Record::BLANK
    };
    let fields = table::information(kind).unwrap_or_default();
    for (place, field) in fields.iter().enumerate() {
        let zero = 0.clamp(field.low, field.high);
        let number = match random.below(8) {
            0 => field.low,
            1 => field.high,
            2 => zero,
            3 => random.between(zero, field.high.min(zero + 2)),
            _ => random.between(field.low, field.high),
        };
        record.numbers[place] = number;
        if field.signed && number == 0 && random.once_in(2) {
            record.minus |= 1 << place;
        }
    }
    if kind == 20 {
        record.numbers[0] = 0;
    }
    let raw = random.bits(plain::raw_width(kind));
    let filled = pack(&raw);
    record.raw[..filled.len()].copy_from_slice(&filled);
    record
}

/// Records that pass their own tests, with these types, satellites and times.
pub fn three(random: &mut Random, kinds: [u8; 3], satellites: [u8; 3], times: [u64; 3]) -> Set {
    let [first, second, third] = [0, 1, 2].map(|place| Record {
        satellite: satellites[place],
        time: times[place],
        ..record(random, kinds[place])
    });
    Set {
        first,
        second,
        third,
    }
}

/// Three records of one satellite, one after another in time; often OMB goes to 0 at a step.
pub fn in_turn(random: &mut Random, kinds: [u8; 3]) -> Set {
    let satellite = random.between(1, 63) as u8;
    let first = match random.below(4) {
        0 => random.between(43197, 43199) as u64,
        _ => random.between(0, 43199) as u64,
    };
    let second = next_time(first);
    let times = [first, second, next_time(second)];
    three(random, kinds, [satellite; 3], times)
}

/// A set that passes every test.
pub fn ephemeris(random: &mut Random) -> Set {
    in_turn(random, [10, 11, 12])
}

/// Puts a number into the field with this number (1 to 9 service, 10 and on information).
/// The service fields have 8 bits in a record, OMB has 64: a number below 0 is one from 2^63 on.
pub fn set(record: &mut Record, field: usize, number: i64) {
    match field {
        1 => record.kind = number as u8,
        2 => record.satellite = number as u8,
        3 => record.signal = number as u8,
        4 => record.validity = number as u8,
        5 => record.call = number as u8,
        6 => record.attitude = number as u8,
        7 => record.correction = number as u8,
        8 => record.next = number as u8,
        9 => record.time = number as u64,
        _ => record.numbers[field - 10] = number,
    }
}

/// The bits before the check bits, closed by the type's check bits.
pub fn close(before: &str, kind: u8) -> String {
    format!("{before}{}", check::bits(before, kind))
}

/// The bits of a record's string. Its fields may be out of range where they fit their width.
pub fn string_of(record: &Record) -> String {
    close(&plain::text_before_check(record), record.kind)
}

/// The bits of the strings of a set.
pub fn strings_of(set: &Set) -> [String; 3] {
    plain::set::records(set).map(|record| string_of(&record))
}

/// The bits of a valid string of the type.
pub fn string(random: &mut Random, kind: u8) -> String {
    string_of(&record(random, kind))
}

/// A string with a right check whose fields may hold anything; only the type is given.
pub fn any_string(random: &mut Random, kind: u8) -> String {
    let after_type = plain::length(kind) - check::width(kind) - 18;
    let free = random.bits(after_type);
    close(&format!("{}{kind:06b}{free}", plain::MARK), kind)
}

/// A type, the anomalous ones and those with fields more often.
pub fn kind(random: &mut Random) -> u8 {
    match random.below(3) {
        0 => random.pick(&SHAPES),
        1 => random.pick(&[1, 2, 0]),
        _ => random.below(64) as u8,
    }
}

/// The bits as bytes, the last byte filled up with zeros.
pub fn pack(text: &str) -> Vec<u8> {
    let digits = text.as_bytes();
    digits
        .chunks(8)
        .map(|chunk| {
            let digit = |place: usize| u8::from(chunk.get(place) == Some(&b'1'));
            (0..8).fold(0, |byte, place| byte | digit(place) << (7 - place))
        })
        .collect()
}

/// The bytes with every bit inverted.
pub fn complement(bytes: &[u8]) -> Vec<u8> {
    bytes.iter().map(|byte| 255 - byte).collect()
}

/// The text with the bits from a place on turned over where the pattern has a '1'.
pub fn turn(text: &str, place: usize, pattern: &str) -> String {
    let mut digits: Vec<char> = text.chars().collect();
    for (offset, digit) in pattern.chars().enumerate() {
        if digit == '1' {
            let old = digits[place + offset];
            digits[place + offset] = if old == '1' { '0' } else { '1' };
        }
    }
    digits.into_iter().collect()
}
