//! That both sides give the same answers and leave the same memory, before they are measured.
use crate::input::{self, Hour, Numbers, Sets, HOUR_BITS, SETS_BITS};
use crate::sides::{Library, Peer, Side};
use l1oc::Phase::{self, Inverted, Straight};
use l1oc::{Answer, Record, Set, MAX_BITS, MAX_STARTS, NUMBERS, RAW_BYTES, SET_BITS};
use std::fmt::Debug;

/// Compares both sides on the inputs, on damaged ones and at the limits. Stops at the first difference.
pub fn check(hour: &Hour, sets: &Sets, noise: &[u8]) {
    let strings = Recording::new(&hour.bytes);
    lists(&strings, HOUR_BITS);
    for (&start, record) in hour.starts.iter().zip(&hour.records) {
        assert_eq!(reads(&strings, HOUR_BITS, start), (0, *record));
    }
    let random = Recording::new(noise);
    lists(&random, 8 * noise.len());
    for place in 0..8 * noise.len() + 2 {
        reads(&random, 8 * noise.len(), place);
    }
    writes_hour(hour);
    damaged(hour);
    limits(noise);
    check_sets(hour, sets);
    let mut numbers = Numbers::new(3);
    for _ in 0..20 {
        for kind in 0..64 {
            records(&mut numbers, kind);
        }
    }
}

/// A recording and its complement.
struct Recording {
    bytes: Vec<u8>,
    complement: Vec<u8>,
}

impl Recording {
    fn new(bytes: &[u8]) -> Self {
        Self {
            bytes: bytes.to_vec(),
            complement: input::complement(bytes),
        }
    }

    /// What both sides give of the recording straight, and of its complement inverted. They agree too where it is taken inverted.
    fn in_phases<T: PartialEq + Debug>(&self, agreed: impl Fn(&[u8], Phase) -> T) -> T {
        let answer = agreed(&self.bytes, Straight);
        assert_eq!(answer, agreed(&self.complement, Inverted), "inverted");
        agreed(&self.bytes, Inverted);
        answer
    }
}

/// Listing, with a list that is long enough, as long as needed, and too short.
fn lists(recording: &Recording, count: usize) {
    let list = |room| recording.in_phases(|bytes, phase| list_into(bytes, count, phase, room));
    let needed = list(MAX_STARTS).0.value as usize;
    for room in [needed, needed.saturating_sub(1), 0] {
        list(room);
    }
}

fn list_into(bytes: &[u8], count: usize, phase: Phase, room: usize) -> (Answer, Vec<u32>) {
    let (mut a, mut b) = (vec![u32::MAX; room], vec![u32::MAX; room]);
    let answer = Library::list(bytes, count, phase, &mut a);
    let other = Peer::list(bytes, count, phase, &mut b);
    assert_eq!(answer, other, "list {room} {phase:?}");
    assert_eq!(a, b, "list {room} {phase:?}");
    (answer, a)
}

fn reads(recording: &Recording, count: usize, place: usize) -> (u64, Record) {
    let reading = recording.in_phases(|bytes, phase| {
        let reading = Library::read(bytes, count, phase, place);
        let other = Peer::read(bytes, count, phase, place);
        assert_eq!(reading, other, "read {place} {phase:?}");
        reading
    });
    (reading.number, reading.content)
}

fn writes(bytes: &[u8], count: usize, place: usize, record: &Record) -> (u64, Vec<u8>) {
    let (mut a, mut b) = (bytes.to_vec(), bytes.to_vec());
    let answer = Library::write(&mut a, count, place, *record);
    let other = Peer::write(&mut b, count, place, *record);
    assert_eq!(answer, other, "write {place} {record:?}");
    assert_eq!(a, b, "write {place} {record:?}");
    (answer.number, a)
}

fn reads_set(recording: &Recording, count: usize, place: usize) -> (u64, Set) {
    let reading = recording.in_phases(|bytes, phase| {
        let reading = Library::read_set(bytes, count, phase, place);
        let other = Peer::read_set(bytes, count, phase, place);
        assert_eq!(reading, other, "read a set {place} {phase:?}");
        reading
    });
    (reading.number, reading.content)
}

fn writes_set(bytes: &[u8], count: usize, place: usize, set: &Set) -> (u64, Vec<u8>) {
    let (mut a, mut b) = (bytes.to_vec(), bytes.to_vec());
    let answer = Library::write_set(&mut a, count, place, *set);
    let other = Peer::write_set(&mut b, count, place, *set);
    assert_eq!(answer, other, "write a set {place} {set:?}");
    assert_eq!(a, b, "write a set {place} {set:?}");
    (answer.number, a)
}

/// The sets; strings that make no set; sets that are damaged, cut or spoilt.
fn check_sets(hour: &Hour, sets: &Sets) {
    let recording = Recording::new(&sets.bytes);
    for (&start, set) in sets.starts.iter().zip(&sets.sets) {
        assert_eq!(reads_set(&recording, SETS_BITS, start), (0, *set));
    }
    let recording = Recording::new(&hour.bytes);
    for &start in &hour.starts {
        reads_set(&recording, HOUR_BITS, start);
    }
    let mut numbers = Numbers::new(7);
    for bit in 0..SET_BITS {
        let (at, count) = (bit % 200, 960);
        let bytes: Vec<u8> = (0..120).map(|_| numbers.next() as u8).collect();
        let set = input::random_set(&mut numbers);
        let (number, mut written) = writes_set(&bytes, count, at, &set);
        assert_eq!(number, 0);
        let recording = Recording::new(&written);
        assert_eq!(reads_set(&recording, count, at), (0, set));
        let cut = at + numbers.within(0, SET_BITS as i64 - 1) as usize;
        reads_set(&recording, cut, at);
        writes_set(&bytes, cut, at, &set);
        for _ in 0..10 {
            let spoilt = spoil_set(&mut numbers, set);
            writes_set(&bytes, count, at, &spoilt);
            writes_set(&bytes, cut, at, &spoilt);
            let (mut strings, mut next) = (bytes.clone(), at);
            for r in [spoilt.first, spoilt.second, spoilt.third] {
                let answer = Peer::write(&mut strings, count, next, r);
                if answer.number != 0 {
                    break;
                }
                next = answer.value as usize;
            }
            reads_set(&Recording::new(&strings), count, at);
        }
        written[(at + bit) / 8] ^= 0x80 >> ((at + bit) % 8);
        reads_set(&Recording::new(&written), count, at);
    }
}

/// A set with a record changed, or of another type, satellite or time.
fn spoil_set(numbers: &mut Numbers, mut set: Set) -> Set {
    let r = match numbers.within(0, 2) {
        0 => &mut set.first,
        1 => &mut set.second,
        _ => &mut set.third,
    };
    let kind = numbers.within(0, 63) as u8;
    match numbers.within(0, 3) {
        0 => *r = spoil(numbers, *r),
        1 => {
            *r = Record {
                satellite: r.satellite,
                time: r.time,
                ..input::random_record(numbers, kind)
            }
        }
        2 => r.satellite = numbers.within(1, 63) as u8,
        _ => r.time = numbers.within(0, 43_199) as u64,
    }
    set
}

/// Writes the hour over ones, string by string.
fn writes_hour(hour: &Hour) {
    let mut a = vec![0xFF; hour.bytes.len()];
    let mut b = a.clone();
    for (&start, record) in hour.starts.iter().zip(&hour.records) {
        let answer = Library::write(&mut a, HOUR_BITS, start, *record);
        assert_eq!(answer, Peer::write(&mut b, HOUR_BITS, start, *record));
        assert_eq!(answer.number, 0);
        assert!(a == b, "write {start}");
    }
}

/// Damages the hour, then lists and reads it.
fn damaged(hour: &Hour) {
    let mut numbers = Numbers::new(4);
    for _ in 0..20 {
        let mut bytes = hour.bytes.clone();
        for _ in 0..numbers.within(1, 400) {
            let place = numbers.within(0, HOUR_BITS as i64 - 1) as usize;
            bytes[place / 8] ^= 0x80 >> (place % 8);
        }
        let count = HOUR_BITS - numbers.within(0, 400) as usize;
        let recording = Recording::new(&bytes);
        lists(&recording, count);
        for &start in &hour.starts {
            reads(&recording, count, start);
        }
    }
}

/// Bit counts and places at and past their limits.
fn limits(noise: &[u8]) {
    let record = input::random_record(&mut Numbers::new(5), 10);
    let long = [noise, &[0; 8]].concat();
    let recording = Recording::new(&long);
    for count in [MAX_BITS, MAX_BITS + 1, usize::MAX] {
        lists(&recording, count);
        for place in [0, count.wrapping_sub(250), count, count.wrapping_add(1)] {
            reads(&recording, count, place);
            writes(&long, count, place, &record);
        }
    }
    for length in 0..64usize {
        let recording = Recording::new(&long[..length]);
        for count in [
            0,
            8 * length,
            (8 * length).saturating_sub(3),
            8 * length + 1,
        ] {
            lists(&recording, count);
            for place in 0..count + 2 {
                reads(&recording, count, place);
                writes(&long[..length], count, place, &record);
            }
        }
    }
}

/// A record of a type at each bit of a byte, good and spoilt, written and read back.
fn records(numbers: &mut Numbers, kind: u8) {
    for offset in 0..8 {
        let bytes: Vec<u8> = (0..56).map(|_| numbers.next() as u8).collect();
        let record = input::random_record(numbers, kind);
        let (number, written) = writes(&bytes, 448, offset, &record);
        assert_eq!(number, 0);
        assert_eq!(reads(&Recording::new(&written), 448, offset), (0, record));
        for _ in 0..10 {
            let spoilt = spoil(numbers, record);
            writes(&bytes, 448, offset, &spoilt);
        }
    }
    out_of_range(numbers, kind);
}

/// A record with one place changed.
fn spoil(numbers: &mut Numbers, mut r: Record) -> Record {
    let (byte, i) = (
        numbers.next() as u8,
        numbers.within(0, NUMBERS as i64 - 1) as usize,
    );
    match numbers.within(0, 13) {
        0 => r.kind = byte,
        1 => r.satellite = byte,
        2 => r.signal = byte % 4,
        3 => r.validity = byte % 4,
        4 => r.call = byte,
        5 => r.attitude = byte % 4,
        6 => r.correction = byte % 8,
        7 => r.next = byte % 4,
        8 => r.time = numbers.next() >> numbers.within(0, 63),
        9 => r.numbers[i] = numbers.next() as i64 >> numbers.within(0, 63),
        10 => r.numbers[i] = i64::MIN,
        11 => r.minus ^= 1 << i,
        12 => r.raw[numbers.within(0, RAW_BYTES as i64 - 1) as usize] ^= 1 << (byte % 8),
        _ => r.numbers[i] = 1,
    }
    r
}

/// Strings whose check passes with random fields, so that reading meets 7 and 8.
fn out_of_range(numbers: &mut Numbers, kind: u8) {
    for _ in 0..20 {
        let mut bytes = [0; 64];
        for byte in &mut bytes {
            *byte = numbers.next() as u8;
        }
        let raw_type = if kind == 1 || kind == 2 { kind } else { 0 };
        let mut record = input::random_record(numbers, raw_type);
        record.satellite = 1;
        let (_, mut written) = writes(&bytes, 512, 0, &record);
        // The service fields are changed by multiples of the generator, so that the check still passes.
        for place in 12..34 {
            if numbers.within(0, 1) == 1 {
                flip_generator(&mut written, place);
            }
        }
        reads(&Recording::new(&written), 512, 0);
    }
}

/// Adds the 16-bit generator, its highest power at a place.
fn flip_generator(bytes: &mut [u8], place: usize) {
    for i in 0..17 {
        if 0x16F63 >> (16 - i) & 1 == 1 {
            bytes[(place + i) / 8] ^= 0x80 >> ((place + i) % 8);
        }
    }
}
