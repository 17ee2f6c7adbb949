//! Ephemeris sets: "one ephemeris set from strings 10, 11 and 12" (request U1).

use super::{count_passes, length, record_passes, refuse};
use l1oc::{Answer, Phase, Record, Set};

/// "The set can be written back as 750 bits."
pub const BITS: usize = 750;

pub fn records(set: &Set) -> [Record; 3] {
    [set.first, set.second, set.third]
}

/// "Each string starts where the one before it ends. Each is read by itself first, and its own
/// refusal comes first."
pub fn read(bytes: &[u8], count: usize, phase: Phase, place: usize) -> Result<Set, Answer> {
    let first = super::read(bytes, count, phase, place)?;
    let place = place + length(first.kind);
    let second = super::read(bytes, count, phase, place)?;
    let place = place + length(second.kind);
    let third = super::read(bytes, count, phase, place)?;
    let set = Set {
        first,
        second,
        third,
    };
    set_passes(&set)?;
    Ok(set)
}

/// The count after one: "43199 goes to 0".
pub fn next_time(time: u64) -> u64 {
    match time {
        43199 => 0,
        _ => time + 1,
    }
}

/// Refusals 12, 13 and 14, "tested in that order", of records that pass their own tests.
fn set_passes(set: &Set) -> Result<(), Answer> {
    let records = records(set);
    if records.map(|record| record.kind) != [10, 11, 12] {
        return Err(refuse(12, 0));
    }
    let satellites = records.map(|record| record.satellite);
    if satellites != [satellites[0]; 3] {
        return Err(refuse(13, 0));
    }
    let times = records.map(|record| record.time);
    let second = next_time(times[0]);
    if times != [times[0], second, next_time(second)] {
        return Err(refuse(14, 0));
    }
    Ok(())
}

/// Writing a set "tests 1, 2, 3, then each record by 7, 8, 11, 10, then 12 to 14, then 5 for the
/// 750 bits"; the answer is the place after them.
pub fn write(bytes: &mut [u8], count: usize, place: usize, set: &Set) -> Result<usize, Answer> {
    count_passes(bytes, count)?;
    if place > count {
        return Err(refuse(3, place as u64));
    }
    for record in records(set) {
        record_passes(&record)?;
    }
    set_passes(set)?;
    if BITS > count - place {
        return Err(refuse(5, place as u64));
    }
    let mut next = place;
    for record in records(set) {
        next = super::write(bytes, count, next, &record)?;
    }
    Ok(next)
}
