//! Reading and writing a set.
use super::{answer, layout, place_tests, read, refusals, write};
use l1oc::refusal::{OTHER_SATELLITES, OTHER_TIMES, OTHER_TYPES, RUNS_OUT};
use l1oc::{Answer, Set, SetReading, SET_BITS};

/// Reads the set at a place.
pub fn read_set<const PHASE: u8>(bytes: &[u8], count: usize, place: usize) -> SetReading {
    let mut reading = SetReading {
        number: 0,
        value: 0,
        content: Set::BLANK,
    };
    match fill::<PHASE>(bytes, count, place, &mut reading.content) {
        Ok(()) => reading,
        Err(Answer { number, value }) => SetReading {
            number,
            value,
            content: Set::BLANK,
        },
    }
}

/// Fills a blank set from the strings from a place on, up to one that is refused; then tests it.
fn fill<const PHASE: u8>(
    bytes: &[u8],
    count: usize,
    place: usize,
    set: &mut Set,
) -> Result<(), Answer> {
    let second = read::fill::<PHASE>(bytes, count, place, &mut set.first)?;
    let third = read::fill::<PHASE>(bytes, count, second, &mut set.second)?;
    read::fill::<PHASE>(bytes, count, third, &mut set.third)?;
    set_tests(set)
}

/// Tests 12, 13 and 14.
fn set_tests(set: &Set) -> Result<(), Answer> {
    let Set {
        first,
        second,
        third,
    } = set;
    if (first.kind, second.kind, third.kind) != (10, 11, 12) {
        return Err(answer(OTHER_TYPES, 0));
    }
    if first.satellite != second.satellite || first.satellite != third.satellite {
        return Err(answer(OTHER_SATELLITES, 0));
    }
    let after = |time| (time + 1) % 43_200;
    if second.time != after(first.time) || third.time != after(second.time) {
        return Err(answer(OTHER_TIMES, 0));
    }
    Ok(())
}

/// Writes the strings of a set at a place.
pub fn write_set(bytes: &mut [u8], count: usize, place: usize, set: &Set) -> Answer {
    match write_strings(bytes, count, place, set) {
        Ok(next) => answer(0, next),
        Err(refusal) => refusal,
    }
}

fn write_strings(bytes: &mut [u8], count: usize, place: usize, set: &Set) -> Result<usize, Answer> {
    place_tests(bytes, count, place)?;
    let records = [&set.first, &set.second, &set.third];
    for r in records {
        refusals::record_tests(r, layout::fields_of(r.kind))?;
    }
    set_tests(set)?;
    if count - place < SET_BITS {
        return Err(answer(RUNS_OUT, place));
    }
    let mut next = place;
    for r in records {
        next = write::put(bytes, next, r, layout::fields_of(r.kind));
    }
    Ok(next)
}
