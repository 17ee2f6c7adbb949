//! The peer: listing, reading and writing as one would write them in safe Rust for speed, without proof.
mod bits;
mod check;
pub mod layout;
mod read;
mod refusals;
mod search;
mod set;
mod write;

pub use set::write_set;
pub use write::write;

use bits::{INVERTED, STRAIGHT};
use l1oc::refusal::{BEYOND_BYTES, BEYOND_COUNT, TOO_LONG};
use l1oc::{Answer, Phase, Reading, SetReading, MAX_BITS};

/// The time mark, 12 bits.
const MARK: u64 = 0x5F1;

// Each phase has code of its own, so that a straight recording pays nothing for it.

/// Lists the starts of the strings in the first `count` bits.
pub fn list(bytes: &[u8], count: usize, phase: Phase, list: &mut [u32]) -> Answer {
    match phase {
        Phase::Straight => search::list::<STRAIGHT>(bytes, count, list),
        Phase::Inverted => search::list::<INVERTED>(bytes, count, list),
    }
}

/// Reads the string at a place.
pub fn read(bytes: &[u8], count: usize, phase: Phase, place: usize) -> Reading {
    match phase {
        Phase::Straight => read::read::<STRAIGHT>(bytes, count, place),
        Phase::Inverted => read::read::<INVERTED>(bytes, count, place),
    }
}

/// Reads the set at a place.
pub fn read_set(bytes: &[u8], count: usize, phase: Phase, place: usize) -> SetReading {
    match phase {
        Phase::Straight => set::read_set::<STRAIGHT>(bytes, count, place),
        Phase::Inverted => set::read_set::<INVERTED>(bytes, count, place),
    }
}

/// A number and its value.
fn answer(number: u64, value: usize) -> Answer {
    Answer {
        number,
        value: value as u64,
    }
}

/// Tests 1 and 2.
fn recording_tests(bytes: &[u8], count: usize) -> Result<(), Answer> {
    if count > MAX_BITS {
        return Err(answer(TOO_LONG, 0));
    }
    if count.div_ceil(8) > bytes.len() {
        return Err(answer(BEYOND_BYTES, 0));
    }
    Ok(())
}

/// Tests 1, 2 and 3.
fn place_tests(bytes: &[u8], count: usize, place: usize) -> Result<(), Answer> {
    recording_tests(bytes, count)?;
    if place > count {
        return Err(answer(BEYOND_COUNT, place));
    }
    Ok(())
}

/// Whether the check of the string of a type at a place passes.
#[inline(always)]
fn check_passes<const PHASE: u8>(bytes: &[u8], place: usize, kind: u8) -> bool {
    let end = place + layout::length(kind);
    let first = place / 8;
    let part = &bytes[first..end.div_ceil(8)];
    let (offset, end) = (place % 8, end - 8 * first);
    if kind == 2 {
        check::divides::<24, PHASE>(&check::TABLE24, part, offset, end)
    } else {
        check::divides::<16, PHASE>(&check::TABLE16, part, offset, end)
    }
}
