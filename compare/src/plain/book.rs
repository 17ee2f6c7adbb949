//! The almanac book: "the current almanac of each satellite 1 to 63" (request U4).

use super::{record_passes, refuse};
use l1oc::offered::{PASSED_OVER, TAKEN};
use l1oc::{Answer, Book, BookEntry, Record};

/// The days of a four-year interval.
const INTERVAL: i128 = 1461;

/// Offering tests 7, 8, 11, 10, then 15, "when the record offered is not of type 20"; the answer is
/// whether the record is taken.
pub fn offer(book: &mut Book, record: &Record) -> Result<u64, Answer> {
    record_passes(record)?;
    if record.kind != 20 {
        return Err(refuse(15, 0));
    }
    let entry = &mut book.entries[usize::from(record.satellite) - 1];
    // "An empty entry takes the first record that comes."
    if entry.held != 0 && !supersedes(record, &entry.content) {
        return Ok(PASSED_OVER);
    }
    *entry = BookEntry {
        held: 1,
        content: *record,
    };
    Ok(TAKEN)
}

/// Whether a record of type 20 takes the place of the held one.
pub fn supersedes(record: &Record, held: &Record) -> bool {
    // "The new day minus the held day, modulo 1461": field 13.
    let difference = i128::from(record.numbers[3]) - i128::from(held.numbers[3]);
    match difference.rem_euclid(INTERVAL) {
        // "On equal days the smaller age EA wins; on equal ages the held one remains": field 12.
        0 => record.numbers[2] < held.numbers[2],
        1..=730 => true,
        731..=1460 => false,
        _ => unreachable!("a remainder"),
    }
}

/// The entry of a satellite: nothing where it is empty, or the number names none.
pub fn entry(book: &Book, satellite: usize) -> BookEntry {
    let held = (1..)
        .zip(&book.entries)
        .find(|(number, entry)| *number == satellite && entry.held != 0);
    held.map_or(BookEntry::EMPTY, |(_, entry)| BookEntry {
        held: 1,
        content: entry.content,
    })
}

/// What a book should hold of a satellite whose records came unrefused in this order, by the
/// request's last sentence: where "their days lie among some 731 in a row modulo 1461", the first of
/// those "of the latest of their days in that row, with the smallest age on that day".
pub fn latest(came: &[Record]) -> Option<&Record> {
    let in_row = |first| came.iter().all(|record| place(first, record) < 731);
    let first = (1..=INTERVAL).find(|first| in_row(*first))?;
    let last = came.iter().map(|record| place(first, record)).max()?;
    let on_it = || came.iter().filter(|record| place(first, record) == last);
    let age = on_it().map(|record| record.numbers[2]).min()?;
    on_it().find(|record| record.numbers[2] == age)
}

/// The place of a record's day, from 0 on, in the row of days that begins with the first; after 1461
/// comes 1.
fn place(first: i128, record: &Record) -> i128 {
    let day = i128::from(record.numbers[3]);
    if day < first {
        day + INTERVAL - first
    } else {
        day - first
    }
}
