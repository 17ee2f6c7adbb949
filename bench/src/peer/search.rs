//! Listing: the places of the time mark, 48 at a time, and the strings that stand there.
use super::{answer, bits, check_passes, layout, recording_tests, MARK};
use l1oc::refusal::LIST_SHORT;
use l1oc::Answer;

/// Lists the starts of the strings in the first `count` bits.
pub fn list<const PHASE: u8>(bytes: &[u8], count: usize, list: &mut [u32]) -> Answer {
    if let Err(refusal) = recording_tests(bytes, count) {
        return refusal;
    }
    let strings = Strings::<PHASE> {
        bytes: &bytes[..count.div_ceil(8)],
        count,
        place: 0,
    };
    // No string is shorter than 125 bits, so most lists are surely long enough.
    if list.len() < count / 125 {
        let needed = strings.clone().count();
        if list.len() < needed {
            return answer(LIST_SHORT, needed);
        }
    }
    let mut found = 0;
    for start in strings {
        list[found] = start as u32;
        found += 1;
    }
    answer(0, found)
}

/// The starts of a recording's strings from a place on.
#[derive(Clone)]
struct Strings<'a, const PHASE: u8> {
    bytes: &'a [u8],
    count: usize,
    place: usize,
}

impl<const PHASE: u8> Iterator for Strings<'_, PHASE> {
    type Item = usize;

    #[inline]
    fn next(&mut self) -> Option<usize> {
        // Mostly a string stands just after the one before.
        let mut place = self.place;
        loop {
            if let Some(length) = standing::<PHASE>(self.bytes, self.count, place) {
                self.place = place + length;
                return Some(place);
            }
            place = next_mark::<PHASE>(self.bytes, place + 1)?;
        }
    }
}

/// The length of the string that stands at a place.
#[inline]
fn standing<const PHASE: u8>(bytes: &[u8], count: usize, place: usize) -> Option<usize> {
    if place + 125 > count {
        return None;
    }
    let head = bits::field::<PHASE>(bytes, place, 18);
    let kind = (head & 63) as u8;
    let length = layout::length(kind);
    let fits = head >> 6 == MARK && place + length <= count;
    let stands = fits && check_passes::<PHASE>(bytes, place, kind);
    stands.then_some(length)
}

/// The first place from `place` on with the mark.
fn next_mark<const PHASE: u8>(bytes: &[u8], place: usize) -> Option<usize> {
    let mut at = place / 8;
    let mut open = u64::MAX >> (place % 8);
    while at < bytes.len() {
        let hits = marks(bits::word::<PHASE>(bytes, at)) & open;
        if hits != 0 {
            return Some(8 * at + hits.leading_zeros() as usize);
        }
        at += 6;
        open = u64::MAX;
    }
    None
}

/// A one, for each of the first 53 bits of a word, where the mark 01 01 1111 00 01 begins.
fn marks(word: u64) -> u64 {
    let ones = word & (word << 1);
    let zeros = !(word | (word << 1));
    let rise = !word & (word << 1);
    rise & (rise << 2) & (ones << 4) & (ones << 6) & (zeros << 8) & (rise << 10)
}
