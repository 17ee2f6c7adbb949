//! Makes a case on which the implementations differ smaller, as long as they still differ.

use crate::calls::{Call, INVERTED};
use crate::make::set;
use l1oc::{Book, BookEntry, Mark, Record, NUMBERS, RAW_BYTES, SATELLITES};

/// No more tries than this.
const TRIES: usize = 4000;

/// A case that is made smaller. A call names the parts of its input by the methods.
pub struct Shrink<C> {
    call: C,
    tries: usize,
}

/// A smaller case on which the implementations still differ.
pub fn shrink<C: Call>(call: C) -> C {
    let mut shrink = Shrink { call, tries: TRIES };
    C::shrink(&mut shrink);
    shrink.call
}

/// A recording, its bit count, and a place in it if the call has one.
type Recording<'a> = (&'a mut Vec<u8>, &'a mut usize, Option<&'a mut usize>);

impl<C: Call> Shrink<C> {
    /// Keeps the changed case if the implementations still differ on it.
    pub fn keep(&mut self, change: impl Fn(&mut C)) -> bool {
        if self.tries == 0 {
            return false;
        }
        self.tries -= 1;
        let mut call = self.call.clone();
        change(&mut call);
        let differs = call.agreed().is_none();
        if differs {
            self.call = call;
        }
        differs
    }

    /// Takes 1 for a number that is neither phase.
    pub fn phase(&mut self, part: fn(&mut C) -> &mut u32) {
        if *part(&mut self.call) > INVERTED {
            self.keep(|call| *part(call) = INVERTED);
        }
    }

    /// Lowers a number, by much at first, then by less.
    pub fn number(&mut self, part: impl Fn(&mut C) -> &mut usize) {
        for step in (0..20).rev().map(|power| 1 << power) {
            let lower = |call: &mut C| *part(call) = part(call).saturating_sub(step);
            let mut tries = 3;
            while tries > 0 && self.keep(lower) {
                tries -= 1;
            }
        }
    }

    /// Cuts bytes off a recording, lowers its bit count and the place, and zeroes bytes.
    pub fn recording(&mut self, part: fn(&mut C) -> Recording<'_>) {
        let length = |shrink: &mut Self| part(&mut shrink.call).0.len();
        // Many bytes at first, then fewer.
        let mut size = length(self);
        while size > 0 {
            while length(self) >= size && self.keep(|call| cut_end(part(call), size)) {}
            while length(self) >= size && self.keep(|call| cut_front(part(call), size)) {}
            size /= 2;
        }
        self.number(|call| part(call).1);
        if part(&mut self.call).2.is_some() {
            self.number(|call| part(call).2.expect("as before"));
        }
        size = length(self);
        while size > 0 {
            for from in (0..length(self)).step_by(size) {
                self.keep(|call| zero(part(call).0, from, size));
            }
            size /= 2;
        }
    }

    /// Empties the entries of a book, or sets their flags to 1.
    pub fn book(&mut self, part: fn(&mut C) -> &mut Book) {
        for place in 0..SATELLITES {
            if !self.keep(|call| part(call).entries[place] = BookEntry::EMPTY) {
                self.keep(|call| part(call).entries[place].held = 1);
            }
        }
    }

    /// Sets the places of a record to zero, the satellite to 1.
    pub fn record(&mut self, part: fn(&mut C) -> &mut Record) {
        for field in 2..10 + NUMBERS {
            self.keep(|call| set(part(call), field, (field == 2).into()));
        }
        for bit in 0..Mark::BITS {
            self.keep(|call| part(call).minus &= !(1 << bit));
        }
        for place in 0..RAW_BYTES {
            self.keep(|call| part(call).raw[place] = 0);
        }
    }
}

fn cut_end((bytes, count, _): Recording<'_>, size: usize) {
    let fitted = *count <= 8 * bytes.len();
    bytes.truncate(bytes.len() - size);
    if fitted {
        *count = (*count).min(8 * bytes.len());
    }
}

fn cut_front((bytes, count, place): Recording<'_>, size: usize) {
    bytes.drain(..size);
    *count = count.saturating_sub(8 * size);
    if let Some(place) = place {
        *place = place.saturating_sub(8 * size);
    }
}

fn zero(bytes: &mut [u8], from: usize, size: usize) {
    let end = bytes.len().min(from + size);
    bytes[from..end].fill(0);
}
