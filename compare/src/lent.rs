//! Lent memory between guards, which must stay as they are.

use crate::calls::Side;
use l1oc::{Book, SATELLITES};
use std::any::type_name;
use std::array;
use std::fmt::Debug;
use std::ops::{Deref, DerefMut};

/// Entries on each side. The count is odd, so lent bytes begin at an odd address.
const GUARD: usize = 13;

/// Lent memory with its guards; as a slice it is what is lent.
#[derive(PartialEq)]
pub struct Lent<T>(Vec<T>);

impl Lent<u8> {
    /// The bytes, between guards that are neither all 0 nor all 1.
    pub fn bytes(bytes: &[u8]) -> Self {
        let guard: Vec<u8> = (0..GUARD).map(|place| (place * 53 + 75) as u8).collect();
        Lent([&guard, bytes, &guard].concat())
    }
}

impl Lent<u32> {
    /// A list of so many entries, each entry different from the others.
    pub fn list(room: usize) -> Self {
        let places = 0..room + 2 * GUARD;
        Lent(places.map(|place| 0xABCD_0000 + place as u32).collect())
    }
}

impl<T> Deref for Lent<T> {
    type Target = [T];

    fn deref(&self) -> &[T] {
        &self.0[GUARD..self.0.len() - GUARD]
    }
}

impl<T> DerefMut for Lent<T> {
    fn deref_mut(&mut self) -> &mut [T] {
        let end = self.0.len() - GUARD;
        &mut self.0[GUARD..end]
    }
}

/// A lent book between guards; as a book it is what is lent.
#[derive(PartialEq)]
pub struct LentBook(Box<Guarded>);

/// The guards are numbers, so the book begins where a number may.
#[repr(C)]
#[derive(PartialEq)]
struct Guarded {
    before: [u64; GUARD],
    book: Book,
    after: [u64; GUARD],
}

impl LentBook {
    /// A copy of the book, between guards that are neither all 0 nor all 1.
    pub fn new(book: &Book) -> Self {
        let guard = |place: usize| 0xABCD_EF01_2345_6789 + place as u64;
        LentBook(Box::new(Guarded {
            before: array::from_fn(guard),
            book: book.clone(),
            after: array::from_fn(|place| guard(place + GUARD)),
        }))
    }
}

impl Deref for LentBook {
    type Target = Book;

    fn deref(&self) -> &Book {
        &self.0.book
    }
}

impl DerefMut for LentBook {
    fn deref_mut(&mut self) -> &mut Book {
        &mut self.0.book
    }
}

/// An entry of lent memory.
pub trait Entry: Copy + PartialEq + Debug {
    /// What stands for it where the recording is in opposite phase.
    fn opposite(self) -> Self;
}

impl Entry for u8 {
    /// A byte of a recording: its complement.
    fn opposite(self) -> u8 {
        255 - self
    }
}

impl Entry for u32 {
    /// A place of a list: itself.
    fn opposite(self) -> u32 {
        self
    }
}

/// All that a call is lent: nothing, one piece of memory or two, or a book.
pub trait Memory: PartialEq {
    /// Complements the recording in it.
    fn complement(&mut self);

    /// Prints where another side's memory differs from this, the plain side's.
    fn print_difference(&self, side: Side, other: &Self);
}

impl Memory for () {
    fn complement(&mut self) {}

    fn print_difference(&self, _: Side, _: &()) {}
}

impl<T: Entry> Memory for Lent<T> {
    fn complement(&mut self) {
        for entry in self.iter_mut() {
            *entry = entry.opposite();
        }
    }

    /// The first entry that differs; places outside the lent ones belong to the guards.
    fn print_difference(&self, side: Side, other: &Self) {
        let (plain, other) = (&self.0, &other.0);
        if let Some(place) = (0..plain.len()).find(|place| plain[*place] != other[*place]) {
            println!(
                "lent {} {} afterwards: Plain {:x?}, {side:?} {:x?}",
                type_name::<T>(),
                place as i64 - GUARD as i64,
                plain[place],
                other[place]
            );
        }
    }
}

impl Memory for LentBook {
    /// There is no recording in it.
    fn complement(&mut self) {}

    /// The first entry that differs, or the guards.
    fn print_difference(&self, side: Side, other: &Self) {
        let (plain, given) = (&self.entries, &other.entries);
        if let Some(place) = (0..SATELLITES).find(|place| plain[*place] != given[*place]) {
            println!(
                "entry {} afterwards: Plain {:?}, {side:?} {:?}",
                place + 1,
                plain[place],
                given[place]
            );
        }
        if (self.0.before, self.0.after) != (other.0.before, other.0.after) {
            println!("the guards of the book afterwards: {side:?} changes them");
        }
    }
}

impl<A: Memory, B: Memory> Memory for (A, B) {
    fn complement(&mut self) {
        self.0.complement();
        self.1.complement();
    }

    fn print_difference(&self, side: Side, other: &Self) {
        self.0.print_difference(side, &other.0);
        self.1.print_difference(side, &other.1);
    }
}
