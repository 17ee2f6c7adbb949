//! The functions that are compared. Each has a file with its input, how it runs on both sides, and
//! how a case on which they differ is made smaller and printed; and its line here.

pub mod accuracy;
pub mod day_count;
pub mod entry;
pub mod list;
pub mod offer;
pub mod read;
pub mod read_set;
pub mod scaled;
pub mod write;
pub mod write_set;

use crate::lent::Memory;
use crate::make::complement;
use crate::shrink::Shrink;
use l1oc::{Answer, Book, BookEntry, Phase, SATELLITES};
use std::fmt::Debug;

/// The numbers of the phases in C.
pub const STRAIGHT: u32 = Phase::Straight as u32;
pub const INVERTED: u32 = Phase::Inverted as u32;

/// The phase that a number in C means; one that is neither counts as inverted, as the header says.
fn phase(number: u32) -> Phase {
    match number {
        STRAIGHT => Phase::Straight,
        _ => Phase::Inverted,
    }
}

/// The complement of a recording, and the other phase.
fn opposite(bytes: &[u8], number: u32) -> (Vec<u8>, u32) {
    let other = match phase(number) {
        Phase::Straight => INVERTED,
        Phase::Inverted => STRAIGHT,
    };
    (complement(bytes), other)
}

/// A call of a function: its input.
pub trait Call: Clone {
    const NAME: &'static str;

    /// The numbers that the function answers: 0 and its tests in the papers.
    const NUMBERS: &'static [u64];

    /// The memory that is lent to it.
    type Lent: Memory;

    /// What it gives beside its answer.
    type Given: PartialEq + Debug;

    fn lend(&self) -> Self::Lent;

    /// Runs the second implementation.
    fn plain(&self, lent: &mut Self::Lent) -> (Answer, Self::Given);

    /// Runs the proved one as C declares it. A recording is lent mutably, so that a change of it
    /// is seen and not assumed away.
    fn declared(&self, lent: &mut Self::Lent) -> (Answer, Self::Given);

    /// Runs the proved one by the safe function of `rust/`.
    fn safe(&self, lent: &mut Self::Lent) -> (Answer, Self::Given);

    /// Where the function takes a phase, the call on the complement of the recording in the other
    /// phase, which answers the same.
    fn opposite(&self) -> Option<Self> {
        None
    }

    /// Names the parts of the input that are made smaller.
    fn shrink(_: &mut Shrink<Self>) {}

    /// The input as it is printed.
    fn input(&self) -> String;

    fn run(&self, side: Side) -> Outcome<Self> {
        let mut lent = self.lend();
        let (answer, given) = match side {
            Side::Plain => self.plain(&mut lent),
            Side::Declared => self.declared(&mut lent),
            Side::Safe => self.safe(&mut lent),
        };
        Outcome {
            answer,
            given,
            lent,
        }
    }

    /// What the second implementation gives, if the proved one gives the same both ways.
    fn agreed(&self) -> Option<Outcome<Self>> {
        let plain = self.run(Side::Plain);
        let agree = plain == self.run(Side::Declared) && plain == self.run(Side::Safe);
        agree.then_some(plain)
    }
}

/// Which implementation runs, and how it is called.
#[derive(Clone, Copy, Debug)]
pub enum Side {
    /// The second one.
    Plain,
    /// The proved one, as C declares it.
    Declared,
    /// The proved one, by the safe functions.
    Safe,
}

pub const SIDES: [Side; 3] = [Side::Plain, Side::Declared, Side::Safe];

/// What a call answers and gives, and the lent memory afterwards with its guards.
pub struct Outcome<C: Call> {
    pub answer: Answer,
    pub given: C::Given,
    pub lent: C::Lent,
}

impl<C: Call> PartialEq for Outcome<C> {
    fn eq(&self, other: &Self) -> bool {
        self.answer == other.answer && self.given == other.given && self.lent == other.lent
    }
}

/// Number 0 beside the value, or the refusal.
fn answer(result: Result<u64, Answer>) -> Answer {
    match result {
        Ok(value) => Answer { number: 0, value },
        Err(refusal) => refusal,
    }
}

/// The entries of a book that are not all 0, each with its satellite.
fn entries(book: &Book) -> String {
    let places = (0..SATELLITES).filter(|place| book.entries[*place] != BookEntry::EMPTY);
    let entries = places.map(|place| format!("\n  {}: {:?}", place + 1, book.entries[place]));
    entries.collect()
}

fn hex(bytes: &[u8]) -> String {
    let digits: Vec<String> = bytes.iter().map(|byte| format!("{byte:02x}")).collect();
    format!("[{}] ({} bytes)", digits.concat(), bytes.len())
}
