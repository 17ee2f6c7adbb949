//! Runs cases on all sides, counts them, and stops at the first that differs.

use crate::calls::{Call, Outcome, SIDES};
use crate::lent::Memory;
use crate::random::Random;
use crate::shrink::shrink;
use std::collections::{BTreeMap, BTreeSet};
use std::iter;
use std::process::exit;

pub struct Run {
    pub random: Random,
    /// By how much the random groups are multiplied.
    pub long: usize,
    /// Cases compared so far in the group.
    pub cases: u64,
    pub seen: Seen,
}

/// For each function the numbers that it should answer, and those that it has.
pub type Seen = BTreeMap<&'static str, (&'static [u64], BTreeSet<u64>)>;

impl Run {
    /// Compares one case; the outcome is the same on all sides. Where it takes a phase, the
    /// complement of its recording is compared in the other phase too, with the same outcome.
    pub fn compare<C: Call>(&mut self, call: C) -> Outcome<C> {
        let outcome = self.compare_one(&call);
        if let Some(opposite) = call.opposite() {
            let mut other = self.compare_one(&opposite);
            other.lent.complement();
            self.require(other == outcome, || {
                println!("the complement answers otherwise in the other phase");
                report(&call);
                report(&opposite);
            });
        }
        outcome
    }

    fn compare_one<C: Call>(&mut self, call: &C) -> Outcome<C> {
        self.cases += 1;
        let Some(outcome) = call.agreed() else {
            report(&shrink(call.clone()));
            exit(1);
        };
        let seen = self.seen.entry(C::NAME);
        let (_, numbers) = seen.or_insert((C::NUMBERS, BTreeSet::new()));
        numbers.insert(outcome.answer.number);
        outcome
    }

    /// Runs one case on all sides, and in both phases where it takes one, and holds each outcome
    /// against what document 01 says.
    pub fn expect<C: Call>(&mut self, name: &str, call: C, holds: impl Fn(&Outcome<C>) -> bool) {
        for call in iter::once(&call).chain(&call.opposite()) {
            for side in SIDES {
                self.require(holds(&call.run(side)), || {
                    println!("{name} of document 01 fails: {side:?}");
                    report(call);
                });
            }
        }
        self.compare(call);
    }

    /// Says what is wrong and stops unless the condition holds.
    pub fn require(&mut self, holds: bool, say: impl Fn()) {
        if !holds {
            say();
            exit(1);
        }
    }

    /// Adds the numbers that the functions have answered in this run.
    pub fn add_numbers(self, all: &mut Seen) {
        for (name, (numbers, seen)) in self.seen {
            all.entry(name)
                .or_insert((numbers, BTreeSet::new()))
                .1
                .extend(seen);
        }
    }
}

/// Stops unless each function has answered all its numbers and no others.
pub fn require_numbers(all: &Seen) {
    for (name, (numbers, seen)) in all {
        if !seen.iter().eq(*numbers) {
            println!("{name}: answers {seen:?}, not {numbers:?}");
            exit(1);
        }
    }
}

/// Prints the case with all outcomes.
fn report<C: Call>(call: &C) {
    println!("{}: {}", C::NAME, call.input());
    let outcomes = SIDES.map(|side| {
        let outcome = call.run(side);
        let Outcome { answer, given, .. } = &outcome;
        println!("{side:?}: {}, {} {given:?}", answer.number, answer.value);
        outcome
    });
    for (side, outcome) in SIDES.into_iter().zip(&outcomes) {
        outcomes[0].lent.print_difference(side, &outcome.lent);
    }
}
