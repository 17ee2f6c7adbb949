//! Random records and sets, some spoiled in several ways, at random places of random recordings.

use crate::make;
use crate::plain::set::BITS;
use crate::plain::table;
use crate::random::Random;
use crate::run::Run;
use l1oc::{Mark, Record, NUMBERS, RAW_BYTES};

/// A record that passes, or one spoiled in up to four places.
pub fn record(random: &mut Random) -> Record {
    let kind = make::kind(random);
    let mut record = make::record(random, kind);
    if !random.once_in(3) {
        spoil(random, &mut record);
    }
    record
}

/// Spoils a record in up to four places.
fn spoil(random: &mut Random, record: &mut Record) {
    let fields = table::information(record.kind).map_or(0, |fields| fields.len());
    for _ in 0..1 + random.below(4) {
        match random.below(6) {
            0 => {
                let width = random.below(64);
                let number = random.next() as i64 >> width;
                make::set(record, 10 + random.below(NUMBERS), number);
            }
            1 => {
                let number = random.between(-1, 2);
                make::set(record, 10 + random.below(fields.max(1)), number);
            }
            2 => {
                let number = random.next() as i64 >> random.below(64);
                make::set(record, 1 + random.below(9), number);
            }
            3 => record.minus ^= 1 << random.below(Mark::BITS as usize),
            4 => record.raw[random.below(RAW_BYTES)] ^= 1 << random.below(8),
            _ => record.kind = make::kind(random),
        }
    }
}

pub fn writing(run: &mut Run) {
    for _ in 0..300_000 * run.long {
        let record = record(&mut run.random);
        let length = run.random.below(120);
        let bytes = run.random.bytes(length);
        let count = match run.random.below(12) {
            0 => run.random.below(8 * length + 20),
            _ => 8 * length - run.random.below(8).min(8 * length),
        };
        let place = match run.random.below(3) {
            0 => run.random.below(count + 4),
            1 => (count - 250.min(count)).saturating_sub(run.random.below(9)),
            _ => run.random.below(count / 2 + 1),
        };
        let written = run.write(&bytes, count, place, &record);
        if written.answer.number == 0 {
            run.read(&written.recording(), count, place);
        }
    }
}

/// Sets, of which some records are spoiled.
pub fn sets(run: &mut Run) {
    for _ in 0..20_000 * run.long {
        let mut set = make::ephemeris(&mut run.random);
        for record in [&mut set.first, &mut set.second, &mut set.third] {
            if run.random.once_in(4) {
                spoil(&mut run.random, record);
            }
        }
        let length = run.random.below(200);
        let bytes = run.random.bytes(length);
        let count = 8 * length - run.random.below(8).min(8 * length);
        let place = match run.random.below(3) {
            0 => run.random.below(count + 4),
            1 => (count - BITS.min(count)).saturating_sub(run.random.below(9)),
            _ => run.random.below(count / 3 + 1),
        };
        let written = run.write_set(&bytes, count, place, &set);
        if written.answer.number == 0 {
            let back = run.read_set(&written.recording(), count, place);
            run.require(back.given == set, || {
                println!("a set reads back otherwise: {set:?}");
            });
        }
    }
}

pub fn scaling(run: &mut Run) {
    for _ in 0..300_000 * run.long {
        let record = record(&mut run.random);
        let field = run.random.below(30);
        run.scaled(&record, field);
    }
}
