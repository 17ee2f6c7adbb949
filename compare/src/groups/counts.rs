//! Bit counts and places around the ends of strings, bytes and recordings.

use crate::make::{self, SHAPES};
use crate::plain::set::BITS;
use crate::plain::{self, LIMIT};
use crate::run::Run;

/// A string cut at every bit, with the recording's bytes going on or ending there.
pub fn cut(run: &mut Run) {
    for kind in SHAPES {
        let string = make::string(&mut run.random, kind);
        let record = make::record(&mut run.random, kind);
        for lead in [0, 3, 8, 13] {
            let tail = run.random.bits(30);
            let text = run.random.bits(lead) + &string + &tail;
            let whole = make::pack(&text);
            for count in 0..=8 * whole.len() {
                run.read(&whole, count, lead);
                run.list(&whole, count, 1);
                run.write(&whole, count, lead, &record);
                let short = &whole[..count.div_ceil(8)];
                run.read(short, count, lead);
                run.list(short, count, 1);
                run.write(short, count, lead, &record);
            }
        }
    }
}

/// Counts and places of every kind, up to the largest there are.
pub fn places(run: &mut Run) {
    let huge = [
        LIMIT - 1,
        LIMIT,
        LIMIT + 1,
        LIMIT + 8,
        u32::MAX as usize,
        1 << 32,
        usize::MAX / 8,
        usize::MAX / 8 + 1,
        usize::MAX / 2,
        usize::MAX - 750,
        usize::MAX - 375,
        usize::MAX - 1,
        usize::MAX,
    ];
    for length in [0, 1, 2, 16, 17, 31, 32, 33, 46, 47, 48, 100] {
        let kind = make::kind(&mut run.random);
        let string = make::string(&mut run.random, kind);
        let record = make::record(&mut run.random, kind);
        let set = make::ephemeris(&mut run.random);
        let mut bytes = make::pack(&string);
        bytes.resize(length, 0xA5);
        let near = |middle: usize| middle.saturating_sub(3)..middle + 4;
        let counts: Vec<usize> = near(8 * length).chain(0..2).chain(huge).collect();
        for count in counts {
            let places = (0..3).chain(huge).chain(
                [0, 18, 250, BITS]
                    .map(|bits| count - count.min(bits))
                    .into_iter()
                    .filter(|middle| *middle < usize::MAX - 4)
                    .flat_map(near),
            );
            for place in places {
                run.read(&bytes, count, place);
                run.write(&bytes, count, place, &record);
                run.read_set(&bytes, count, place);
                run.write_set(&bytes, count, place, &set);
            }
            for room in 0..3 {
                run.list(&bytes, count, room);
            }
        }
    }
    end_of_the_longest(run);
}

/// Strings and sets that end at the last bit of the longest recording, and just past it; the bytes
/// may go on further.
fn end_of_the_longest(run: &mut Run) {
    for length in [LIMIT / 8, LIMIT / 8 + 1, LIMIT / 8 + 100] {
        let bytes = run.random.bytes(length);
        for short in 0..3 {
            for count in [LIMIT - 1, LIMIT, LIMIT + 1] {
                for kind in [0, 1, 2, 10] {
                    let place = LIMIT - plain::length(kind) + 1 - short;
                    let record = make::record(&mut run.random, kind);
                    let written = run.write(&bytes, count, place, &record).recording();
                    run.read(&written, count, place);
                    run.list(&written, count, 40);
                }
                let place = LIMIT - BITS + 1 - short;
                let set = make::ephemeris(&mut run.random);
                let written = run.write_set(&bytes, count, place, &set).recording();
                run.read_set(&written, count, place);
            }
        }
    }
}
