//! Recordings in opposite phase. Every call of the other groups that takes a phase runs in both; here
//! are strings of both phases in one recording, and what must not depend on the phase.

use super::recordings::{damage, strings};
use crate::calls::{Call, Outcome, INVERTED, STRAIGHT};
use crate::make::{self, complement, SHAPES};
use crate::plain::{self, refuse, table, turned};
use crate::random::Random;
use crate::run::Run;
use l1oc::{Answer, RAW_BYTES};

/// The text as it is recorded in a phase.
fn recorded(text: &str, phase: u32) -> String {
    match phase {
        STRAIGHT => text.to_string(),
        _ => turned(text),
    }
}

fn answered(number: u64, place: usize) -> Answer {
    refuse(number, place as u64)
}

/// An inverted string cut at every bit. Past the cut it goes on inverted, or straight, or ends with
/// the byte.
pub fn cut(run: &mut Run) {
    for kind in SHAPES {
        let string = make::string(&mut run.random, kind);
        for lead in [0, 5, 11] {
            let text = run.random.bits(lead) + &string + &run.random.bits(30);
            let inverted = make::pack(&turned(&text));
            let end = lead + string.len();
            for count in 0..=text.len() {
                let (before, after) = text.split_at(count);
                let broken = make::pack(&(turned(before) + after));
                let short = &inverted[..count.div_ceil(8)];
                let (answer, starts) = match count {
                    _ if count < lead => (answered(3, lead), vec![]),
                    _ if count < end => (answered(5, lead), vec![]),
                    _ => (answered(0, 0), vec![lead as u32]),
                };
                for bytes in [&inverted, &broken, short] {
                    let reading = run.read_in(INVERTED, bytes, count, lead);
                    let listing = run.list_in(INVERTED, bytes, count, 1);
                    let cut = reading.answer == answer && listing.starts() == starts;
                    run.require(cut, || println!("type {kind} cut at {count} of {end}"));
                }
            }
        }
    }
}

/// Recordings of straight strings, of inverted ones, and of both, read in both phases. Where a string
/// stands in one phase there is no mark in the other; mostly nothing else stands than was put there.
pub fn both(run: &mut Run) {
    let (mut others, rounds) = (0, 3_000 * run.long);
    for round in 0..rounds {
        let lead = run.random.below(9);
        let mut text = run.random.bits(lead);
        let mut put = [vec![], vec![]];
        let many = 1 + run.random.below(7);
        for string in strings(&mut run.random, many) {
            let phase = match round % 4 {
                0 => STRAIGHT,
                1 => INVERTED,
                _ => run.random.below(2) as u32,
            };
            put[phase as usize].push(text.len() as u32);
            text += &recorded(&string, phase);
        }
        let spoilt = round % 4 == 3;
        if spoilt {
            damage(&mut run.random, &mut text);
        }
        let (bytes, count) = (make::pack(&text), text.len());
        for (phase, other) in [(STRAIGHT, INVERTED), (INVERTED, STRAIGHT)] {
            let listing = run.list_in(phase, &bytes, count, count / 125 + 1);
            run.list_in(phase, &bytes, count, 0);
            others += usize::from(!spoilt && listing.starts() != put[phase as usize]);
            for start in listing.starts() {
                let place = *start as usize;
                run.read_in(phase, &bytes, count, place);
                let answer = run.read_in(other, &bytes, count, place).answer;
                run.require(answer == answered(4, place), || {
                    println!("a string stands in both phases: {answer:?}");
                });
            }
        }
    }
    run.require(100 * others < rounds, || {
        println!("other strings than were put there in {others} of {} listings", 2 * rounds);
    });
}

/// A whole string among the raw bits of one of the other phase: each is read in its own.
pub fn nested(run: &mut Run) {
    for _ in 0..2_000 * run.long {
        let (outer, inner) = run.random.pick(&[(2, 1), (2, 0), (2, 10), (0, 1), (63, 1)]);
        let inside = make::string(&mut run.random, inner);
        let mut before = plain::text_before_check(&make::record(&mut run.random, outer));
        let place = 50 + run.random.below(before.len() - 50 - inside.len() + 1);
        before.replace_range(place..place + inside.len(), &turned(&inside));
        let lead = run.random.below(9);
        let text = run.random.bits(lead) + &make::close(&before, outer);
        let (bytes, count) = (make::pack(&text), text.len());
        for (phase, place) in [(STRAIGHT, lead), (INVERTED, lead + place)] {
            run.list_in(phase, &bytes, count, 2);
            let answer = run.read_in(phase, &bytes, count, place).answer;
            run.require(answer == answered(0, 0), || {
                println!("type {inner} in type {outer}, phase {phase}: {answer:?}");
            });
        }
    }
}

/// Sets of which each string is straight or inverted: the first in another phase than is read has no
/// mark.
pub fn sets(run: &mut Run) {
    for which in 0..8 {
        let phases = [0, 1, 2].map(|place| which >> place & 1);
        for _ in 0..50 * run.long {
            let set = make::ephemeris(&mut run.random);
            let lead = run.random.below(17);
            let mut text = run.random.bits(lead);
            for (string, phase) in make::strings_of(&set).iter().zip(phases) {
                text += &recorded(string, phase);
            }
            let bytes = make::pack(&text);
            for phase in [STRAIGHT, INVERTED] {
                let wanted = match phases.iter().position(|one| *one != phase) {
                    Some(place) => answered(4, lead + 250 * place),
                    None => answered(0, 0),
                };
                let answer = run.read_set_in(phase, &bytes, text.len(), lead).answer;
                run.require(answer == wanted, || {
                    println!("phases {phases:?} read in {phase}: {answer:?}");
                });
            }
        }
    }
}

/// A set and strings after it, cut anywhere: whatever bits and bytes lie past the bit count, the
/// answers are the same.
pub fn past(run: &mut Run) {
    for _ in 0..500 * run.long {
        let lead = run.random.below(9);
        let set = make::ephemeris(&mut run.random);
        let many = run.random.below(3);
        let more = strings(&mut run.random, many).concat();
        let text = run.random.bits(lead) + &make::strings_of(&set).concat() + &more;
        let (before, after) = text.split_at(text.len() - run.random.below(300));
        let count = before.len();
        for phase in [STRAIGHT, INVERTED] {
            let tails = tails(&mut run.random, after);
            let answers = tails.map(|tail| {
                let bytes = make::pack(&(recorded(before, phase) + &tail));
                let listing = run.list_in(phase, &bytes, count, count / 125 + 1);
                let reading = run.read_in(phase, &bytes, count, lead + 500);
                let set = run.read_set_in(phase, &bytes, count, lead);
                let starts = listing.starts().to_vec();
                (starts, parts(listing), parts(reading), parts(set))
            });
            run.require(answers.iter().all(|one| *one == answers[0]), || {
                println!("bits past {count} change an answer, phase {phase}: {text}");
            });
        }
    }
}

/// Bits past the bit count: those that were cut off, in both phases; zeros, ones, noise, and none.
fn tails(random: &mut Random, after: &str) -> [String; 6] {
    let more = random.below(40);
    [
        after.to_string(),
        turned(after),
        "0".repeat(more),
        "1".repeat(more),
        random.bits(more),
        String::new(),
    ]
}

fn parts<C: Call>(outcome: Outcome<C>) -> (Answer, C::Given) {
    (outcome.answer, outcome.given)
}

/// Inverted strings of raw types, their raw bits all zeros, all ones, and any: what fills a record up
/// is zeros.
pub fn raw(run: &mut Run) {
    let raw_types = (0..64).filter(|kind| table::information(*kind).is_none());
    for kind in raw_types {
        let width = plain::raw_width(kind);
        for offset in 0..8 {
            for raw in ["0".repeat(width), "1".repeat(width), run.random.bits(width)] {
                let mut record = make::record(&mut run.random, kind);
                let filled = make::pack(&raw);
                record.raw[..filled.len()].copy_from_slice(&filled);
                let tail = run.random.below(20);
                let string = make::string_of(&record);
                let text = run.random.bits(offset) + &string + &run.random.bits(tail);
                let bytes = make::pack(&turned(&text));
                let given = run.read_in(INVERTED, &bytes, text.len(), offset).given;
                let filling = plain::bits(&given.raw, width, 8 * RAW_BYTES);
                run.require(given == record && !filling.contains('1'), || {
                    println!("type {kind} reads otherwise inverted: {given:?}");
                });
            }
        }
    }
}

/// Numbers that are neither phase count as inverted.
pub fn numbers(run: &mut Run) {
    let powers = (1..32).map(|power| 1 << power);
    let near = powers.flat_map(|power: u32| [power, power + 1, power.wrapping_neg()]);
    for number in near.chain([u32::MAX]) {
        let set = make::ephemeris(&mut run.random);
        let lead = run.random.below(9);
        let text = run.random.bits(lead) + &make::strings_of(&set).concat();
        let (straight, count) = (make::pack(&text), text.len());
        let inverted = complement(&straight);
        for bytes in [&straight, &inverted] {
            run.list_in(number, bytes, count, 3);
            run.read_in(number, bytes, count, lead);
        }
        run.read_set_in(number, &straight, count, lead);
        let reading = run.read_set_in(number, &inverted, count, lead);
        run.require(reading.given == set, || {
            println!("phase {number} is not inverted")
        });
    }
}

/// Strings and sets that are read inverted and written: "demand 2 now writes an inverted string back
/// to its true bits". Written into the complement they change no byte; in the recording itself they
/// change only their own bits.
pub fn written_back(run: &mut Run) {
    for kind in 0..64 {
        for offset in 0..8 {
            let string = make::string(&mut run.random, kind);
            let (text, straight, inverted) = around(&mut run.random, offset, &string);
            let record = run.read_in(INVERTED, &inverted, text.len(), offset).given;
            let mut write = |bytes: &[u8]| run.write(bytes, text.len(), offset, &record);
            let written = [&straight, &inverted].map(|bytes| write(bytes).recording());
            is_back(run, offset, &string, [straight, inverted], written);
        }
    }
    for _ in 0..20 * run.long {
        for offset in 0..8 {
            let strings = make::strings_of(&make::ephemeris(&mut run.random)).concat();
            let (text, straight, inverted) = around(&mut run.random, offset, &strings);
            let set = run
                .read_set_in(INVERTED, &inverted, text.len(), offset)
                .given;
            let mut write = |bytes: &[u8]| run.write_set(bytes, text.len(), offset, &set);
            let written = [&straight, &inverted].map(|bytes| write(bytes).recording());
            is_back(run, offset, &strings, [straight, inverted], written);
        }
    }
}

/// A text with the string at a place, and its recordings in both phases.
fn around(random: &mut Random, place: usize, string: &str) -> (String, Vec<u8>, Vec<u8>) {
    let tail = random.below(20);
    let text = random.bits(place) + string + &random.bits(tail);
    let straight = make::pack(&text);
    let inverted = complement(&straight);
    (text, straight, inverted)
}

/// That the straight recording is as it was, and the inverted one but for the true bits.
fn is_back(
    run: &mut Run,
    place: usize,
    string: &str,
    [straight, inverted]: [Vec<u8>; 2],
    [same, over]: [Vec<u8>; 2],
) {
    let mut text = plain::bits(&inverted, 0, 8 * inverted.len());
    text.replace_range(place..place + string.len(), string);
    run.require(same == straight && over == make::pack(&text), || {
        println!("an inverted string is written back otherwise: {string}");
    });
}
