//! Ephemeris sets: sets that pass, and every way in which one is refused.

use super::refusals::{lend, spoil};
use crate::make::{self, SHAPES};
use crate::plain;
use crate::plain::set::{next_time, BITS};
use crate::random::Random;
use crate::run::Run;
use l1oc::{Answer, Record, Set};

/// Reads three strings end to end, anywhere in a byte and with bits behind them. A set that reads is
/// written back to the same bits.
fn read(run: &mut Run, strings: &[String; 3]) -> Answer {
    let (lead, tail) = (run.random.below(17), run.random.below(40));
    let string = strings.concat();
    let text = run.random.bits(lead) + &string + &run.random.bits(tail);
    let bytes = make::pack(&text);
    let reading = run.read_set(&bytes, text.len(), lead);
    if reading.answer.number == 0 {
        let other = run.random.bytes(bytes.len());
        let written = run.write_set(&other, text.len(), lead, &reading.given);
        let back = plain::bits(&written.recording(), lead, lead + string.len());
        run.require(back == string, || {
            println!("a set is written back otherwise: {string}");
        });
    }
    reading.answer
}

/// Writes a set into random bytes at the place, and where it does not fit. A set that is written
/// reads back the same.
fn write(run: &mut Run, set: &Set, place: usize) -> Answer {
    let count = place + BITS + run.random.below(20);
    let more = run.random.below(3);
    let bytes = run.random.bytes(count.div_ceil(8) + more);
    let written = run.write_set(&bytes, count, place, set);
    if written.answer.number == 0 {
        let back = run.read_set(&written.recording(), count, place);
        let same = back.answer.number == 0 && back.given == *set;
        let end = (place + BITS) as u64;
        run.require(same && written.answer.value == end, || {
            println!("a set reads back otherwise: {set:?}");
        });
    }
    let close = count - run.random.below(BITS);
    run.write_set(&bytes, count, close, set);
    written.answer
}

/// Reads and writes three records that pass their own tests: both answer the number.
fn both(run: &mut Run, set: &Set, number: u64) {
    let place = run.random.below(17);
    let read = read(run, &make::strings_of(set));
    let written = write(run, set, place);
    let after = if number == 0 {
        (place + BITS) as u64
    } else {
        0
    };
    let wanted = [0, after].map(|value| Answer { number, value });
    run.require([read, written] == wanted, || {
        println!("not answered {number}: {set:?}");
    });
}

/// At every bit offset and at random places.
pub fn pass(run: &mut Run) {
    for _ in 0..100 * run.long {
        for offset in 0..8 {
            let set = make::ephemeris(&mut run.random);
            both(run, &set, 0);
            let place = offset + 8 * run.random.below(90);
            write(run, &set, place);
        }
    }
}

/// Every choice of three.
fn triples<T: Copy>(choices: &[T]) -> Vec<[T; 3]> {
    let mut all = Vec::new();
    for first in choices {
        for second in choices {
            all.extend(choices.iter().map(|third| [*first, *second, *third]));
        }
    }
    all
}

/// One string of every type, and all three of any shape, so that the second and the third move.
pub fn types(run: &mut Run) {
    let mut all = triples(&SHAPES);
    for place in 0..3 {
        for kind in 0..64 {
            let mut kinds = [10, 11, 12];
            kinds[place] = kind;
            all.push(kinds);
        }
    }
    for kinds in all {
        for _ in 0..2 {
            let set = make::in_turn(&mut run.random, kinds);
            both(run, &set, if kinds == [10, 11, 12] { 0 } else { 12 });
            if kinds.contains(&1) {
                // The strings after a short one stand where they would after one of 250 bits.
                let strings = make::strings_of(&set).map(|string| {
                    let gap = 250 - string.len().min(250);
                    string + &run.random.bits(gap)
                });
                read(run, &strings);
            }
        }
    }
}

/// OMB at both ends of its range, past it, and between.
pub fn times(run: &mut Run) {
    for times in triples(&[0, 1, 2, 21600, 21601, 21602, 43197, 43198, 43199, 43200]) {
        let set = make::three(&mut run.random, [10, 11, 12], [5; 3], times);
        if times.contains(&43200) {
            let place = run.random.below(17);
            let answers = [read(run, &make::strings_of(&set)), write(run, &set, place)];
            run.require(answers == [plain::refuse(7, 9); 2], || {
                println!("not 7, 9: {set:?}");
            });
            continue;
        }
        let [first, second, third] = times;
        let rises = second == next_time(first) && third == next_time(second);
        both(run, &set, if rises { 0 } else { 14 });
    }
}

/// Each single bit wrong, and bursts in one string or across two.
pub fn damaged(run: &mut Run) {
    for bit in 0..BITS {
        let set = make::ephemeris(&mut run.random);
        let text = make::turn(&make::strings_of(&set).concat(), bit, "1");
        let bytes = make::pack(&text);
        let answer = run.read_set(&bytes, text.len(), 0).answer;
        let there = answer.value == bit as u64 / 250 * 250;
        run.require([4, 6].contains(&answer.number) && there, || {
            println!("bit {bit} wrong: {answer:?}")
        });
    }
    for _ in 0..3_000 * run.long {
        let set = make::ephemeris(&mut run.random);
        let mut text = make::strings_of(&set).concat();
        for _ in 0..1 + run.random.below(3) {
            let place = run.random.below(BITS);
            let width = 1 + run.random.below(40).min(749 - place);
            text = make::turn(&text, place, &run.random.bits(width));
        }
        let lead = run.random.below(17);
        let bytes = make::pack(&(run.random.bits(lead) + &text));
        run.read_set(&bytes, lead + text.len(), lead);
    }
}

/// A set, and strings of which the first or the second is shorter or longer, cut at every bit, with
/// the recording's bytes going on or ending there.
pub fn cut(run: &mut Run) {
    for kinds in [
        [10, 11, 12],
        [1, 11, 12],
        [10, 1, 12],
        [2, 11, 12],
        [10, 2, 12],
    ] {
        let set = make::in_turn(&mut run.random, kinds);
        for lead in [0, 13] {
            let strings = make::strings_of(&set).concat();
            let whole = make::pack(&(run.random.bits(lead) + &strings + &run.random.bits(30)));
            for count in 0..=8 * whole.len() {
                let short = &whole[..count.div_ceil(8)];
                for bytes in [&whole[..], short] {
                    run.read_set(bytes, count, lead);
                    run.write_set(bytes, count, lead, &set);
                }
            }
        }
    }
}

/// Records that pass their own tests, of which 12, 13 and 14 hold as the bits 0, 1 and 2 of `which`
/// say: one of the types, satellites or times is another, or two of the types are exchanged.
fn spoilt(random: &mut Random, which: usize) -> Set {
    let mut kinds = [10, 11, 12];
    if which & 1 != 0 {
        let place = random.below(3);
        match random.below(2) {
            0 => kinds.swap(place, (place + 1) % 3),
            _ => kinds[place] = (kinds[place] + 1 + random.below(63) as u8) % 64,
        }
    }
    let mut set = make::in_turn(random, kinds);
    if which & 2 != 0 {
        let record = one(random, &mut set);
        record.satellite = (record.satellite + random.below(62) as u8) % 63 + 1;
    }
    if which & 4 != 0 {
        let record = one(random, &mut set);
        record.time = (record.time + 1 + random.below(43199) as u64) % 43200;
    }
    set
}

fn one<'a>(random: &mut Random, set: &'a mut Set) -> &'a mut Record {
    match random.below(3) {
        0 => &mut set.first,
        1 => &mut set.second,
        _ => &mut set.third,
    }
}

/// Any of 12, 13 and 14 at once: the lowest is answered.
pub fn tests(run: &mut Run) {
    for (which, number) in [0, 12, 13, 12, 14, 12, 13, 12].into_iter().enumerate() {
        for _ in 0..100 * run.long {
            let set = spoilt(&mut run.random, which);
            both(run, &set, number);
        }
    }
}

/// A string as it is, refused by a number, or of another type.
#[derive(Clone, Copy)]
enum State {
    Good,
    Refused(u64),
    Other(u8),
}

/// The record's string in a state.
fn string(random: &mut Random, record: &Record, state: State) -> String {
    let mut record = match state {
        State::Refused(8) => other(random, record, 20),
        State::Other(kind) => other(random, record, kind),
        _ => *record,
    };
    match state {
        State::Refused(7) if random.once_in(3) => record.satellite = 0,
        State::Refused(7) if record.kind == 10 && random.once_in(2) => record.numbers[1] = 0,
        State::Refused(7) => record.time = random.between(43200, 65535) as u64,
        State::Refused(8) => record.numbers[0] = random.between(1, 3),
        _ => {}
    }
    let string = make::string_of(&record);
    match state {
        State::Refused(4) => make::turn(&string, random.below(12), "1"),
        State::Refused(6) => make::turn(&string, string.len() - 1 - random.below(16), "1"),
        _ => string,
    }
}

/// A record of another type with the same satellite and time.
fn other(random: &mut Random, record: &Record, kind: u8) -> Record {
    Record {
        satellite: record.satellite,
        time: record.time,
        ..make::record(random, kind)
    }
}

/// The place of a call of which 3 may hold.
fn place(run: &mut Run, count: usize, left: usize) -> usize {
    match run.random.once_in(16) {
        true => count + 1 + run.random.below(300),
        false => count - left,
    }
}

/// Reading: every string in every state, with 13 and 14; some with 1, 2, 3 or 5.
pub fn reading(run: &mut Run) {
    let states = [
        State::Good,
        State::Refused(4),
        State::Refused(6),
        State::Refused(7),
        State::Refused(8),
        State::Other(1),
        State::Other(2),
        State::Other(60),
    ];
    for states in triples(&states) {
        for which in [0, 2, 4, 6] {
            let set = spoilt(&mut run.random, which);
            let records = plain::set::records(&set);
            let mut text: String = (0..3)
                .map(|place| string(&mut run.random, &records[place], states[place]))
                .collect();
            if run.random.once_in(3) {
                text.truncate(run.random.below(text.len()));
            }
            let (above_limit, above_bytes) = (run.random.once_in(16), run.random.once_in(16));
            let (bytes, count) = lend(run, &text, above_limit, above_bytes);
            let place = place(run, count, text.len());
            run.read_set(&bytes, count, place);
        }
    }
}

/// Writing: each record refused by none or one of 7, 8, 11, 10, with 12, 13, 14 and 5; some with
/// 1, 2 or 3.
pub fn writing(run: &mut Run) {
    for numbers in triples(&[0, 7, 8, 11, 10]) {
        for which in 0..16 {
            let mut set = spoilt(&mut run.random, which);
            let records = [&mut set.first, &mut set.second, &mut set.third];
            for (record, number) in records.into_iter().zip(numbers) {
                if number == 8 {
                    *record = other(&mut run.random, record, 20);
                }
                spoil(run, record, |one| one == number);
            }
            let room = match which & 8 != 0 {
                true => run.random.below(BITS),
                false => BITS + run.random.below(30),
            };
            let text = run.random.bits(room);
            let (above_limit, above_bytes) = (run.random.once_in(16), run.random.once_in(16));
            let (bytes, count) = lend(run, &text, above_limit, above_bytes);
            let place = place(run, count, room);
            run.write_set(&bytes, count, place, &set);
        }
    }
}
