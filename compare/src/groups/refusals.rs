//! Inputs on which any set of refusals holds at once, and so any two of them: the answer tells
//! which is tested first.

use crate::make;
use crate::plain::{self, table, LIMIT};
use crate::run::Run;
use l1oc::{Book, Mark, Record, NUMBERS, RAW_BYTES};

/// A recording of random bits that ends with the text at its bit count, which lies above the
/// limit (1) and above the bytes (2) where asked.
pub fn lend(run: &mut Run, text: &str, above_limit: bool, above_bytes: bool) -> (Vec<u8>, usize) {
    let lead = match above_limit {
        true => LIMIT + 1 + run.random.pick(&[0, 0, 1, 7, 2000]) - text.len(),
        false => run.random.below(40),
    };
    let mut bytes = run.random.bytes(lead.div_ceil(8));
    let tail = plain::bits(&bytes, lead / 8 * 8, lead) + text;
    bytes.truncate(lead / 8);
    bytes.extend(make::pack(&tail));
    let count = lead + text.len();
    if above_bytes {
        bytes.truncate(count.saturating_sub(1) / 8);
    }
    (bytes, count)
}

/// Listing: 1, 2, 9.
pub fn listing(run: &mut Run) {
    for set in 0..8 {
        for _ in 0..16 {
            let strings: Vec<String> = (0..1 + run.random.below(4))
                .map(|_| make::string(&mut run.random, 1))
                .collect();
            let (bytes, count) = lend(run, &strings.concat(), set & 1 == 1, set & 2 == 2);
            let room = match set & 4 == 4 {
                true => run.random.below(strings.len()),
                false => strings.len() + run.random.below(3),
            };
            run.list(&bytes, count, room);
        }
    }
}

/// Reading: 1, 2, 3, 5 (18 bits), 4, 5, 6, 7, 8. Each bit of a set stands for the refusal of
/// its number, bit 0 for fewer than 18 bits left.
pub fn reading(run: &mut Run) {
    for kind in [20, 20, 20, 10, 25, 0, 1, 2] {
        for set in 0..512 {
            let holds = |number: usize| set >> number & 1 == 1;
            let mut before = plain::text_before_check(&make::record(&mut run.random, kind));
            if holds(7) {
                // Satellite number 0, OMB 65535, or a day 0 where the type has one.
                match (run.random.below(3), kind) {
                    (0, _) => before.replace_range(18..24, "000000"),
                    (1, 20) => before.replace_range(64..75, "00000000000"),
                    (1, 25) => before.replace_range(50..61, "00000000000"),
                    _ => before.replace_range(34..50, &"1".repeat(16)),
                }
            }
            if holds(8) && kind == 20 {
                let orbit = run.random.pick(&["01", "10", "11"]);
                before.replace_range(50..52, orbit);
            }
            let mut string = make::close(&before, kind);
            if holds(6) {
                let place = string.len() - 1 - run.random.below(16);
                string = make::turn(&string, place, "1");
            }
            if holds(4) {
                let place = run.random.below(12);
                string = make::turn(&string, place, "1");
            }
            if holds(5) {
                let length = string.len();
                string.truncate(18 + run.random.below(length - 18));
            }
            if holds(0) {
                string.truncate(run.random.below(18));
            }
            let (bytes, count) = lend(run, &string, holds(1), holds(2));
            let place = match holds(3) {
                true => count + 1 + run.random.below(300),
                false => count - string.len(),
            };
            run.read(&bytes, count, place);
        }
    }
}

/// Spoils a record so that 7, 8, 11 or 10 hold.
pub fn spoil(run: &mut Run, record: &mut Record, holds: impl Fn(usize) -> bool) {
    let fields = table::information(record.kind).unwrap_or_default();
    if holds(8) && record.kind == 20 {
        record.numbers[0] = run.random.between(1, 3);
    }
    if holds(11) {
        match run.random.below(2) == 0 && fields.len() < NUMBERS {
            true => record.numbers[NUMBERS - 1] = run.random.between(-1, 0) * 2 + 1,
            false => {
                let bit = plain::raw_width(record.kind)..8 * RAW_BYTES;
                let bit = bit.start + run.random.below(bit.len());
                record.raw[bit / 8] |= 128 >> (bit % 8);
            }
        }
    }
    if holds(10) {
        let wrong: Vec<usize> = (0..Mark::BITS as usize)
            .filter(|bit| *bit >= fields.len() || !fields[*bit].signed)
            .collect();
        record.minus |= 1 << run.random.pick(&wrong);
    }
    if holds(7) {
        match run.random.below(3) {
            0 => record.satellite = 0,
            1 if !fields.is_empty() => record.numbers[fields.len() - 1] = -1 << 50,
            _ => record.time = 43200,
        }
    }
}

/// Writing: 1, 2, 3, 7, 8, 11, 10, 5.
pub fn writing(run: &mut Run) {
    for kind in [20, 20, 20, 10, 11, 12, 25, 0, 1, 2] {
        for set in 0..256 {
            let numbers = [1, 2, 3, 7, 8, 11, 10, 5];
            let holds = |number| {
                let place = numbers.iter().position(|one| *one == number);
                place.is_some_and(|place| set >> place & 1 == 1)
            };
            let mut record = make::record(&mut run.random, kind);
            spoil(run, &mut record, holds);
            let length = plain::length(kind);
            let room = match holds(5) {
                true => run.random.below(length),
                false => length + run.random.below(30),
            };
            let text = run.random.bits(room);
            let (bytes, count) = lend(run, &text, holds(1), holds(2));
            let place = match holds(3) {
                true => count + 1 + run.random.below(300),
                false => count - room,
            };
            run.write(&bytes, count, place, &record);
        }
    }
}

/// Scaling: 7, 8, 11, 10, then 7 with the number asked for.
pub fn scaling(run: &mut Run) {
    for kind in [20, 10, 11, 12, 25, 0, 1, 2] {
        for set in 0..16 {
            let numbers = [7, 8, 11, 10];
            let holds = |number| {
                let place = numbers.iter().position(|one| *one == number);
                place.is_some_and(|place| set >> place & 1 == 1)
            };
            for field in (0..28).chain([usize::MAX, 1 << 32, 1 << 63]) {
                let mut record = make::record(&mut run.random, kind);
                spoil(run, &mut record, holds);
                run.scaled(&record, field);
            }
        }
    }
}

/// Offering: 7, 8, 11, 10, then 15, to an empty entry and to one that holds a record.
pub fn offering(run: &mut Run) {
    for kind in [20, 20, 20, 10, 11, 12, 25, 0, 1, 2] {
        for set in 0..16 {
            let numbers = [7, 8, 11, 10];
            let holds = |number| {
                let place = numbers.iter().position(|one| *one == number);
                place.is_some_and(|place| set >> place & 1 == 1)
            };
            let refusals = numbers.into_iter().filter(|number| match number {
                8 => holds(8) && kind == 20,
                _ => holds(*number),
            });
            let other = (kind != 20).then_some(15);
            let first = refusals.chain(other).next().unwrap_or(0);
            for _ in 0..20 {
                let mut record = make::record(&mut run.random, kind);
                let mut book = Book::EMPTY;
                if run.random.once_in(2) {
                    let entry = &mut book.entries[usize::from(record.satellite) - 1];
                    entry.held = 1;
                    entry.content = make::record(&mut run.random, 20);
                }
                spoil(run, &mut record, holds);
                let answer = run.offer(&book, &record).answer;
                run.require(answer.number == first as u64, || {
                    println!("not answered {first}: {answer:?}, {record:?}");
                });
            }
        }
    }
}
