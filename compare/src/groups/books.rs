//! Almanac books: records offered one after another to books, and every book that there may be.

use super::mixed;
use super::refusals::spoil;
use crate::calls::offer::{self, Offer};
use crate::calls::{Outcome, Side};
use crate::lent::LentBook;
use crate::make::{self, SHAPES};
use crate::plain::book::{latest, supersedes};
use crate::plain::table;
use crate::random::Random;
use crate::run::Run;
use l1oc::offered::{PASSED_OVER, TAKEN};
use l1oc::{Answer, Book, BookEntry, Record, SATELLITES};

/// The last day of an interval.
const LAST: i64 = 1461;

/// The day as many days after one as said, round the interval.
fn after(day: i64, days: i64) -> i64 {
    (day - 1 + days).rem_euclid(LAST) + 1
}

/// A record of type 20 that passes, of this satellite, age and day.
fn almanac(random: &mut Random, satellite: u8, age: i64, day: i64) -> Record {
    let mut record = make::record(random, 20);
    record.satellite = satellite;
    record.numbers[2] = age;
    record.numbers[3] = day;
    record
}

/// The entry that holds a record.
fn holding(record: &Record) -> BookEntry {
    BookEntry {
        held: 1,
        content: *record,
    }
}

/// Offers a record to a book, which then holds it if it is taken, and is as it was if not.
fn offer(run: &mut Run, book: &Book, record: &Record) -> Outcome<Offer> {
    let outcome = run.offer(book, record);
    let mut wanted = book.clone();
    if outcome.taken() {
        wanted.entries[usize::from(record.satellite) - 1] = holding(record);
    }
    run.require(*outcome.lent == wanted, || {
        println!("the book is otherwise: {:?}, {record:?}", outcome.answer);
    });
    outcome
}

/// A day close to a first one, close to half an interval from it, or any.
fn close(random: &mut Random, first: i64) -> i64 {
    let days = match random.below(4) {
        0 => random.between(-2, 2),
        1 => random.between(728, 733),
        2 => random.pick(&[0, 487, 974]),
        _ => random.between(0, LAST - 1),
    };
    after(first, days)
}

/// A record that offering refuses, by one or more of 7, 8, 11, 10 and 15.
fn refused(run: &mut Run, satellite: u8) -> Record {
    let kind = match run.random.below(2) {
        0 => 20,
        _ => make::kind(&mut run.random),
    };
    let mut record = make::record(&mut run.random, kind);
    record.satellite = satellite;
    // Of another type it is refused by 15 where the set is empty.
    let set = match kind {
        20 => 1 << run.random.below(4) | run.random.below(16),
        _ => run.random.below(16) & run.random.below(16),
    };
    spoil(run, &mut record, |number| {
        let place = [7, 8, 11, 10].iter().position(|one| *one == number);
        place.is_some_and(|place| set >> place & 1 == 1)
    });
    record
}

/// How many days in a row, from a first one on, the records of a sequence may be of; 0 where they are
/// close to the first, to half an interval from it, or any.
const WIDTHS: [i64; 10] = [1, 2, 3, 30, 730, 731, 732, 733, 0, 0];

/// A record of a sequence, with an age out of few.
fn next(run: &mut Run, satellite: u8, first: i64, width: i64) -> Record {
    if run.random.once_in(4) {
        return refused(run, satellite);
    }
    let day = match width {
        0 => close(&mut run.random, first),
        _ if run.random.once_in(4) => after(first, width - 1),
        _ => after(first, run.random.between(0, width - 1)),
    };
    let age = run.random.pick(&[0, 1, 2, 62, 63]);
    almanac(&mut run.random, satellite, age, day)
}

/// Records of few satellites offered in turn to one book, empty at first. After each the entry is what
/// the request's last sentence says of all that came; where it says nothing, it is one of them.
pub fn sequences(run: &mut Run) {
    let (mut rows, mut others, rounds) = (0, 0, 4_000 * run.long);
    for round in 0..rounds {
        let satellites: Vec<u8> = (0..1 + run.random.below(3))
            .map(|_| match run.random.below(3) {
                0 => run.random.pick(&[1, 63]),
                _ => run.random.between(1, 63) as u8,
            })
            .collect();
        let (first, width) = (run.random.between(1, LAST), run.random.pick(&WIDTHS));
        let mut book = Book::EMPTY;
        let mut came: Vec<Vec<Record>> = vec![vec![]; SATELLITES];
        for _ in 0..1 + run.random.below(60) {
            let satellite = run.random.pick(&satellites);
            let record = next(run, satellite, first, width);
            let outcome = offer(run, &book, &record);
            book = outcome.book();
            let came = &mut came[usize::from(satellite) - 1];
            if outcome.answer.number == 0 {
                came.push(record);
            }
            let shown = run.entry(&book, satellite.into()).given;
            let holds = match latest(came) {
                Some(latest) => shown == holding(latest),
                None if came.is_empty() => shown == BookEntry::EMPTY,
                None => came.iter().any(|record| shown == holding(record)),
            };
            run.require(holds, || println!("the entry is {shown:?}, of {came:?}"));
        }
        for came in came.iter().filter(|came| came.len() > 1) {
            match latest(came) {
                Some(_) => rows += 1,
                None => others += 1,
            }
        }
        if round % 10 == 0 {
            let numbers = (0..256).chain([256 + 63, 1 << 32 | 1, 1 << 63 | 1, usize::MAX]);
            for satellite in numbers {
                run.entry(&book, satellite);
            }
        }
    }
    run.require(rows > rounds && 5 * others > rounds, || {
        println!("of {rounds} sequences: days in a row {rows} times, not in a row {others} times");
    });
}

/// Every pair of days on the proved side, both ways, held against the second implementation's rule;
/// and pairs at some distances on all sides.
pub fn pairs(run: &mut Run) {
    let one = almanac(&mut run.random, 17, 5, 1);
    let on = |day| {
        let mut record = one;
        record.numbers[3] = day;
        record
    };
    let mut book = Book::EMPTY;
    for entry in &mut book.entries {
        *entry = holding(&make::record(&mut run.random, 20));
    }
    for held in 1..=LAST {
        book.entries[16] = holding(&on(held));
        // One book is lent for all days, so that a change of another entry is seen in the end.
        let mut lent = [Side::Declared, Side::Safe].map(|side| (side, LentBook::new(&book)));
        for day in 1..=LAST {
            run.cases += 1;
            let record = on(day);
            let (value, entry) = match supersedes(&record, &on(held)) {
                true => (TAKEN, holding(&record)),
                false => (PASSED_OVER, book.entries[16]),
            };
            let wanted = Answer { number: 0, value };
            for (side, lent) in &mut lent {
                let answer = match side {
                    Side::Declared => offer::declared(lent, &record),
                    _ => l1oc::offer(lent, record),
                };
                let agrees = answer == wanted && lent.entries[16] == entry;
                run.require(agrees, || {
                    println!("{side:?}: day {day} offered, {held} held: {answer:?}");
                });
                lent.entries[16] = book.entries[16];
            }
        }
        for (side, lent) in lent {
            run.require(lent == LentBook::new(&book), || {
                println!("{side:?}: another entry is changed, {held} held");
            });
        }
        for distance in [0, 1, 2, 487, 729, 730, 731, 732, 974, 1459, 1460] {
            offer(run, &book, &on(after(held, distance)));
        }
    }
}

/// Equal days, with every pair of ages.
pub fn ages(run: &mut Run) {
    for day in [1, 730, LAST] {
        for held in 0..64 {
            let mut book = Book::EMPTY;
            book.entries[30] = holding(&almanac(&mut run.random, 31, held, day));
            for age in 0..64 {
                let record = almanac(&mut run.random, 31, age, day);
                let outcome = offer(run, &book, &record);
                run.require(outcome.taken() == (age < held), || {
                    println!("age {age} offered, {held} held: {:?}", outcome.answer);
                });
            }
        }
    }
}

/// A number that no field limits: an end of 64 or 32 bits, or any of a few bits or more.
fn number(random: &mut Random) -> i64 {
    match random.below(5) {
        0 => random.pick(&[i64::MIN, i64::MAX]) ^ random.between(0, 1500),
        1 => random.between(-1, 1) * (1 << 32) + random.between(-1500, 1500),
        2 => random.between(-4, 4) * LAST + random.between(-2, 2),
        3 => random.between(-3000, 3000),
        _ => random.next() as i64 >> random.below(64),
    }
}

/// Anything that may lie in an entry.
fn any_entry(random: &mut Random) -> BookEntry {
    let mut content = match random.below(3) {
        0 => mixed::record(random),
        _ => {
            let kind = random.pick(&[20, 20, 20, 10, 0, 255]);
            Record {
                kind,
                ..make::record(random, 20)
            }
        }
    };
    for place in [2, 3] {
        if random.once_in(2) {
            content.numbers[place] = number(random);
        }
    }
    if random.once_in(4) {
        content.satellite = random.next() as u8;
        content.time = random.next();
        content.minus = random.next() as u16;
        content.numbers = content.numbers.map(|_| number(random));
        content.raw.fill_with(|| random.next() as u8);
    }
    let held = match random.below(3) {
        0 => random.next(),
        1 => 1 << random.below(64),
        _ => random.pick(&[0, 0, 1, 2, u64::MAX]),
    };
    BookEntry { held, content }
}

/// Books with anything in their entries, and records that are close to what an entry holds.
pub fn any(run: &mut Run) {
    for _ in 0..4_000 * run.long {
        let mut book = Book::EMPTY;
        for entry in &mut book.entries {
            *entry = any_entry(&mut run.random);
        }
        for _ in 0..8 {
            let satellite = run.random.between(1, 63) as u8;
            let held = &mut book.entries[usize::from(satellite) - 1];
            if run.random.once_in(2) {
                *held = any_entry(&mut run.random);
            }
            let content = held.content;
            let record = match run.random.below(6) {
                0 => mixed::record(&mut run.random),
                1 => refused(run, satellite),
                _ => {
                    let day = content.numbers[3].rem_euclid(LAST);
                    let day = close(&mut run.random, day);
                    let age = content.numbers[2].saturating_add(run.random.between(-1, 1));
                    almanac(&mut run.random, satellite, age.clamp(0, 63), day)
                }
            };
            let outcome = offer(run, &book, &record);
            run.entry(&book, satellite.into());
            book = outcome.book();
            let other = run.random.below(SATELLITES + 2);
            run.entry(&book, other);
        }
    }
}

/// Records of every type and shape, and each field of type 20 out of its range, offered to the empty
/// book and to one that holds a record of each satellite.
pub fn offered(run: &mut Run) {
    let mut full = Book::EMPTY;
    for (satellite, entry) in (1..).zip(&mut full.entries) {
        let day = run.random.between(1, LAST);
        *entry = holding(&almanac(&mut run.random, satellite, 63, day));
    }
    let mut records: Vec<(Record, Option<u64>)> = vec![];
    for kind in (0..=255).chain(SHAPES) {
        let record = make::record(&mut run.random, kind & 63);
        let number = match kind {
            20 => None,
            0..=63 => Some(15),
            _ => Some(7),
        };
        records.push((Record { kind, ..record }, number));
    }
    for satellite in 0..=255 {
        let number = match satellite {
            1..=63 => None,
            _ => Some(7),
        };
        records.push((almanac(&mut run.random, satellite, 63, 1), number));
    }
    let fields = table::information(20).unwrap_or_default();
    for (place, field) in fields.iter().enumerate() {
        for number in [field.low - 1, field.high + 1, i64::MIN, i64::MAX] {
            let mut record = make::record(&mut run.random, 20);
            record.numbers[place] = number;
            record.minus &= !(1 << place);
            records.push((record, Some(7)));
        }
    }
    for (record, number) in records {
        for book in [&Book::EMPTY, &full] {
            let answer = offer(run, book, &record).answer;
            run.require(answer.number == number.unwrap_or(0), || {
                println!("not answered {number:?}: {answer:?}, {record:?}");
            });
        }
    }
}
