//! The worked examples of document 01, each on all sides.

use crate::calls::day_count::DayCount;
use crate::calls::list::List;
use crate::calls::read::Read;
use crate::calls::write::Write;
use crate::calls::{Call, Outcome, SIDES, STRAIGHT};
use crate::make;
use crate::plain::{self, check, LIMIT};
use crate::run::Run;
use l1oc::{Answer, Record};

pub fn run(run: &mut Run) {
    widths(run);
    check_bits(run);
    signed(run);
    ranges(run);
    counts(run);
    listing(run);
}

fn is<C: Call>(number: u64, value: u64) -> impl Fn(&Outcome<C>) -> bool {
    move |outcome| outcome.answer == Answer { number, value }
}

/// "The widths fill each string exactly."
fn widths(run: &mut Run) {
    for kind in make::WITH_FIELDS {
        let fields = plain::table::information(kind);
        let width: usize = fields.iter().flatten().map(|field| field.width).sum();
        run.require(width == 234 - 50, || {
            println!("type {kind} has {width} bits")
        });
    }
}

/// A record of the type with everything zero that may be zero.
fn empty(kind: u8) -> Record {
    let mut record = Record {
        kind,
        satellite: 5,
        ..Record::BLANK
    };
    for (place, field) in plain::table::information(kind).iter().flatten().enumerate() {
        record.numbers[place] = field.low.max(0);
    }
    record
}

/// Writes into zeros; the recording then has just the string's bits, filled up.
fn write(record: Record) -> Write {
    Write {
        bytes: vec![0; 47],
        count: plain::length(record.kind),
        place: 0,
        record,
    }
}

fn read(text: &str) -> Read {
    Read {
        bytes: make::pack(text),
        count: text.len(),
        phase: STRAIGHT,
        place: 0,
    }
}

/// Examples 1 to 4. The examples leave the mark out; the check is linear, so one bit more in a
/// string changes the check bits by the example's.
fn check_bits(run: &mut Run) {
    for (kind, width, from_end, want) in [
        (0, 234, 1, 0x6F63),
        (0, 234, 2, 0xDEC6),
        (2, 351, 1, 0x86_4CFB),
        (2, 351, 2, 0x8A_D50D),
    ] {
        let only = make::turn(&"0".repeat(width), width - from_end, "1");
        let digits = check::width(kind);
        let plain = check::bits(&only, kind);
        run.require(plain == format!("{want:0digits$b}"), || {
            println!("check bits of document 01 fail in the plain one: {plain}");
        });
        let without = empty(kind);
        let mut with = without;
        let last = plain::raw_width(kind) - from_end;
        with.raw[last / 8] = 128 >> (last % 8);
        let close = |side, record| {
            let bytes = write(record).run(side).recording();
            let text = plain::bits(&bytes, width, width + digits);
            u32::from_str_radix(&text, 2).expect("binary digits")
        };
        for side in SIDES {
            run.require(close(side, without) ^ close(side, with) == want, || {
                println!("check bits {want:X} of document 01 fail in writing, type {kind}");
            });
        }
        run.compare(write(with));
    }
}

/// Examples 5 to 7: the first accuracy factor of type 10 and UTC-TAI of type 25.
fn signed(run: &mut Run) {
    for (kind, place, bits, number, minus) in [
        (10, 9, "11111", -15, 0),
        (10, 9, "10000", 0, 1 << 9),
        (25, 13, "111111111", -255, 0),
    ] {
        let mut record = empty(kind);
        let fields = plain::table::information(kind).expect("a type with fields");
        let first = 50
            + fields[..place]
                .iter()
                .map(|field| field.width)
                .sum::<usize>();
        let zero = plain::text_before_check(&record);
        let before = make::turn(&zero, first, bits);
        record.numbers[place] = number;
        record.minus = minus;
        run.expect("signed", read(&make::close(&before, kind)), |outcome| {
            outcome.answer.number == 0 && outcome.given == record
        });
        run.expect("signed", write(record), |outcome| {
            plain::bits(&outcome.recording(), first, first + bits.len()) == bits
        });
    }
}

/// Examples 8 and 9, written and read.
fn ranges(run: &mut Run) {
    for (kind, field, first, width, passes) in [(10, 14, 75, 10, 959), (0, 9, 34, 16, 43199)] {
        for number in [passes, passes + 1] {
            let mut record = empty(kind);
            let zero = plain::text_before_check(&record);
            let before = make::turn(&zero, first, &format!("{number:0width$b}"));
            make::set(&mut record, field, number);
            let (refusal, value) = match number == passes {
                true => (0, 0),
                false => (7, field as u64),
            };
            let after = if number == passes { 250 } else { value };
            run.expect("range", write(record), is(refusal, after));
            run.expect(
                "range",
                read(&make::close(&before, kind)),
                is(refusal, value),
            );
        }
    }
}

/// Examples 10 to 13.
fn counts(run: &mut Run) {
    let list = |bytes: Vec<u8>, count, room| List {
        bytes,
        count,
        phase: STRAIGHT,
        room,
    };
    run.expect("example 10", list(vec![], 0, 0), is(0, 0));
    run.expect("example 10", read(""), is(5, 0));
    run.expect("example 11", DayCount { n4: 1, nt: 1 }, is(0, 0));
    run.expect("example 11", DayCount { n4: 2, nt: 1 }, is(0, 1461));
    let string = make::string_of(&empty(0));
    run.expect("example 12", read(&string), is(0, 0));
    run.expect("example 12", read(&string[..249]), is(5, 0));
    let zeros = vec![0; LIMIT / 8 + 1];
    run.expect("example 13", list(zeros.clone(), LIMIT, 0), is(0, 0));
    run.expect("example 13", list(zeros, LIMIT + 1, 0), is(1, 0));
}

/// The recording of the program `list`.
fn listing(run: &mut Run) {
    let lines = [
        (0, 0, 5, 3, 1, 99),
        (250, 1, 5, 3, 0, 100),
        (375, 0, 5, 0, 0, 101),
    ];
    let records = lines.map(|(_, kind, satellite, correction, next, time)| Record {
        kind,
        satellite,
        correction,
        next,
        time,
        ..Record::BLANK
    });
    for side in SIDES {
        let mut bytes = vec![0; 79];
        for ((place, ..), record) in lines.into_iter().zip(records) {
            let count = 632;
            let case = Write {
                bytes,
                count,
                place,
                record,
            };
            bytes = case.run(side).recording();
        }
        let list = List {
            bytes: bytes.clone(),
            count: 632,
            phase: STRAIGHT,
            room: 3,
        };
        run.expect("list", list, |outcome| outcome.starts() == [0, 250, 375]);
        for ((place, ..), record) in lines.into_iter().zip(records) {
            let case = Read {
                bytes: bytes.clone(),
                count: 632,
                phase: STRAIGHT,
                place,
            };
            run.expect("list", case, |outcome| {
                outcome.answer.number == 0 && outcome.given == record
            });
        }
    }
}
