//! Valid strings of every type, and strings whose fields hold any bits.

use crate::calls::{INVERTED, STRAIGHT};
use crate::make::{self, complement, SHAPES, WITH_FIELDS};
use crate::plain::{self, table};
use crate::run::Run;
use l1oc::Record;

/// Writes a valid record into random bytes at the place, reads it back and lists the recording.
fn there_and_back(run: &mut Run, record: &Record, place: usize) {
    let end = place + plain::length(record.kind);
    let more = run.random.below(20);
    let bytes = run.random.bytes((end + more).div_ceil(8));
    let count = end + run.random.below(8 * bytes.len() - end + 1);
    let written = run.write(&bytes, count, place, record);
    run.require(
        written.answer.number == 0 && written.answer.value == end as u64,
        || println!("a valid record is refused: {record:?}"),
    );
    let bytes = written.recording();
    let back = run.read(&bytes, count, place);
    run.require(back.answer.number == 0 && back.given == *record, || {
        println!("a record reads back otherwise: {record:?}");
    });
    run.list(&bytes, count, 4);
}

/// Every type at every bit offset and at random places.
pub fn every_type(run: &mut Run) {
    for round in 0..40 * run.long {
        for kind in 0..64 {
            for offset in 0..8 {
                let record = make::record(&mut run.random, kind);
                let place = match round % 2 {
                    0 => offset,
                    _ => run.random.below(700),
                };
                there_and_back(run, &record, place);
            }
        }
    }
}

/// A string that ends in the last lent byte, and the same one with bytes behind it: in either phase it reads as the same record.
pub fn followed(run: &mut Run) {
    for kind in 0..64 {
        for offset in 0..8 {
            let record = make::record(&mut run.random, kind);
            let text = run.random.bits(offset) + &make::string_of(&record);
            for behind in [vec![], vec![0; 8], vec![0xFF; 8], run.random.bytes(8)] {
                let straight = [make::pack(&text), behind].concat();
                let inverted = complement(&straight);
                for (phase, bytes) in [(STRAIGHT, straight), (INVERTED, inverted)] {
                    let given = run.read_in(phase, &bytes, text.len(), offset).given;
                    run.require(given == record, || {
                        println!("type {kind} reads otherwise: {given:?}");
                    });
                }
            }
        }
    }
}

/// Both ends of every range, their neighbours inside, and the numbers around zero.
pub fn ends(run: &mut Run) {
    for kind in SHAPES {
        let mut fields = table::service();
        fields.extend(table::information(kind).unwrap_or_default());
        for (place, field) in fields.iter().enumerate().skip(1) {
            let near = [
                field.low,
                field.low + 1,
                -1,
                0,
                1,
                field.high - 1,
                field.high,
            ];
            for number in near {
                if number < field.low || number > field.high || (kind, place) == (20, 9) {
                    continue;
                }
                for _ in 0..16 {
                    let mut record = make::record(&mut run.random, kind);
                    make::set(&mut record, place + 1, number);
                    if place >= 9 {
                        record.minus &= !(1 << (place - 9));
                    }
                    let offset = run.random.below(16);
                    there_and_back(run, &record, offset);
                }
            }
        }
    }
}

/// Strings with a right check in which one field holds given bits, in range or not: all its
/// values up to 11 bits, the ends and random ones beyond.
pub fn field_bits(run: &mut Run) {
    for kind in SHAPES {
        let mut fields = table::service();
        fields.extend(table::information(kind).unwrap_or_default());
        let mut first = plain::MARK.len();
        for (place, field) in fields.iter().enumerate() {
            let from = first;
            first += field.width;
            if place == 0 {
                continue; // The type itself is not changed here.
            }
            let all = 1_u64 << field.width;
            let mut numbers: Vec<u64> = match field.width {
                ..=11 => (0..all).collect(),
                _ => (0..60).map(|_| run.random.next() % all).collect(),
            };
            let high = field.high as u64;
            numbers.extend([0, 1, high - 1, high, all / 2 - 1, all / 2, all / 2 + 1]);
            numbers.extend([high + 1, high + 2, all - 2, all - 1].map(|number| number % all));
            for number in numbers {
                let record = make::record(&mut run.random, kind);
                let mut before = plain::text_before_check(&record);
                let bits = format!("{:0width$b}", number % all, width = field.width);
                before.replace_range(from..first, &bits);
                read_and_list(run, &make::close(&before, kind));
            }
        }
    }
    for kind in 0..64 {
        for _ in 0..200 * run.long {
            let string = make::any_string(&mut run.random, kind);
            read_and_list(run, &string);
        }
    }
}

/// Reads and lists a string that starts anywhere in a byte.
fn read_and_list(run: &mut Run, string: &str) {
    let lead = run.random.below(9);
    let text = run.random.bits(lead) + string;
    let bytes = make::pack(&text);
    let reading = run.read(&bytes, text.len(), lead);
    if reading.answer.number == 0 {
        // A string that reads is written back to the same bits.
        let other = run.random.bytes(bytes.len());
        let written = run.write(&other, text.len(), lead, &reading.given);
        let back = plain::bits(&written.recording(), lead, text.len());
        run.require(back == string, || {
            println!("a string is written back otherwise: {string}");
        });
    }
    run.list(&bytes, text.len(), 1);
}

/// Every combination of minus zeros in the signed fields of a type.
pub fn minus_zeros(run: &mut Run) {
    for kind in WITH_FIELDS {
        let fields = table::information(kind).unwrap_or_default();
        let signed: Vec<usize> = (0..fields.len())
            .filter(|place| fields[*place].signed)
            .collect();
        for combination in 0..1_usize << signed.len() {
            let mut record = make::record(&mut run.random, kind);
            let mut before = plain::text_before_check(&record);
            for (bit, place) in signed.iter().enumerate() {
                if combination >> bit & 1 == 1 {
                    record.numbers[*place] = 0;
                    record.minus |= 1 << place;
                    let from = 50 + fields[..*place].iter().map(|f| f.width).sum::<usize>();
                    let width = fields[*place].width;
                    let bits = format!("1{}", "0".repeat(width - 1));
                    before.replace_range(from..from + width, &bits);
                }
            }
            read_and_list(run, &make::close(&before, kind));
            let place = run.random.below(16);
            there_and_back(run, &record, place);
        }
    }
}
