//! Records with fields out of range, written and scaled.

use crate::make::{self, SHAPES};
use crate::plain::table::{self, Field};
use crate::run::Run;
use l1oc::{Answer, Record, NUMBERS};

/// Writes the record where it fits and where it does not, and scales its fields.
pub fn write_and_scale(run: &mut Run, record: &Record) {
    let bytes = run.random.bytes(64);
    let count = 500 + run.random.below(13);
    let fits = run.random.below(125);
    run.write(&bytes, count, fits, record);
    let close = count - run.random.below(125);
    run.write(&bytes, count, close, record);
    let field = 10 + run.random.below(NUMBERS);
    run.scaled(record, field);
}

/// The fields of a type with their numbers.
fn fields(kind: u8) -> Vec<(usize, Field)> {
    let mut fields = table::service();
    fields.extend(table::information(kind).unwrap_or_default());
    (1..).zip(fields).collect()
}

/// Numbers outside a field's range that a record can hold there: the service fields have 8 bits,
/// OMB and the information fields 64.
fn outside(number: usize, field: &Field) -> Vec<i64> {
    let (least, most) = match number {
        1..=8 => (0, i64::from(u8::MAX)),
        _ => (i64::MIN, i64::MAX),
    };
    let mut out = vec![
        field.low - 1,
        field.low - 2,
        field.high + 1,
        field.high + 2,
        -field.high - 1,
        -field.high - 2,
        -1,
        least,
        least + 1,
        most - 1,
        most,
    ];
    // One more bit than the width has, and a value that looks right after cutting bits off.
    for power in field.width..63 {
        out.push(1 << power);
        out.push(field.high + (1 << power));
        out.push(-(1 << power));
    }
    out.retain(|value| (least..=most).contains(value));
    out.retain(|value| *value < field.low || *value > field.high);
    out
}

/// Each single field out of range, by one and by far.
pub fn out_of_range(run: &mut Run) {
    for kind in SHAPES {
        for (number, field) in fields(kind) {
            for value in outside(number, &field) {
                let mut record = make::record(&mut run.random, kind);
                make::set(&mut record, number, value);
                write_and_scale(run, &record);
            }
        }
    }
}

/// Each pair of fields out of range: the first is reported.
pub fn two_out(run: &mut Run) {
    for kind in SHAPES {
        let fields = fields(kind);
        for (number, field) in &fields {
            for (other, other_field) in &fields {
                let (values, others) = (outside(*number, field), outside(*other, other_field));
                if number >= other || values.is_empty() || others.is_empty() {
                    continue;
                }
                for _ in 0..12 {
                    let mut record = make::record(&mut run.random, kind);
                    let value = run.random.pick(&values);
                    make::set(&mut record, *number, value);
                    let value = run.random.pick(&others);
                    make::set(&mut record, *other, value);
                    write_and_scale(run, &record);
                }
            }
        }
    }
}

/// OMB above its range, by one and up to the most that a record can hold.
pub fn time(run: &mut Run) {
    for kind in SHAPES {
        for time in [43200, 65535, 65536, 1 << 32, 1 << 63, u64::MAX] {
            let record = Record {
                time,
                ..make::record(&mut run.random, kind)
            };
            let written = run.write(&[0; 64], 512, 3, &record).answer;
            let scaled = run.scaled(&record, 21).answer;
            let refused = |answer: Answer| (answer.number, answer.value) == (7, 9);
            run.require(refused(written) && refused(scaled), || {
                println!("OMB {time} is not refused by 7, 9")
            });
        }
    }
}

/// Every value of 8 bits in a service field, and of 16 in OMB.
pub fn service(run: &mut Run) {
    for kind in SHAPES {
        for number in 1..=8 {
            for value in 0..=255 {
                let mut record = make::record(&mut run.random, kind);
                make::set(&mut record, number, value);
                write_and_scale(run, &record);
            }
        }
    }
    for value in 0..=65535 {
        let mut record = make::record(&mut run.random, 1);
        record.time = value;
        let bytes = run.random.bytes(17);
        run.write(&bytes, 133, 6, &record);
    }
}
