//! Scaled values, accuracy factors and day counts.

use crate::calls::accuracy::Accuracy;
use crate::calls::day_count::DayCount;
use crate::make::{self, WITH_FIELDS};
use crate::plain::table;
use crate::run::Run;

/// Every type, every field number, and counts of every size.
pub fn scaled(run: &mut Run) {
    for kind in 0..64 {
        for field in (0..=30).chain([255, 256 + 21, 1 << 16, 1 << 32, 1 << 63, usize::MAX]) {
            for _ in 0..40 * run.long {
                let record = make::record(&mut run.random, kind);
                run.scaled(&record, field);
            }
        }
    }
    for kind in WITH_FIELDS {
        let fields = table::information(kind).unwrap_or_default();
        for (place, field) in fields.iter().enumerate() {
            let mut record = make::record(&mut run.random, kind);
            // Every power of two in range with its neighbours, both signs, and minus zero.
            let mut counts = vec![field.low, field.high];
            for power in 0..40 {
                for near in -1..=1 {
                    let count = (1_i64 << power) + near;
                    counts.extend([count, -count]);
                }
            }
            for count in counts {
                record.minus &= !(1 << place);
                record.numbers[place] = count;
                run.scaled(&record, place + 10);
            }
            record.numbers[place] = 0;
            record.minus |= 1 << place;
            run.scaled(&record, place + 10);
        }
    }
}

const EXTREMES: [i64; 10] = [
    i64::MIN,
    i64::MIN + 1,
    i64::MIN + 15,
    -(1 << 32) + 1,
    -256,
    255,
    256,
    1 << 32,
    i64::MAX - 15,
    i64::MAX,
];

pub fn accuracy(run: &mut Run) {
    for factor in (-300..=300).chain(EXTREMES) {
        run.compare(Accuracy { factor });
    }
}

pub fn day_count(run: &mut Run) {
    let n4s: Vec<i64> = (-1..=33).chain(EXTREMES).collect();
    for n4 in &n4s {
        for nt in (-2..=1464).chain([2047, 2048, 65535]).chain(EXTREMES) {
            run.compare(DayCount { n4: *n4, nt });
        }
    }
}
