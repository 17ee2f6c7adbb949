//! Minus-zero marks that are not allowed, unused places and filling bits.

use super::records::write_and_scale;
use crate::make;
use crate::plain;
use crate::plain::table;
use crate::run::Run;
use l1oc::{Mark, NUMBERS, RAW_BYTES};

/// Each bit of the minus-zero mark on each type, and marks of many bits.
pub fn minus(run: &mut Run) {
    for kind in 0..64 {
        let fields = table::information(kind).unwrap_or_default();
        for bit in 0..Mark::BITS as usize {
            // With the number as it comes, zero (where the field may be), and not zero.
            for number in [None, Some(0), Some(1)] {
                let mut record = make::record(&mut run.random, kind);
                record.minus |= 1 << bit;
                if let (Some(number), true) = (number, bit < fields.len()) {
                    record.numbers[bit] = number;
                }
                write_and_scale(run, &record);
                record.minus = 1 << bit;
                write_and_scale(run, &record);
            }
        }
        for _ in 0..200 * run.long {
            let mut record = make::record(&mut run.random, kind);
            record.minus = run.random.next() as Mark;
            for (place, field) in fields.iter().enumerate() {
                if field.signed && run.random.once_in(2) {
                    record.numbers[place] = 0;
                }
            }
            write_and_scale(run, &record);
        }
    }
}

/// Each number that a type does not use, each raw byte and bit past the type's own.
pub fn unused(run: &mut Run) {
    for kind in 0..64 {
        let fields = table::information(kind).unwrap_or_default();
        for place in fields.len()..NUMBERS {
            for number in [1, -1, 1 << 40, i64::MIN, i64::MAX] {
                let mut record = make::record(&mut run.random, kind);
                record.numbers[place] = number;
                write_and_scale(run, &record);
                // With a mark on the same absent field, 11 comes before 10.
                record.minus |= 1 << place;
                write_and_scale(run, &record);
            }
        }
        for bit in plain::raw_width(kind)..8 * RAW_BYTES {
            let mut record = make::record(&mut run.random, kind);
            record.raw[bit / 8] |= 128 >> (bit % 8);
            write_and_scale(run, &record);
        }
        for _ in 0..4 {
            let mut record = make::record(&mut run.random, kind);
            record.raw = [0; RAW_BYTES].map(|_| run.random.next() as u8);
            write_and_scale(run, &record);
        }
    }
}
