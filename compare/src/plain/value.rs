//! Scaled values, the accuracy factor and the day count.

use super::{record_passes, refuse, table};
use l1oc::{Answer, Record};

/// A field as its count times its power of two. The digits of the f64 are set one by one.
pub fn scaled(record: &Record, field: usize) -> Result<f64, Answer> {
    record_passes(record)?;
    // "A number that names no field of the type, or a field without a power, gives 7."
    let unnamed = refuse(7, field as u64);
    let fields = table::information(record.kind).ok_or(unnamed)?;
    if field < 10 || field - 10 >= fields.len() {
        return Err(unnamed);
    }
    let power = fields[field - 10].power.ok_or(unnamed)?;
    Ok(product(record.numbers[field - 10], power))
}

/// count × 2^power, exactly, as sign, exponent and fraction of an f64.
fn product(count: i64, power: i32) -> f64 {
    if count == 0 {
        // "Minus zero gives plus zero."
        return f64::from_bits(0);
    }
    let sign = if count < 0 { "1" } else { "0" };
    // The magnitude is 1.fraction × 2^(digits - 1); it has at most 40 digits, so 52 hold it.
    let digits = format!("{:b}", count.unsigned_abs());
    let exponent = format!("{:011b}", 1023 + power + digits.len() as i32 - 1);
    let fraction = format!("{:0<52}", &digits[1..]);
    let text = format!("{sign}{exponent}{fraction}");
    f64::from_bits(u64::from_str_radix(&text, 2).expect("64 digits"))
}

/// Table 5.3 of document 000, in metres, from factor -15; 15 is not defined.
const ACCURACY: &str = "0,01 0,02 0,03 0,04 0,06 0,08 0,1 0,15 0,2 0,3 0,4 0,6 \
                        0,7 0,8 0,9 1 2 2,5 4 5 7 10 12 14 \
                        16 32 64 128 256 512";

/// The accuracy factor in centimetres.
pub fn accuracy(factor: i64) -> Result<u64, Answer> {
    if !(-15..=15).contains(&factor) {
        return Err(refuse(7, 19));
    }
    if factor == 15 {
        return Ok(0);
    }
    let place = (factor + 15) as usize;
    let metres = ACCURACY.split(' ').nth(place).expect("30 entries");
    let (whole, part) = metres.split_once(',').unwrap_or((metres, ""));
    // Two digits after the comma are the centimetres.
    Ok(format!("{whole}{part:0<2}").parse().expect("digits"))
}

/// The days from 1 January 1996 to the day NT of interval N4.
pub fn day_count(n4: i64, nt: i64) -> Result<u64, Answer> {
    if !(1..=31).contains(&n4) {
        return Err(refuse(7, 10));
    }
    if !(1..=1461).contains(&nt) {
        return Err(refuse(7, 11));
    }
    let mut days = 0;
    for _interval in 1..n4 {
        days += 1461;
    }
    for _day in 1..nt {
        days += 1;
    }
    Ok(days)
}
