//! The second implementation: documents 000 and 01, and the requests after them, written out with
//! texts of '0' and '1'. It is slow, and meant to be held beside the papers.

pub mod book;
pub mod check;
pub mod report;
pub mod set;
pub mod table;
pub mod value;

use l1oc::{Answer, Mark, Phase, Record};
use table::Field;

/// "Bit count above 524,288."
pub const LIMIT: usize = 524_288;

/// The time mark, bits 1 to 12.
pub const MARK: &str = "010111110001";

pub fn refuse(number: u64, value: u64) -> Answer {
    Answer { number, value }
}

/// Type 1 has 125 bits, type 2 has 375, every other type 250.
pub fn length(kind: u8) -> usize {
    match kind {
        1 => 125,
        2 => 375,
        _ => 250,
    }
}

/// The bits of a recording at the places from..to; the high bit of a byte comes first.
pub fn bits(bytes: &[u8], from: usize, to: usize) -> String {
    let digits = (from..to).map(|place| b'0' + (bytes[place / 8] >> (7 - place % 8) & 1));
    String::from_utf8(digits.collect()).expect("digits")
}

/// The true bits of a recording at the places from..to: where the radio loop has settled half a turn
/// off, "every bit is inverted".
fn true_bits(bytes: &[u8], phase: Phase, from: usize, to: usize) -> String {
    let recorded = bits(bytes, from, to);
    match phase {
        Phase::Straight => recorded,
        Phase::Inverted => turned(&recorded),
    }
}

/// The text with every '0' a '1' and every '1' a '0'.
pub fn turned(text: &str) -> String {
    let digits = text
        .bytes()
        .map(|digit| if digit == b'0' { b'1' } else { b'0' });
    String::from_utf8(digits.collect()).expect("digits")
}

/// A text of bits as a number, high bit first.
fn number(bits: &str) -> i64 {
    i64::from_str_radix(bits, 2).expect("at most 40 binary digits")
}

/// Refusals 1 and 2.
fn count_passes(bytes: &[u8], count: usize) -> Result<(), Answer> {
    if count > LIMIT {
        return Err(refuse(1, 0));
    }
    if count > 8 * bytes.len() {
        return Err(refuse(2, 0));
    }
    Ok(())
}

/// Whether a string stands where the text begins, and its length: "the mark is there, its
/// type's length fits in the bit count, and the check passes".
fn stands(text: &str) -> Option<usize> {
    if !text.starts_with(MARK) || text.len() < 18 {
        return None;
    }
    let kind = number(&text[12..18]) as u8;
    let string = text.get(..length(kind))?;
    check::passes(string, kind).then_some(string.len())
}

/// Listing: the starts go to the list; the answer is their count.
pub fn list(bytes: &[u8], count: usize, phase: Phase, list: &mut [u32]) -> Result<usize, Answer> {
    count_passes(bytes, count)?;
    let text = true_bits(bytes, phase, 0, count);
    let mut starts = Vec::new();
    let mut place = 0;
    while place < count {
        match stands(&text[place..]) {
            Some(length) => {
                starts.push(place as u32);
                place += length;
            }
            None => place += 1,
        }
    }
    if starts.len() > list.len() {
        return Err(refuse(9, starts.len() as u64));
    }
    list[..starts.len()].copy_from_slice(&starts);
    Ok(starts.len())
}

/// Reading tests 1, 2, 3, 5 (18 bits), 4, 5, 6, 7, 8.
pub fn read(bytes: &[u8], count: usize, phase: Phase, place: usize) -> Result<Record, Answer> {
    count_passes(bytes, count)?;
    let at = place as u64;
    if place > count {
        return Err(refuse(3, at));
    }
    let left = count - place;
    if left < 18 {
        return Err(refuse(5, at));
    }
    // No string is longer than 375 bits.
    let text = true_bits(bytes, phase, place, place + left.min(375));
    if !text.starts_with(MARK) {
        return Err(refuse(4, at));
    }
    let kind = number(&text[12..18]) as u8;
    if length(kind) > left {
        return Err(refuse(5, at));
    }
    let string = &text[..length(kind)];
    if !check::passes(string, kind) {
        return Err(refuse(6, at));
    }
    let record = take(string, kind);
    ranges_pass(&record)?;
    Ok(record)
}

/// The fields of a string whose check passes, as they stand.
fn take(string: &str, kind: u8) -> Record {
    let mut rest = &string[MARK.len()..string.len() - check::width(kind)];
    let mut next = |field: &Field| {
        let (bits, after) = rest.split_at(field.width);
        rest = after;
        bits
    };
    let service: Vec<i64> = table::service().iter().map(&mut next).map(number).collect();
    let mut record = Record {
        kind: service[0] as u8,
        satellite: service[1] as u8,
        signal: service[2] as u8,
        validity: service[3] as u8,
        call: service[4] as u8,
        attitude: service[5] as u8,
        correction: service[6] as u8,
        next: service[7] as u8,
        time: service[8] as u64,
        ..Record::BLANK
    };
    if let Some(fields) = table::information(kind) {
        for (place, field) in fields.iter().enumerate() {
            let bits = next(field);
            if !field.signed {
                record.numbers[place] = number(bits);
                continue;
            }
            // A sign bit, then a magnitude; 1 is minus (4.1.3).
            let (sign, magnitude) = bits.split_at(1);
            match (sign, number(magnitude)) {
                ("1", 0) => record.minus |= 1 << place,
                ("1", magnitude) => record.numbers[place] = -magnitude,
                (_, magnitude) => record.numbers[place] = magnitude,
            }
        }
    } else {
        // "Information bits as they come, high bit first, the last byte filled up with zeros."
        let all = format!("{rest:0<304}");
        for (place, byte) in record.raw.iter_mut().enumerate() {
            *byte = number(&all[8 * place..8 * place + 8]) as u8;
        }
    }
    record
}

/// The service fields of a record in the order of their numbers 1 to 9. OMB may be any of 64 bits.
fn service_values(record: &Record) -> [i128; 9] {
    [
        record.kind.into(),
        record.satellite.into(),
        record.signal.into(),
        record.validity.into(),
        record.call.into(),
        record.attitude.into(),
        record.correction.into(),
        record.next.into(),
        record.time.into(),
    ]
}

/// Refusals 7 and 8: the first field out of range, then type 20 with an orbit other than 00.
fn ranges_pass(record: &Record) -> Result<(), Answer> {
    let mut fields = table::service();
    fields.extend(table::information(record.kind).unwrap_or_default());
    let mut values = service_values(record).to_vec();
    values.extend(record.numbers.map(i128::from));
    for (place, field) in fields.iter().enumerate() {
        if values[place] < field.low.into() || values[place] > field.high.into() {
            return Err(refuse(7, place as u64 + 1));
        }
    }
    if record.kind == 20 && record.numbers[0] != 0 {
        return Err(refuse(8, 10));
    }
    Ok(())
}

/// How many raw bits a type has: its information bits, or none if it has fields.
pub fn raw_width(kind: u8) -> usize {
    match table::information(kind) {
        Some(_) => 0,
        None => length(kind) - check::width(kind) - 50,
    }
}

/// The record as writing tests it: 7, 8, 11, 10.
pub fn record_passes(record: &Record) -> Result<(), Answer> {
    ranges_pass(record)?;
    let fields = table::information(record.kind).unwrap_or_default();
    let unused = &record.numbers[fields.len()..];
    let raw = bits(&record.raw, 0, 8 * record.raw.len());
    let filling = &raw[raw_width(record.kind)..];
    if unused.iter().any(|number| *number != 0) || filling.contains('1') {
        return Err(refuse(11, 0));
    }
    for bit in 0..Mark::BITS as usize {
        let marked = record.minus >> bit & 1 == 1;
        let zero = bit < fields.len() && fields[bit].signed && record.numbers[bit] == 0;
        if marked && !zero {
            return Err(refuse(10, bit as u64));
        }
    }
    Ok(())
}

/// The bits of a string before its check bits, from a record that passes.
pub fn text_before_check(record: &Record) -> String {
    let mut text = String::from(MARK);
    for (field, value) in table::service().iter().zip(service_values(record)) {
        text += &format!("{value:0width$b}", width = field.width);
    }
    let fields = table::information(record.kind).unwrap_or_default();
    for (place, field) in fields.iter().enumerate() {
        let value = record.numbers[place];
        let mut width = field.width;
        if field.signed {
            let minus = value < 0 || record.minus >> place & 1 == 1;
            text += if minus { "1" } else { "0" };
            width -= 1;
        }
        text += &format!("{:0width$b}", value.unsigned_abs());
    }
    text + &bits(&record.raw, 0, raw_width(record.kind))
}

/// Writing, always straight, tests 1, 2, 3, 7, 8, 11, 10, 5; the answer is the place after the
/// string.
pub fn write(
    bytes: &mut [u8],
    count: usize,
    place: usize,
    record: &Record,
) -> Result<usize, Answer> {
    count_passes(bytes, count)?;
    if place > count {
        return Err(refuse(3, place as u64));
    }
    record_passes(record)?;
    if length(record.kind) > count - place {
        return Err(refuse(5, place as u64));
    }
    let before = text_before_check(record);
    let string = before.clone() + &check::bits(&before, record.kind);
    for (offset, bit) in string.bytes().enumerate() {
        let (byte, mask) = ((place + offset) / 8, 128 >> ((place + offset) % 8));
        match bit {
            b'1' => bytes[byte] |= mask,
            _ => bytes[byte] &= !mask,
        }
    }
    Ok(place + string.len())
}
