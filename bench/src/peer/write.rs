//! Writing a record as a string.
use super::bits::{self, Writer, STRAIGHT};
use super::{answer, check, layout, place_tests, refusals, MARK};
use l1oc::refusal::RUNS_OUT;
use l1oc::{Answer, Record};

/// Writes the string of a record at a place.
pub fn write(bytes: &mut [u8], count: usize, place: usize, r: &Record) -> Answer {
    match write_string(bytes, count, place, r) {
        Ok(next) => answer(0, next),
        Err(refusal) => refusal,
    }
}

fn write_string(bytes: &mut [u8], count: usize, place: usize, r: &Record) -> Result<usize, Answer> {
    place_tests(bytes, count, place)?;
    let fields = layout::fields_of(r.kind);
    refusals::record_tests(r, fields)?;
    if count - place < layout::length(r.kind) {
        return Err(answer(RUNS_OUT, place));
    }
    Ok(put(bytes, place, r, fields))
}

/// Puts the string of a record that passes; then the place after it.
pub fn put(bytes: &mut [u8], place: usize, r: &Record, fields: &[layout::Field]) -> usize {
    let length = layout::length(r.kind);
    let (offset, end) = (place % 8, place + length);
    let mut string = encode(offset, r, fields);
    add_check(&mut string, offset + length, r.kind);
    merge(
        &mut bytes[place / 8..end.div_ceil(8)],
        &mut string,
        offset,
        end,
    );
    end
}

/// The bits of a record's string before its check bits, after `offset` zeros.
fn encode(offset: usize, r: &Record, fields: &[layout::Field]) -> [u8; bits::WINDOW] {
    let mut writer = Writer::new(offset);
    writer.put(50, MARK << 38 | service(r));
    for (i, (field, &number)) in fields.iter().zip(&r.numbers).enumerate() {
        let minus = number < 0 || r.minus >> i & 1 == 1;
        let sign = u64::from(minus) << (field.width - 1);
        writer.put(field.width, sign | number.unsigned_abs());
    }
    if fields.is_empty() {
        let mut left = layout::raw_bits(r.kind);
        for chunk in r.raw.chunks(8).take(left.div_ceil(64)) {
            let width = left.min(64) as u32;
            writer.put(width, bits::word::<STRAIGHT>(chunk, 0) >> (64 - width));
            left -= width as usize;
        }
    }
    writer.finish()
}

/// Bits 13 to 50.
fn service(r: &Record) -> u64 {
    u64::from(r.kind) << 32
        | u64::from(r.satellite) << 26
        | u64::from(r.signal) << 25
        | u64::from(r.validity) << 24
        | u64::from(r.call) << 20
        | u64::from(r.attitude) << 19
        | u64::from(r.correction) << 17
        | u64::from(r.next) << 16
        | r.time
}

/// Puts the check bits, up to the place `end`.
fn add_check(string: &mut [u8; bits::WINDOW], end: usize, kind: u8) {
    let at = end - layout::degree(kind);
    let table = if kind == 2 {
        &check::TABLE24
    } else {
        &check::TABLE16
    };
    let check = check::check_bits(table, string, at) >> (at % 8);
    let target = &mut string[at / 8..at / 8 + 4];
    for (byte, bits) in target.iter_mut().zip(check.to_be_bytes()) {
        *byte |= bits;
    }
}

/// Puts the string into the bytes that it covers, and keeps their bits before and after it.
fn merge(part: &mut [u8], string: &mut [u8; bits::WINDOW], offset: usize, end: usize) {
    let last = part.len() - 1;
    string[0] |= part[0] & !(0xFF >> offset);
    string[last] |= part[last] & (0x7F >> ((end + 7) % 8));
    part.copy_from_slice(&string[..=last]);
}
