//! Reading the string at a place.
use super::bits::{self, STRAIGHT};
use super::{answer, check_passes, layout, place_tests, refusals, MARK};
use l1oc::refusal::{CHECK_FAILS, NO_MARK, RUNS_OUT};
use l1oc::{Answer, Mark, Reading, Record, RAW_BYTES};

/// Reads the string at a place.
pub fn read<const PHASE: u8>(bytes: &[u8], count: usize, place: usize) -> Reading {
    let mut reading = Reading {
        number: 0,
        value: 0,
        content: Record::BLANK,
    };
    match fill::<PHASE>(bytes, count, place, &mut reading.content) {
        Ok(_) => reading,
        Err(Answer { number, value }) => Reading {
            number,
            value,
            content: Record::BLANK,
        },
    }
}

/// Fills a blank record from the string at a place; then the place after it.
pub fn fill<const PHASE: u8>(
    bytes: &[u8],
    count: usize,
    place: usize,
    r: &mut Record,
) -> Result<usize, Answer> {
    let kind = string_tests::<PHASE>(bytes, count, place)?;
    decode::<PHASE>(bytes, place, kind, r)?;
    Ok(place + layout::length(kind))
}

/// Tests 1, 2, 3, 5, 4, 5, 6; then the type of the string.
fn string_tests<const PHASE: u8>(bytes: &[u8], count: usize, place: usize) -> Result<u8, Answer> {
    place_tests(bytes, count, place)?;
    if count - place < 18 {
        return Err(answer(RUNS_OUT, place));
    }
    let head = bits::field::<PHASE>(bytes, place, 18);
    if head >> 6 != MARK {
        return Err(answer(NO_MARK, place));
    }
    let kind = (head & 63) as u8;
    if count - place < layout::length(kind) {
        return Err(answer(RUNS_OUT, place));
    }
    if !check_passes::<PHASE>(bytes, place, kind) {
        return Err(answer(CHECK_FAILS, place));
    }
    Ok(kind)
}

/// Fills a blank record with the fields of a string that stands, up to one that tests 7 and 8 refuse.
fn decode<const PHASE: u8>(
    bytes: &[u8],
    place: usize,
    kind: u8,
    r: &mut Record,
) -> Result<(), Answer> {
    let offset = place % 8;
    let end = (place + layout::length(kind)).div_ceil(8);
    let part = &bytes[place / 8..end];
    let mut window = [0; bits::WINDOW];
    window[..part.len()].copy_from_slice(part);
    if PHASE != STRAIGHT {
        window.iter_mut().for_each(|byte| *byte ^= PHASE);
    }

    let service = bits::field::<STRAIGHT>(&window, offset + 18, 32);
    r.kind = kind;
    r.satellite = (service >> 26 & 63) as u8;
    r.signal = (service >> 25 & 1) as u8;
    r.validity = (service >> 24 & 1) as u8;
    r.call = (service >> 20 & 15) as u8;
    r.attitude = (service >> 19 & 1) as u8;
    r.correction = (service >> 17 & 3) as u8;
    r.next = (service >> 16 & 1) as u8;
    r.time = service & 0xFFFF;
    refusals::range(2, r.satellite.into(), 1, 63)?;
    refusals::time(r)?;

    let mut at = offset + 50;
    let fields = layout::fields_of(kind);
    for (i, (field, number)) in fields.iter().zip(&mut r.numbers).enumerate() {
        let value = bits::field::<STRAIGHT>(&window, at, field.width);
        at += field.width as usize;
        if field.signed {
            let minus_zero = 1 << (field.width - 1);
            *number = if value < minus_zero {
                value as i64
            } else {
                -((value - minus_zero) as i64)
            };
            r.minus |= Mark::from(value == minus_zero) << i;
        } else {
            *number = value as i64;
            refusals::range(10 + i, *number, field.least, field.most)?;
        }
    }
    refusals::orbit_test(r)?;
    if fields.is_empty() {
        copy_raw(&window, at, layout::raw_bits(kind), &mut r.raw);
    }
    Ok(())
}

/// Copies `count` bits to whole bytes, the last filled up with zeros.
fn copy_raw(window: &[u8; bits::WINDOW], from: usize, count: usize, raw: &mut [u8; RAW_BYTES]) {
    let raw = &mut raw[..count.div_ceil(8)];
    for (i, chunk) in raw.chunks_mut(8).enumerate() {
        let word = bits::any_word(window, from + 64 * i);
        chunk.copy_from_slice(&word.to_be_bytes()[..chunk.len()]);
    }
    if let (Some(last), rest @ 1..) = (raw.last_mut(), count % 8) {
        *last &= 0xFF << (8 - rest);
    }
}
