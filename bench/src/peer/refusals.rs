//! The tests of a record: 7, 8, 11, 10.
use super::answer;
use super::layout::{self, Field};
use l1oc::refusal::{MINUS_ZERO, NOT_ZERO, OTHER_ORBIT, OUT_OF_RANGE};
use l1oc::{Answer, Record};

/// Test 7 of field `number`.
#[inline]
pub fn range(number: usize, value: i64, least: i64, most: i64) -> Result<(), Answer> {
    if value < least || value > most {
        return Err(answer(OUT_OF_RANGE, number));
    }
    Ok(())
}

/// All tests of a record with these information fields.
pub fn record_tests(r: &Record, fields: &[Field]) -> Result<(), Answer> {
    service_ranges(r)?;
    for (i, (field, &value)) in fields.iter().zip(&r.numbers).enumerate() {
        range(10 + i, value, field.least, field.most)?;
    }
    orbit_test(r)?;
    let unused = &r.numbers[fields.len()..];
    if unused.iter().any(|&v| v != 0) || !raw_clear(r) {
        return Err(answer(NOT_ZERO, 0));
    }
    minus_test(r, fields)
}

/// Test 7 of the service fields.
fn service_ranges(r: &Record) -> Result<(), Answer> {
    let fields = [
        (r.kind, 0, 63),
        (r.satellite, 1, 63),
        (r.signal, 0, 1),
        (r.validity, 0, 1),
        (r.call, 0, 15),
        (r.attitude, 0, 1),
        (r.correction, 0, 3),
        (r.next, 0, 1),
    ];
    for (i, (value, least, most)) in fields.into_iter().enumerate() {
        range(1 + i, value.into(), least, most)?;
    }
    time(r)
}

/// Test 7 of OMB.
pub fn time(r: &Record) -> Result<(), Answer> {
    if r.time > 43199 {
        return Err(answer(OUT_OF_RANGE, 9));
    }
    Ok(())
}

/// Test 8.
pub fn orbit_test(r: &Record) -> Result<(), Answer> {
    if r.kind == 20 && r.numbers[0] != 0 {
        return Err(answer(OTHER_ORBIT, 10));
    }
    Ok(())
}

/// Whether no raw bit past the type's own is one.
fn raw_clear(r: &Record) -> bool {
    let count = layout::raw_bits(r.kind);
    let (head, tail) = r.raw.split_at(count.div_ceil(8));
    let filling = match count % 8 {
        0 => 0,
        rest => head[count / 8] << rest,
    };
    tail.iter().fold(filling, |seen, byte| seen | byte) == 0
}

/// Test 10.
fn minus_test(r: &Record, fields: &[Field]) -> Result<(), Answer> {
    let mut marks = r.minus;
    while marks != 0 {
        let bit = marks.trailing_zeros() as usize;
        match fields.get(bit) {
            Some(field) if field.signed && r.numbers[bit] == 0 => marks &= marks - 1,
            _ => return Err(answer(MINUS_ZERO, bit)),
        }
    }
    Ok(())
}
