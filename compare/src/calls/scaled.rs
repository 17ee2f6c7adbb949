//! Scaling.

use super::{answer, Call, Outcome};
use crate::plain::value;
use crate::run::Run;
use crate::shrink::Shrink;
use l1oc::refusal::*;
use l1oc::{c, Answer, Record, Value};
use std::fmt;

#[derive(Clone)]
pub struct Scaled {
    pub record: Record,
    pub field: usize,
}

/// An f64, compared by its bits.
#[derive(PartialEq)]
pub struct Bits(u64);

impl fmt::Debug for Bits {
    fn fmt(&self, out: &mut fmt::Formatter) -> fmt::Result {
        write!(out, "{:e}, bits {:016x}", f64::from_bits(self.0), self.0)
    }
}

impl Call for Scaled {
    const NAME: &'static str = "scaling";
    const NUMBERS: &'static [u64] = &[0, OUT_OF_RANGE, OTHER_ORBIT, MINUS_ZERO, NOT_ZERO];
    type Lent = ();
    type Given = Bits;

    fn lend(&self) {}

    fn plain(&self, _: &mut ()) -> (Answer, Bits) {
        let scaled = value::scaled(&self.record, self.field);
        let bits = Bits(scaled.unwrap_or(0.0).to_bits());
        (answer(scaled.map(|_| 0)), bits)
    }

    fn declared(&self, _: &mut ()) -> (Answer, Bits) {
        // SAFETY: everything goes by value.
        parts(unsafe { c::l1oc_scaled(self.record, self.field) })
    }

    fn safe(&self, _: &mut ()) -> (Answer, Bits) {
        parts(l1oc::scaled(self.record, self.field))
    }

    fn shrink(shrink: &mut Shrink<Self>) {
        shrink.record(|call| &mut call.record);
    }

    fn input(&self) -> String {
        format!("field {}\n  {:?}", self.field, self.record)
    }
}

fn parts(value: Value) -> (Answer, Bits) {
    let Value {
        number,
        value,
        scaled,
    } = value;
    (Answer { number, value }, Bits(scaled.to_bits()))
}

impl Run {
    pub fn scaled(&mut self, record: &Record, field: usize) -> Outcome<Scaled> {
        let record = *record;
        self.compare(Scaled { record, field })
    }
}
