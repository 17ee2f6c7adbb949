//! The accuracy factor.

use super::{answer, Call};
use crate::plain::value;
use l1oc::refusal::OUT_OF_RANGE;
use l1oc::{c, Answer};

#[derive(Clone)]
pub struct Accuracy {
    pub factor: i64,
}

impl Call for Accuracy {
    const NAME: &'static str = "accuracy";
    const NUMBERS: &'static [u64] = &[0, OUT_OF_RANGE];
    type Lent = ();
    type Given = ();

    fn lend(&self) {}

    fn plain(&self, _: &mut ()) -> (Answer, ()) {
        (answer(value::accuracy(self.factor)), ())
    }

    fn declared(&self, _: &mut ()) -> (Answer, ()) {
        // SAFETY: everything goes by value.
        (unsafe { c::l1oc_accuracy(self.factor) }, ())
    }

    fn safe(&self, _: &mut ()) -> (Answer, ()) {
        (l1oc::accuracy(self.factor), ())
    }

    fn input(&self) -> String {
        format!("factor {}", self.factor)
    }
}
