//! The day count.

use super::{answer, Call};
use crate::plain::value;
use l1oc::refusal::OUT_OF_RANGE;
use l1oc::{c, Answer};

#[derive(Clone)]
pub struct DayCount {
    pub n4: i64,
    pub nt: i64,
}

impl Call for DayCount {
    const NAME: &'static str = "day count";
    const NUMBERS: &'static [u64] = &[0, OUT_OF_RANGE];
    type Lent = ();
    type Given = ();

    fn lend(&self) {}

    fn plain(&self, _: &mut ()) -> (Answer, ()) {
        (answer(value::day_count(self.n4, self.nt)), ())
    }

    fn declared(&self, _: &mut ()) -> (Answer, ()) {
        // SAFETY: everything goes by value.
        (unsafe { c::l1oc_day_count(self.n4, self.nt) }, ())
    }

    fn safe(&self, _: &mut ()) -> (Answer, ()) {
        (l1oc::day_count(self.n4, self.nt), ())
    }

    fn input(&self) -> String {
        format!("n4 {}, nt {}", self.n4, self.nt)
    }
}
