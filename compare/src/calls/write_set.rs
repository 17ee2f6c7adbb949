//! Writing a set.

use super::{answer, hex, Call, Outcome};
use crate::lent::Lent;
use crate::plain;
use crate::run::Run;
use crate::shrink::Shrink;
use l1oc::refusal::*;
use l1oc::{c, Answer, Set};

#[derive(Clone)]
pub struct WriteSet {
    pub bytes: Vec<u8>,
    pub count: usize,
    pub place: usize,
    pub set: Set,
}

impl Call for WriteSet {
    const NAME: &'static str = "writing a set";
    const NUMBERS: &'static [u64] = &[
        0,
        TOO_LONG,
        BEYOND_BYTES,
        BEYOND_COUNT,
        RUNS_OUT,
        OUT_OF_RANGE,
        OTHER_ORBIT,
        MINUS_ZERO,
        NOT_ZERO,
        OTHER_TYPES,
        OTHER_SATELLITES,
        OTHER_TIMES,
    ];
    type Lent = Lent<u8>;
    type Given = ();

    fn lend(&self) -> Lent<u8> {
        Lent::bytes(&self.bytes)
    }

    fn plain(&self, bytes: &mut Lent<u8>) -> (Answer, ()) {
        let after = plain::set::write(bytes, self.count, self.place, &self.set);
        (answer(after.map(|after| after as u64)), ())
    }

    fn declared(&self, bytes: &mut Lent<u8>) -> (Answer, ()) {
        let (lent, length) = (bytes.as_mut_ptr(), bytes.len());
        // SAFETY: the slice is lent whole, with its length.
        let answer = unsafe { c::l1oc_write_set(lent, length, self.count, self.place, self.set) };
        (answer, ())
    }

    fn safe(&self, bytes: &mut Lent<u8>) -> (Answer, ()) {
        (l1oc::write_set(bytes, self.count, self.place, self.set), ())
    }

    fn shrink(shrink: &mut Shrink<Self>) {
        shrink.recording(|call| (&mut call.bytes, &mut call.count, Some(&mut call.place)));
        shrink.record(|call| &mut call.set.first);
        shrink.record(|call| &mut call.set.second);
        shrink.record(|call| &mut call.set.third);
    }

    fn input(&self) -> String {
        let (bytes, set) = (hex(&self.bytes), self.set);
        format!(
            "count {}, place {}, bytes {bytes}\n  {set:?}",
            self.count, self.place
        )
    }
}

impl Outcome<WriteSet> {
    /// The recording afterwards.
    pub fn recording(&self) -> Vec<u8> {
        self.lent.to_vec()
    }
}

impl Run {
    pub fn write_set(
        &mut self,
        bytes: &[u8],
        count: usize,
        place: usize,
        set: &Set,
    ) -> Outcome<WriteSet> {
        self.compare(WriteSet {
            bytes: bytes.to_vec(),
            count,
            place,
            set: *set,
        })
    }
}
