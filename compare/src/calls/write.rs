//! Writing.

use super::{answer, hex, Call, Outcome};
use crate::lent::Lent;
use crate::plain;
use crate::run::Run;
use crate::shrink::Shrink;
use l1oc::refusal::*;
use l1oc::{c, Answer, Record};

#[derive(Clone)]
pub struct Write {
    pub bytes: Vec<u8>,
    pub count: usize,
    pub place: usize,
    pub record: Record,
}

impl Call for Write {
    const NAME: &'static str = "writing";
    const NUMBERS: &'static [u64] = &[
        0,
        TOO_LONG,
        BEYOND_BYTES,
        BEYOND_COUNT,
        RUNS_OUT,
        OUT_OF_RANGE,
        OTHER_ORBIT,
        MINUS_ZERO,
        NOT_ZERO,
    ];
    type Lent = Lent<u8>;
    type Given = ();

    fn lend(&self) -> Lent<u8> {
        Lent::bytes(&self.bytes)
    }

    fn plain(&self, bytes: &mut Lent<u8>) -> (Answer, ()) {
        let after = plain::write(bytes, self.count, self.place, &self.record);
        (answer(after.map(|after| after as u64)), ())
    }

    fn declared(&self, bytes: &mut Lent<u8>) -> (Answer, ()) {
        let (lent, length) = (bytes.as_mut_ptr(), bytes.len());
        // SAFETY: the slice is lent whole, with its length.
        let answer = unsafe { c::l1oc_write(lent, length, self.count, self.place, self.record) };
        (answer, ())
    }

    fn safe(&self, bytes: &mut Lent<u8>) -> (Answer, ()) {
        (l1oc::write(bytes, self.count, self.place, self.record), ())
    }

    fn shrink(shrink: &mut Shrink<Self>) {
        shrink.recording(|call| (&mut call.bytes, &mut call.count, Some(&mut call.place)));
        shrink.record(|call| &mut call.record);
    }

    fn input(&self) -> String {
        let (bytes, record) = (hex(&self.bytes), self.record);
        format!(
            "count {}, place {}, bytes {bytes}\n  {record:?}",
            self.count, self.place
        )
    }
}

impl Outcome<Write> {
    /// The recording afterwards.
    pub fn recording(&self) -> Vec<u8> {
        self.lent.to_vec()
    }
}

impl Run {
    pub fn write(
        &mut self,
        bytes: &[u8],
        count: usize,
        place: usize,
        record: &Record,
    ) -> Outcome<Write> {
        self.compare(Write {
            bytes: bytes.to_vec(),
            count,
            place,
            record: *record,
        })
    }
}
