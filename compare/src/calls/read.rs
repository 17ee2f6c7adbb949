//! Reading.

use super::{answer, hex, opposite, phase, Call, Outcome, STRAIGHT};
use crate::lent::Lent;
use crate::plain;
use crate::run::Run;
use crate::shrink::Shrink;
use l1oc::refusal::*;
use l1oc::{c, Answer, Reading, Record};

#[derive(Clone)]
pub struct Read {
    pub bytes: Vec<u8>,
    pub count: usize,
    pub phase: u32,
    pub place: usize,
}

impl Call for Read {
    const NAME: &'static str = "reading";
    const NUMBERS: &'static [u64] = &[
        0,
        TOO_LONG,
        BEYOND_BYTES,
        BEYOND_COUNT,
        NO_MARK,
        RUNS_OUT,
        CHECK_FAILS,
        OUT_OF_RANGE,
        OTHER_ORBIT,
    ];
    type Lent = Lent<u8>;
    type Given = Record;

    fn lend(&self) -> Lent<u8> {
        Lent::bytes(&self.bytes)
    }

    fn plain(&self, bytes: &mut Lent<u8>) -> (Answer, Record) {
        let record = plain::read(bytes, self.count, phase(self.phase), self.place);
        (answer(record.map(|_| 0)), record.unwrap_or(Record::BLANK))
    }

    fn declared(&self, bytes: &mut Lent<u8>) -> (Answer, Record) {
        let (lent, length) = (bytes.as_mut_ptr().cast_const(), bytes.len());
        // SAFETY: the slice is lent whole, with its length.
        parts(unsafe { c::l1oc_read(lent, length, self.count, self.phase, self.place) })
    }

    fn safe(&self, bytes: &mut Lent<u8>) -> (Answer, Record) {
        parts(l1oc::read(bytes, self.count, phase(self.phase), self.place))
    }

    fn opposite(&self) -> Option<Self> {
        let (bytes, phase) = opposite(&self.bytes, self.phase);
        Some(Read {
            bytes,
            phase,
            ..*self
        })
    }

    fn shrink(shrink: &mut Shrink<Self>) {
        shrink.phase(|call| &mut call.phase);
        shrink.recording(|call| (&mut call.bytes, &mut call.count, Some(&mut call.place)));
    }

    fn input(&self) -> String {
        let bytes = hex(&self.bytes);
        format!(
            "count {}, phase {}, place {}, bytes {bytes}",
            self.count, self.phase, self.place
        )
    }
}

fn parts(reading: Reading) -> (Answer, Record) {
    let Reading {
        number,
        value,
        content,
    } = reading;
    (Answer { number, value }, content)
}

impl Run {
    pub fn read(&mut self, bytes: &[u8], count: usize, place: usize) -> Outcome<Read> {
        self.read_in(STRAIGHT, bytes, count, place)
    }

    pub fn read_in(
        &mut self,
        phase: u32,
        bytes: &[u8],
        count: usize,
        place: usize,
    ) -> Outcome<Read> {
        self.compare(Read {
            bytes: bytes.to_vec(),
            count,
            phase,
            place,
        })
    }
}
