//! Listing.

use super::{answer, hex, opposite, phase, Call, Outcome, STRAIGHT};
use crate::lent::Lent;
use crate::plain;
use crate::run::Run;
use crate::shrink::Shrink;
use l1oc::refusal::*;
use l1oc::{c, Answer};

#[derive(Clone)]
pub struct List {
    pub bytes: Vec<u8>,
    pub count: usize,
    pub phase: u32,
    pub room: usize,
}

impl Call for List {
    const NAME: &'static str = "listing";
    const NUMBERS: &'static [u64] = &[0, TOO_LONG, BEYOND_BYTES, LIST_SHORT];
    type Lent = (Lent<u8>, Lent<u32>);
    type Given = ();

    fn lend(&self) -> Self::Lent {
        (Lent::bytes(&self.bytes), Lent::list(self.room))
    }

    fn plain(&self, (bytes, list): &mut Self::Lent) -> (Answer, ()) {
        let starts = plain::list(bytes, self.count, phase(self.phase), list);
        (answer(starts.map(|starts| starts as u64)), ())
    }

    fn declared(&self, (bytes, list): &mut Self::Lent) -> (Answer, ()) {
        let (lent, length) = (bytes.as_mut_ptr().cast_const(), bytes.len());
        let (list, room) = (list.as_mut_ptr(), list.len());
        // SAFETY: both slices are lent whole, with their lengths.
        let answer = unsafe { c::l1oc_list(lent, length, self.count, self.phase, list, room) };
        (answer, ())
    }

    fn safe(&self, (bytes, list): &mut Self::Lent) -> (Answer, ()) {
        (l1oc::list(bytes, self.count, phase(self.phase), list), ())
    }

    fn opposite(&self) -> Option<Self> {
        let (bytes, phase) = opposite(&self.bytes, self.phase);
        Some(List {
            bytes,
            phase,
            ..*self
        })
    }

    fn shrink(shrink: &mut Shrink<Self>) {
        shrink.phase(|call| &mut call.phase);
        shrink.recording(|call| (&mut call.bytes, &mut call.count, None));
        shrink.number(|call| &mut call.room);
    }

    fn input(&self) -> String {
        let bytes = hex(&self.bytes);
        format!(
            "count {}, phase {}, room {}, bytes {bytes}",
            self.count, self.phase, self.room
        )
    }
}

impl Outcome<List> {
    /// The starts that listing gives.
    pub fn starts(&self) -> &[u32] {
        let starts = match self.answer.number {
            0 => self.lent.1.get(..self.answer.value as usize),
            _ => None,
        };
        starts.unwrap_or_default()
    }
}

impl Run {
    pub fn list(&mut self, bytes: &[u8], count: usize, room: usize) -> Outcome<List> {
        self.list_in(STRAIGHT, bytes, count, room)
    }

    pub fn list_in(
        &mut self,
        phase: u32,
        bytes: &[u8],
        count: usize,
        room: usize,
    ) -> Outcome<List> {
        self.compare(List {
            bytes: bytes.to_vec(),
            count,
            phase,
            room,
        })
    }
}
