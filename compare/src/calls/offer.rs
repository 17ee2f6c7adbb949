//! Offering a record to a book.

use super::{answer, entries, Call, Outcome};
use crate::lent::LentBook;
use crate::plain::book;
use crate::run::Run;
use crate::shrink::Shrink;
use l1oc::offered::TAKEN;
use l1oc::refusal::*;
use l1oc::{c, Answer, Book, Record, SATELLITES};

#[derive(Clone)]
pub struct Offer {
    pub book: Book,
    pub record: Record,
}

impl Call for Offer {
    const NAME: &'static str = "offering";
    const NUMBERS: &'static [u64] = &[
        0,
        OUT_OF_RANGE,
        OTHER_ORBIT,
        MINUS_ZERO,
        NOT_ZERO,
        NOT_ALMANAC,
    ];
    type Lent = LentBook;
    type Given = ();

    fn lend(&self) -> LentBook {
        LentBook::new(&self.book)
    }

    fn plain(&self, book: &mut LentBook) -> (Answer, ()) {
        (answer(book::offer(book, &self.record)), ())
    }

    fn declared(&self, book: &mut LentBook) -> (Answer, ()) {
        (declared(book, &self.record), ())
    }

    fn safe(&self, book: &mut LentBook) -> (Answer, ()) {
        (l1oc::offer(book, self.record), ())
    }

    fn shrink(shrink: &mut Shrink<Self>) {
        shrink.book(|call| &mut call.book);
        shrink.record(|call| &mut call.record);
        shrink.record(|call| {
            let place = usize::from(call.record.satellite).clamp(1, SATELLITES) - 1;
            &mut call.book.entries[place].content
        });
    }

    fn input(&self) -> String {
        format!("{:?}\n  book {}", self.record, entries(&self.book))
    }
}

/// Offers the record by the function as C declares it.
pub fn declared(book: &mut Book, record: &Record) -> Answer {
    // SAFETY: the book is lent whole.
    unsafe { c::l1oc_offer(book, *record) }
}

impl Outcome<Offer> {
    pub fn taken(&self) -> bool {
        (self.answer.number, self.answer.value) == (0, TAKEN)
    }

    /// The book afterwards.
    pub fn book(&self) -> Book {
        self.lent.clone()
    }
}

impl Run {
    pub fn offer(&mut self, book: &Book, record: &Record) -> Outcome<Offer> {
        self.compare(Offer {
            book: book.clone(),
            record: *record,
        })
    }
}
