//! Looking up the entry of a satellite in a book.

use super::{answer, entries, Call, Outcome};
use crate::lent::LentBook;
use crate::plain::book;
use crate::run::Run;
use crate::shrink::Shrink;
use l1oc::{c, Answer, Book, BookEntry};

#[derive(Clone)]
pub struct Entry {
    pub book: Book,
    pub satellite: usize,
}

impl Call for Entry {
    const NAME: &'static str = "looking up";
    /// It refuses nothing.
    const NUMBERS: &'static [u64] = &[0];
    type Lent = LentBook;
    type Given = BookEntry;

    fn lend(&self) -> LentBook {
        LentBook::new(&self.book)
    }

    fn plain(&self, book: &mut LentBook) -> (Answer, BookEntry) {
        (answer(Ok(0)), book::entry(book, self.satellite))
    }

    fn declared(&self, book: &mut LentBook) -> (Answer, BookEntry) {
        let book: *mut Book = &mut **book;
        // SAFETY: the book is lent whole.
        let entry = unsafe { c::l1oc_entry(book.cast_const(), self.satellite) };
        (answer(Ok(0)), entry)
    }

    fn safe(&self, book: &mut LentBook) -> (Answer, BookEntry) {
        (answer(Ok(0)), l1oc::entry(book, self.satellite))
    }

    fn shrink(shrink: &mut Shrink<Self>) {
        shrink.book(|call| &mut call.book);
        shrink.number(|call| &mut call.satellite);
    }

    fn input(&self) -> String {
        let entries = entries(&self.book);
        format!("satellite {}, book {entries}", self.satellite)
    }
}

impl Run {
    pub fn entry(&mut self, book: &Book, satellite: usize) -> Outcome<Entry> {
        self.compare(Entry {
            book: book.clone(),
            satellite,
        })
    }
}
