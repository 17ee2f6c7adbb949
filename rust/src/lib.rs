//! The C interface for Rust: the limits, types and functions of `include/l1oc.h`, which says what each gives.

// MAX_BITS and the other limits and sizes, and `phase`, `refusal` and `offered` with the numbers, from the header.
#[allow(unused_parens)]
mod header {
    include!(concat!(env!("OUT_DIR"), "/header.rs"));
}

pub use header::*;

/// An answer: 0 and the value asked for, or the number of a refusal and its value.
#[repr(C)]
#[derive(Clone, Copy, Debug, PartialEq, Eq)]
pub struct Answer {
    pub number: u64,
    pub value: u64,
}

/// The phase of a recording: its bits are the true ones, or every one is inverted.
#[repr(u32)]
#[derive(Clone, Copy, Debug, PartialEq, Eq)]
pub enum Phase {
    Straight = phase::STRAIGHT as u32,
    Inverted = phase::INVERTED as u32,
}

/// A minus-zero mark: bit i, the lowest is bit 0, for field 10 + i.
pub type Mark = u16;

/// A string by its fields.
#[repr(C)]
#[derive(Clone, Copy, Debug, PartialEq, Eq)]
pub struct Record {
    pub kind: u8,
    pub satellite: u8,
    pub signal: u8,
    pub validity: u8,
    pub call: u8,
    pub attitude: u8,
    pub correction: u8,
    pub next: u8,
    pub time: u64,
    pub numbers: [i64; NUMBERS],
    pub minus: Mark,
    pub raw: [u8; RAW_BYTES],
}

impl Record {
    /// The record with every place 0.
    pub const BLANK: Self = Self {
        kind: 0,
        satellite: 0,
        signal: 0,
        validity: 0,
        call: 0,
        attitude: 0,
        correction: 0,
        next: 0,
        time: 0,
        numbers: [0; NUMBERS],
        minus: 0,
        raw: [0; RAW_BYTES],
    };
}

const _: () = assert!(size_of::<Record>() == RECORD_BYTES);

/// What reading answers: the record, or a refusal beside a blank one.
#[repr(C)]
#[derive(Clone, Copy, Debug, PartialEq, Eq)]
pub struct Reading {
    pub number: u64,
    pub value: u64,
    pub content: Record,
}

/// An ephemeris set: the records of types 10, 11 and 12 of one satellite.
#[repr(C)]
#[derive(Clone, Copy, Debug, PartialEq, Eq)]
pub struct Set {
    pub first: Record,
    pub second: Record,
    pub third: Record,
}

impl Set {
    /// The set of three blank records.
    pub const BLANK: Self = Self {
        first: Record::BLANK,
        second: Record::BLANK,
        third: Record::BLANK,
    };
}

/// What reading a set answers: the set, or a refusal beside a blank one.
#[repr(C)]
#[derive(Clone, Copy, Debug, PartialEq, Eq)]
pub struct SetReading {
    pub number: u64,
    pub value: u64,
    pub content: Set,
}

/// The entry of a satellite in a book: empty where `held` is 0; else the record is held.
#[repr(C)]
#[derive(Clone, Copy, Debug, PartialEq, Eq)]
pub struct BookEntry {
    pub held: u64,
    pub content: Record,
}

impl BookEntry {
    /// The empty entry, every byte 0.
    pub const EMPTY: Self = Self {
        held: 0,
        content: Record::BLANK,
    };
}

/// An almanac book: the current almanac of each satellite, that of satellite j in `entries[j - 1]`.
#[repr(C)]
#[derive(Clone, Debug, PartialEq, Eq)]
pub struct Book {
    pub entries: [BookEntry; SATELLITES],
}

impl Book {
    /// The book of empty entries.
    pub const EMPTY: Self = Self {
        entries: [BookEntry::EMPTY; SATELLITES],
    };
}

const _: () = assert!(size_of::<Book>() == BOOK_BYTES);

/// What scaling answers: the value, or a refusal beside 0.0.
#[repr(C)]
#[derive(Clone, Copy, Debug, PartialEq)]
pub struct Value {
    pub number: u64,
    pub value: u64,
    pub scaled: f64,
}

/// The functions as C declares them.
pub mod c {
    use super::{Answer, Book, BookEntry, Reading, Record, Set, SetReading, Value};

    extern "C" {
        pub fn l1oc_list(
            bytes: *const u8,
            length: usize,
            count: usize,
            phase: u32,
            list: *mut u32,
            room: usize,
        ) -> Answer;
        pub fn l1oc_read(
            bytes: *const u8,
            length: usize,
            count: usize,
            phase: u32,
            place: usize,
        ) -> Reading;
        pub fn l1oc_write(
            bytes: *mut u8,
            length: usize,
            count: usize,
            place: usize,
            content: Record,
        ) -> Answer;
        pub fn l1oc_read_set(
            bytes: *const u8,
            length: usize,
            count: usize,
            phase: u32,
            place: usize,
        ) -> SetReading;
        pub fn l1oc_write_set(
            bytes: *mut u8,
            length: usize,
            count: usize,
            place: usize,
            content: Set,
        ) -> Answer;
        pub fn l1oc_scaled(content: Record, field: usize) -> Value;
        pub fn l1oc_accuracy(factor: i64) -> Answer;
        pub fn l1oc_day_count(n4: i64, nt: i64) -> Answer;
        pub fn l1oc_offer(book: *mut Book, content: Record) -> Answer;
        pub fn l1oc_entry(book: *const Book, satellite: usize) -> BookEntry;
    }
}

#[inline(always)]
pub fn list(bytes: &[u8], count: usize, phase: Phase, list: &mut [u32]) -> Answer {
    // SAFETY: both slices are lent whole, with their lengths.
    unsafe {
        c::l1oc_list(
            bytes.as_ptr(),
            bytes.len(),
            count,
            phase as u32,
            list.as_mut_ptr(),
            list.len(),
        )
    }
}

#[inline(always)]
pub fn read(bytes: &[u8], count: usize, phase: Phase, place: usize) -> Reading {
    // SAFETY: the slice is lent whole, with its length.
    unsafe { c::l1oc_read(bytes.as_ptr(), bytes.len(), count, phase as u32, place) }
}

#[inline(always)]
pub fn write(bytes: &mut [u8], count: usize, place: usize, content: Record) -> Answer {
    // SAFETY: the slice is lent whole, with its length.
    unsafe { c::l1oc_write(bytes.as_mut_ptr(), bytes.len(), count, place, content) }
}

#[inline(always)]
pub fn read_set(bytes: &[u8], count: usize, phase: Phase, place: usize) -> SetReading {
    // SAFETY: the slice is lent whole, with its length.
    unsafe { c::l1oc_read_set(bytes.as_ptr(), bytes.len(), count, phase as u32, place) }
}

#[inline(always)]
pub fn write_set(bytes: &mut [u8], count: usize, place: usize, content: Set) -> Answer {
    // SAFETY: the slice is lent whole, with its length.
    unsafe { c::l1oc_write_set(bytes.as_mut_ptr(), bytes.len(), count, place, content) }
}

#[inline(always)]
pub fn scaled(content: Record, field: usize) -> Value {
    // SAFETY: everything goes by value.
    unsafe { c::l1oc_scaled(content, field) }
}

#[inline(always)]
pub fn accuracy(factor: i64) -> Answer {
    // SAFETY: everything goes by value.
    unsafe { c::l1oc_accuracy(factor) }
}

#[inline(always)]
pub fn day_count(n4: i64, nt: i64) -> Answer {
    // SAFETY: everything goes by value.
    unsafe { c::l1oc_day_count(n4, nt) }
}

#[inline(always)]
pub fn offer(book: &mut Book, content: Record) -> Answer {
    // SAFETY: the book is lent whole.
    unsafe { c::l1oc_offer(book, content) }
}

#[inline(always)]
pub fn entry(book: &Book, satellite: usize) -> BookEntry {
    // SAFETY: the book is lent whole.
    unsafe { c::l1oc_entry(book, satellite) }
}
