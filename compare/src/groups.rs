//! The groups of cases, in the order they run.

mod books;
mod bursts;
mod counts;
mod examples;
mod marks;
mod mixed;
mod phases;
mod recordings;
mod records;
mod refusals;
mod sets;
mod strings;
mod values;

use crate::run::Run;

type Group = (&'static str, fn(&mut Run));

pub const ALL: &[Group] = &[
    ("examples of document 01", examples::run),
    ("strings of every type at every offset", strings::every_type),
    ("strings at the end of the bytes", strings::followed),
    ("ends of every range", strings::ends),
    ("every field's bits in a string", strings::field_bits),
    ("minus zeros", strings::minus_zeros),
    ("records with a field out of range", records::out_of_range),
    ("records with two fields out of range", records::two_out),
    ("OMB above its range", records::time),
    ("every value of a service field", records::service),
    ("minus-zero marks", marks::minus),
    ("unused places and filling bits", marks::unused),
    ("refusals of listing together", refusals::listing),
    ("refusals of reading together", refusals::reading),
    ("refusals of writing together", refusals::writing),
    ("refusals of scaling together", refusals::scaling),
    ("strings cut at every bit", counts::cut),
    ("bit counts and places", counts::places),
    ("bursts in strings", bursts::bursts),
    ("random errors in strings", bursts::errors),
    ("generator multiples on strings", bursts::multiples),
    ("random bytes", recordings::random_bytes),
    ("recordings with damaged stretches", recordings::damaged),
    ("strings inside strings", recordings::nested),
    ("recordings full of marks", recordings::marks),
    ("full recordings", recordings::full),
    ("random records and places", mixed::writing),
    ("random records scaled", mixed::scaling),
    ("scaled values", values::scaled),
    ("accuracy factors", values::accuracy),
    ("day counts", values::day_count),
    ("sets that pass", sets::pass),
    ("sets with strings of other types", sets::types),
    ("times of a set", sets::times),
    ("sets with damaged strings", sets::damaged),
    ("sets cut at every bit", sets::cut),
    ("refusals 12, 13, 14 together", sets::tests),
    ("refusals of reading a set together", sets::reading),
    ("refusals of writing a set together", sets::writing),
    ("random sets and places", mixed::sets),
    ("recordings of sets", recordings::sets),
    ("inverted strings cut at every bit", phases::cut),
    ("recordings read in both phases", phases::both),
    ("strings inside strings of the other phase", phases::nested),
    ("sets with strings of both phases", phases::sets),
    ("bits past the bit count", phases::past),
    ("raw bits of inverted strings", phases::raw),
    ("numbers that are neither phase", phases::numbers),
    ("inverted strings written back", phases::written_back),
    ("refusals of offering together", refusals::offering),
    ("every type and satellite offered", books::offered),
    ("every pair of days offered", books::pairs),
    ("pairs of ages on one day", books::ages),
    ("offers in turn to one book", books::sequences),
    ("books of any bytes", books::any),
];
