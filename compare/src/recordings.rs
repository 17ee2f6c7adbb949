//! The recordings on which `tests/list` runs the program `list`, and what it should print for each.

mod twister;

use crate::make;
use crate::plain::report::report;
use crate::plain::{self, table, LIMIT};
use l1oc::{Record, NUMBERS};
use std::fs;
use std::io;
use std::path::Path;
use twister::Twister;

/// Makes the recordings that are stored in `tests/list`.
pub fn make(folder: &Path) -> io::Result<()> {
    let random = &mut Twister::new(20_261_115);
    let recordings = [
        ("empty", String::new()),
        ("out_of_range", out_of_range(random)),
        ("other_orbit", other_orbit(random)),
        ("damaged", damaged(random)),
        ("all_types", all_types(random)),
        ("sets", sets(random)),
    ];
    for (name, text) in &recordings {
        save(folder, name, text)?;
    }
    let [.., (_, sets)] = &recordings;
    save(folder, "inverted", &inverted(sets))?;
    save(folder, "almanacs", &almanacs(random))?;
    // Of this one only the text is kept.
    let longer = vec![0; LIMIT / 8 + 1];
    fs::write(folder.join("refused.csv"), report(&longer))
}

/// Makes recordings of as many bits as the limit, and one of a byte less.
pub fn make_full(folder: &Path) -> io::Result<()> {
    let random = &mut Twister::new(20_261_116);
    let rest = random_bits(random, LIMIT % 125);
    let strings = end_to_end(random, |random| random.between(0, 63) as u8);
    let mut damaged = strings.clone() + &rest;
    for place in (1000..LIMIT - 40).step_by(3001) {
        damaged.replace_range(place..place + 40, &random_bits(random, 40));
    }
    for (name, text) in [
        ("strings", strings.clone() + &rest),
        ("strings_to_the_end", rest.clone() + &strings),
        ("most_strings", end_to_end(random, |_| 1) + &rest),
        ("damaged_strings", damaged),
        ("noise", random_bits(random, LIMIT)),
    ] {
        save(folder, name, &text)?;
    }
    save(folder, "a_byte_less", &(rest + &strings)[..LIMIT - 8])
}

/// Saves a recording as NAME.bin, and what `list` prints of it as NAME.csv.
fn save(folder: &Path, name: &str, text: &str) -> io::Result<()> {
    let bytes = make::pack(text);
    fs::write(folder.join(name).with_extension("csv"), report(&bytes))?;
    fs::write(folder.join(name).with_extension("bin"), bytes)
}

/// The service fields that matter here; all others are zero.
fn service(kind: u8, satellite: u8, time: u64) -> Record {
    Record {
        kind,
        satellite,
        time,
        ..Record::BLANK
    }
}

/// A string of the record's service fields with these information bits.
fn string(record: Record, information: &str) -> String {
    let before = &plain::text_before_check(&record)[..50];
    make::close(&format!("{before}{information}"), record.kind)
}

fn random_bits(random: &mut Twister, many: usize) -> String {
    (0..many)
        .map(|_| random.between(0, 1).to_string())
        .collect()
}

/// Information bits that read, for the type.
fn information(random: &mut Twister, kind: u8) -> String {
    let Some(fields) = table::information(kind) else {
        return random_bits(random, plain::raw_width(kind));
    };
    let mut text = String::new();
    for field in fields {
        text += &match field.signed {
            true => random_bits(random, field.width),
            false => {
                let number = random.between(field.low, field.high);
                format!("{number:0width$b}", width = field.width)
            }
        };
    }
    if kind == 20 {
        text.replace_range(..2, "00");
    }
    text
}

/// Satellite 0, OMB one too high, and the highest type, satellite and OMB.
fn out_of_range(random: &mut Twister) -> String {
    let ephemeris = information(random, 10);
    [
        "101",
        &make::string_of(&service(0, 0, 7)),
        &string(service(10, 5, 43200), &ephemeris),
        &make::string_of(&service(63, 63, 43199)),
    ]
    .concat()
}

/// Almanacs of the orbit 00 and of another; 7 comes before 8.
fn other_orbit(random: &mut Twister) -> String {
    let mut other = information(random, 20);
    other.replace_range(..2, "01");
    let good = information(random, 20);
    [
        string(service(20, 5, 1), &good),
        string(service(20, 5, 2), &other),
        string(service(20, 0, 3), &other),
    ]
    .concat()
}

/// Noise before, between and in strings of every length, and a last string without its last bit.
fn damaged(random: &mut Twister) -> String {
    let plain = |kind, correction, time| {
        make::string_of(&Record {
            correction,
            ..service(kind, 5, time)
        })
    };
    let (before, between) = (random_bits(random, 157), random_bits(random, 40));
    let position = information(random, 11);
    [
        &before,
        &plain(0, 0, 12),
        &make::turn(&plain(0, 0, 10), 60, "10000000001"),
        &plain(1, 3, 13),
        &plain(2, 0, 11)[..300],
        &between,
        &plain(2, 1, 14),
        &string(service(11, 5, 15), &position),
        &plain(0, 0, 16)[..249],
    ]
    .concat()
}

/// A string of the type with any fields.
fn any(random: &mut Twister, kind: u8) -> String {
    let mut below = |end: i64| random.between(0, end - 1);
    let record = Record {
        kind,
        satellite: 1 + below(63) as u8,
        signal: below(2) as u8,
        validity: below(2) as u8,
        call: below(16) as u8,
        attitude: below(2) as u8,
        correction: below(4) as u8,
        next: below(2) as u8,
        time: below(43200) as u64,
        ..Record::BLANK
    };
    string(record, &information(random, kind))
}

/// A string of each type, end to end.
fn all_types(random: &mut Twister) -> String {
    (0..64).map(|kind| any(random, kind)).collect()
}

/// The ephemeris of satellite 24.
fn ephemeris(kind: u8) -> [i64; NUMBERS] {
    let fields: &[i64] = match kind {
        10 => &[
            8, 1050, 2, 15, 959, 1, 2, 1, 1, -3, 15, -3_567_890, 512, 0, 12, -3,
        ],
        11 => &[
            10_800_857_088,
            -22_024_421_376,
            10_355_802_112,
            1_342_177_280,
            -640,
            0,
            0,
        ],
        _ => &[
            1280,
            -536_870_912,
            -2_541_753_434,
            -512,
            0,
            1024,
            1374,
            -2748,
            0,
        ],
    };
    let mut numbers = [0; NUMBERS];
    numbers[..fields.len()].copy_from_slice(fields);
    numbers
}

/// Sets of several satellites, one of which is damaged and comes again; the last is cut off.
fn sets(random: &mut Twister) -> String {
    let almanac = [(20, 9)];
    let set = |satellite| [10, 11, 12].map(|kind| (kind, satellite));
    let strings = [&set(5)[..], &almanac, &set(24), &set(11), &set(24), &set(7)].concat();
    let mut text = random_bits(random, 45);
    for (place, (kind, satellite)) in strings.into_iter().enumerate() {
        let record = service(kind, satellite, (43189 + place as u64) % 43200);
        text += &match satellite {
            24 => make::string_of(&Record {
                numbers: ephemeris(kind),
                ..record
            }),
            _ => string(record, &information(random, kind)),
        };
    }
    // In the second string of satellite 24's first set.
    text = make::turn(&text, 45 + 5 * 250 + 90, "1011");
    text.truncate(text.len() - 100);
    text
}

/// Almanacs that come in turn: satellite, age, day. Offered to one book, those without a word are
/// taken.
const ALMANACS: [(u8, u8, u16); 12] = [
    (24, 1, 700),
    (3, 2, 1460),
    (24, 0, 698), // passed over, 1459 days later
    (63, 5, 700),
    (11, 3, 1),
    (3, 1, 2),
    (11, 3, 1),   // passed over, of equal day and age
    (3, 0, 1461), // passed over, 1459 days later
    (63, 4, 700),
    (24, 0, 1430),
    (24, 0, 700), // passed over, 731 days later
    (24, 63, 1431),
];

/// A string of type 20 of an orbit, with this satellite, age and day.
fn almanac(
    random: &mut Twister,
    orbit: &str,
    (satellite, age, day): (u8, u8, u16),
    time: u64,
) -> String {
    let mut text = information(random, 20);
    text.replace_range(..2, orbit);
    text.replace_range(8..25, &format!("{age:06b}{day:011b}"));
    string(service(20, satellite, time), &text)
}

/// Almanacs with other strings between, then one that is damaged and one of another orbit.
fn almanacs(random: &mut Twister) -> String {
    let mut text = random_bits(random, 21);
    for (time, one) in (100..).zip(ALMANACS) {
        text += &almanac(random, "00", one, time);
        if time % 4 == 0 {
            text += &any(random, 10);
        }
    }
    text += &make::turn(&almanac(random, "00", (11, 2, 1), 112), 90, "101");
    text + &almanac(random, "01", (63, 0, 700), 113)
}

/// The recording in opposite phase, with what fills its last byte.
fn inverted(text: &str) -> String {
    let bytes = make::pack(text);
    plain::turned(&plain::bits(&bytes, 0, 8 * bytes.len()))
}

/// Strings of the types that come, and the shortest where no other fits, end to end to within 125 bits of the limit.
fn end_to_end(random: &mut Twister, mut kind: impl FnMut(&mut Twister) -> u8) -> String {
    let mut text = String::new();
    while text.len() + 125 <= LIMIT {
        let mut next = kind(random);
        if text.len() + plain::length(next) > LIMIT {
            next = 1;
        }
        text += &any(random, next);
    }
    text
}
