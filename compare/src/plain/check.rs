//! The check bits: polynomials over two elements, written as texts of '0' and '1' with the
//! highest power first (document 000, 4.4 to 4.6).

use std::sync::LazyLock;

/// The powers of the generator of the codes (250,234) and (125,109). Section 4.5 forms the
/// code (125,109) with the circuit of figure 4.4, so with this generator.
const GENERATOR_16: &[usize] = &[0, 1, 5, 6, 8, 9, 10, 11, 13, 14, 16];

/// The powers of the generator of the code (375,351).
const GENERATOR_24: &[usize] = &[0, 1, 3, 4, 5, 6, 7, 10, 11, 14, 17, 18, 23, 24];

/// The powers of the generator of a type.
pub fn generator(kind: u8) -> &'static [usize] {
    if kind == 2 {
        GENERATOR_24
    } else {
        GENERATOR_16
    }
}

/// How many check bits a type has: the generator's degree.
pub fn width(kind: u8) -> usize {
    if kind == 2 {
        24
    } else {
        16
    }
}

/// The remainder of long division by the type's generator, as many digits as its degree.
fn divided(text: &str, kind: u8) -> String {
    let degree = width(kind);
    let mut digits: Vec<u8> = text.bytes().map(|digit| digit - b'0').collect();
    for first in 0..digits.len() - degree {
        if digits[first] == 1 {
            // Take the generator away so that its highest power falls on this digit.
            for power in generator(kind) {
                digits[first + degree - power] ^= 1;
            }
        }
    }
    let rest = &digits[digits.len() - degree..];
    rest.iter().map(|digit| (digit + b'0') as char).collect()
}

/// The bits of the longest string.
const LONGEST: usize = 375;

/// The remainder of a power of X, as a number.
fn power_divided(power: usize, kind: u8) -> u32 {
    let text = format!("1{}", "0".repeat(power));
    let rest = divided(&format!("{text:0>LONGEST$}"), kind);
    u32::from_str_radix(&rest, 2).expect("binary digits")
}

/// The remainders of the powers from 0 on, by the generators of 16 and of 24 check bits.
static POWERS: LazyLock<[Vec<u32>; 2]> = LazyLock::new(|| {
    let divided = |kind| (0..LONGEST).map(move |power| power_divided(power, kind));
    [0, 2].map(|kind| divided(kind).collect())
});

/// The remainder by the type's generator, as a number. A text is the sum of its powers, so its
/// remainder is the sum of theirs; each power is divided once.
fn remainder(text: &str, kind: u8) -> u32 {
    assert!(text.len() <= LONGEST);
    let powers = &POWERS[usize::from(kind == 2)];
    let digits = text.bytes().rev().map(|digit| u32::from(digit - b'0'));
    let terms = digits.zip(powers).map(|(digit, rest)| digit * rest);
    terms.fold(0, |sum, term| sum ^ term)
}

/// The check passes: the generator divides all bits from the first mark bit through the last
/// check bit.
pub fn passes(string: &str, kind: u8) -> bool {
    remainder(string, kind) == 0
}

/// The check bits that close a string, from all its bits before them.
pub fn bits(before: &str, kind: u8) -> String {
    let width = width(kind);
    let room = "0".repeat(width);
    let rest = remainder(&format!("{before}{room}"), kind);
    format!("{rest:0width$b}")
}
