//! The fields of every type: table 4.1 and tables 5.2, 5.4, 5.5 of document 000, with the
//! ranges of document 01, "Information fields".

/// One field of a string.
pub struct Field {
    /// Width in bits.
    pub width: usize,
    /// A signed field is a sign bit, then a magnitude.
    pub signed: bool,
    /// The smallest and the largest value taken.
    pub low: i64,
    pub high: i64,
    /// The power of two of one count.
    pub power: Option<i32>,
}

/// "Every other unsigned field takes its full width."
fn unsigned(width: usize) -> Field {
    Field {
        width,
        signed: false,
        low: 0,
        high: 2_i64.pow(width as u32) - 1,
        power: None,
    }
}

/// "Signed fields run from minus to plus (2^(width-1) - 1)."
fn signed(width: usize) -> Field {
    let most = 2_i64.pow(width as u32 - 1) - 1;
    Field {
        width,
        signed: true,
        low: -most,
        high: most,
        power: None,
    }
}

impl Field {
    /// "Ranges narrower than the width."
    fn range(self, low: i64, high: i64) -> Field {
        Field { low, high, ..self }
    }

    fn power(self, power: i32) -> Field {
        Field {
            power: Some(power),
            ..self
        }
    }
}

/// The service fields after the time mark: fields 1 to 9, bits 13 to 50.
pub fn service() -> Vec<Field> {
    vec![
        unsigned(6),                  // 1 type, bits 13-18
        unsigned(6).range(1, 63),     // 2 satellite number j, 19-24
        unsigned(1),                  // 3 signal flag, 25
        unsigned(1),                  // 4 data flag, 26
        unsigned(4),                  // 5 call, 27-30
        unsigned(1),                  // 6 attitude, 31
        unsigned(2),                  // 7 correction code KP, 32-33
        unsigned(1),                  // 8 A, 34
        unsigned(16).range(0, 43199), // 9 OMB, 35-50
    ]
}

/// The information fields of a type from field 10 on, or none for a type kept as raw bits.
pub fn information(kind: u8) -> Option<Vec<Field>> {
    match kind {
        10 => Some(type_10()),
        11 => Some(type_11()),
        12 => Some(type_12()),
        20 => Some(type_20()),
        25 => Some(type_25()),
        _ => None,
    }
}

/// Table 5.2, first part.
fn type_10() -> Vec<Field> {
    vec![
        unsigned(5).range(1, 31),    // 10 N4
        unsigned(11).range(1, 1461), // 11 NT
        unsigned(3),                 // 12 M
        unsigned(6),                 // 13 frame size
        unsigned(10).range(0, 959),  // 14 tb, 86310 s / 90 s = 959
        unsigned(8).range(1, 255),   // 15 age of the ephemeris
        unsigned(8).range(1, 255),   // 16 age of the clock data
        unsigned(2),                 // 17 mode of the ephemeris
        unsigned(2),                 // 18 mode of the clock data
        signed(5),                   // 19 accuracy factor of the ephemeris
        signed(5),                   // 20 accuracy factor of the clock data
        signed(32).power(-38),       // 21 tau
        signed(19).power(-48),       // 22 gamma
        signed(15).power(-57),       // 23 beta
        signed(40).power(-31),       // 24 tau_c
        signed(13).power(-49),       // 25 rate of tau_c
    ]
}

/// Table 5.2, second part.
fn type_11() -> Vec<Field> {
    vec![
        signed(40).power(-20), // 10 x
        signed(40).power(-20), // 11 y
        signed(40).power(-20), // 12 z
        signed(35).power(-30), // 13 x rate
        signed(13).power(-10), // 14 antenna dx
        signed(13).power(-10), // 15 antenna dy
        unsigned(3),           // 16 reserve
    ]
}

/// Table 5.2, third part.
fn type_12() -> Vec<Field> {
    vec![
        signed(13).power(-10), // 10 antenna dz
        signed(35).power(-30), // 11 y rate
        signed(35).power(-30), // 12 z rate
        signed(15).power(-39), // 13 x acceleration
        signed(15).power(-39), // 14 y acceleration
        signed(15).power(-39), // 15 z acceleration
        signed(18).power(-38), // 16 L2 shift
        signed(30).power(-38), // 17 GPS shift
        unsigned(8),           // 18 reserve
    ]
}

/// Table 5.4.
fn type_20() -> Vec<Field> {
    vec![
        unsigned(2),                                 // 10 orbit
        unsigned(6),                                 // 11 Ns
        unsigned(6),                                 // 12 age EA
        unsigned(11).range(1, 1461),                 // 13 day NA
        unsigned(5),                                 // 14 signals
        unsigned(3),                                 // 15 M
        signed(14).power(-20),                       // 16 tau
        signed(21).power(-20),                       // 17 lambda
        unsigned(21).range(0, 44100 * 32).power(-5), // 18 time of lambda, 0-44100 s
        signed(15).power(-20),                       // 19 di
        unsigned(15).power(-20),                     // 20 eccentricity
        signed(16).power(-15),                       // 21 omega
        signed(19).power(-9),                        // 22 dT
        signed(7).power(-14),                        // 23 rate of dT
        unsigned(23),                                // 24 reserve
    ]
}

/// Table 5.5.
fn type_25() -> Vec<Field> {
    vec![
        unsigned(11).range(1, 1461),               // 10 day
        signed(16).power(-14),                     // 11 xp
        signed(16).power(-14),                     // 12 yp
        signed(9).power(-14),                      // 13 xp rate
        signed(9).power(-14),                      // 14 yp rate
        signed(7).power(-14),                      // 15 xp acceleration
        signed(7).power(-14),                      // 16 yp acceleration
        signed(25).power(-16),                     // 17 B0
        signed(10).power(-16),                     // 18 B1
        signed(8).power(-16),                      // 19 B2
        unsigned(9).power(-7),                     // 20 c_A
        unsigned(13).range(0, 500 * 16).power(-4), // 21 c_F, 0-500 in steps of 1/16
        unsigned(9).range(0, 500),                 // 22 c_Ap
        signed(9),                                 // 23 UTC-TAI
        unsigned(26),                              // 24 reserve
    ]
}
