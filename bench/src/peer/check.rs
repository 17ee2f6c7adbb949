//! The check by tables of 256 entries. A register is in the high bits of a word, so that what leaves it falls off.

/// A generator's table: the check bits of each byte, in the high bits.
pub type Table = [u32; 256];

// The generators without their highest power.
pub static TABLE16: Table = table(0x6F63 << 16);
pub static TABLE24: Table = table(0x86_4CFB << 8);

const fn table(generator: u32) -> Table {
    let mut table = [0; 256];
    let mut i = 0;
    while i < 256 {
        let mut register = (i as u32) << 24;
        let mut bit = 0;
        while bit < 8 {
            let leaving = register >> 31;
            register = (register << 1) ^ (generator * leaving);
            bit += 1;
        }
        table[i] = register;
        i += 1;
    }
    table
}

/// The check bits of the first `count` bits, in the high bits. The bytes meet the high end of the register.
pub fn check_bits(table: &Table, bytes: &[u8], count: usize) -> u32 {
    let (whole, rest) = (count / 8, count % 8);
    let mut register = 0u32;
    for &byte in &bytes[..whole] {
        let leaving = (register >> 24) as u8 ^ byte;
        register = (register << 8) ^ table[usize::from(leaving)];
    }
    if rest > 0 {
        let leaving = (register >> (32 - rest)) as u8 ^ (bytes[whole] >> (8 - rest));
        register = (register << rest) ^ table[usize::from(leaving)];
    }
    register
}

/// Whether the generator divides the bits of `part` from the place `offset` up to `end`. Zeros before and after them do not change
/// that. The bytes go in at the low end of the register, so that no lookup waits for its byte.
#[inline]
pub fn divides<const DEGREE: u32, const PHASE: u8>(
    table: &Table,
    part: &[u8],
    offset: usize,
    end: usize,
) -> bool {
    let [first, middle @ .., last] = part else {
        return false;
    };
    let enter = |byte: u8| u32::from(byte) << (32 - DEGREE);
    let step =
        |register: u32, byte| (register << 8 | enter(byte)) ^ table[(register >> 24) as usize];
    let mut register = enter((first ^ PHASE) & (0xFF >> offset));
    for &byte in middle {
        register = step(register, byte ^ PHASE);
    }
    step(register, (last ^ PHASE) & (0xFF << (part.len() * 8 - end))) == 0
}
