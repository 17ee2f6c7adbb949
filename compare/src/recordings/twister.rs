//! The Mersenne twister with the seeding and the ranges of Python's `random`: the stored recordings
//! are made from its numbers.

const SIZE: usize = 624;

pub struct Twister {
    state: [u32; SIZE],
    place: usize,
}

impl Twister {
    pub fn new(seed: u32) -> Twister {
        let mixed = |before: u32| before ^ (before >> 30);
        let mut state = [19_650_218; SIZE];
        for i in 1..SIZE {
            let next = mixed(state[i - 1]).wrapping_mul(1_812_433_253);
            state[i] = next.wrapping_add(i as u32);
        }
        // Two rounds from place 1 on; past the last place comes the first again.
        let mut i = 1;
        for step in 0..2 * SIZE - 1 {
            let (factor, more) = match step < SIZE {
                true => (1_664_525, seed),
                false => (1_566_083_941, (i as u32).wrapping_neg()),
            };
            state[i] = (state[i] ^ mixed(state[i - 1]).wrapping_mul(factor)).wrapping_add(more);
            i += 1;
            if i == SIZE {
                state[0] = state[SIZE - 1];
                i = 1;
            }
        }
        state[0] = 1 << 31;
        Twister { state, place: 0 }
    }

    fn next(&mut self) -> u32 {
        let i = self.place;
        self.place = (i + 1) % SIZE;
        let joined = self.state[i] & (1 << 31) | self.state[self.place] & !(1 << 31);
        let turned = joined >> 1 ^ (joined & 1) * 0x9908_B0DF;
        self.state[i] = self.state[(i + 397) % SIZE] ^ turned;
        let mut word = self.state[i];
        word ^= word >> 11;
        word ^= word << 7 & 0x9D2C_5680;
        word ^= word << 15 & 0xEFC6_0000;
        word ^ word >> 18
    }

    /// A number from low to high, both included.
    pub fn between(&mut self, low: i64, high: i64) -> i64 {
        let many = (high - low + 1) as u32;
        loop {
            let number = self.next() >> many.leading_zeros();
            if number < many {
                return low + i64::from(number);
            }
        }
    }
}
