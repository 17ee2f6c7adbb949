//! The rows of the table: what is timed, in rounds that alternate between the sides.
use crate::input::{Hour, Sets, HOUR_BITS, SETS_BITS};
use crate::sides::{Library, Peer, Side};
use l1oc::Phase::{self, Inverted, Straight};
use std::hint::black_box;

const ROUNDS: usize = 31;

/// The least seconds of a side in a round.
const ROUND: f64 = 0.003;

extern "C" {
    /// The processor time of this process in microseconds, of the C library.
    fn clock() -> std::ffi::c_long;
}

/// The names of the rows.
pub const ROWS: [&str; 8] = [
    "list-hour",
    "list-noise",
    "read-hour",
    "write-hour",
    "read-sets",
    "write-sets",
    "list-inverted",
    "read-inverted",
];

/// What the rows work on.
pub struct Bench {
    pub hour: Hour,
    /// The bytes of the hour in opposite phase.
    pub inverted: Vec<u8>,
    pub sets: Sets,
    pub noise: Vec<u8>,
    pub list: Vec<u32>,
    pub buffer: Vec<u8>,
}

impl Bench {
    /// Runs a row by its index, a number of times.
    pub fn run<S: Side>(&mut self, row: usize, times: usize) {
        for _ in 0..times {
            match row {
                0 => list::<S>(&self.hour.bytes, HOUR_BITS, Straight, &mut self.list),
                1 => list::<S>(&self.noise, 8 * self.noise.len(), Straight, &mut self.list),
                2 => read::<S>(&self.hour.bytes, Straight, &self.hour.starts),
                3 => self.write::<S>(),
                4 => self.read_sets::<S>(),
                5 => self.write_sets::<S>(),
                6 => list::<S>(&self.inverted, HOUR_BITS, Inverted, &mut self.list),
                _ => read::<S>(&self.inverted, Inverted, &self.hour.starts),
            }
        }
    }

    fn write<S: Side>(&mut self) {
        let buffer = black_box(&mut self.buffer);
        for (&start, record) in self.hour.starts.iter().zip(&self.hour.records) {
            black_box(S::write(buffer, HOUR_BITS, start, *record));
        }
    }

    fn read_sets<S: Side>(&mut self) {
        for &start in &self.sets.starts {
            black_box(&S::read_set(&self.sets.bytes, SETS_BITS, Straight, start));
        }
    }

    fn write_sets<S: Side>(&mut self) {
        let buffer = black_box(&mut self.buffer);
        for (&start, set) in self.sets.starts.iter().zip(&self.sets.sets) {
            black_box(S::write_set(buffer, SETS_BITS, start, *set));
        }
    }

    fn time<S: Side>(&mut self, row: usize, times: usize) -> f64 {
        let start = processor_seconds();
        self.run::<S>(row, times);
        (processor_seconds() - start) / times as f64
    }

    /// Prints the table.
    pub fn table(&mut self) {
        println!("row           library us   peer us   ratio     10 %   90 %");
        for (row, name) in ROWS.iter().enumerate() {
            let fastest = (0..5)
                .map(|_| self.time::<Peer>(row, 1).min(self.time::<Library>(row, 1)))
                .fold(f64::MAX, f64::min);
            let times = (ROUND / fastest) as usize + 1;
            let (mut library, mut peer, mut ratio) = (vec![], vec![], vec![]);
            for _ in 0..ROUNDS {
                let a = self.time::<Library>(row, times);
                let b = self.time::<Peer>(row, times);
                library.push(a);
                peer.push(b);
                ratio.push(a / b);
            }
            println!(
                "{name:<13} {:>10.1} {:>9.1} {:>7.3}   {:>6.3} {:>6.3}",
                1e6 * quantile(&mut library, 50),
                1e6 * quantile(&mut peer, 50),
                quantile(&mut ratio, 50),
                quantile(&mut ratio, 10),
                quantile(&mut ratio, 90),
            );
        }
    }
}

/// Lists a recording.
fn list<S: Side>(bytes: &[u8], count: usize, phase: Phase, list: &mut [u32]) {
    let list = black_box(list);
    black_box(S::list(black_box(bytes), count, phase, list));
}

/// Reads the strings of the hour.
fn read<S: Side>(bytes: &[u8], phase: Phase, starts: &[usize]) {
    for &start in starts {
        black_box(&S::read(bytes, HOUR_BITS, phase, start));
    }
}

/// Processor time, which other processes on the machine do not use up.
fn processor_seconds() -> f64 {
    // Safety: it takes nothing and only reads the clock.
    unsafe { clock() as f64 / 1e6 }
}

/// The value that a percentage of the values do not exceed.
fn quantile(values: &mut [f64], percent: usize) -> f64 {
    values.sort_by(f64::total_cmp);
    values[(values.len() - 1) * percent / 100]
}
