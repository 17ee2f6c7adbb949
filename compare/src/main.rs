//! Compares the proved implementation with a second, plain one.
//!
//! `compare` runs every group once; `compare --long N` makes the random groups N times as long,
//! with further random numbers. `compare --recordings FOLDER` makes the recordings of `tests/list`,
//! `compare --full FOLDER` those as long as the limit, which are not stored.

#![deny(warnings)]

mod calls;
mod groups;
mod lent;
mod make;
mod plain;
mod random;
mod recordings;
mod run;
mod shrink;

use random::Random;
use run::{require_numbers, Run, Seen};
use std::env;
use std::io;
use std::path::Path;
use std::process::exit;
use std::sync::atomic::{AtomicUsize, Ordering};
use std::thread;

fn main() {
    let arguments: Vec<String> = env::args().skip(1).collect();
    match arguments.iter().map(String::as_str).collect::<Vec<_>>()[..] {
        [] => compare(1),
        ["--long", times] => match times.parse() {
            Ok(long @ 1..) => compare(long),
            _ => wrong_use(),
        },
        ["--recordings", folder] => save(folder, recordings::make),
        ["--full", folder] => save(folder, recordings::make_full),
        _ => wrong_use(),
    }
}

fn wrong_use() -> ! {
    eprintln!("usage: compare [--long N], N at least 1");
    eprintln!("       compare --recordings FOLDER");
    eprintln!("       compare --full FOLDER");
    exit(2)
}

/// Makes recordings in a folder.
fn save(folder: &str, make: fn(&Path) -> io::Result<()>) {
    if let Err(error) = make(folder.as_ref()) {
        eprintln!("{folder}: {error}");
        exit(1);
    }
}

/// Runs every group, as many at once as there are cores.
fn compare(long: usize) {
    let next = AtomicUsize::new(0);
    let cores = thread::available_parallelism().map_or(1, |cores| cores.get());
    let mut runs: Vec<(usize, Run)> = thread::scope(|scope| {
        let threads: Vec<_> = (0..cores)
            .map(|_| scope.spawn(|| groups_from(&next, long)))
            .collect();
        let ended = threads.into_iter().map(|thread| thread.join().unwrap());
        ended.flatten().collect()
    });
    runs.sort_by_key(|(place, _)| *place);
    let mut seen = Seen::new();
    let mut total = 0;
    for (place, run) in runs {
        println!("{}: {}", groups::ALL[place].0, run.cases);
        total += run.cases;
        run.add_numbers(&mut seen);
    }
    require_numbers(&seen);
    println!("total: {total} cases compared, no difference");
}

/// Runs groups that no other thread has begun, until none is left.
fn groups_from(next: &AtomicUsize, long: usize) -> Vec<(usize, Run)> {
    let mut runs = Vec::new();
    loop {
        let place = next.fetch_add(1, Ordering::Relaxed);
        let Some((_, group)) = groups::ALL.get(place) else {
            return runs;
        };
        let mut run = Run {
            random: Random::new(place as u64),
            long,
            cases: 0,
            seen: Seen::new(),
        };
        group(&mut run);
        runs.push((place, run));
    }
}
