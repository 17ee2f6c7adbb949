//! The proved library against a peer in plain Rust, on the same inputs: same answers first, then speed.
mod agree;
mod input;
mod measure;
mod peer;
mod sides;

use measure::{Bench, ROWS};
use sides::{Library, Peer};
use std::process::exit;

fn main() {
    let arguments: Vec<String> = std::env::args().skip(1).collect();
    let words: Vec<&str> = arguments.iter().map(String::as_str).collect();
    match words[..] {
        [] => table(),
        ["count", row, side, times] => count(row, side, times),
        _ => wrong_use(),
    }
}

/// Compares both sides, then prints the table.
fn table() {
    let mut bench = inputs();
    agree::check(&bench.hour, &bench.sets, &bench.noise);
    println!("library and peer agree");
    bench.table();
}

/// Runs one row of one side, for a tool that counts instructions.
fn count(row: &str, side: &str, times: &str) {
    let Some(row) = ROWS.iter().position(|name| *name == row) else {
        wrong_use()
    };
    let Ok(times) = times.parse() else {
        wrong_use()
    };
    match side {
        "library" => inputs().run::<Library>(row, times),
        "peer" => inputs().run::<Peer>(row, times),
        _ => wrong_use(),
    }
}

fn inputs() -> Bench {
    let hour = input::hour();
    Bench {
        list: vec![0; l1oc::MAX_STARTS],
        buffer: vec![0; hour.bytes.len()],
        inverted: input::complement(&hour.bytes),
        sets: input::sets(),
        noise: input::noise(),
        hour,
    }
}

fn wrong_use() -> ! {
    eprintln!("use: bench");
    eprintln!("     bench count ROW SIDE TIMES");
    eprintln!("ROW: {}; SIDE: library or peer", ROWS.join(", "));
    exit(2)
}
