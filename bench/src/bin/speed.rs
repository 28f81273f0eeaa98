//! Times both sides of each call, turn about, and the two programs `frozen`; prints the ratios as a table.
//!
//!     speed PROVED_FROZEN PLAIN_FROZEN

use bench::cases::{self, Case};
use bench::pictures::{Kind, ONE_BYTE, TWO_BYTES};
use bench::stream::Stream;
use std::process::{Command, Stdio};
use std::time::{Duration, Instant};

const PAIRS: usize = 101;
const PROGRAM_PAIRS: usize = 15;

fn timed(work: impl FnOnce()) -> f64 {
    let begin = Instant::now();
    work();
    begin.elapsed().as_secs_f64()
}

/// The median with the first and the last quarter's bound.
fn quarters(mut values: Vec<f64>) -> (f64, f64, f64) {
    values.sort_by(f64::total_cmp);
    let n = values.len();
    (values[n / 2], values[n / 4], values[n * 3 / 4])
}

fn row(name: &str, unit: f64, what: &str, plain: Vec<f64>, proved: Vec<f64>) {
    let ratios = plain.iter().zip(&proved).map(|(plain, proved)| proved / plain).collect();
    let (ratio, low, high) = quarters(ratios);
    let (plain, proved) = (quarters(plain).0 * unit, quarters(proved).0 * unit);
    println!("| {name} | {plain:.1} {what} | {proved:.1} {what} | {ratio:.2} | {low:.2} to {high:.2} |");
}

/// How often the call is repeated so that a turn takes some milliseconds.
fn times(case: &mut Case) -> u64 {
    let mut times = 1;
    while timed(|| (case.plain)(times)) < Duration::from_millis(2).as_secs_f64() {
        times *= 2;
    }
    times
}

fn calls() {
    for mut case in cases::all() {
        let times = times(&mut case);
        let (mut plain, mut proved) = (Vec::new(), Vec::new());
        for _ in 0..PAIRS {
            plain.push(timed(|| (case.plain)(times)) / times as f64);
            proved.push(timed(|| (case.proved)(times)) / times as f64);
        }
        row(&case.name, 1e9, "ns", plain, proved);
    }
}

fn program(path: &str, stream: &Stream) -> (f64, Vec<u8>) {
    let mut output = Vec::new();
    let seconds = timed(|| {
        let input = Stdio::from(stream.open().expect("the stream was written"));
        output = Command::new(path).stdin(input).output().expect("the program runs").stdout;
    });
    (seconds, output)
}

fn programs(proved: &str, plain: &str, what: &str, kind: Kind) {
    let stream = Stream::new(10_000, kind).expect("the stream can be written");
    let (mut plains, mut proveds) = (Vec::new(), Vec::new());
    for _ in 0..PROGRAM_PAIRS {
        let (plain_time, plain_rows) = program(plain, &stream);
        let (proved_time, proved_rows) = program(proved, &stream);
        assert!(plain_rows == proved_rows, "the two programs write other rows");
        plains.push(plain_time);
        proveds.push(proved_time);
    }
    row(&format!("frozen, 10,000 frames of {what}"), 1e3, "ms", plains, proveds);
}

fn main() {
    let paths: Vec<String> = std::env::args().skip(1).collect();
    println!("| call | plain | proved | proved/plain | middle half |");
    println!("|---|---|---|---|---|");
    calls();
    programs(&paths[0], &paths[1], "160 x 120", ONE_BYTE);
    programs(&paths[0], &paths[1], "120 x 90, maxval 4,095", TWO_BYTES);
}
