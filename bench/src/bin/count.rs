//! Counts by valgrind how many instructions each call takes on both sides, and each frame of the two programs; prints a table.
//!
//!     count PROVED_FROZEN PLAIN_FROZEN
//!
//! A call is what 300 of them take more than 100, divided by 200: so neither the start nor the making of arguments counts. For that the
//! program runs itself under valgrind, as `count CALL SIDE N`.

use bench::pictures::{Kind, ONE_BYTE, TWO_BYTES};
use bench::stream::Stream;
use std::process::{Command, Stdio};

/// What valgrind counts of a program with these words, and this input.
fn counted(program: &str, words: &[String], input: Stdio) -> u64 {
    let output = Command::new("valgrind")
        .args(["--tool=callgrind", "--callgrind-out-file=/dev/null", program])
        .args(words)
        .stdin(input)
        .output()
        .expect("valgrind runs");
    let said = String::from_utf8_lossy(&output.stderr);
    let line = said.lines().find_map(|line| line.split("Collected : ").nth(1)).expect("valgrind says what it collected");
    line.trim().parse().expect("a number")
}

fn row(name: &str, plain: u64, proved: u64) {
    println!("| {name} | {plain} | {proved} | {:.2} |", proved as f64 / plain as f64);
}

fn calls() {
    let program = std::env::current_exe().expect("the program has a path");
    let program = program.to_str().expect("a path of text");
    for (call, case) in bench::cases::all().iter().enumerate() {
        let of = |side: &str, times: u64| {
            counted(program, &[call.to_string(), side.to_string(), times.to_string()], Stdio::null())
        };
        let [plain, proved] = ["plain", "proved"].map(|side| (of(side, 300) - of(side, 100)) / 200);
        row(&case.name, plain, proved);
    }
}

fn programs(proved: &str, plain: &str, what: &str, kind: Kind) {
    let [short, long] = [150, 450].map(|frames| Stream::new(frames, kind).expect("the stream can be written"));
    let of = |program: &str, stream: &Stream| {
        counted(program, &[], Stdio::from(stream.open().expect("the stream was written")))
    };
    let [plain, proved] = [plain, proved].map(|program| (of(program, &long) - of(program, &short)) / 300);
    row(&format!("a frame of {what} in frozen"), plain, proved);
}

fn repeat(call: &str, side: &str, times: &str) {
    let case = &mut bench::cases::all()[call.parse::<usize>().expect("a number")];
    let times = times.parse().expect("a number");
    match side {
        "plain" => (case.plain)(times),
        _ => (case.proved)(times),
    }
}

fn main() {
    let words: Vec<String> = std::env::args().skip(1).collect();
    if let [call, side, times] = &words[..] {
        return repeat(call, side, times);
    }
    println!("| call | plain | proved | proved/plain |");
    println!("|---|---|---|---|");
    calls();
    programs(&words[0], &words[1], "160 x 120", ONE_BYTE);
    programs(&words[0], &words[1], "120 x 90, maxval 4,095,", TWO_BYTES);
}
