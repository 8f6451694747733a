//! Times the library and the published Rust on the same inputs, in one process.
//!
//!   bench ROUNDS LIBRARY_RUNS LIBRARY_SCRIPTS TRACE [UNICODE_DATA]
//!
//! Each input is timed ROUNDS times, and the best time counts. LIBRARY_RUNS has runs of literals, as crates/try_readings
//! takes them. LIBRARY_SCRIPTS has scripts, as bench/library-scripts writes them. TRACE is what bench/replay-trace writes.
//! UNICODE_DATA is the file of names that Unicode publishes. Where the Rust's source was not at hand, the library is timed
//! alone.

#[allow(dead_code)]
#[path = "../../bindings/rust/src/call.rs"]
mod call;
mod compare;
mod cuts;
mod inputs;
mod listing;
mod names;
mod replay;
mod reference {
    include!(env!("STUMPGARRET_REFERENCE_RS"));
}
mod written;

use inputs::{Case, Input};
use std::num::NonZeroUsize;
use std::time::{Duration, Instant};

/// Buffers that are lent to each call.
struct Buffers {
    words: Vec<u32>,
    text: Vec<u8>,
}

impl Buffers {
    fn answer(&mut self, case: &Case) -> [u32; 12] {
        call::read(&case.script, &case.list, &mut self.words, &mut self.text)
    }

    /// Reads a case, which must be accepted, and gives its records and text bytes.
    fn read(&mut self, case: &Case) -> (usize, usize) {
        let answer = self.answer(case);
        assert_eq!(answer[0], 0, "refused: {:?}", answer);
        (answer[5] as usize, answer[6] as usize)
    }
}

/// The best times of a pass over an input, and the worst that was seen of ours.
struct Times {
    ours: Duration,
    ours_worst: Duration,
    rust: Option<Duration>,
}

const USAGE: &str = "usage: bench ROUNDS LIBRARY_RUNS LIBRARY_SCRIPTS TRACE [UNICODE_DATA]";

fn main() {
    let runs = argument(2).expect(USAGE);
    let scripts = argument(3).expect(USAGE);
    let trace = argument(4).expect(USAGE);
    let mut buffers = Buffers { words: vec![0; 8 << 20], text: vec![0; 4 << 20] };
    println!("{}", reference::WHAT);
    println!("input        calls      bytes   ours ns/byte  noise %   Rust ns/byte");
    let library = inputs::runs(&std::fs::read(runs).expect("the runs can be read"), |case| {
        buffers.answer(case)[0] == 0
    });
    for input in inputs::all().into_iter().chain([library]) {
        let times = measure(&input, &mut buffers);
        print(&input, &times);
    }
    copy(&mut buffers);
    for size in [1 << 10, 1 << 15, 1 << 20] {
        let input = inputs::bench_lines("flat", size, (8 << 20) / size);
        let times = measure(&input, &mut buffers);
        println!("bytes {:>8}: {:.3} ns/byte", size, per_byte(times.ours, &input));
    }
    listing::measure(&std::fs::read(scripts).expect("the scripts can be read"));
    replay::measure(&std::fs::read(trace).expect("the trace can be read"));
    compare::measure();
    written::measure(&mut buffers);
    cuts::measure(&mut buffers);
    if let Some(names) = argument(5) {
        names::measure(&std::fs::read(names).expect("the file of names can be read"));
    }
}

fn argument(at: usize) -> Option<String> {
    std::env::args().nth(at)
}

fn rounds() -> std::ops::Range<usize> {
    let rounds: NonZeroUsize = argument(1).and_then(|word| word.parse().ok()).expect(USAGE);
    0..rounds.get()
}

/// A figure that is told, which must be finite and more than nothing.
fn figure(name: &str, value: f64) -> f64 {
    assert!(value.is_finite() && value > 0.0, "{name}: {value} is no figure");
    value
}

fn measure(input: &Input, buffers: &mut Buffers) -> Times {
    let mut times = Times { ours: Duration::MAX, ours_worst: Duration::ZERO, rust: None };
    for _ in rounds() {
        let begun = Instant::now();
        let ours = input.calls().fold((0, 0), |sum, case| add(sum, buffers.read(case)));
        let time = begun.elapsed();
        times.ours = times.ours.min(time);
        times.ours_worst = times.ours_worst.max(time);
        if let Some((theirs, time)) = reference::pass(input) {
            assert_eq!(ours, theirs, "{}: records and text bytes", input.name);
            times.rust = Some(times.rust.map_or(time, |best| best.min(time)));
        }
    }
    times
}

fn add(one: (usize, usize), other: (usize, usize)) -> (usize, usize) {
    (one.0 + other.0, one.1 + other.1)
}

fn per_byte(time: Duration, input: &Input) -> f64 {
    figure(input.name, time.as_secs_f64() * 1e9 / input.bytes() as f64)
}

fn print(input: &Input, times: &Times) {
    let noise = 100.0 * (times.ours_worst.as_secs_f64() / times.ours.as_secs_f64() - 1.0);
    let ours = per_byte(times.ours, input);
    let (name, calls, bytes) = (input.name, input.calls().count(), input.bytes());
    match times.rust {
        Some(rust) => {
            let rust = per_byte(rust, input);
            println!(
                "{:<10} {:>7} {:>10} {:>14.3} {:>8.0} {:>14.3}",
                name, calls, bytes, ours, noise, rust
            );
            println!("ratio {} {:.2}", name, rust / ours);
        }
        None => println!("{:<10} {:>7} {:>10} {:>14.3} {:>8.0}", name, calls, bytes, ours, noise),
    }
}

/// The plain input against a copy of as many bytes.
fn copy(buffers: &mut Buffers) {
    let input = inputs::plain();
    let ours = measure(&input, buffers).ours;
    let mut best = Duration::MAX;
    for _ in rounds() {
        let begun = Instant::now();
        for case in input.calls() {
            buffers.text[..case.script.len()].copy_from_slice(&case.script);
            assert_eq!(buffers.text[0], case.script[0]);
        }
        best = best.min(begun.elapsed());
    }
    let ratio = figure("copy", best.as_secs_f64() / ours.as_secs_f64());
    println!("ratio copy {:.3}", ratio);
    println!("plain takes {:.1} times as long as a copy", 1.0 / ratio);
}
