//! A trace replayed through a template, beside Python's loop over csv.reader with a compiled f-string, and beside snprintf
//! over the numbers of the trace.
use crate::{call, figure, rounds};
use std::time::{Duration, Instant};

extern "C" {
    fn snprintf(to: *mut u8, size: usize, format: *const u8, ...) -> i32;
}

/// What bench/replay-trace has for a template.
const FORMAT: &[u8] = b"%9d us  VDD %5d mV  code 0x%04x\n\0";
const MOST_LINE: usize = 64;
const FLAT: [usize; 4] = [1_000, 10_000, 100_000, 1_000_000];

struct Replays<'a> {
    template: &'a [u8],
    literal: [u32; 6],
    words: Vec<u32>,
    text: Vec<u8>,
    output: Vec<u8>,
}

impl Replays<'_> {
    /// Rows and bytes of a trace's lines, which stand in the output then.
    fn replay(&mut self, trace: &[u8]) -> (usize, usize) {
        let Replays { template, literal, words, text, output } = self;
        let answer = call::replay(template, literal, trace, words, text, output);
        assert_eq!(answer[0], 0, "refused: {answer:?}");
        (answer[9] as usize, answer[10] as usize)
    }
}

/// Times what bench/replay-trace wrote.
pub fn measure(file: &[u8]) {
    let (head, rest) = file.split_at(40);
    let head: Vec<u64> = head
        .chunks(8)
        .map(|eight| u64::from_le_bytes(eight.try_into().expect("eight bytes")))
        .collect();
    let [rows, python] = [head[0] as usize, head[1] as usize];
    let (template, rest) = rest.split_at(head[2] as usize);
    let (trace, lines) = rest.split_at(head[3] as usize);
    let length = template.len() as u32;
    let mut replays = Replays {
        template,
        literal: [1, 0, 2, length - 3, 0, length],
        words: vec![0; 1024],
        text: vec![0; 1024],
        output: vec![0; MOST_LINE * FLAT[FLAT.len() - 1]],
    };

    let numbers = numbers(trace);
    let (mut ours, mut printf) = (Duration::MAX, Duration::MAX);
    let mut output = vec![0; MOST_LINE * rows];
    for _ in rounds() {
        let begun = Instant::now();
        let written = replays.replay(trace);
        ours = ours.min(begun.elapsed());
        assert_eq!(written, (rows, lines.len()));
        assert!(replays.output[..lines.len()] == *lines, "the lines are Python's");

        let begun = Instant::now();
        let written = print(&numbers, &mut output);
        printf = printf.min(begun.elapsed());
        assert!(output[..written] == *lines, "the lines of snprintf are Python's");
    }
    let per_row = |time: Duration| time.as_secs_f64() * 1e9 / rows as f64;
    let python = python as f64 / rows as f64;
    println!(
        "rows {rows}: {:.0} ns/row, Python {python:.0}, snprintf {:.0}",
        per_row(ours),
        per_row(printf)
    );
    println!("ratio replay {:.1}", figure("replay", python / per_row(ours)));
    println!("ratio printf {:.2}", figure("printf", per_row(printf) / per_row(ours)));

    for count in FLAT {
        let trace = first_rows(trace, count);
        let times = (FLAT[2] / count).max(1);
        let mut best = Duration::MAX;
        for _ in rounds() {
            let begun = Instant::now();
            for _ in 0..times {
                assert_eq!(replays.replay(&trace).0, count);
            }
            best = best.min(begun.elapsed());
        }
        let ours = best.as_secs_f64() * 1e9 / (times * count) as f64;
        println!("rows {count:>8} replayed: {:.1} ns/row", figure("rows", ours));
    }
}

/// So many rows of a trace, over again if it has fewer.
fn first_rows(trace: &[u8], count: usize) -> Vec<u8> {
    let rows = trace.split_inclusive(|&byte| byte == b'\n');
    rows.cycle().take(count).flatten().copied().collect()
}

fn numbers(trace: &[u8]) -> Vec<[i32; 3]> {
    let text = std::str::from_utf8(trace).expect("a trace is ASCII");
    let row = |line: &str| {
        let columns: Vec<i32> =
            line.split(',').map(|column| column.parse().expect("a number")).collect();
        columns.try_into().expect("three columns")
    };
    text.lines().map(row).collect()
}

/// Writes a line for each row, and says how many bytes they have.
fn print(numbers: &[[i32; 3]], output: &mut [u8]) -> usize {
    let mut at = 0;
    for [first, second, third] in numbers {
        let left = output.len() - at;
        // SAFETY: the format asks for three numbers of 32 bits and ends with a byte 0, and no more is written than is left.
        let size = unsafe {
            snprintf(output[at..].as_mut_ptr(), left, FORMAT.as_ptr(), *first, *second, *third)
        };
        at += size as usize;
    }
    at
}
