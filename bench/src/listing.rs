//! Whole scripts beside Python: their literals from each run's offset on beside tokenize, and all their fields beside
//! `ast.parse` with a walk for fields.
use crate::{call, figure, rounds};
use std::time::{Duration, Instant};

struct Script<'a> {
    source: &'a [u8],
    offsets: Vec<u32>,
}

/// A literal and an f-string, as bench scripts have them.
const LINE: &str = "'VDD = 743 mV, code ' f'{743 / 12.5:.0f}'  # round\n";
/// Fields in specs and in the expressions of fields.
const NESTED: &str = "print(f'{f\"{mv!r:>{width}}\":>{2 * width}} {names[\"VDD\"]}')\n";

const SIZES: [usize; 3] = [1 << 10, 1 << 15, 1 << 20];

/// Times the scripts in a file that bench/library-scripts wrote, and scripts of several sizes.
pub fn measure(file: &[u8]) {
    let (head, mut rest) = file.split_at(24);
    let times: Vec<u64> = head
        .chunks(8)
        .map(|eight| u64::from_le_bytes(eight.try_into().expect("eight bytes")))
        .collect();
    let scripts = scripts(&mut rest);
    let bytes = scripts.iter().map(|script| script.source.len()).sum::<usize>() as f64;
    let per_byte = |name: &str, time: f64| figure(name, time / bytes);
    let mut numbers = vec![0; 10 << 20];
    println!("scripts {}, bytes {}", scripts.len(), bytes);

    let runs = scripts.iter().map(|script| script.offsets.len()).sum::<usize>();
    let (literals, ours) = best(&scripts, 1, |script| literals(script, &mut numbers));
    let ours = per_byte("literals", ours);
    let tokenize = per_byte("tokenize", times[0] as f64);
    println!("runs {runs}, literals {literals}: {ours:.3} ns/byte, tokenize {tokenize:.0}");
    println!("ratio tokenize {:.0}", tokenize / ours);
    flat("listed", LINE, |script| self::literals(script, &mut numbers));

    let (fields, ours) = best(&scripts, 1, |script| self::fields(script, &mut numbers));
    let ours = per_byte("fields", ours);
    let ast = per_byte("ast", times[1] as f64);
    println!("fields {fields} ({} by ast): {ours:.3} ns/byte, ast {ast:.0}", times[2]);
    println!("ratio ast {:.0}", ast / ours);
    flat("fields", LINE, |script| self::fields(script, &mut numbers));
    flat("nested", NESTED, |script| self::fields(script, &mut numbers));
}

fn flat(name: &str, line: &str, mut work: impl FnMut(&Script) -> usize) {
    for size in SIZES {
        let source = line.repeat(size / line.len());
        let script = Script { source: source.as_bytes(), offsets: vec![0] };
        let times = (8 << 20) / size;
        let (_, ours) = best(&[script], times, &mut work);
        let ours = figure(name, ours / (times * source.len()) as f64);
        println!("bytes {size:>8} {name}: {ours:.3} ns/byte");
    }
}

fn scripts<'a>(rest: &mut &'a [u8]) -> Vec<Script<'a>> {
    fn take<'a>(rest: &mut &'a [u8], size: usize) -> &'a [u8] {
        let (front, after) = rest.split_at(size);
        *rest = after;
        front
    }
    let number = |bytes: &[u8]| u32::from_le_bytes(bytes.try_into().expect("four bytes"));
    let mut scripts = Vec::new();
    while !rest.is_empty() {
        let bytes = number(take(rest, 4)) as usize;
        let runs = number(take(rest, 4)) as usize;
        let offsets = take(rest, 4 * runs).chunks(4).map(number).collect();
        scripts.push(Script { source: take(rest, bytes), offsets });
    }
    scripts
}

/// How many literals there are from the offsets of a script on.
fn literals(script: &Script, numbers: &mut [u32]) -> usize {
    let listed = script.offsets.iter().map(|&offset| {
        let answer = call::literals(script.source, offset, numbers);
        assert_eq!(answer[0], 0, "refused: {answer:?}");
        answer[1] as usize
    });
    listed.sum()
}

/// How many fields a script has.
fn fields(script: &Script, rows: &mut [u32]) -> usize {
    let answer = call::fields(script.source, rows);
    assert_eq!(answer[0], 0, "refused: {answer:?}");
    (answer[1] - answer[2]) as usize
}

/// What a pass over the scripts gives, each script so many times, and the best time of a pass in nanoseconds.
fn best(scripts: &[Script], times: usize, mut work: impl FnMut(&Script) -> usize) -> (usize, f64) {
    let mut best = (0, Duration::MAX);
    for _ in rounds() {
        let begun = Instant::now();
        let given = (0..times).flat_map(|_| scripts).map(&mut work).sum();
        best = (given, best.1.min(begun.elapsed()));
    }
    (best.0, best.1.as_secs_f64() * 1e9)
}
