// The published Rust, as oracle/ compiles it.
use crate::inputs::Input;
use std::time::{Duration, Instant};

pub const WHAT: &str = "Timed of ours: the entry checks, the UTF-8 check, reading, records and text written into lent buffers. \
    Timed of the Rust: making the tree from owned strings that were made before, records and text written from it.";

/// What a pass over an input gives, and how long it takes.
pub fn pass(input: &Input) -> Option<((usize, usize), Duration)> {
    let values = |case: &crate::Case| oracle::rules::values(&case.script, &case.list).expect("sound literals");
    let all: Vec<_> = input.calls().map(values).collect();
    let begun = Instant::now();
    let sum = all.into_iter().fold((0, 0), |sum, values| {
        let accepted = oracle::rust::read_values(values).ok().expect("it is accepted");
        crate::add(sum, (accepted.records.len(), accepted.text.len()))
    });
    Some((sum, begun.elapsed()))
}
