// The published Rust is not at hand.
use crate::inputs::Input;
use std::time::Duration;

pub const WHAT: &str = "The published Rust is not at hand, so ours is timed alone: the entry checks, the UTF-8 check, reading, records and text written \
    into lent buffers.";

pub fn pass(_: &Input) -> Option<((usize, usize), Duration)> {
    None
}
