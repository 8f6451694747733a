//! Bodies of f-strings cut at 79 bytes: the plan and its check, each beside a reading of the body.
use crate::{call, figure, inputs, rounds, Buffers};
use std::time::{Duration, Instant};

const LIMIT: u32 = 79;
const SIZES: [usize; 3] = [1 << 12, 1 << 16, 1 << 20];

pub fn measure(buffers: &mut Buffers) {
    let mut list = vec![0; SIZES[2]];
    for size in SIZES {
        for input in inputs::bodies(size, SIZES[2] / size) {
            time(&input, size, buffers, &mut list);
        }
    }
}

fn time(input: &inputs::Input, size: usize, buffers: &mut Buffers, list: &mut [u32]) {
    let case = input.calls().next().expect("an input has a case");
    let planned = call::cuts_plan(&case.script, LIMIT, list);
    assert_eq!(planned[1], 1, "{}: no plan", input.name);
    let cuts = planned[2] as usize;
    let [mut read, mut plan, mut check] = [Duration::MAX; 3];
    for _ in rounds() {
        read = read.min(pass(input, || buffers.answer(case)));
        plan = plan.min(pass(input, || call::cuts_plan(&case.script, LIMIT, list)));
        check = check.min(pass(input, || call::cuts_check(&case.script, LIMIT, &list[..cuts])));
    }
    let told = |time: Duration| {
        let ours = figure(input.name, time.as_secs_f64() * 1e9 / input.bytes() as f64);
        format!("{ours:.3} ns/byte, {:.2} readings", time.as_secs_f64() / read.as_secs_f64())
    };
    println!(
        "cuts {:<7} {size:>8} bytes: planned {}; checked {}",
        input.name,
        told(plan),
        told(check)
    );
}

/// The time of the calls of a pass, which must be accepted.
fn pass(input: &inputs::Input, mut call: impl FnMut() -> [u32; call::ANSWER]) -> Duration {
    let begun = Instant::now();
    for _ in input.calls() {
        let answer = call();
        assert_eq!(answer[0], 0, "{}: refused: {answer:?}", input.name);
    }
    begun.elapsed()
}
