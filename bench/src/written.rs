//! Bodies written back from what was read, each beside its reading.
use crate::{call, figure, inputs, rounds, Buffers};
use std::time::{Duration, Instant};

/// Bytes of a body that are enough, for each byte of text and for each record.
const BODY_ROOM: usize = 4;

pub fn measure(buffers: &mut Buffers) {
    let mut body = vec![0; 1 << 22];
    for input in [inputs::bench_lines("bench", 1 << 19, 8), inputs::plain()] {
        time(&input, buffers, &mut body, input.name);
    }
    for size in [1 << 10, 1 << 15, 1 << 19] {
        let input = inputs::bench_lines("written", size, (4 << 20) / size);
        time(&input, buffers, &mut body, &format!("{size:>8} bytes"));
    }
}

fn time(input: &inputs::Input, buffers: &mut Buffers, body: &mut [u8], name: &str) {
    let case = input.calls().next().expect("an input has a case");
    let reading = buffers.answer(case);
    let (records, size) = (reading[5] as usize, reading[6] as usize);
    let (words, text) = (&buffers.words[..8 * records], &buffers.text[..size]);
    let body = &mut body[..BODY_ROOM * (records + size)];
    let mut best = Duration::MAX;
    let (mut written, mut calls) = (0, 0);
    for _ in rounds() {
        calls = 0;
        let begun = Instant::now();
        for _ in input.calls() {
            let answer = call::write(words, text, &reading, body);
            assert_eq!(answer[0], 0, "refused: {answer:?}");
            written = answer[1] as usize;
            calls += 1;
        }
        best = best.min(begun.elapsed());
    }
    let ours = figure(name, best.as_secs_f64() * 1e9 / (calls * written) as f64);
    println!("written {name}: {ours:.3} ns/byte");
}
