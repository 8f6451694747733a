//! Two revisions of a run of literals compared, whose middle item differs.
use crate::{call, figure, rounds};
use std::time::{Duration, Instant};

/// An item of text and one of a field with its spec: four records.
const PAIR: &str = "V{x:3}";
const RECORDS_OF_A_PAIR: usize = 4;
const FLAT: [usize; 4] = [100, 1_000, 10_000, 100_000];

/// What a reading left.
struct Revision {
    words: Vec<u32>,
    text: Vec<u8>,
    numbers: [u32; call::ANSWER],
}

impl Revision {
    fn read(body: &str) -> Revision {
        let script = format!("f'{body}'");
        let (length, size) = (script.len() as u32, body.len());
        let literal = [1, 0, 2, size as u32, 0, length];
        let (mut words, mut text) = (vec![0; (size + 1) * call::RECORD], vec![0; 2 * size]);
        let numbers = call::read(script.as_bytes(), &literal, &mut words, &mut text);
        assert_eq!(numbers[0], 0, "refused: {numbers:?}");
        Revision { words, text, numbers }
    }

    fn lent(&self) -> call::Lent<'_> {
        (&self.words, &self.text, self.numbers)
    }
}

/// Times comparisons of so many records on each side.
pub fn measure() {
    for records in FLAT {
        let pairs = records / RECORDS_OF_A_PAIR;
        let half = PAIR.repeat(pairs / 2);
        let rest = PAIR.repeat(pairs - pairs / 2 - 1);
        let [old, new] =
            ["V{x:3}", "V{x:4}"].map(|pair| Revision::read(&format!("{half}{pair}{rest}")));
        assert_eq!(old.numbers[5] as usize, records);
        let (items, times) = (2 * pairs as u32, FLAT[3] / records);
        let front = 2 * (pairs / 2) as u32 + 1;
        let expected = [0, front, items - front - 1, items, items, 1, 1, 0, 0, 0, 0, 0];
        let mut list = [0; 2];
        let mut best = Duration::MAX;
        for _ in rounds() {
            let begun = Instant::now();
            for _ in 0..times {
                assert_eq!(call::compare(old.lent(), new.lent(), &mut list), expected);
            }
            best = best.min(begun.elapsed());
        }
        assert_eq!(list, [front; 2]);
        let ours = best.as_secs_f64() * 1e9 / (2 * times * records) as f64;
        println!("records {records:>6} compared: {:.1} ns/record", figure("compare", ours));
    }
}
