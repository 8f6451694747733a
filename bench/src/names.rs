//! A lent file of names, as Unicode publishes it: its index built and checked, and names looked up.
use crate::{call, figure, rounds};
use std::time::{Duration, Instant};

/// A call takes at most so many literals.
const MOST_LITERALS: usize = 1_024;
/// Names are asked for in an order that is neither the file's nor the index's.
const STEP: usize = 7_919;

/// A script and a list of literals.
type List = (Vec<u8>, Vec<u32>);

/// A literal with one name, and the line of that name.
struct Asked<'a> {
    body: Vec<u8>,
    line: &'a [u8],
}

pub fn measure(file: &[u8]) {
    let mut index = vec![0; file.len()];
    let (count, built) = best(|| build(file, &mut index));
    index.truncate(count);
    let (_, checked) = best(|| check(file, &index, 0));
    let mut swapped = index.clone();
    swapped.swap(0, 1);
    let (_, wrong) = best(|| check(file, &swapped, 63));
    println!(
        "names {count}, bytes {}: build {:.2} ms, check {:.2} ms, check of a wrong index {:.2} ms",
        file.len(),
        figure("build", 1e3 * built),
        figure("check", 1e3 * checked),
        figure("check of a wrong index", 1e3 * wrong)
    );

    let asked: Vec<Asked> =
        (0..count).map(|at| Asked::at(file, index[at * STEP % count] as usize)).collect();
    let mut text = vec![0; 4 * MOST_LITERALS];
    let mut read = |list: &List, file: &[u8], index: &[u32]| search(list, file, index, &mut text);
    let lists: Vec<List> = asked.chunks(MOST_LITERALS).map(literals).collect();
    let (_, many) = best(|| lists.iter().map(|list| read(list, file, &index)).sum());
    let singles: Vec<List> = asked.chunks(1).map(literals).collect();
    let (_, one) = best(|| singles.iter().map(|list| read(list, file, &index)).sum());
    let (_, alone) =
        best(|| singles.iter().zip(&asked).map(|(list, asked)| read(list, asked.line, &[0])).sum());
    let per_name = |time: f64| figure("lookup", 1e9 * time / count as f64);
    println!("lookup, {MOST_LITERALS} names a call: {:.0} ns/name", per_name(many));
    let (one, alone) = (per_name(one), per_name(alone));
    println!(
        "lookup, one name a call: {one:.0} ns/name, in a file of its line alone {alone:.0}: the search {:.0}",
        one - alone
    );
}

impl<'a> Asked<'a> {
    fn at(file: &'a [u8], at: usize) -> Asked<'a> {
        let line = file[at..].split_inclusive(|&byte| byte == b'\n').next().expect("a line");
        let name = line.split(|&byte| byte == b';').nth(1).expect("a name");
        Asked { body: [b"\\N{", name, b"}"].concat(), line }
    }
}

/// A script of their bodies, and a list of them as plain literals side by side.
fn literals(asked: &[Asked]) -> List {
    let (mut script, mut list, mut start) = (Vec::new(), Vec::new(), 0);
    for Asked { body, .. } in asked {
        let end = start + body.len() as u32 + 2;
        list.extend([0, 0, script.len() as u32, body.len() as u32, start, end]);
        script.extend(body);
        start = end;
    }
    (script, list)
}

fn build(file: &[u8], index: &mut [u32]) -> usize {
    let answer = call::names_build(file, index);
    assert_eq!(answer[0], 0, "refused: {answer:?}");
    answer[1] as usize
}

fn check(file: &[u8], index: &[u32], number: u32) -> usize {
    let answer = call::names_check(file, index);
    assert_eq!(answer[0], number, "{answer:?}");
    answer[1] as usize
}

/// Reads the literals, which must be accepted, and gives the bytes of their text.
fn search((script, list): &List, file: &[u8], index: &[u32], text: &mut [u8]) -> usize {
    let mut words = [0; call::RECORD];
    let answer = call::read_searched(script, list, file, index, &mut words, text);
    assert_eq!(answer[0], 0, "refused: {answer:?}");
    answer[6] as usize
}

/// What the work gives, and its best time in seconds.
fn best(mut work: impl FnMut() -> usize) -> (usize, f64) {
    let mut best = (0, Duration::MAX);
    for _ in rounds() {
        let begun = Instant::now();
        let given = work();
        best = (given, best.1.min(begun.elapsed()));
    }
    (best.0, best.1.as_secs_f64())
}
