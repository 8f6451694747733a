//! Makes a failing input smaller as long as it still fails.

use std::time::{Duration, Instant};

use inputs::Case;

/// Bytes that stand for "any byte will do".
const PLAIN: u8 = b'x';

/// When to stop: inputs near the size limits have very many smaller ones.
const LONGEST: Duration = Duration::from_secs(20);

pub fn shrink(mut case: Case, mut fails: impl FnMut(&Case) -> bool) -> Case {
    let begun = Instant::now();
    loop {
        let failing =
            smaller(&case).take_while(|_| begun.elapsed() < LONGEST).find(|smaller| fails(smaller));
        match failing {
            Some(smaller) => case = smaller,
            None => return case,
        }
    }
}

/// Each is smaller than the case: a shorter list, a shorter script, lower numbers, or fewer
/// bytes that are not plain.
fn smaller(case: &Case) -> impl Iterator<Item = Case> + '_ {
    shorter_lists(case).chain(shorter_scripts(case)).chain(lower_numbers(case)).chain(plainer(case))
}

fn shorter_lists(case: &Case) -> impl Iterator<Item = Case> + '_ {
    [6, 1].into_iter().flat_map(move |count| {
        (0..case.list.len().div_ceil(count)).map(move |chunk| {
            let mut smaller = case.clone();
            let from = chunk * count;
            smaller.list.drain(from..(from + count).min(case.list.len()));
            smaller
        })
    })
}

fn shorter_scripts(case: &Case) -> impl Iterator<Item = Case> + '_ {
    let length = case.script.len();
    let sizes =
        std::iter::successors(Some(length), |size| Some(size / 2)).take_while(|&size| size > 0);
    sizes.flat_map(move |size| {
        (0..=length - size).step_by(size).map(move |at| without(case, at, at + size))
    })
}

/// The case without some bytes of the script; bodies move and shrink accordingly.
fn without(case: &Case, from: usize, to: usize) -> Case {
    let mut smaller = case.clone();
    smaller.script.drain(from..to);
    let gone_before = |at: u64| at.clamp(from as u64, to as u64) - from as u64;
    for literal in smaller.list.chunks_exact_mut(6) {
        let (offset, end) = (u64::from(literal[2]), u64::from(literal[2]) + u64::from(literal[3]));
        literal[2] -= gone_before(offset) as u32;
        literal[3] -= (gone_before(end) - gone_before(offset)) as u32;
    }
    smaller
}

fn lower_numbers(case: &Case) -> impl Iterator<Item = Case> + '_ {
    case.list.iter().enumerate().flat_map(move |(at, &number)| {
        let lower = [0, number / 2, number.saturating_sub(1)].into_iter();
        lower.filter(move |&other| other < number).map(move |other| {
            let mut smaller = case.clone();
            smaller.list[at] = other;
            smaller
        })
    })
}

fn plainer(case: &Case) -> impl Iterator<Item = Case> + '_ {
    let special = case.script.iter().enumerate().filter(|(_, &byte)| byte != PLAIN);
    special.map(|(at, _)| {
        let mut smaller = case.clone();
        smaller.script[at] = PLAIN;
        smaller
    })
}
