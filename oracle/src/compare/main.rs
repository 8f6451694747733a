//! Compares the reading behind the C interface with the reference.
//!
//!   compare gate          a share of the enumerated lists and scripts, and random ones
//!   compare long N SEED   the enumerated ones and random ones, at least N lists and N / 4 scripts
//!
//! Stops at the first difference, with the smallest input that was found to show one.

mod candidate;
mod check;
mod shrink;

use std::process::ExitCode;

use check::{Checker, Difference};
use inputs::{Case, Random};

const GATE_SEED: u64 = 20_260_101;
const GATE_LISTS: u64 = 1_300_000;
const GATE_SCRIPTS: u64 = 100_000;

fn main() -> ExitCode {
    let arguments: Vec<String> = std::env::args().skip(1).collect();
    let words: Vec<&str> = arguments.iter().map(String::as_str).collect();
    match words[..] {
        ["gate"] => run(true, GATE_LISTS, GATE_SCRIPTS, GATE_SEED),
        ["long", count, seed] => match (count.parse::<u64>(), seed.parse()) {
            (Ok(count), Ok(seed)) => run(false, count, count / 4, seed),
            _ => usage(),
        },
        _ => usage(),
    }
}

fn usage() -> ExitCode {
    eprintln!("usage: compare gate | compare long N SEED");
    ExitCode::from(2)
}

/// Compares enumerated lists and scripts, all or a share, then random ones until there are so many.
fn run(share: bool, lists: u64, scripts: u64, seed: u64) -> ExitCode {
    println!("compare: seed {seed}");
    let mut checker = Checker::default();
    let mut random = Random::new(seed);
    let enumerated = if share { inputs::sample } else { inputs::enumerated };
    enumerated(&mut |case| compare(&mut checker, case, Checker::check));
    while checker.lists() < lists {
        compare(&mut checker, &inputs::random(&mut random), Checker::check);
    }
    let enumerated = if share { inputs::sample_scripts } else { inputs::scripts };
    enumerated(&mut |case| compare(&mut checker, case, Checker::check_script));
    while checker.scripts() < scripts {
        compare(&mut checker, &inputs::random_script(&mut random), Checker::check_script);
    }
    println!("{}", checker.summary());
    ExitCode::SUCCESS
}

/// Ends the program if the case shows a difference.
fn compare(
    checker: &mut Checker,
    case: &Case,
    check: fn(&mut Checker, &Case) -> Option<Difference>,
) {
    if check(checker, case).is_none() {
        return;
    }
    let smallest = shrink::shrink(case.clone(), |case| check(checker, case).is_some());
    let difference = check(checker, &smallest).expect("only failing inputs are kept");
    println!("compare: DIFFERENT\n{smallest}\n{difference}");
    std::process::exit(1);
}
