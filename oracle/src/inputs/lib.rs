//! Inputs of the comparison: enumerated ones, the same in every run, and random ones.

mod blanks;
mod case;
mod damage;
mod edges;
mod escapes;
mod grammar;
mod lists;
mod named;
mod random;
mod scalars;
mod scripts;
mod short;

pub use case::{Case, FILL_BYTE, FILL_WORD};
pub use random::Random;

/// Every enumerated input, one family after the other.
pub fn enumerated(visit: &mut dyn FnMut(&Case)) {
    named::visit(visit);
    edges::visit(visit);
    blanks::visit(visit);
    escapes::visit(visit);
    short::visit(visit);
    scalars::visit(visit);
}

/// The named ones, those at the edges, those of blanks, and a share of the other enumerated inputs.
pub fn sample(visit: &mut dyn FnMut(&Case)) {
    named::visit(visit);
    edges::visit(visit);
    blanks::visit(visit);
    one_in(7, escapes::visit, visit);
    one_in(7, short::visit, visit);
    one_in(61, scalars::visit, visit);
}

fn one_in(share: u64, family: fn(&mut dyn FnMut(&Case)), visit: &mut dyn FnMut(&Case)) {
    let mut count = 0;
    family(&mut |case| {
        if count % share == 0 {
            visit(case);
        }
        count += 1;
    });
}

/// The named inputs, each of which a fixed list should have.
pub fn named(visit: &mut dyn FnMut(&Case)) {
    named::visit(visit);
}

/// Enumerated inputs at the edges, of which a fixed list should have some.
pub fn edges(visit: &mut dyn FnMut(&Case)) {
    edges::visit_small(visit);
    escapes::visit_edges(visit);
}

/// A random list, sound or damaged.
pub fn random(random: &mut Random) -> Case {
    lists::list(random)
}

/// Every enumerated whole script. Such a case has no list.
pub fn scripts(visit: &mut dyn FnMut(&Case)) {
    scripts::visit_long(visit);
    scripts::visit_short(visit);
}

/// The long ones, and a share of the others.
pub fn sample_scripts(visit: &mut dyn FnMut(&Case)) {
    scripts::visit_long(visit);
    one_in(7, scripts::visit_short, visit);
}

/// A random whole script, sound or damaged.
pub fn random_script(random: &mut Random) -> Case {
    scripts::script(random)
}
