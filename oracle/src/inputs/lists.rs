//! Random lists of one to six literals, now and then with a bad descriptor.

use crate::case::Case;
use crate::damage::damage;
use crate::grammar;
use crate::random::Random;

pub fn list(random: &mut Random) -> Case {
    let count = if random.once_in(2) { 1 } else { 1 + random.below(6) };
    let only_bytes = random.once_in(6);
    let mut case = Case::default();
    for _ in 0..count {
        let kind = kind(random, only_bytes);
        let body = body(random, kind);
        (0..random.below(3)).for_each(|_| case.script.push(random.next() as u8));
        let start = case.last_end() + random.below(4) as u32;
        case.add(kind, random.below(2) as u32, &body, start);
    }
    move_places(random, &mut case);
    if random.once_in(16) {
        spoil(random, &mut case);
    }
    case
}

/// Moves all starts and ends up, now and then as far as the numbers go.
fn move_places(random: &mut Random, case: &mut Case) {
    let room = u32::MAX - case.last_end();
    let by = match random.below(4) {
        0 => room - random.below(3) as u32,
        1 => random.below(room as usize) as u32,
        _ => random.below(100) as u32,
    };
    for literal in case.list.chunks_exact_mut(6) {
        literal[4] += by;
        literal[5] += by;
    }
}

fn kind(random: &mut Random, only_bytes: bool) -> u32 {
    let among: &[u32] = match only_bytes {
        true => &[2, 5],
        false => &[0, 1, 1, 1, 3, 4, 6],
    };
    if random.once_in(40) {
        random.below(7) as u32
    } else {
        among[random.below(among.len())]
    }
}

fn body(random: &mut Random, kind: u32) -> Vec<u8> {
    let mut body = grammar::body(random, kind);
    if random.once_in(2) {
        (0..random.below(3)).for_each(|_| damage(random, &mut body));
    }
    body
}

/// Changes one number of the list, often to or over the edge of what is allowed, or makes
/// the list end early.
fn spoil(random: &mut Random, case: &mut Case) {
    let at = random.below(case.list.len());
    if random.once_in(8) {
        case.list.truncate(at);
        return;
    }
    let number = case.list[at];
    case.list[at] = match random.below(6) {
        0 => number.wrapping_add(1),
        1 => number.wrapping_sub(1),
        2 => number.wrapping_sub(1 + random.below(4) as u32),
        3 => case.script.len() as u32,
        4 => u32::MAX - random.below(4) as u32,
        _ => random.below(9) as u32,
    };
}
