//! The edges of the entry checks: counts, sizes and descriptors.

use oracle::rules::{MAX_BODY_BYTES, MAX_LITERALS, NUMBERS};

use crate::case::Case;

pub fn visit(visit: &mut dyn FnMut(&Case)) {
    visit_small(visit);
    large_bodies(visit);
}

/// Those whose buffers are small.
pub fn visit_small(visit: &mut dyn FnMut(&Case)) {
    list_lengths(visit);
    literal_counts(visit);
    lent_bodies(visit);
    descriptors(visit);
    first_and_last_places(visit);
    faults_in_order(visit);
    utf8(visit);
    brackets(visit);
}

/// Lists of all sorts of lengths, without a good literal in them.
fn list_lengths(visit: &mut dyn FnMut(&Case)) {
    let most = MAX_LITERALS * NUMBERS;
    for length in (0..=19).chain(most..=most + NUMBERS + 1) {
        visit(&Case { script: Vec::new(), list: vec![7; length] });
    }
}

fn literal_counts(visit: &mut dyn FnMut(&Case)) {
    for (kind, body) in [(0, "a"), (1, "{x}"), (2, "\\x41"), (6, "")] {
        for count in [MAX_LITERALS - 1, MAX_LITERALS, MAX_LITERALS + 1] {
            let mut case = Case { script: body.into(), list: Vec::new() };
            for _ in 0..count {
                case.add_lent(kind, 0, 0, body.len() as u32, case.last_end());
            }
            visit(&case);
        }
    }
}

/// The same body lent again and again, up to the size that all may have together.
fn lent_bodies(visit: &mut dyn FnMut(&Case)) {
    let (count, length) = (256, MAX_BODY_BYTES / 256);
    for more in [0, 1] {
        let mut case = Case { script: vec![b'a'; length + more], list: Vec::new() };
        for literal in 0..count {
            let more = if literal == 0 { more } else { 0 };
            case.add_lent(0, 0, 0, (length + more) as u32, case.last_end());
        }
        visit(&case);
    }
}

/// Each number of a sound list of two, changed.
fn descriptors(visit: &mut dyn FnMut(&Case)) {
    for kinds in [[0, 0], [1, 6], [2, 5], [0, 2], [4, 3]] {
        for flag in [0, 1] {
            for start in [0, u32::MAX - 40] {
                let mut sound = Case::default();
                sound.add(kinds[0], flag, b"ab", start);
                sound.add(kinds[1], flag, b"c\\", sound.last_end());
                changed_numbers(&sound, visit);
            }
        }
    }
}

fn changed_numbers(sound: &Case, visit: &mut dyn FnMut(&Case)) {
    visit(sound);
    for at in 0..sound.list.len() {
        let number = sound.list[at];
        let lower = (1..=5).map(|by| number.wrapping_sub(by));
        let others = [0, 1, 2, 6, 7, number.wrapping_add(1), u32::MAX - 1, u32::MAX];
        for other in lower.chain(others) {
            let mut case = sound.clone();
            case.list[at] = other;
            visit(&case);
        }
    }
}

/// Short bodies of all kinds with every start and end near 0 and near the last place.
fn first_and_last_places(visit: &mut dyn FnMut(&Case)) {
    const MOST: u32 = 9;
    for kind in 0..7 {
        for flag in [0, 1] {
            for length in 0..3 {
                for (start, end) in
                    (0..=MOST).flat_map(|end| (0..=end).map(move |start| (start, end)))
                {
                    for first in [0, u32::MAX - MOST] {
                        let list = vec![kind, flag, 1, length, first + start, first + end];
                        visit(&Case { script: b"abc".to_vec(), list });
                    }
                }
            }
        }
    }
}

/// Every pair of bytes at the edges of Unicode table 3-7, alone and continued.
fn utf8(visit: &mut dyn FnMut(&Case)) {
    const EDGES: &[u8] = &[
        0x00, 0x7F, 0x80, 0x8F, 0x90, 0x9F, 0xA0, 0xBF, 0xC0, 0xC1, 0xC2, 0xDF, 0xE0, 0xE1, 0xEC,
        0xED, 0xEE, 0xEF, 0xF0, 0xF1, 0xF3, 0xF4, 0xF5, 0xFF,
    ];
    for &first in EDGES {
        for &second in EDGES {
            for rest in [&[][..], &[0x80], &[0x80, 0xBF], &[0x7F], &[0x80, 0xC0]] {
                let body = [b"a\xC3\xA9", &[first, second][..], rest].concat();
                visit(&Case::one(0, 0, &body));
            }
        }
    }
}

/// Around 64 open brackets, in a field and in a field of a spec, with other refusals near.
fn brackets(visit: &mut dyn FnMut(&Case)) {
    for (before, after) in [("{", "}"), ("{x:{", "}}"), ("{'('}{", "}"), ("}}{x=", "}")] {
        for count in 63..=66 {
            for opening in ["(", "[", "{", "({["] {
                let open: String = opening.chars().cycle().take(count).collect();
                for middle in ["x", "", "!", "\\", "'", "()"] {
                    let body = format!("{before}{open}{middle}{}{after}", closers(&open));
                    visit(&Case::one(1, 0, body.as_bytes()));
                }
                visit(&Case::one(4, 1, format!("{before}{open}").as_bytes()));
            }
        }
    }
}

fn closers(openers: &str) -> String {
    let closer = |opener| match opener {
        '(' => ')',
        '[' => ']',
        _ => '}',
    };
    openers.chars().rev().map(closer).collect()
}

fn large_bodies(visit: &mut dyn FnMut(&Case)) {
    for (kind, unit) in [
        (0, "a"),
        (0, "\\n"),
        (3, "\u{e9}"),
        (6, "\u{1f600}"),
        (1, "{x=!r:>{w}} "),
        (1, "{{"),
        (4, "{x:"),
        (1, "{()}"),
        (2, "\\x41"),
        (5, "a"),
    ] {
        for size in [MAX_BODY_BYTES - 1, MAX_BODY_BYTES, MAX_BODY_BYTES + 1] {
            let mut body = unit.repeat(size / unit.len());
            body.push_str(&"b".repeat(size - body.len()));
            visit(&Case::one(kind, 1, body.as_bytes()));
            let mut case = Case::one(kind, 0, &body.as_bytes()[..unit.len()]);
            case.add(kind, 0, &body.as_bytes()[unit.len()..], case.last_end());
            visit(&case);
        }
    }
    for size in [MAX_BODY_BYTES, MAX_BODY_BYTES + 1] {
        large_with_faults(size, visit);
    }
}

/// A large body that is not UTF-8, and the same with a bad descriptor behind it.
fn large_with_faults(size: usize, visit: &mut dyn FnMut(&Case)) {
    let mut body = vec![b'a'; size];
    body[size - 1] = 0xC3;
    let mut case = Case::one(1, 0, &body);
    visit(&case);
    case.add_lent(0, 0, 0, 0, 0);
    visit(&case);
}

/// Every choice of three literals, sound and faulty, and the same with a bad flag in the third.
fn faults_in_order(visit: &mut dyn FnMut(&Case)) {
    const LITERALS: [(u32, &[u8]); 7] =
        [(0, b"a"), (0, b"\xFF"), (0, b"\\"), (1, b"{x}"), (1, b"}"), (2, b"a"), (2, b"\xC3\xA9")];
    for choice in 0..LITERALS.len().pow(3) {
        let mut case = Case::default();
        for (kind, body) in [1, 7, 49].map(|place| LITERALS[choice / place % LITERALS.len()]) {
            case.add(kind, 0, body, case.last_end());
        }
        visit(&case);
        case.list[13] = 2;
        visit(&case);
    }
}
