//! Every \x, \u and octal escape, and the edges of \U and \N.

use crate::Case;
use oracle::HELD_NAMES;

const KINDS: [u32; 4] = [0, 1, 2, 6];

pub fn visit(visit: &mut dyn FnMut(&Case)) {
    let mut spell = |body: &str| KINDS.iter().for_each(|&kind| visit(&one(kind, body)));
    hex_pairs(&mut spell);
    fours(&mut spell);
    octals(&mut spell);
    changed_names(&mut spell);
    edges(&mut spell);
}

/// The few that lie at the edges.
pub fn visit_edges(visit: &mut dyn FnMut(&Case)) {
    edges(&mut |body| KINDS.iter().for_each(|&kind| visit(&one(kind, body))));
}

fn one(kind: u32, body: &str) -> Case {
    Case::one(kind, 0, body.as_bytes())
}

fn hex_pairs(spell: &mut dyn FnMut(&str)) {
    for first in '\0'..='\x7f' {
        for second in '\0'..='\x7f' {
            spell(&format!("\\x{first}{second}"));
        }
    }
}

fn fours(spell: &mut dyn FnMut(&str)) {
    for code in 0..=0xFFFF {
        spell(&format!("\\u{code:04x}"));
        spell(&format!("\\u{code:04X}"));
    }
}

fn octals(spell: &mut dyn FnMut(&str)) {
    for after in ["", "0", "7", "8", "{{", "\\"] {
        for digits in 1..=3 {
            for code in 0..1 << (3 * digits) {
                spell(&format!("\\{code:0digits$o}{after}"));
            }
        }
    }
}

/// Every held name with one character put for another, left out or put in.
fn changed_names(spell: &mut dyn FnMut(&str)) {
    for (name, _) in HELD_NAMES {
        for at in 0..name.len() {
            let (before, after) = name.split_at(at);
            spell(&format!("\\N{{{before}{}}}", &after[1..]));
            for other in [" ", "A", "-", "s", "\u{e9}", "{"] {
                spell(&format!("\\N{{{before}{other}{after}}}"));
                spell(&format!("\\N{{{before}{other}{}}}", &after[1..]));
            }
        }
    }
}

fn edges(spell: &mut dyn FnMut(&str)) {
    for code in [
        0u32,
        0x7F,
        0x80,
        0x7FF,
        0x800,
        0xD7FF,
        0xD800,
        0xDFFF,
        0xE000,
        0xFFFF,
        0x1_0000,
        0x10_FFFF,
        0x11_0000,
        0x8000_0000,
        0xFFFF_FFFF,
    ] {
        spell(&format!("\\U{code:08x}"));
        spell(&format!("a\\U{code:08X}b"));
    }
    for (letter, digits) in [('x', 2), ('u', 4), ('U', 8)] {
        for good in 0..digits {
            let short = "0".repeat(good);
            spell(&format!("\\{letter}{short}"));
            spell(&format!("\\{letter}{short}g{}", "0".repeat(digits)));
            spell(&format!("\\{letter}{short}\u{ff11}"));
        }
    }
    for body in ["\\", "a\\", "\\N", "\\Na", "\\N{", "\\N{a", "\\N{}", "\\N{{}", "\\N}", "\\\n"] {
        spell(body);
    }
    for (name, _) in HELD_NAMES {
        spell(&format!("\\N{{{name}}}"));
        spell(&format!("a\\N{{{}}}", name.to_lowercase()));
        spell(&format!("\\N{{{name}"));
        spell(&format!("\\N{{ {name}}}"));
    }
    for letter in ["A", "\u{e9}", "\u{20ac}", "\u{1f600}"] {
        for bytes in 85..=92 {
            let filler = "x".repeat(bytes % letter.len());
            spell(&format!("\\N{{{filler}{}}}b", letter.repeat(bytes / letter.len())));
        }
    }
}
