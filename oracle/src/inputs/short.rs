//! Every short body over an alphabet, between two fixed pieces, for some kinds.

use crate::Case;

struct Family {
    kinds: &'static [u32],
    before: &'static str,
    alphabet: &'static [&'static str],
    after: &'static str,
    longest: usize,
}

const FIELD: &[&str] = &["{", "}", "(", "]", "!", "=", ":", "'", "\\", " ", "x", "r", "<"];
const SPEC: &[&str] = &["{", "}", "\\", "n", "N", ":", "!", "=", "\u{e9}", "\n"];

const FAMILIES: &[Family] = &[
    Family {
        kinds: &[0, 2, 3, 5, 6],
        before: "",
        alphabet: &[
            "\\", "n", "x", "u", "U", "N", "{", "}", "0", "7", "8", "f", "'", "\n", "\u{e9}",
        ],
        after: "",
        longest: 4,
    },
    Family {
        kinds: &[1, 4],
        before: "",
        alphabet: &["{", "}", "(", ")", "[", "]", "!", "=", ":", "\"", "\\", " ", "x", "s"],
        after: "",
        longest: 5,
    },
    Family { kinds: &[1, 4], before: "{x", alphabet: FIELD, after: "}", longest: 4 },
    Family { kinds: &[1, 4], before: "{x:", alphabet: SPEC, after: "}", longest: 5 },
    Family { kinds: &[1, 4], before: "{x:{y", alphabet: FIELD, after: "}}", longest: 4 },
    Family { kinds: &[1, 4], before: "{x:{y}", alphabet: SPEC, after: "}", longest: 4 },
    Family {
        kinds: &[1],
        before: "{x=",
        alphabet: &["=", "!", "r", ":", " ", "(", ")", "'", "\\", "<", "\t", "y", "}"],
        after: "}",
        longest: 4,
    },
    Family {
        kinds: &[1],
        before: "{",
        alphabet: &[" ", "\t", "\u{b}", "\u{85}", "\u{a0}", "\u{3000}", "=", "!r", ":", "x", "}"],
        after: "}",
        longest: 4,
    },
    Family {
        kinds: &[0, 1, 2],
        before: "",
        alphabet: &[
            "\\x",
            "\\u",
            "\\U",
            "\\N{",
            "0",
            "4",
            "D8",
            "10",
            "f",
            "}",
            "G",
            "DEGREE SIGN",
        ],
        after: "",
        longest: 4,
    },
];

pub fn visit(visit: &mut dyn FnMut(&Case)) {
    for family in FAMILIES {
        let mut body = family.before.to_owned();
        extend(family, &mut body, family.longest, visit);
    }
}

fn extend(family: &Family, body: &mut String, left: usize, visit: &mut dyn FnMut(&Case)) {
    let length = body.len();
    body.push_str(family.after);
    for &kind in family.kinds {
        for flag in [0, 1] {
            visit(&Case::one(kind, flag, body.as_bytes()));
        }
    }
    body.truncate(length);
    if left == 0 {
        return;
    }
    for letter in family.alphabet {
        body.push_str(letter);
        extend(family, body, left - 1, visit);
        body.truncate(length);
    }
}
