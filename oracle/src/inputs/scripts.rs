//! Whole scripts: every short one between two fixed pieces, some as long as they may be, and random
//! ones with f-strings in the expressions of f-strings.

use oracle::listing::MAX_SCRIPT_BYTES;

use crate::case::Case;
use crate::damage::damage;
use crate::grammar;
use crate::random::Random;

struct Family {
    before: &'static str,
    alphabet: &'static [&'static str],
    after: &'static str,
    longest: usize,
}

const FAMILIES: &[Family] = &[
    Family {
        before: "",
        alphabet: &[
            "f", "R", "b", "U", "x", "_", "'", "\"", "#", "\\", "\n", "\r", "{x}", "\u{e9}",
        ],
        after: "",
        longest: 5,
    },
    Family {
        before: "f'{",
        alphabet: &["x", "f", "\"", "\"\"\"", "{", "}", "#", "\\", "=", "!r", ":", " ", "(", "\n"],
        after: "}'",
        longest: 4,
    },
    Family {
        before: "f'''{",
        alphabet: &["x", "f", "'", "\"", "\"\"\"", "#", "\\", "{x}", "\n", "\r"],
        after: "}'''",
        longest: 5,
    },
    Family {
        before: "f'{x:",
        alphabet: &["{", "}", "{y}", "\\", "N", "#", "\"", "f\"", "!", "="],
        after: "}'",
        longest: 4,
    },
    Family {
        before: "rf\"\"\"{f'{",
        alphabet: &["x", "\"", "f\"", "#", "\\", "=", ":", "{", "}", " "],
        after: "}'}\"\"\"",
        longest: 4,
    },
];

pub fn visit_short(visit: &mut dyn FnMut(&Case)) {
    for family in FAMILIES {
        extend(family, &mut family.before.to_owned(), family.longest, visit);
    }
}

fn extend(family: &Family, script: &mut String, left: usize, visit: &mut dyn FnMut(&Case)) {
    visit(&whole(format!("{script}{}", family.after).into_bytes()));
    if left == 0 {
        return;
    }
    for letter in family.alphabet {
        let length = script.len();
        script.push_str(letter);
        extend(family, script, left - 1, visit);
        script.truncate(length);
    }
}

/// What is repeated, with spaces up to 64 bytes, and what stands at the end.
const LONG: &[(&str, &str)] = &[
    ("f'{x}' ", ""),
    ("f'{#}' ", "'"),
    (" ", "f'{x}'"),
    ("#'", "\nf'{x}'"),
    ("''", "f'{}'"),
    ("f'''{f\"{f'{x}'}\"}'''", "f\"\n"),
];

/// Scripts as long as they may be, and a byte longer.
pub fn visit_long(visit: &mut dyn FnMut(&Case)) {
    for (again, last) in LONG {
        let again = format!("{again:<64}");
        let before = MAX_SCRIPT_BYTES - last.len();
        let mut script = again.repeat(before / again.len()).into_bytes();
        script.resize(before, b' ');
        script.extend(last.bytes());
        visit(&whole(script.clone()));
        script.insert(0, b' ');
        visit(&whole(script));
    }
}

fn whole(script: Vec<u8>) -> Case {
    Case { script, list: Vec::new() }
}

/// What stands between literals.
const GAPS: &[&str] = &[
    "",
    " ",
    "\n",
    "\r",
    "\r\n",
    "x",
    "_",
    "9",
    "xy",
    "(",
    ")",
    "=",
    "\u{e9}",
    "\u{feff}",
    "\\\n",
    "# it's\n",
    "#\"\"\"\r",
    "# f'{x}'\r\n",
    "#",
];

/// With their kinds; those of an f-string more often.
const PREFIXES: &[(&str, u32)] = &[
    ("f", 1),
    ("f", 1),
    ("f", 1),
    ("f", 1),
    ("F", 1),
    ("fR", 4),
    ("rf", 4),
    ("", 0),
    ("b", 2),
    ("r", 3),
    ("Rb", 5),
    ("u", 6),
    ("ur", 0),
    ("xf", 0),
];

/// In this order, so that an inner one does not close an outer one.
const QUOTES: &[&str] = &["\"\"\"", "'''", "\"", "'"];

/// What Python may read otherwise behind the brace of a field.
const ODD: &[&str] = &[
    "#",
    "\\",
    "'\\n'",
    "\"\\\"\"",
    "x=()",
    "x= =",
    "x:\\t",
    "''''x'''",
    "\"\"\"\"{{\"}\"\"\"",
    "'''''''",
    "(\n",
    "x!=",
    "'#'",
];

pub fn script(random: &mut Random) -> Case {
    let mut script = Vec::new();
    for _ in 0..1 + random.below(4) {
        script.extend(random.pick(GAPS).bytes());
        script.extend(literal(random, QUOTES).bytes());
    }
    script.extend(random.pick(GAPS).bytes());
    if random.once_in(2) {
        (0..random.below(4)).for_each(|_| damage(random, &mut script));
    }
    whole(script)
}

/// A literal in one of some quotes. Most of what its body has of quotes and line ends is taken out, so
/// that it ends where it should.
fn literal(random: &mut Random, quotes: &[&str]) -> String {
    let (prefix, kind) = PREFIXES[random.below(PREFIXES.len())];
    let at = random.below(quotes.len());
    let mut body = String::from_utf8(grammar::body(random, kind)).expect("a body is UTF-8");
    if !random.once_in(8) {
        body = body.replace(['\'', '"'], "q").replace('\n', " ");
    }
    if matches!(kind, 1 | 4) {
        put_in(random, &mut body, &quotes[at + 1..]);
    }
    format!("{prefix}{}{body}{}", quotes[at], quotes[at])
}

/// Puts literals in the quotes that are left, or something odd, behind braces of a body.
fn put_in(random: &mut Random, body: &mut String, quotes: &[&str]) {
    for _ in 0..random.below(3) {
        let braces: Vec<usize> = body.match_indices('{').map(|(at, _)| at + 1).collect();
        if braces.is_empty() {
            return;
        }
        let at = braces[random.below(braces.len())];
        let piece = match random.below(8) {
            0 => random.pick(ODD).to_owned(),
            1 => literal(random, QUOTES),
            _ if quotes.is_empty() => return,
            _ => literal(random, quotes),
        };
        body.insert_str(at, &piece);
    }
}
