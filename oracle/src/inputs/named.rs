//! The starred readings (RULES 5.11), near misses, and others that are easy to get
//! wrong.

use crate::Case;

const FSTRING_BODIES: &[&str] = &[
    "{x!=y}",
    "{x!r b}",
    "{x:{y:{z}}}",
    "{x = }",
    "{x=()}",
    "",
    "{(]}",
    "{x:\\n>{w}\\n}",
    "a{x:>5}",
    "}",
    "{x=:}",
    "{x=!s}",
    "{x=y}",
    "{:}",
    "{!r}",
    "{=}",
    "{ }",
    "{\u{a0}}",
    "{\u{a0}!r}",
    "{\u{a0}!x}",
    "{\u{85}:}",
    "{\u{3000}=}",
    "{ \u{2028}\t}",
    "{x:{\u{2003}}}",
    "{\u{a0}x}",
    "{\u{180e}}",
    "{\u{200b}}",
    "{",
    "{x",
    "{x!",
    "{x!r",
    "{x:",
    "{x:{",
    "{x:{y",
    "{x:{y}",
    "{x:{y=}}",
    "{x:{y= }z}",
    "{x:a{y}b{z}c}",
    "{x= =}",
    "{x=( )}",
    "{x=(:)}",
    "{x=!=()}",
    "{'a'='b'}",
    "{\\}",
    "{'\\'}",
    "{'",
    "{x!s:{y!r}}",
    "\\\n",
    "\\{x}",
    "{x:\\{y}}",
    "{x:{y}\\}",
    "{x:{{y}}}",
    "{{}}",
    "{{x}}",
    "{{{x}}}",
    "{)}",
    "{x:}}",
    "{lambda x:1}",
];

const OTHER_BODIES: &[&str] = &["\\777", "\\\n", "\\u0041", "\\N{INFINITY}", "{x}", "\\", "\u{e9}"];

/// Kind and body of each literal of a list.
const LISTS: &[&[(u32, &str)]] = &[
    &[(0, ""), (1, "{x}")],
    &[(1, "{x}"), (0, "")],
    &[(0, ""), (1, "")],
    &[(1, ""), (1, "")],
    &[(0, "a"), (1, "b{x}c"), (3, "\\d"), (6, "e"), (4, "\\{y}")],
    &[(6, "u"), (1, "{x:y}{z=}")],
    &[(0, "a"), (6, "u"), (0, "")],
    &[(1, "{x=}"), (1, "{y= }"), (1, "{z}")],
    &[(2, "a"), (5, "\\x"), (2, "\\xff\\400")],
    &[(2, "a"), (0, "\\")],
    &[(0, "a"), (1, "}"), (1, "{")],
];

pub fn visit(visit: &mut dyn FnMut(&Case)) {
    for body in FSTRING_BODIES {
        for kind in [1, 4] {
            visit(&Case::one(kind, 0, body.as_bytes()));
        }
    }
    for body in OTHER_BODIES {
        for kind in 0..7 {
            visit(&Case::one(kind, 1, body.as_bytes()));
        }
    }
    for literals in LISTS {
        let mut case = Case::default();
        for (kind, body) in *literals {
            case.add(*kind, 0, body.as_bytes(), case.last_end());
        }
        visit(&case);
    }
}
