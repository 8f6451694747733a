//! Every Unicode scalar value in templates.

use crate::Case;

/// Kind, what stands before the character, what stands after it.
const TEMPLATES: &[(u32, &str, &str)] = &[
    (0, "a", "b"),
    (1, "a", "{x}"),
    (1, "{", "}"),
    (1, "{", "!r}"),
    (1, "{'", "'}"),
    (1, "{(", ")}"),
    (1, "{x:", "{y}}"),
    (1, "{x:{y}", "}"),
    (1, "{x!", "}"),
    (1, "{x!r", "}"),
    (1, "{x=", "}"),
    (0, "\\", ""),
    (1, "\\", "{x}"),
    (2, "\\", ""),
    (2, "a", "b"),
    (5, "", ""),
    (6, "\\x4", ""),
    (0, "\\N{", "}"),
];

pub fn visit(visit: &mut dyn FnMut(&Case)) {
    for &(kind, before, after) in TEMPLATES {
        for scalar in '\0'..=char::MAX {
            visit(&Case::one(kind, 0, format!("{before}{scalar}{after}").as_bytes()));
        }
    }
}
