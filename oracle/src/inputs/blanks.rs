//! Blanks, and what may be taken for one, alone and in twos at every place of a field.

use crate::Case;

/// Unicode's White_Space; then the codes beside it, and others that look like blanks or that
/// other languages take for blanks.
const CHARACTERS: &str = "\t\n\u{b}\u{c}\r \u{85}\u{a0}\u{1680}\
    \u{2000}\u{2001}\u{2002}\u{2003}\u{2004}\u{2005}\u{2006}\u{2007}\u{2008}\u{2009}\u{200a}\
    \u{2028}\u{2029}\u{202f}\u{205f}\u{3000}\
    \u{8}\u{e}\u{1c}\u{1d}\u{1e}\u{1f}!\u{84}\u{86}\u{9f}\u{a1}\u{167f}\u{1681}\u{180e}\u{1fff}\
    \u{200b}\u{2027}\u{202a}\u{202e}\u{2030}\u{205e}\u{2060}\u{2fff}\u{3001}\u{feff}x";

/// What stands before and after.
const PLACES: &[(&str, &str)] = &[
    ("{", "}"),
    ("{", ""),
    ("{", "!r}"),
    ("{", "!x}"),
    ("{", "!="),
    ("{", "!=}"),
    ("{", ":}"),
    ("{", ":>5}"),
    ("{", ":{y}}"),
    ("{", ":{y!x}}"),
    ("{", "=}"),
    ("{", "= }"),
    ("{", "=!r}"),
    ("{", "=:}"),
    ("{", "=="),
    ("{", "==}"),
    ("{", "()}"),
    ("{", "''}"),
    ("{", "\\}"),
    ("{=", "}"),
    ("{=", "=}"),
    ("{x", "}"),
    ("{x=", "}"),
    ("{x= ", "}"),
    ("{x!", "}"),
    ("{x!r", "}"),
    ("{(", ")}"),
    ("{'", "'}"),
    ("{x:", "}"),
    ("{x:{", "}}"),
    ("{x:{", "!r}}"),
    ("{x:{", ":}}"),
    ("{x:{", "=}}"),
    ("{x:{y}", "}"),
    ("{x:{y:{", "}}}"),
    ("{ :{", "}}"),
];

pub fn visit(visit: &mut dyn FnMut(&Case)) {
    for &(before, after) in PLACES {
        for first in CHARACTERS.chars() {
            for kind in [1, 4] {
                visit(&Case::one(kind, 0, format!("{before}{first}{after}").as_bytes()));
            }
            for second in CHARACTERS.chars() {
                visit(&Case::one(1, 0, format!("{before}{first}{second}{after}").as_bytes()));
            }
        }
    }
}
