use crate::answer::ConversionFlag;
use crate::call;
use crate::names::Names;
use crate::refusal::{self, Reason, Refusal};
use crate::script;
use crate::signs::FieldSigns;
use crate::Spec;
use crate::MOST_SCRIPT_BYTES;
use std::borrow::Cow;
use std::fmt;
use std::iter::FusedIterator;
use std::ops::Range;
use std::str;

/// Lists every field of a whole script: those of its f-strings, those of the f-strings in their
/// expressions, and so on. Nothing is cut out by the caller, and nothing is left out without a
/// word: what is refused is a row too, and the list goes on after it.
///
/// As Python does, a byte order mark is passed over, and CR LF and CR are read as byte 10. The script
/// is read as UTF-8. Nothing is decoded: a script whose coding line (PEP 263) says neither UTF-8 nor
/// ASCII is refused, [`Reason::OtherCoding`], and so is one with a byte 0, [`Reason::ZeroByte`].
/// [`fields_of_text`] lists what the caller has decoded.
///
/// ```
/// use stumpgarret::{fields, Listed, Reason};
///
/// let script = "print('VDD ' f'{mv / 12.5:.0f} {f\"{unit!r}\"}')  # it's\n";
/// let listing = fields(script)?;
/// assert!(listing.is_complete());
/// let lines: Vec<String> = listing.rows().map(|row| match row.listed {
///     Listed::Field(field) => format!("{}:{} {}", row.line, row.column, field.expression),
///     Listed::Refusal(refusal) => unreachable!("{}", refusal),
/// }).collect();
/// assert_eq!(lines, ["1:17 mv / 12.5", "1:33 f\"{unit!r}\"", "1:36 unit"]);
///
/// let listing = fields("f'{a]}' f'{b}'")?;
/// assert!(!listing.is_complete());
/// let rows: Vec<_> = listing.rows().collect();
/// assert!(matches!(&rows[0].listed, Listed::Refusal(one) if one.reason == Reason::Unmatched(']')));
/// assert!(matches!(&rows[1].listed, Listed::Field(field) if field.expression == "b"));
/// # Ok::<(), stumpgarret::Refusal>(())
/// ```
///
/// A script of more than [`MOST_SCRIPT_BYTES`](crate::MOST_SCRIPT_BYTES) is refused.
pub fn fields(script: impl AsRef<[u8]>) -> Result<Listing, Refusal> {
    listed(script::of_bytes(script.as_ref())?, None)
}

/// Lists as [`fields`] does, of text that is decoded already: its coding line is not looked at. With
/// names those in `\N{..}` are looked for in their file.
///
/// ```
/// use stumpgarret::{fields, fields_of_text, Reason};
///
/// let script = "# coding: utf-7\n+AGYAJwB7AHgAfQAn-";
/// let refused = fields(script).unwrap_err();
/// assert!(matches!(refused.reason(), Reason::OtherCoding { name } if name == "utf-7"));
/// let decoded = "# coding: utf-7\nf'{x}'";
/// assert_eq!(fields_of_text(decoded, None)?.rows().len(), 1);
/// # Ok::<(), stumpgarret::Refusal>(())
/// ```
pub fn fields_of_text(
    script: impl AsRef<str>,
    names: Option<&Names<'_>>,
) -> Result<Listing, Refusal> {
    listed(script::of_text(script.as_ref())?, names)
}

/// Lists as [`fields`] does, with the names of a file.
///
/// The library has no listing without a check: each call checks file and index anew, in some
/// milliseconds for the file that Unicode publishes. A script without a `\N` asks for no name; of it
/// [`fields`] lists the same.
///
/// ```
/// use stumpgarret::{fields, fields_named, Names};
///
/// let names = Names::build(&b"2603;SNOWMAN;So;0;ON;;;;;N;;;;;\n"[..])?;
/// let script = r"f'{x:.0f}\N{SNOWMAN}'";
/// assert!(fields_named(script, &names)?.is_complete());
/// assert!(!fields(script)?.is_complete());
/// # Ok::<(), stumpgarret::Refusal>(())
/// ```
pub fn fields_named(script: impl AsRef<[u8]>, names: &Names<'_>) -> Result<Listing, Refusal> {
    listed(script::of_bytes(script.as_ref())?, Some(names))
}

fn listed(script: Cow<'_, [u8]>, names: Option<&Names<'_>>) -> Result<Listing, Refusal> {
    // No script has more rows than bytes.
    let room = if script.len() > MOST_SCRIPT_BYTES { 0 } else { script.len() };
    let mut numbers = vec![0; room * call::ROW];
    let answer = match names {
        None => call::fields(&script, &mut numbers),
        Some(names) => call::fields_named(&script, names.file(), names.index(), &mut numbers),
    };
    match answer[0] {
        0 => Listing::new(script.into_owned(), &numbers, answer).ok_or_else(Refusal::unknown),
        _ => Err(Refusal::new(answer)),
    }
}

/// What [`fields`], [`fields_of_text`] and [`fields_named`] list.
#[derive(Clone, Debug, PartialEq, Eq)]
pub struct Listing {
    script: Vec<u8>,
    /// In the order of their places.
    rows: Vec<Placed>,
    refusals: usize,
    literals: usize,
    cut: usize,
}

/// The ten numbers of a row, and what else is known of it.
#[derive(Clone, Debug, PartialEq, Eq)]
struct Placed {
    numbers: [u32; call::ROW],
    line: usize,
    column: usize,
    within: Option<usize>,
    depth: usize,
}

/// A row of a [`Listing`]: a field, or a refusal.
#[derive(Clone, Debug, PartialEq, Eq, Hash)]
#[non_exhaustive]
pub struct Row<'a> {
    /// A field's is just after its opening brace.
    pub place: usize,
    /// The place's line, from 1.
    pub line: usize,
    /// Its column, from 1, by characters.
    pub column: usize,
    /// Where its literal starts.
    pub start: usize,
    /// The row, from 0, in whose expression its literal stands; none for a literal of the script.
    pub within: Option<usize>,
    /// In how many fields it stands, by expression or spec.
    pub depth: usize,
    pub listed: Listed<'a>,
}

#[derive(Clone, Debug, PartialEq, Eq, Hash)]
pub enum Listed<'a> {
    Field(ListedField<'a>),
    Refusal(ListedRefusal),
}

/// A field, as it is written in the script.
#[derive(Clone, Debug, PartialEq, Eq, Hash)]
#[non_exhaustive]
pub struct ListedField<'a> {
    /// Up to a self-documenting `=`, if nothing but spaces follows it; else up to the first sign
    /// after it.
    pub expression: &'a str,
    /// Whether the expression ends with a self-documenting `=`.
    pub documented: bool,
    /// `{x=}`, with neither a conversion nor a spec of its own, has [`ConversionFlag::Repr`].
    pub conversion: ConversionFlag,
    /// What stands between its `:` and its `}`, nested fields too.
    pub spec: Option<&'a str>,
    /// The reason of its conversion, and where its signs stand.
    pub signs: FieldSigns,
}

/// Whether a field rounds a number, by its conversion and its spec alone. A type with a `__format__` of
/// its own may round by any spec.
#[derive(Clone, Copy, Debug, PartialEq, Eq, Hash)]
pub enum FieldClass {
    /// By a type of `eEfFgGn%`, or by a precision without a type.
    Rounds,
    /// Its spec has a field, so its digits are decided when it runs.
    Computed,
    /// Its spec is not of the mini-language but a type's own, as dates have.
    Own,
    /// A conversion is written or implied: what is formatted is text.
    Text,
    /// None of these.
    Exact,
}

impl FieldClass {
    /// Whether it rounds, or may when it runs.
    pub fn may_round(self) -> bool {
        matches!(self, FieldClass::Rounds | FieldClass::Computed | FieldClass::Own)
    }

    /// By a spec as it is written. One with a brace has a field; one with an escape is of the
    /// mini-language only as a fill, before an align, where Python has no escape.
    fn of_spec(spec: &str) -> FieldClass {
        if spec.contains('{') {
            return FieldClass::Computed;
        }
        match Spec::parse(spec) {
            Err(_) => FieldClass::Own,
            Ok(told) if told.rounds => FieldClass::Rounds,
            Ok(_) => FieldClass::Exact,
        }
    }
}

impl ListedField<'_> {
    /// Whether it rounds. A conversion comes first: what is formatted is text then, whatever the spec.
    ///
    /// ```
    /// use stumpgarret::{fields, FieldClass, Listed};
    ///
    /// let listing = fields("f'{mv / 12.5:.0f} {at:%H:%M} {n:>{w}} {rail!r:>9}'")?;
    /// let classes: Vec<_> = listing.rows().filter_map(|row| match row.listed {
    ///     Listed::Field(field) => Some(field.class()),
    ///     _ => None,
    /// }).collect();
    /// use FieldClass::{Computed, Exact, Own, Rounds, Text};
    /// assert_eq!(classes, [Rounds, Own, Computed, Exact, Text]);
    /// assert!(classes[0].may_round());
    /// # Ok::<(), stumpgarret::Refusal>(())
    /// ```
    pub fn class(&self) -> FieldClass {
        match (self.conversion, self.spec) {
            (ConversionFlag::None, Some(spec)) => FieldClass::of_spec(spec),
            (ConversionFlag::None, None) => FieldClass::Exact,
            _ => FieldClass::Text,
        }
    }
}

/// Why a literal's fields are not listed, or that Python reads a field otherwise.
#[derive(Clone, Debug, PartialEq, Eq, Hash)]
#[non_exhaustive]
pub struct ListedRefusal {
    pub number: u32,
    pub reason: Reason,
    /// The place just after the opening bracket of a [`Reason::MismatchedDelimiter`].
    pub opened: Option<usize>,
}

impl fmt::Display for ListedRefusal {
    fn fmt(&self, f: &mut fmt::Formatter<'_>) -> fmt::Result {
        write!(f, "{} {}", self.number, self.reason)?;
        self.opened.map_or(Ok(()), |opened| write!(f, ", opened at {}", opened))
    }
}

impl Listing {
    /// Nothing, if it does not hang together.
    fn new(
        script: Vec<u8>,
        numbers: &[u32],
        [_, count, refusals, literals, cut, ..]: [u32; call::ANSWER],
    ) -> Option<Listing> {
        let rows = placed(&script, numbers.get(..(count as usize).checked_mul(call::ROW)?)?)?;
        let [refusals, literals, cut] = [refusals, literals, cut].map(|number| number as usize);
        let listing = Listing { script, rows, refusals, literals, cut };
        let refused = listing.rows.iter().filter(|row| row.numbers[0] == REFUSAL).count();
        (refused == refusals && (0..listing.rows.len()).all(|at| listing.row(at).is_some()))
            .then_some(listing)
    }

    /// Whether these are all fields of the script: nothing is refused, and nothing is left behind
    /// the last literal that was found.
    pub fn is_complete(&self) -> bool {
        self.refusals == 0 && self.cut == self.script.len()
    }

    /// Fields and refusals in the order of their places: a field in another's expression or spec comes
    /// after the other.
    pub fn rows(&self) -> Rows<'_> {
        Rows { listing: self, at: 0..self.rows.len() }
    }

    /// The bytes that were read, which all places count in: the script, but without a byte order mark
    /// and with byte 10 for CR LF and CR. Lines and columns are the same in both.
    pub fn script(&self) -> &[u8] {
        &self.script
    }

    /// How many literals the script has, of any kind, without those in expressions.
    pub fn literals(&self) -> usize {
        self.literals
    }

    /// How far the script was cut into literals: its length, or where one starts that never closes.
    pub fn cut(&self) -> usize {
        self.cut
    }

    fn row(&self, at: usize) -> Option<Row<'_>> {
        let &Placed { numbers, line, column, within, depth } = self.rows.get(at)?;
        let [kind, start, place, number, a, b, opened, ..] = numbers;
        let listed = match kind {
            REFUSAL => Listed::Refusal(ListedRefusal {
                number,
                reason: refusal::reason(number, [a, b], 0)?,
                opened: Some(opened as usize).filter(|&opened| opened != 0),
            }),
            _ => Listed::Field(self.field(&numbers)?),
        };
        let (start, place) = (start as usize, place as usize);
        Some(Row { place, line, column, start, within, depth, listed })
    }

    fn field(&self, numbers: &[u32; call::ROW]) -> Option<ListedField<'_>> {
        let signs = FieldSigns::new(numbers)?;
        let end = signs.bang.or(signs.colon).unwrap_or(signs.close).checked_sub(1)?;
        let equals = match signs.equals {
            Some(after) if self.text(after..end)?.bytes().all(|byte| byte == b' ') => {
                Some(after - 1)
            }
            _ => None,
        };
        let expression = self.text(signs.place..equals.unwrap_or(end))?;
        let spec = match signs.spec() {
            Some(spec) => Some(self.text(spec)?),
            None => None,
        };
        let conversion = ConversionFlag::of(numbers[4])?;
        Some(ListedField { expression, documented: equals.is_some(), conversion, spec, signs })
    }

    fn text(&self, range: Range<usize>) -> Option<&str> {
        str::from_utf8(self.script.get(range)?).ok()
    }
}

/// The first number of a refusal's row.
const REFUSAL: u32 = 5;

/// The rows in the order of their places, which one pass over the script gives lines and columns.
fn placed(script: &[u8], numbers: &[u32]) -> Option<Vec<Placed>> {
    let all: Vec<[u32; call::ROW]> =
        numbers.chunks_exact(call::ROW).map(|row| row.try_into().ok()).collect::<Option<_>>()?;
    let mut order: Vec<usize> = (0..all.len()).collect();
    order.sort_by_key(|&row| all[row][2]);
    let mut at = vec![0; all.len()];
    order.iter().enumerate().for_each(|(new, &row)| at[row] = new);

    let mut walk = Walk { script, at: 0, line: 1, column: 1 };
    let mut closes = Vec::new();
    let row = |&row: &usize| {
        let numbers = all[row];
        let place = numbers[2];
        while closes.last().map_or(false, |&close| close <= place) {
            closes.pop();
        }
        let depth = closes.len();
        if numbers[0] != REFUSAL {
            closes.push(numbers[8]);
        }
        let within = match numbers[9] {
            0 => None,
            within => Some(*at.get(within as usize - 1)?),
        };
        let (line, column) = walk.to(place as usize)?;
        Some(Placed { numbers, line, column, within, depth })
    };
    order.iter().map(row).collect()
}

/// A place in a script, with its line and column, that only moves on.
struct Walk<'a> {
    script: &'a [u8],
    at: usize,
    line: usize,
    column: usize,
}

impl Walk<'_> {
    fn to(&mut self, place: usize) -> Option<(usize, usize)> {
        for byte in self.script.get(self.at..place)? {
            match byte {
                b'\n' => {
                    self.line += 1;
                    self.column = 1;
                }
                // goes on with a character
                0x80..=0xbf => {}
                _ => self.column += 1,
            }
        }
        self.at = place;
        Some((self.line, self.column))
    }
}

/// The rows of a [`Listing`] in the order of their places.
#[derive(Clone, Debug)]
pub struct Rows<'a> {
    listing: &'a Listing,
    at: Range<usize>,
}

impl<'a> Iterator for Rows<'a> {
    type Item = Row<'a>;

    fn next(&mut self) -> Option<Row<'a>> {
        self.listing.row(self.at.next()?)
    }

    fn size_hint(&self) -> (usize, Option<usize>) {
        self.at.size_hint()
    }
}

impl ExactSizeIterator for Rows<'_> {}
impl FusedIterator for Rows<'_> {}

impl<'a> IntoIterator for &'a Listing {
    type Item = Row<'a>;
    type IntoIter = Rows<'a>;

    fn into_iter(self) -> Rows<'a> {
        self.rows()
    }
}

#[cfg(test)]
mod tests {
    use super::*;

    const FIELD: [u32; call::ROW] = [4, 0, 3, 1, 0, 5, 0, 6, 9, 0];

    fn list(script: &str, rows: &[[u32; call::ROW]], refusals: u32) -> Option<Listing> {
        let answer = [0, rows.len() as u32, refusals, 1, 10, 0, 0, 0, 0, 0, 0, 0];
        Listing::new(script.into(), &rows.concat(), answer)
    }

    #[test]
    fn a_list_that_hangs_together_is_taken() {
        let listing = list("f'{x=:>3}'", &[FIELD], 0).unwrap();
        let row = listing.rows().next().unwrap();
        assert!(matches!(row.listed, Listed::Field(ListedField { spec: Some(">3"), .. })));
    }

    #[test]
    fn one_that_does_not_is_none() {
        let with = |at: usize, number: u32| {
            let mut row = FIELD;
            row[at] = number;
            row
        };
        let cases = [
            ("reason 0", with(0, 0)),
            ("reason 6", with(0, 6)),
            ("a place behind the script", with(2, 11)),
            ("an unknown conversion", with(4, b'x' as u32)),
            ("a sign behind the script", with(8, 12)),
            ("signs out of order", with(7, 12)),
            ("no closing brace", with(8, 0)),
            ("within no row", with(9, 2)),
            ("an unknown refusal", [5, 0, 3, 99, 0, 0, 0, 0, 0, 0]),
        ];
        for (name, row) in cases {
            let refusals = u32::from(row[0] == REFUSAL);
            assert_eq!(list("f'{x=:>3}'", &[row], refusals), None, "{}", name);
        }
        assert_eq!(list("f'{x=:>3}'", &[FIELD], 1), None);
        let more = [0, 2, 0, 1, 10, 0, 0, 0, 0, 0, 0, 0];
        assert_eq!(Listing::new(b"f'{x=:>3}'".to_vec(), &FIELD, more), None);
    }
}
