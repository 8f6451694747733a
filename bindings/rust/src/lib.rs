//! Lists every formatted field of a Python script, and reads runs of its string literals to texts,
//! fields and format specs, as `parse_strings` of rustpython-parser 0.4.0 does, by a library that is
//! proved: what comes out equals one definition, and no field of an adjacent literal is lost.
//! Expressions are not parsed; a field carries its own as text.
//!
//! A whole script in, every field out, those in expressions and specs too; the type tells whether the
//! list is complete ([`fields`]):
//!
//! ```
//! use stumpgarret::{fields, Listed};
//!
//! let listing = fields("print('VDD ' f'{mv / 12.5:.0f}')  # it's\nx = f'{unit!r}'\n")?;
//! assert!(listing.is_complete());
//! for row in &listing {
//!     if let Listed::Field(field) = row.listed {
//!         println!("{}:{} {} {:?}", row.line, row.column, field.expression, field.spec);
//!     }
//! }
//! # assert_eq!(listing.rows().len(), 2);
//! # Ok::<(), stumpgarret::Refusal>(())
//! ```
//!
//! Literals that the caller has found, to records:
//!
//! ```
//! use stumpgarret::{parse_strings, ConversionFlag, Literal, Record, StringKind};
//!
//! let script = r"print('VDD ' f'{mv / 12.5:.0f} {unit!r}')";
//! let literals = [
//!     Literal { kind: StringKind::String, triple_quoted: false, body: 7..11, start: 6, end: 12 },
//!     Literal::within(StringKind::FString, false, 13..40),
//! ];
//! let answer = parse_strings(script, &literals)?;
//!
//! let fields: Vec<_> = answer.fields().collect();
//! assert_eq!(fields[0].expression, "mv / 12.5");
//! assert_eq!(fields[0].spec.as_ref().and_then(|spec| spec.as_str()), Some(".0f"));
//! assert_eq!(&script[fields[0].place..][..9], "mv / 12.5");
//! assert_eq!(fields[1].conversion, ConversionFlag::Repr);
//!
//! let text: String = answer.records().map(|record| match record {
//!     Record::Literal { text, .. } => text.to_string(),
//!     Record::Field(field) => format!("<{}>", field.expression),
//!     _ => unreachable!("no bytes among the literals"),
//! }).collect();
//! assert_eq!(text, "VDD <mv / 12.5> <unit>");
//! # Ok::<(), stumpgarret::Refusal>(())
//! ```
//!
//! A refusal names its reason, the literal and the place, the place's line and column in the
//! literal's body, and where a bracket that is closed by another was opened:
//!
//! ```
//! use stumpgarret::{parse_strings, Literal, Reason, StringKind};
//!
//! let script = "'a' f'''µ\n{(]}'''";
//! let literals = [
//!     Literal::within(StringKind::String, false, 0..3),
//!     Literal::within(StringKind::FString, true, 4..script.len()),
//! ];
//! let refusal = parse_strings(script, &literals).unwrap_err();
//! assert_eq!(refusal.reason(), &Reason::MismatchedDelimiter('(', ']'));
//! assert_eq!((refusal.number(), refusal.literal(), refusal.place()), (23, 1, 14));
//! assert_eq!((refusal.line(), refusal.column(), refusal.opened()), (1, 3, 13));
//! let text = "MismatchedDelimiter: ( is closed by ] \
//!             (refusal 23, literal 1, place 14, line 1, column 3, opened at place 13)";
//! assert_eq!(refusal.to_string(), text);
//! ```
//!
//! [`field_signs`] tells why each field has its conversion, and where its signs and its spec stand.
//!
//! [`literals_at`] finds the literals in a script, so that none is cut out by hand, and [`read_at`]
//! reads what it finds. [`cut`] finds all of them.
//!
//! [`replay`] puts the rows of a recorded trace into the fields of a template, a line for each, and
//! [`Spec::parse`] tells the parts of a format spec.
//!
//! [`Answer::compare`] tells where two revisions of a run differ, item by item.
//!
//! [`Template`] has the parts of an f-string, to be changed and written back.
//!
//! [`plan_cuts`] plans where a long template may be broken over lines, and [`check_cuts`] checks it.
//!
//! Of the names of characters in `\N{..}` the library itself has fourteen. [`Names`] is a file with all
//! of them, which [`fields_named`], [`parse_strings_named`], [`read_into_named`] and
//! [`read_at_named`] take.

mod answer;
mod call;
mod compare;
mod cuts;
mod listing;
mod literal;
mod names;
mod refusal;
mod replay;
mod run;
mod script;
mod signs;
mod template;

pub use answer::{Answer, ConversionFlag, Field, Record, Records, Sort, Spec};
pub use compare::Comparison;
pub use cuts::{check_cuts, plan_cuts};
pub use listing::{
    fields, fields_named, fields_of_text, FieldClass, Listed, ListedField, ListedRefusal, Listing,
    Row, Rows,
};
pub use literal::{Literal, StringKind};
pub use names::Names;
pub use refusal::{Reason, Refusal, Unclosed};
pub use replay::{replay, FormatSpec, Replay};
pub use run::{cut, literals_at, read_at, read_at_named, Cut, Run};
pub use signs::{field_signs, ConversionReason, FieldSigns};
pub use template::{Part, Template, TemplateField};

use std::borrow::Cow;

/// The most literals that one call takes.
pub const MOST_LITERALS: usize = 1_024;
/// The most bytes that all bodies of a call have together.
pub const MOST_BODY_BYTES: usize = 1_048_576;
/// The most bytes of a script that literals or fields are listed from.
pub const MOST_SCRIPT_BYTES: usize = 1_048_576;

/// Reads literals that stand side by side in a script.
pub fn parse_strings(
    script: impl AsRef<[u8]>,
    literals: &[Literal],
) -> Result<Answer<'static>, Refusal> {
    parsed(script.as_ref(), literals, None)
}

/// Reads as [`parse_strings`] does, with the names of a file: [`Reason::NameNotHeld`] then means that
/// the file does not have the name.
///
/// ```
/// use stumpgarret::{parse_strings_named, Literal, Names, Reason, StringKind};
///
/// let names = Names::build(&b"2603;SNOWMAN;So;0;ON;;;;;N;;;;;\n"[..])?;
/// let read = |script: &str| {
///     let literal = Literal::within(StringKind::String, false, 0..script.len());
///     parse_strings_named(script, &[literal], &names)
/// };
/// assert_eq!(read(r"'\N{SNOWMAN}'")?.text(), "\u{2603}".as_bytes());
/// assert_eq!(read(r"'\N{OHM SIGN}'").unwrap_err().reason(), &Reason::NameNotHeld);
/// # Ok::<(), stumpgarret::Refusal>(())
/// ```
pub fn parse_strings_named(
    script: impl AsRef<[u8]>,
    literals: &[Literal],
    names: &Names<'_>,
) -> Result<Answer<'static>, Refusal> {
    parsed(script.as_ref(), literals, Some(names))
}

fn parsed(
    script: &[u8],
    literals: &[Literal],
    names: Option<&Names<'_>>,
) -> Result<Answer<'static>, Refusal> {
    let numbers = literal::numbers(literals);
    let (records, bytes) = room(literals);
    let (mut words, mut text) = (vec![0; records * call::RECORD], vec![0; bytes]);
    let answer = match names {
        None => call::read(script, &numbers, &mut words, &mut text),
        Some(names) => {
            let (file, index) = (names.file(), names.index());
            call::read_searched(script, &numbers, file, index, &mut words, &mut text)
        }
    };
    Answer::new(answer, Cow::Owned(words), Cow::Owned(text))
}

/// Reads as [`parse_strings`] does, into buffers of the caller's. If one is too small, the refusal
/// has the counts needed; a record takes eight words. As many records as all bodies have bytes, and
/// one for each literal, and twice as many text bytes are always enough. After a refusal both hold zeros; after an
/// acceptance, what follows the last record and the last text byte is unchanged.
///
/// ```
/// use stumpgarret::{read_into, Literal, Reason, StringKind};
///
/// let literals = [Literal::within(StringKind::FString, false, 0..7)];
/// let (mut words, mut text) = ([7; 24], [7; 4]);
/// let answer = read_into("f'{x=}'", &literals, &mut words, &mut text)?;
/// assert_eq!(answer.text(), b"x=x");
/// assert_eq!(text[3], 7);
///
/// let refusal = read_into("f'{x=}'", &literals, &mut words[..15], &mut text).unwrap_err();
/// assert_eq!(refusal.reason(), &Reason::TooFewRecordPlaces { records: 2, text: 3 });
/// assert_eq!(text, [0; 4]);
/// # Ok::<(), stumpgarret::Refusal>(())
/// ```
pub fn read_into<'a>(
    script: impl AsRef<[u8]>,
    literals: &[Literal],
    words: &'a mut [u32],
    text: &'a mut [u8],
) -> Result<Answer<'a>, Refusal> {
    let numbers = literal::numbers(literals);
    let answer = call::read(script.as_ref(), &numbers, words, text);
    Answer::new(answer, Cow::Borrowed(words), Cow::Borrowed(text))
}

/// Reads as [`read_into`] does, with the names of a file.
pub fn read_into_named<'a>(
    script: impl AsRef<[u8]>,
    literals: &[Literal],
    names: &Names<'_>,
    words: &'a mut [u32],
    text: &'a mut [u8],
) -> Result<Answer<'a>, Refusal> {
    let numbers = literal::numbers(literals);
    let (file, index) = (names.file(), names.index());
    let answer = call::read_searched(script.as_ref(), &numbers, file, index, words, text);
    Answer::new(answer, Cow::Borrowed(words), Cow::Borrowed(text))
}

/// Records and text bytes that are enough for any literals of such bodies. More than one call takes
/// are refused, whatever the room.
fn room(literals: &[Literal]) -> (usize, usize) {
    let bytes =
        literals.iter().fold(0, |sum: usize, literal| sum.saturating_add(literal.body.len()));
    if bytes > MOST_BODY_BYTES || literals.len() > MOST_LITERALS {
        return (0, 0);
    }
    (bytes + literals.len(), 2 * bytes)
}
