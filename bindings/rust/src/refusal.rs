use crate::call;
use std::error::Error;
use std::fmt;

/// Why literals, a script, a file of names, cuts, a format spec, a trace, a comparison or a template were refused. Where rustpython-parser has such an error,
/// the name is its.
#[derive(Clone, Debug, PartialEq, Eq, Hash)]
#[non_exhaustive]
pub enum Reason {
    EmptyList,
    /// The flat list of numbers is no multiple of six, which no list of literals gives.
    NotSixes,
    /// More than [`MOST_LITERALS`](crate::MOST_LITERALS).
    TooManyLiterals,
    /// A body outside the script, a start above the end or below the previous end, too little
    /// between start and end for the body, or a number over 32 bits.
    BadDescriptor,
    /// More than [`MOST_BODY_BYTES`](crate::MOST_BODY_BYTES) together.
    BodiesTooLong,
    /// A body that is not UTF-8. The place is after the longest prefix that is.
    NotUtf8,
    /// Bytes literals among others.
    MixedBytes,
    /// An escape that is not finished.
    StringError,
    /// A hex digit is missing, a code is no character's, or a name is too long.
    UnicodeError,
    NonAsciiInBytes,
    /// The name in `\N{..}` is not in the file of names, or, where there is none, not one of fourteen.
    NameNotHeld,
    /// A `{` that is not closed as it must be, and why.
    UnclosedLbrace(Unclosed),
    InvalidConversionFlag,
    /// A field's expression is empty or blank: it has nothing, or only characters of Unicode's
    /// White_Space.
    EmptyExpression,
    /// An opening bracket, and the one of another sort that would close it.
    MismatchedDelimiter(char, char),
    ExpressionNestedTooDeeply,
    SingleRbrace,
    /// A closing bracket that nothing opened.
    Unmatched(char),
    /// A quoted run in an expression does not end, or a backslash stands outside of one.
    UnterminatedString,
    /// A field's 65th bracket open at once.
    TooManyBrackets,
    /// The words lent have too few places, eight words each. What the reading needs is given.
    TooFewRecordPlaces {
        records: usize,
        text: usize,
    },
    /// The text buffer lent is too small. What the reading needs is given.
    TooLittleTextRoom {
        records: usize,
        text: usize,
    },
    /// The script has more than 1,048,576 bytes.
    ScriptTooLong,
    /// The quotes of a literal are never closed.
    NeverClosed,
    /// A newline in a literal of one quote.
    NewlineInLiteral,
    /// No literal stands at the offset.
    NoLiteral,
    /// The list buffer lent is too small; six numbers describe a literal. What the list needs is
    /// given.
    TooLittleListRoom {
        numbers: usize,
    },
    /// The first of two answers compared is not well formed, which no [`Answer`](crate::Answer) is.
    FirstIllFormed,
    /// The second of two answers compared is not.
    SecondIllFormed,
    /// The list lent for what lies between is too small. What it needs is given.
    TooLittleMiddleRoom {
        numbers: usize,
    },
    /// Records that are none of an f-string, which no template gives.
    NotWritable,
    /// The spelling would be read otherwise: a top-level expression begins with a brace, a brace stands
    /// in a spec before the first field in it, an expression is blank or would end elsewhere, a field is
    /// three deep, or the body has more than [`MOST_BODY_BYTES`](crate::MOST_BODY_BYTES).
    NotReadBack,
    /// The body has so many bytes, more than there is room for, which no template gives.
    TooLittleBodyRoom {
        bytes: usize,
    },
    /// A line of a file of names is malformed or not ended, or a name's code is no scalar value: a
    /// surrogate's, or above 10FFFF.
    LineMalformed,
    /// A name stands twice in a file of names.
    NameTwice,
    /// There is no room for the index of a file of names: of [`Names::build`](crate::Names::build), for a
    /// file of 2^32 bytes or more.
    TooLittleIndexRoom,
    /// An index that is not that of its file of names, or one of a file of 2^32 bytes or more.
    WrongIndex,
    /// Cuts do not rise strictly inside the body.
    WrongOffsets,
    /// A piece between cuts has more bytes than the limit.
    PieceTooLong,
    /// A piece between cuts is refused by itself.
    PieceRefused,
    /// The pieces joined do not read as the body does, or the body is refused.
    ReadingsDiffer,
    /// A format spec is not of the grammar: that of the template's field, from 0; of
    /// [`Spec::parse`](crate::Spec::parse) it is 0.
    NotOfGrammar {
        field: usize,
    },
    /// The template's field, from 0, has a conversion, a nested field, a width above 64, a type other
    /// than `d`, `b`, `o`, `x` and `X`, or what Python refuses for integers.
    OutsideSet {
        field: usize,
    },
    /// The row, from 0, is not of RFC 4180, or a column is not digits after at most one `-`.
    RowMalformed {
        row: usize,
    },
    /// The row, from 0, has not as many columns as the template has fields.
    WrongColumns {
        row: usize,
    },
    /// The row, from 0, has a number beyond 32 bits.
    OutOfRange {
        row: usize,
    },
    /// The lines have so many bytes, 4,294,967,295 for that many or more.
    TooLittleLineRoom {
        bytes: usize,
    },
    /// The list buffer lent has room for fewer cuts than the plan has, which
    /// [`plan_cuts`](crate::plan_cuts) never lends.
    TooLittleCutRoom {
        cuts: usize,
    },
    /// Python 3.11 reads a field otherwise, or not at all: only in a [`Listing`](crate::Listing).
    ReadOtherwise,
    /// A literal starts directly behind a word that Python 3.11 does not let stand there, as the `t` of
    /// a later Python's template string: only in a [`Listing`](crate::Listing). The place is the word's.
    UnknownPrefix,
    /// The script's coding line says that it is neither UTF-8 nor ASCII: the crate decodes nothing. The
    /// place is that of the name. Decode the script, and list it by
    /// [`fields_of_text`](crate::fields_of_text).
    OtherCoding {
        name: String,
    },
    /// The script has a byte 0, which Python does not take. One in UTF-16 has many.
    ZeroByte,
    /// An answer that this crate cannot read, so the library linked is not the one it is for.
    UnknownAnswer,
}

/// The number's name, and what it means where the name does not say so: the words of docs/RULES.md 11.
impl fmt::Display for Reason {
    fn fmt(&self, f: &mut fmt::Formatter<'_>) -> fmt::Result {
        f.write_str(match self {
            Self::EmptyList => "empty list",
            Self::NotSixes => "number list not a multiple of six",
            Self::TooManyLiterals => "more than 1,024 literals",
            Self::BadDescriptor => "bad descriptor",
            Self::BodiesTooLong => "bodies over 1,048,576 bytes together",
            Self::NotUtf8 => "body not UTF-8",
            Self::MixedBytes => "bytes mixed with others",
            Self::StringError => "StringError: an escape is not finished",
            Self::UnicodeError => {
                "UnicodeError: an escape lacks a digit, has a code above 10FFFF, or a name over 88 \
                 bytes"
            }
            Self::NonAsciiInBytes => "non-ASCII in bytes",
            Self::NameNotHeld => {
                "name not held: the file of names, or without one the library, does not have this \
                 name of a character"
            }
            Self::UnclosedLbrace(why) => return write!(f, "UnclosedLbrace: {}", why),
            Self::InvalidConversionFlag => "InvalidConversionFlag: a conversion is not s, r or a",
            Self::EmptyExpression => "EmptyExpression: a field's expression is empty or blank",
            Self::MismatchedDelimiter(opener, closer) => {
                return write!(f, "MismatchedDelimiter: {} is closed by {}", opener, closer)
            }
            Self::ExpressionNestedTooDeeply => {
                "ExpressionNestedTooDeeply: a field stands in the spec of a field in a spec"
            }
            Self::SingleRbrace => "SingleRbrace: a single } stands in an f-string",
            Self::Unmatched(closer) => return write!(f, "Unmatched: {} closes nothing", closer),
            Self::UnterminatedString => {
                "UnterminatedString: a quoted run in a field does not end, or a backslash stands \
                 outside of one"
            }
            Self::TooManyBrackets => "65th bracket open at once in a field",
            Self::TooFewRecordPlaces { records, text } => {
                return room(f, "too few record places", *records, *text)
            }
            Self::TooLittleTextRoom { records, text } => {
                return room(f, "too little text room", *records, *text)
            }
            Self::ScriptTooLong => "script over 1,048,576 bytes",
            Self::NeverClosed => "quote never closed",
            Self::NewlineInLiteral => "newline in a literal of one quote",
            Self::NoLiteral => "no literal at the offset",
            Self::TooLittleListRoom { .. } => "list buffer too short",
            Self::NotWritable => {
                "not to be written: the records break the record rules, a text is not UTF-8, or \
                 the sort is not joined"
            }
            Self::NotReadBack => {
                "not read back: the spelling would be read otherwise, by a { that begins a \
                 top-level expression, a brace in a spec before its first nested field, an \
                 expression that is blank or would end elsewhere, a field three deep, or over \
                 1,048,576 bytes"
            }
            Self::TooLittleBodyRoom { bytes } => {
                return write!(f, "body buffer too short: the body needs {} bytes", bytes)
            }
            Self::FirstIllFormed => {
                "first answer not well formed: its sort, kinds, conversions, parts or texts are \
                 none that a reading gives"
            }
            Self::SecondIllFormed => {
                "second answer not well formed: its sort, kinds, conversions, parts or texts are \
                 none that a reading gives"
            }
            Self::TooLittleMiddleRoom { numbers } => {
                return write!(f, "middle buffer too short: the list needs {} numbers", numbers)
            }
            Self::LineMalformed => {
                "line malformed: a line of the file of names is malformed or not ended, or a \
                 name's code is no scalar value"
            }
            Self::NameTwice => "name twice: a name stands twice in the file of names",
            Self::TooLittleIndexRoom => {
                "index buffer too short: the index has no room, or the file of names has 2^32 \
                 bytes or more"
            }
            Self::WrongIndex => {
                "wrong index: the index is not that of the file of names, or the file has 2^32 \
                 bytes or more"
            }
            Self::WrongOffsets => "wrong offsets: the cuts do not rise strictly inside the body",
            Self::PieceTooLong => "piece too long: a piece between cuts is longer than the limit",
            Self::PieceRefused => "piece refused: a piece between cuts is refused by itself",
            Self::ReadingsDiffer => {
                "readings differ: the pieces joined do not read as the body does, or the body is \
                 refused"
            }
            Self::NotOfGrammar { .. } => {
                "spec not of the grammar: the spec is not of the format specification mini-language"
            }
            Self::OutsideSet { .. } => {
                "spec or field outside the set: the field has a conversion, a nested field, a \
                 width above 64, a type other than d, b, o, x and X, or what Python refuses for \
                 integers"
            }
            Self::RowMalformed { .. } => {
                "row malformed: the row is not of RFC 4180, or a column is not digits after at \
                 most one -"
            }
            Self::WrongColumns { .. } => {
                "column count: the row has not as many columns as the template has fields"
            }
            Self::OutOfRange { .. } => {
                "number out of range: a number is below -2,147,483,648 or above 2,147,483,647"
            }
            Self::TooLittleCutRoom { cuts } => {
                return write!(f, "cut list too short: the plan has {} cuts", cuts)
            }
            Self::TooLittleLineRoom { bytes } => {
                return write!(f, "output buffer too short: the lines need {} bytes", bytes)
            }
            Self::ReadOtherwise => {
                "read otherwise by Python: Python reads this field otherwise or not at all, by a \
                 #, a backslash, a triple-quoted literal with its own quote inside, or something \
                 after a self-documenting ="
            }
            Self::UnknownPrefix => {
                "unknown prefix: the word before this string is no prefix of Python 3.11 and no \
                 keyword that may stand there; from Python 3.14 on t begins a template string, \
                 whose fields are not listed"
            }
            Self::OtherCoding { name } => {
                return write!(
                    f,
                    "its coding line says {}, and only UTF-8 and ASCII are read",
                    name
                )
            }
            Self::ZeroByte => "it has a byte 0: Python does not take it; UTF-16?",
            Self::UnknownAnswer => "the library linked gives answers that this crate does not know",
        })
    }
}

/// Why a `{` counts as unclosed.
#[derive(Clone, Copy, Debug, PartialEq, Eq, Hash)]
pub enum Unclosed {
    /// The literal ends right after the `!` of a field.
    AfterBang,
    /// The character after a conversion is neither `}` nor `:`, or there is none.
    AfterConversion,
    /// Something that is not allowed follows a self-documenting `=`.
    AfterEquals,
    /// The literal ends elsewhere inside a field.
    InField,
    /// A `{` that stands in no field is the literal's last character.
    LastBrace,
}

impl fmt::Display for Unclosed {
    fn fmt(&self, f: &mut fmt::Formatter<'_>) -> fmt::Result {
        f.write_str(match self {
            Self::AfterBang => "the literal ends right after a !",
            Self::AfterConversion => "neither } nor : follows a conversion",
            Self::AfterEquals => "something not allowed follows a self-documenting =",
            Self::InField => "the literal ends inside a field",
            Self::LastBrace => "a { in no field is the last character",
        })
    }
}

fn unclosed(detail: u32) -> Option<Unclosed> {
    Some(match detail {
        1 => Unclosed::AfterBang,
        2 => Unclosed::AfterConversion,
        3 => Unclosed::AfterEquals,
        4 => Unclosed::InField,
        5 => Unclosed::LastBrace,
        _ => return None,
    })
}

fn room(f: &mut fmt::Formatter<'_>, name: &str, records: usize, text: usize) -> fmt::Result {
    write!(f, "{}: {} records and {} text bytes are needed", name, records, text)
}

/// One numbered refusal.
#[derive(Clone, Debug, PartialEq, Eq, Hash)]
pub struct Refusal {
    number: u32,
    reason: Reason,
    literal: usize,
    place: usize,
    opened: usize,
    line: usize,
    column: usize,
    chars: usize,
}

impl Refusal {
    /// The number, which `bindings/include/stumpgarret.h` lists; 0 for what the crate itself refuses,
    /// [`Reason::OtherCoding`] and [`Reason::ZeroByte`]; with [`Reason::UnknownAnswer`] whatever the
    /// library gave.
    pub fn number(&self) -> u32 {
        self.number
    }

    /// The number's name, with its details.
    pub fn reason(&self) -> &Reason {
        &self.reason
    }

    /// The literal's index; 0 where none is to blame.
    pub fn literal(&self) -> usize {
        self.literal
    }

    /// Counted as the literals' starts are; 0 where there is none.
    pub fn place(&self) -> usize {
        self.place
    }

    /// The place just after the opening bracket of a [`Reason::MismatchedDelimiter`], the innermost
    /// that is still open; 0 for any other refusal.
    pub fn opened(&self) -> usize {
        self.opened
    }

    /// The place's line in the literal's body, from 0: how many line ends (byte 10) stand before it
    /// there; 0 for a refusal that is not met in a body. Of what the crate itself refuses, the line in
    /// the script.
    pub fn line(&self) -> usize {
        self.line
    }

    /// The place's column in the literal's body, from 0: how many characters stand before it there
    /// since the last line end; 0 for a refusal that is not met in a body. Of what the crate itself
    /// refuses, the column in the script.
    pub fn column(&self) -> usize {
        self.column
    }

    /// How many characters were read: of a refusal that is met in a body those of the literals before
    /// and of this one up to the place, for want of room all, else 0.
    pub fn chars(&self) -> usize {
        self.chars
    }

    pub(crate) fn new(answer: [u32; call::ANSWER]) -> Refusal {
        let [number, literal, place, a, b, opened, line, column, chars, needed, ..] = answer;
        let reason = reason(number, [a, b], needed).unwrap_or(Reason::UnknownAnswer);
        let [literal, place, opened, line, column, chars] =
            [literal, place, opened, line, column, chars].map(|n| n as usize);
        Refusal { number, reason, literal, place, opened, line, column, chars }
    }

    /// Of the literals from an offset on: what is refused there has it as its place, over 32 bits
    /// too.
    pub(crate) fn at_offset(answer: [u32; call::ANSWER], offset: usize) -> Refusal {
        let mut refusal = Refusal::new(answer);
        if refusal.reason == Reason::NoLiteral {
            refusal.place = offset;
        }
        refusal
    }

    /// Of a template with a number over 32 bits: no body is so long.
    pub(crate) fn not_read_back() -> Refusal {
        Refusal::new([55, 0, 0, 0, 0, 0, 0, 0, 0, 0, 0, 0])
    }

    /// Of a script's bytes, at a place in them.
    pub(crate) fn of_script(reason: Reason, script: &[u8], place: usize) -> Refusal {
        let before = &script[..place];
        let begin = before.iter().rposition(|&byte| byte == b'\n').map_or(0, |at| at + 1);
        let line = before.iter().filter(|&&byte| byte == b'\n').count();
        let goes_on = |byte: &&u8| (0x80..=0xbf).contains(*byte);
        let column = place - begin - before[begin..].iter().filter(goes_on).count();
        Refusal { reason, place, line, column, ..Refusal::unknown() }
    }

    pub(crate) fn unknown() -> Refusal {
        let reason = Reason::UnknownAnswer;
        Refusal { number: 0, reason, literal: 0, place: 0, opened: 0, line: 0, column: 0, chars: 0 }
    }
}

/// By a number, its details, and what is told beside them: what is needed for want of room, the field
/// or the row of a replay.
pub(crate) fn reason(number: u32, [a, b]: [u32; 2], needed: u32) -> Option<Reason> {
    let (records, text) = (a as usize, b as usize);
    Some(match number {
        1 => Reason::EmptyList,
        2 => Reason::NotSixes,
        3 => Reason::TooManyLiterals,
        4 => Reason::BadDescriptor,
        5 => Reason::BodiesTooLong,
        6 => Reason::NotUtf8,
        7 => Reason::MixedBytes,
        10 => Reason::StringError,
        11 => Reason::UnicodeError,
        12 => Reason::NonAsciiInBytes,
        13 => Reason::NameNotHeld,
        20 => Reason::UnclosedLbrace(unclosed(a)?),
        21 => Reason::InvalidConversionFlag,
        22 => Reason::EmptyExpression,
        23 => Reason::MismatchedDelimiter(char::from_u32(a)?, char::from_u32(b)?),
        24 => Reason::ExpressionNestedTooDeeply,
        25 => Reason::SingleRbrace,
        26 => Reason::Unmatched(char::from_u32(a)?),
        27 => Reason::UnterminatedString,
        28 => Reason::TooManyBrackets,
        30 => Reason::TooFewRecordPlaces { records, text },
        31 => Reason::TooLittleTextRoom { records, text },
        49 => Reason::ScriptTooLong,
        50 => Reason::NeverClosed,
        51 => Reason::NewlineInLiteral,
        52 => Reason::NoLiteral,
        53 => Reason::TooLittleListRoom { numbers: needed as usize },
        57 => Reason::FirstIllFormed,
        58 => Reason::SecondIllFormed,
        59 => Reason::TooLittleMiddleRoom { numbers: needed as usize },
        54 => Reason::NotWritable,
        55 => Reason::NotReadBack,
        56 => Reason::TooLittleBodyRoom { bytes: needed as usize },
        60 => Reason::LineMalformed,
        61 => Reason::NameTwice,
        62 => Reason::TooLittleIndexRoom,
        63 => Reason::WrongIndex,
        64 => Reason::WrongOffsets,
        65 => Reason::PieceTooLong,
        66 => Reason::PieceRefused,
        67 => Reason::ReadingsDiffer,
        68 => Reason::NotOfGrammar { field: needed as usize },
        69 => Reason::OutsideSet { field: needed as usize },
        70 => Reason::RowMalformed { row: needed as usize },
        71 => Reason::WrongColumns { row: needed as usize },
        72 => Reason::OutOfRange { row: needed as usize },
        73 => Reason::TooLittleLineRoom { bytes: needed as usize },
        74 => Reason::TooLittleCutRoom { cuts: needed as usize },
        75 => Reason::ReadOtherwise,
        76 => Reason::UnknownPrefix,
        _ => return None,
    })
}

impl fmt::Display for Refusal {
    fn fmt(&self, f: &mut fmt::Formatter<'_>) -> fmt::Result {
        let Refusal { number, reason, literal, place, opened, line, column, .. } = self;
        match reason {
            Reason::OtherCoding { .. } | Reason::ZeroByte => {
                return write!(f, "{} (line {}, column {})", reason, line + 1, column + 1)
            }
            Reason::TooLittleListRoom { numbers } => {
                return write!(f, "{}: {} numbers are needed (refusal {})", reason, numbers, number)
            }
            Reason::NotOfGrammar { field } | Reason::OutsideSet { field } => {
                return write!(f, "{} (refusal {}, field {})", reason, number, field)
            }
            Reason::RowMalformed { row }
            | Reason::WrongColumns { row }
            | Reason::OutOfRange { row } => {
                return write!(f, "{} (refusal {}, row {})", reason, number, row)
            }
            _ if (54..=74).contains(number) => {
                return write!(f, "{} (refusal {})", reason, number);
            }
            _ => {}
        }
        write!(f, "{} (refusal {}, literal {}, place {}", reason, number, literal, place)?;
        match number {
            23 => write!(f, ", line {}, column {}, opened at place {})", line, column, opened),
            10..=28 => write!(f, ", line {}, column {})", line, column),
            _ => f.write_str(")"),
        }
    }
}

impl Error for Refusal {}

#[cfg(test)]
mod tests {
    use super::*;

    #[test]
    fn a_list_cut_short_is_2() {
        let refusal = Refusal::new(call::read(b"", &[0; 5], &mut [], &mut []));
        assert_eq!((refusal.number(), refusal.reason()), (2, &Reason::NotSixes));
        let text = "number list not a multiple of six (refusal 2, literal 0, place 0)";
        assert_eq!(refusal.to_string(), text);
    }

    /// What docs/RULES.md 11 says that a number is told as, and why a `{` counts as unclosed.
    #[test]
    fn the_words_are_those_of_the_rules() {
        let (_, chapter) = include_str!("../../../docs/RULES.md").split_once("## 11.").unwrap();
        let mut seen = 0;
        for section in chapter.split("\n### 11.").skip(1) {
            let name = section.lines().next().unwrap();
            let number: u32 = name.split(' ').next().unwrap().parse().unwrap();
            let told = section.split('`').skip(1).step_by(2).filter(|text| text.starts_with(name));
            let told: Vec<&str> = Some(name).into_iter().chain(told).collect();
            // A name that says all is told alone.
            for (at, text) in told.iter().skip(usize::from(told.len() > 1)).enumerate() {
                let (details, needed) = match number {
                    20 => ([at as u32 + 1, 0], 0),
                    23 => (['(' as u32, ']' as u32], 0),
                    26 => ([')' as u32, 0], 0),
                    _ => ([2, 3], 40),
                };
                let reason = reason(number, details, needed).unwrap();
                assert_eq!(&format!("{} {}", number, reason), text);
                seen += 1;
            }
        }
        assert_eq!(
            seen,
            (0..100).filter(|&number| reason(number, [1, 1], 0).is_some()).count() + 4
        );
    }

    #[test]
    fn an_unknown_number_is_said_to_be_so() {
        for number in [8, 14, 29, 32, u32::MAX] {
            let refusal = Refusal::new([number, 1, 2, 3, 4, 5, 6, 7, 8, 0, 0, 0]);
            assert_eq!((refusal.number(), refusal.reason()), (number, &Reason::UnknownAnswer));
            assert_eq!((refusal.literal(), refusal.place()), (1, 2));
            assert_eq!((refusal.opened(), refusal.line(), refusal.column()), (5, 6, 7));
            assert_eq!(refusal.chars(), 8);
        }
    }

    #[test]
    fn details_that_are_no_characters_are_unknown() {
        for number in [23, 26] {
            let refusal = Refusal::new([number, 0, 0, 0xD800, 0, 0, 0, 0, 0, 0, 0, 0]);
            assert_eq!(refusal.reason(), &Reason::UnknownAnswer);
        }
    }

    #[test]
    fn a_detail_that_is_none_of_the_five_is_unknown() {
        for detail in [0, 6] {
            let refusal = Refusal::new([20, 0, 0, detail, 0, 0, 0, 0, 0, 0, 0, 0]);
            assert_eq!(refusal.reason(), &Reason::UnknownAnswer);
        }
    }
}
