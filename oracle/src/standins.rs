//! Stand-ins for what string.rs imports: no more of each than string.rs asks for.
//! They are not the crates they stand for, so those are not compared.

use std::cell::RefCell;
use std::fmt::Display;
use std::rc::Rc;

use ast::Expr;
use text_size::TextSize;

/// Places in a script: stands in for the crate `text-size`.
pub mod text_size {
    use std::ops::{Add, AddAssign};

    #[derive(Clone, Copy, Debug, PartialEq)]
    pub struct TextSize(pub u32);

    impl From<u32> for TextSize {
        fn from(bytes: u32) -> Self {
            TextSize(bytes)
        }
    }

    impl Add for TextSize {
        type Output = TextSize;
        fn add(self, more: TextSize) -> TextSize {
            TextSize(self.0 + more.0)
        }
    }

    impl AddAssign for TextSize {
        fn add_assign(&mut self, more: TextSize) {
            *self = *self + more;
        }
    }

    pub trait TextLen {
        fn text_len(self) -> TextSize;
    }

    impl TextLen for char {
        fn text_len(self) -> TextSize {
            TextSize(self.len_utf8() as u32)
        }
    }

    #[derive(Clone, Copy)]
    pub struct TextRange {
        pub start: TextSize,
        pub end: TextSize,
    }

    impl TextRange {
        pub fn new(start: TextSize, end: TextSize) -> Self {
            TextRange { start, end }
        }
    }
}

/// Syntax tree nodes: stands in for the crate `rustpython-ast`.
pub mod ast {
    use super::text_size::{TextRange, TextSize};
    use super::ConversionFlag;

    pub enum Constant {
        Str(String),
        Bytes(Vec<u8>),
    }

    impl From<String> for Constant {
        fn from(text: String) -> Self {
            Constant::Str(text)
        }
    }

    pub struct ExprConstant {
        pub value: Constant,
        pub kind: Option<String>,
        pub range: TextRange,
    }

    pub struct ExprFormattedValue {
        pub value: Box<Expr>,
        pub conversion: ConversionFlag,
        pub format_spec: Option<Box<Expr>>,
        pub range: TextRange,
    }

    pub struct ExprJoinedStr {
        pub values: Vec<Expr>,
        pub range: TextRange,
    }

    /// `Unread` is no node of the crate: it is a field's expression as text.
    pub enum Expr {
        Constant(ExprConstant),
        FormattedValue(ExprFormattedValue),
        JoinedStr(ExprJoinedStr),
        Unread { source: String, location: TextSize },
    }

    impl From<ExprConstant> for Expr {
        fn from(node: ExprConstant) -> Self {
            Expr::Constant(node)
        }
    }

    impl From<ExprFormattedValue> for Expr {
        fn from(node: ExprFormattedValue) -> Self {
            Expr::FormattedValue(node)
        }
    }

    impl From<ExprJoinedStr> for Expr {
        fn from(node: ExprJoinedStr) -> Self {
            Expr::JoinedStr(node)
        }
    }
}

/// Refusals: stands in for the crate's own lexer.
pub mod lexer {
    use super::text_size::TextSize;
    use crate::string::FStringErrorType;

    pub enum LexicalErrorType {
        StringError,
        UnicodeError,
        FStringError(FStringErrorType),
        OtherError(String),
    }

    pub struct LexicalError {
        pub error: LexicalErrorType,
        pub location: TextSize,
    }

    impl LexicalError {
        pub fn new(error: LexicalErrorType, location: TextSize) -> Self {
            LexicalError { error, location }
        }
    }
}

/// Stands in for the crate's own parser. Expressions are not parsed, so its refusals have
/// no values.
pub mod parser {
    use std::fmt;

    #[derive(Debug, PartialEq)]
    pub enum ParseErrorType {}

    impl fmt::Display for ParseErrorType {
        fn fmt(&self, _: &mut fmt::Formatter) -> fmt::Result {
            match *self {}
        }
    }

    pub struct ParseError {
        pub error: ParseErrorType,
    }

    pub trait Parse {}

    pub use super::ParseError as LalrpopError;
}

/// Kinds of literals, numbered and with prefix lengths by RULES 2.2: stands in for the
/// crate's own tokens.
pub mod token {
    use super::text_size::TextSize;

    #[derive(Clone, Copy, Debug, PartialEq)]
    pub enum StringKind {
        String,
        FString,
        Bytes,
        RawString,
        RawFString,
        RawBytes,
        Unicode,
    }

    use StringKind::*;

    const KINDS: [(StringKind, u32); 7] = [
        (String, 0),
        (FString, 1),
        (Bytes, 1),
        (RawString, 1),
        (RawFString, 2),
        (RawBytes, 2),
        (Unicode, 1),
    ];

    impl StringKind {
        pub fn of(number: u32) -> Option<StringKind> {
            KINDS.get(number as usize).map(|&(kind, _)| kind)
        }

        pub fn prefix_len(self) -> TextSize {
            TextSize(KINDS[self as usize].1)
        }

        pub fn is_any_fstring(self) -> bool {
            matches!(self, FString | RawFString)
        }

        pub fn is_any_bytes(self) -> bool {
            matches!(self, Bytes | RawBytes)
        }

        pub fn is_raw(self) -> bool {
            matches!(self, RawString | RawFString | RawBytes)
        }

        pub fn is_unicode(self) -> bool {
            self == Unicode
        }
    }

    pub enum Tok {}
}

/// Stands in for `lalrpop_util::ParseError`.
#[allow(dead_code)]
pub enum ParseError<L, T, E> {
    Elsewhere(L, T),
    User { error: E },
}

/// Stands in for `rustpython_parser_core::ConversionFlag`; the values are those of RULES 5.2.
#[derive(Clone, Copy, PartialEq)]
pub enum ConversionFlag {
    None = 0,
    Str = b's' as isize,
    Ascii = b'a' as isize,
    Repr = b'r' as isize,
}

/// Stands in for `itertools::Itertools`.
pub trait Itertools: Iterator {
    fn join(self, separator: &str) -> String
    where
        Self: Sized,
        Self::Item: Display,
    {
        let pieces: Vec<String> = self.map(|piece| piece.to_string()).collect();
        pieces.join(separator)
    }
}

impl<I: Iterator> Itertools for I {}

/// The held names (RULES 3.4).
pub const HELD_NAMES: [(&str, char); 14] = [
    ("DEGREE SIGN", '\u{00B0}'),
    ("PLUS-MINUS SIGN", '\u{00B1}'),
    ("SUPERSCRIPT TWO", '\u{00B2}'),
    ("MICRO SIGN", '\u{00B5}'),
    ("MULTIPLICATION SIGN", '\u{00D7}'),
    ("DIVISION SIGN", '\u{00F7}'),
    ("GREEK CAPITAL LETTER DELTA", '\u{0394}'),
    ("GREEK CAPITAL LETTER OMEGA", '\u{03A9}'),
    ("GREEK SMALL LETTER MU", '\u{03BC}'),
    ("OHM SIGN", '\u{2126}'),
    ("INFINITY", '\u{221E}'),
    ("ALMOST EQUAL TO", '\u{2248}'),
    ("LESS-THAN OR EQUAL TO", '\u{2264}'),
    ("GREATER-THAN OR EQUAL TO", '\u{2265}'),
];

/// The characters of names, as a lent file has them.
pub type Names = dyn Fn(&str) -> Option<char>;

thread_local! {
    static LENT: RefCell<Option<Rc<Names>>> = const { RefCell::new(None) };
}

/// What is read meanwhile has these names in place of the held ones.
pub fn with_names<T>(names: Rc<Names>, read: impl FnOnce() -> T) -> T {
    LENT.set(Some(names));
    let given = read();
    LENT.set(None);
    given
}

/// Stands in for `unicode_names2::character`.
pub fn character(name: &str) -> Option<char> {
    if let Some(names) = LENT.with_borrow(Clone::clone) {
        return names(name);
    }
    HELD_NAMES.iter().find(|(held, _)| *held == name).map(|&(_, code)| code)
}

/// The one edit: string.rs's function of this name is replaced by this one, which hands
/// back text and location.
pub fn parse_fstring_expr(source: &str, location: TextSize) -> Result<Expr, parser::ParseError> {
    Ok(Expr::Unread { source: source.to_owned(), location })
}
