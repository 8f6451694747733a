//! One input: a script buffer and a list of literals, six numbers each.

use oracle::literal::{opening, StringKind};
use std::fmt;

/// What fills the words and the text bytes that are lent, before a call.
pub const FILL_WORD: u32 = 0xA5A5_A5A5;
pub const FILL_BYTE: u8 = 0xA5;

/// How much of a script is printed.
const MOST_SHOWN: usize = 2_000;

#[derive(Clone, Default)]
pub struct Case {
    pub script: Vec<u8>,
    pub list: Vec<u32>,
}

impl Case {
    /// A single literal that starts at 0.
    pub fn one(kind: u32, flag: u32, body: &[u8]) -> Case {
        let mut case = Case::default();
        case.add(kind, flag, body, 0);
        case
    }

    /// Adds a literal of a known kind, with its body behind the script so far.
    pub fn add(&mut self, kind: u32, flag: u32, body: &[u8], start: u32) {
        let offset = self.script.len() as u32;
        self.script.extend_from_slice(body);
        self.add_lent(kind, flag, offset, body.len() as u32, start);
    }

    /// Adds a literal of a known kind whose body is in the script already. Its end is the
    /// place after the closing quotes.
    pub fn add_lent(&mut self, kind: u32, flag: u32, offset: u32, length: u32, start: u32) {
        let kind_of = StringKind::of(kind).expect("a known kind");
        let quotes = if flag == 1 { 3 } else { 1 };
        let end = start + opening(kind_of, flag == 1) + length + quotes;
        self.list.extend([kind, flag, offset, length, start, end]);
    }

    pub fn last_end(&self) -> u32 {
        self.list.last().copied().unwrap_or(0)
    }
}

impl fmt::Display for Case {
    fn fmt(&self, f: &mut fmt::Formatter) -> fmt::Result {
        let shown = &self.script[..self.script.len().min(MOST_SHOWN)];
        let more = if shown.len() < self.script.len() { " and so on" } else { "" };
        let length = self.script.len();
        writeln!(f, "script ({length} bytes): \"{}\"{more}", shown.escape_ascii())?;
        write!(f, "list: {:?}", self.list)
    }
}
