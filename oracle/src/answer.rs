//! An outcome in the terms of RULES 5, and the twelve numbers of the C interface.

#[derive(Clone, Copy, Debug, PartialEq)]
pub struct Refusal {
    pub number: u32,
    pub literal: u32,
    pub place: u32,
    pub details: [u32; 2],
    /// The place just after the bracket that 23 names.
    pub opened: u32,
    pub line: u32,
    pub column: u32,
    /// The characters that were read.
    pub chars: u32,
}

impl Refusal {
    pub fn new(number: u32, literal: usize, place: u32) -> Self {
        let literal = literal as u32;
        let details = [0, 0];
        Refusal { number, literal, place, details, opened: 0, line: 0, column: 0, chars: 0 }
    }
}

#[derive(Clone, Copy, Debug, PartialEq)]
pub enum Sort {
    Plain,
    Joined,
    Bytes,
}

/// kind, text offset, text length, start, end, conversion or u mark, parts, place
pub type Record = [u32; 8];

/// A field's row: reason, start, place, expression length, conversion, its four signs, 0
pub type Row = [u32; 10];

#[derive(Clone, Debug, PartialEq)]
pub struct Acceptance {
    pub sort: Sort,
    pub u_mark: bool,
    pub first_start: u32,
    pub last_end: u32,
    pub records: Vec<Record>,
    pub text: Vec<u8>,
    /// The characters of all bodies.
    pub chars: u32,
}

pub type Outcome = Result<Acceptance, Refusal>;

/// What the C interface answers with.
pub type Numbers = [u32; 12];

impl Refusal {
    pub fn numbers(&self) -> Numbers {
        let [a, b] = self.details;
        let mut numbers = [0; 12];
        numbers[..5].copy_from_slice(&[self.number, self.literal, self.place, a, b]);
        numbers[5..9].copy_from_slice(&[self.opened, self.line, self.column, self.chars]);
        numbers
    }
}

impl Acceptance {
    pub fn numbers(&self) -> Numbers {
        let mut numbers = [0; 12];
        numbers[1..7].copy_from_slice(&[
            self.sort as u32,
            u32::from(self.u_mark),
            self.first_start,
            self.last_end,
            self.records.len() as u32,
            self.text.len() as u32,
        ]);
        numbers[8] = self.chars;
        numbers
    }
}
