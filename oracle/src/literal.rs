//! One literal of a list.

pub use crate::token::StringKind;

#[derive(Clone, Copy)]
pub struct Literal {
    pub kind: StringKind,
    pub triple: bool,
    pub start: u32,
    pub end: u32,
}

impl Literal {
    /// The place after so many bytes of the body.
    pub fn place(&self, taken: usize) -> u32 {
        self.start + opening(self.kind, self.triple) + taken as u32
    }
}

/// The bytes before a body: the prefix and the quotes.
pub fn opening(kind: StringKind, triple: bool) -> u32 {
    kind.prefix_len().0 + if triple { 3 } else { 1 }
}
