//! What the port is compared with: the published string.rs, compiled as it stands but for
//! `parse_fstring_expr`, and the rules (docs/RULES.md) for what lies off the Rust's domain.
//!
//! string.rs looks for its imports in its own crate and in four others. This crate plays
//! all five parts, so that none of its `use` lines is edited.

extern crate self as itertools;
extern crate self as lalrpop_util;
extern crate self as rustpython_parser_core;
extern crate self as unicode_names2;

mod standins;
use standins::{
    ast, character, lexer, parser, text_size, token, ConversionFlag, Itertools, ParseError,
};

/// The published file with the one edit; `build` writes it into the target folder.
#[allow(dead_code, unused_imports)]
mod string {
    include!(env!("STUMPGARRET_PATCHED_STRING_RS"));
}

pub use standins::{with_names, Names, HELD_NAMES};

pub mod answer;
pub mod listing;
pub mod literal;
pub mod rules;
pub mod rust;
