//! Real readings through the library.
mod common;
mod compare;
mod cuts;
mod fields;
mod literals;
mod names;
mod readings;
mod refusals;
mod replay;
mod room;
mod signs;
mod template;
