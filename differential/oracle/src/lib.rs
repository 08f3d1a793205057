//! The oracle: what the Rust functions of entity-runtime answer for an accepted sheet, as number and line of the paper.
//! A sheet must be accepted: serde reads it, not the paper's reader.

mod line;
mod sheet;
mod shims;
include!(concat!(env!("OUT_DIR"), "/modules.rs"));

use definition::*;
use error::{CoreError, DefinitionErrors, ValidationError};
use shims::{identity, timestamp, validation, Registry, ValidatedDefinition};
use std::cmp::Ordering;
use truth::Truth;

pub use sheet::Sheet;

/// Resolved values nest some thousand levels, and the functions recurse.
pub const STACK: usize = 1 << 30;

pub const CALLS: [&str; 6] = ["evaluate", "preconditions", "invariants", "select", "admit", "decide"];

/// Number and line of a call, the number 0 where nothing is refused, the line without its LF; none where the call is not one of the six.
pub fn answer(call: &str, place: usize, sheet: &Sheet) -> Option<(u8, Option<String>)> {
    runtime::calls::answer(call, place, sheet).map(|answer| line::written(&answer))
}

/// The order of two number texts by `number::compare`.
pub fn compare(left: &str, right: &str) -> Option<Ordering> {
    Some(number::compare(&serde_json::from_str(left).ok()?, &serde_json::from_str(right).ok()?))
}

/// What is left of a decision where nobody asks for its line: the functions that decide, and no place or text made for printing.
pub fn decided(sheet: &Sheet) -> bool {
    runtime::calls::decided(sheet)
}
