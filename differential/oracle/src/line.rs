//! The paper's number and line for an answer of the reference functions.

use crate::{runtime::calls::Answer, CoreError};
use std::fmt::Write;

fn quoted(text: &str) -> String {
    let mut line = String::from("\"");
    for character in text.chars() {
        match character {
            '"' | '\\' => line.extend(['\\', character]),
            '\0'..='\x1f' => write!(line, "\\u00{:02x}", u32::from(character)).expect("a string takes text"),
            _ => line.push(character),
        }
    }
    line + "\""
}

fn listed(word: &str, texts: &[String]) -> String {
    let mut line = format!("({word}");
    for text in texts {
        line += " ";
        line += &quoted(text);
    }
    line + ")"
}

fn rule_name(name: &Option<String>) -> String {
    name.as_deref().map_or_else(|| "()".to_owned(), quoted)
}

fn refused(error: &CoreError, at: usize) -> (u8, String) {
    let (number, rest) = match error {
        CoreError::Template { expression, .. } if expression == "$id" => (14, quoted(expression)),
        CoreError::Template { expression, .. } => (13, quoted(expression)),
        CoreError::PreconditionFailed { rule, message, .. } => (15, format!("{at} {} {}", rule_name(rule), quoted(message))),
        CoreError::PreconditionUnobservable { rule, message, unresolved, .. } => {
            (16, format!("{at} {} {} {}", rule_name(rule), quoted(message), listed("names", unresolved)))
        }
        CoreError::InvariantViolation { rule, message } => (17, format!("{at} {} {}", rule_name(rule), quoted(message))),
        CoreError::InvariantUnobservable { rule, message, unresolved } => {
            (18, format!("{at} {} {} {}", rule_name(rule), quoted(message), listed("names", unresolved)))
        }
        CoreError::NoOutcomeSelected { .. } => return (19, "(refused 19)".to_owned()),
        CoreError::OutcomeUnobservable { outcome, unresolved, .. } => (20, format!("{at} {} {}", quoted(outcome), listed("names", unresolved))),
        CoreError::InvalidTransition { state, .. } => (21, quoted(state)),
        CoreError::UnspecifiedMoveSource { outcome, state, from, .. } => (22, format!("{at} {} {} {}", quoted(outcome), quoted(state), listed("from", from))),
        other => unreachable!("no reference function gives {other}"),
    };
    (number, format!("(refused {number} {rest})"))
}

/// Number and line, the line without its LF.
pub fn written(answer: &Answer) -> (u8, Option<String>) {
    let (number, line) = match answer {
        Answer::Truth(truth, names) => (0, format!("(truth {truth} {})", listed("names", names))),
        Answer::Passed => (0, "(passed)".to_owned()),
        Answer::Selected(at, name) => (0, format!("(selected {at} {})", quoted(name))),
        Answer::Admitted(at, name) => (0, format!("(admitted {at} {})", quoted(name))),
        Answer::Refused(error, at) => refused(error, *at),
        Answer::NoInput => return (12, None),
    };
    (number, Some(line))
}
