//! What an expression of the rules gives on a sheet, and when two values are equal, in the paper's words.

use generate::json::Json;

/// A step takes the named member of an object, else nothing; each hands the rest of the text on.
fn walked<'a>(value: &'a Json, path: &str) -> Option<&'a Json> {
    match path.split_once('.') {
        None => value.member(path),
        Some((part, rest)) => walked(value.member(part)?, rest),
    }
}

/// The member of the sheet that an expression without a path gives.
fn whole(name: &str) -> Option<&str> {
    match name {
        "state" => Some("to_state"),
        "id" | "entity" | "version" | "from_state" | "to_state" | "args" | "fields" | "old_fields" => Some(name),
        _ => None,
    }
}

/// The member that a path starts from, and the path.
fn rooted(body: &str) -> Option<(&str, &str)> {
    body.split_once('.').filter(|(root, _)| matches!(*root, "args" | "fields" | "old_fields"))
}

/// Whether a text is one of the sheet's expressions.
pub fn is_known(expression: &str) -> bool {
    let body = &expression[1..];
    whole(body).is_some() || rooted(body).is_some()
}

/// What one of the sheet's expressions gives; an empty first part gives nothing.
pub fn gives<'a>(sheet: &'a Json, expression: &str) -> Option<&'a Json> {
    let body = &expression[1..];
    match rooted(body) {
        Some((_, path)) if path.is_empty() || path.starts_with('.') => None,
        Some((root, path)) => walked(sheet.member(root)?, path),
        None => sheet.member(whole(body)?),
    }
}

/// Equal number characters and decoded strings, members in any order.
pub fn equal(a: &Json, b: &Json) -> bool {
    match (a, b) {
        (Json::Array(a), Json::Array(b)) => a.len() == b.len() && a.iter().zip(b).all(|(a, b)| equal(a, b)),
        (Json::Object(members), Json::Object(others)) => {
            members.len() == others.len() && members.iter().all(|(name, value)| b.member(name).is_some_and(|other| equal(value, other)))
        }
        _ => a == b,
    }
}

/// Equal, nothing counting too.
pub fn alike(a: Option<&Json>, b: Option<&Json>) -> bool {
    match (a, b) {
        (Some(a), Some(b)) => equal(a, b),
        (a, b) => a.is_none() && b.is_none(),
    }
}
