//! The third demand: of which two sheets it speaks, and what it asks of their decisions. Written from the owner's words and the paper's, in their order,
//! and not from the definitions.

use crate::line;
use crate::readings::{is_clean, Reading};
use crate::value::{alike, gives};
use generate::json::Json;
use intake::Reply;

/// A precondition or a guard, by place, in the order in which they are tried.
#[derive(Clone, Copy, PartialEq, PartialOrd)]
enum Step {
    Rule(usize),
    Guard(usize),
}

/// What became of the readings from the old sheet to the new one.
#[derive(Default)]
pub struct Became<'a> {
    pub changed: bool,
    pub vanished: Vec<&'a str>,
}

/// What became of the readings where each gives its old value or nothing, and under exists exactly what it gave.
fn became<'a>(readings: &'a [Reading], old: &Json, new: &Json) -> Option<Became<'a>> {
    let mut became = Became::default();
    for Reading { text, under_exists } in readings {
        let (before, now) = (gives(old, text), gives(new, text));
        if alike(before, now) {
            continue;
        }
        if *under_exists || now.is_some() {
            return None;
        }
        became.changed = true;
        if before != Some(&Json::Null) {
            became.vanished.push(text);
        }
    }
    Some(became)
}

/// The premises that two trees can show: the same clean rules and state, and what became of their readings.
pub fn premises<'a>(readings: &'a [Reading], old: &Json, new: &Json) -> Option<Became<'a>> {
    let same = ["preconditions", "outcomes", "state", "states"].iter().all(|member| alike(old.member(member), new.member(member)));
    (same && is_clean(old) && is_clean(new)).then(|| became(readings, old, new)).flatten()
}

/// The premises that two calls show: accepted, with enough output.
pub fn is_accepted(reply: &Reply) -> bool {
    !matches!(reply.number, 1..=11 | 23)
}

/// Not `wrong_state`, and `in_state` missing, `state` missing, or both equal.
fn is_eligible(sheet: &Json, outcome: &Json) -> bool {
    let (wanted, state) = (outcome.member("in_state"), sheet.member("state"));
    outcome.member("wrong_state") != Some(&Json::Bool(true)) && (wanted.is_none() || state.is_none() || wanted == state)
}

/// Whether it is a precondition, or the guard of an eligible outcome.
fn is_step(sheet: &Json, step: Step) -> bool {
    let element = |list: &str, place: usize| sheet.member(list).and_then(|list| list.parts().get(place).copied());
    match step {
        Step::Rule(place) => element("preconditions", place).is_some(),
        Step::Guard(place) => element("outcomes", place).is_some_and(|outcome| outcome.member("when").is_some() && is_eligible(sheet, outcome)),
    }
}

/// The step of an unobservable refusal, 16 or 20.
fn unobservable(reply: &Reply) -> Option<Step> {
    let place = line::refused(reply.line.as_deref()?, reply.number)?;
    match reply.number {
        16 => Some(Step::Rule(place)),
        20 => Some(Step::Guard(place)),
        _ => None,
    }
}

/// The last step that counts: 15, 16 and 20 are settled at their place; at 19 all were tried before; any other line is settled by the outcome selected.
fn last(old: &Reply, selected: impl FnOnce() -> Reply) -> Option<Step> {
    let line = old.line.as_deref()?;
    match old.number {
        15 => line::refused(line, 15).map(Step::Rule),
        16 | 20 => unobservable(old),
        19 => Some(Step::Guard(usize::MAX)),
        _ => line::selected(selected().line.as_deref()?).map(Step::Guard),
    }
}

/// Whether the demand holds of the decisions on two sheets of which the premises hold, or what is wrong. The outcome selected is told by Select on the old
/// sheet.
pub fn held(sheet: &Json, became: &Became, old: &Reply, new: &Reply, selected: impl FnOnce() -> Reply) -> Result<(), &'static str> {
    if new == old {
        return Ok(());
    }
    if !became.changed {
        return Err("no reading changed, yet number or line did");
    }
    let refused = unobservable(new).ok_or("the new line is neither the old one nor an unobservable refusal")?;
    let last = last(old, selected).ok_or("the old line does not tell what settled it")?;
    if !is_step(sheet, refused) || refused > last {
        return Err("the refusal stands at no rule or guard that settled the old line or was tried before");
    }
    if unobservable(old) == Some(refused) {
        return Ok(());
    }
    let names = new.line.as_deref().and_then(line::names).ok_or("the refusal has no list of names")?;
    if became.vanished.iter().any(|vanished| names.iter().any(|name| name == vanished)) {
        return Ok(());
    }
    Err("the refusal names no vanished reading")
}
