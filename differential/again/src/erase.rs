//! The new sheet: the old one after years. Readings are erased, notes change, and each change stays only where the demand's premises still hold.

use crate::demand::premises;
use crate::readings::Reading;
use crate::value::gives;
use generate::json::{text, Json};
use generate::random::Random;
use generate::world::{name, some_text, value};

const ROOTS: &[&str] = &["args", "args", "fields", "old_fields"];

fn member_mut<'a>(value: &'a mut Json, name: &str) -> Option<&'a mut Json> {
    match value {
        Json::Object(members) => members.iter_mut().find(|(key, _)| key == name).map(|(_, value)| value),
        _ => None,
    }
}

fn remove(object: &mut Json, name: &str) {
    if let Json::Object(members) = object {
        members.retain(|(key, _)| key != name);
    }
}

fn put(object: &mut Json, name: &str, value: Json) {
    remove(object, name);
    if let Json::Object(members) = object {
        members.push((name.to_owned(), value));
    }
}

/// Whether a reading that gives something may give nothing: the sheet's other members are never missing.
fn may_go(reading: &Reading) -> bool {
    !reading.under_exists && (reading.text.contains('.') || reading.text == "$from_state")
}

/// Cuts the path of a reading somewhere: the member goes, or it is no longer an object.
fn cut(random: &mut Random, sheet: &mut Json, reading: &str) {
    let parts: Vec<&str> = reading[1..].split('.').collect();
    let last = parts.len() - 1;
    let at = if random.chance(50) { last } else { random.between(last.min(1), last) };
    let Some(whole) = parts[..at].iter().try_fold(sheet, |value, part| member_mut(value, part)) else {
        return;
    };
    if random.chance(70) {
        remove(whole, parts[at]);
    } else if let Some(found) = member_mut(whole, parts[at]) {
        *found = if random.chance(50) { Json::Array(vec![found.clone()]) } else { value(random, 0) };
    }
}

/// A part of an array or object, at any depth, goes, changes or comes.
fn note(random: &mut Random, whole: &mut Json) {
    let count = whole.parts().len();
    let (turn, at) = (random.below(if count == 0 { 1 } else { 3 }), random.below(count.max(1)));
    let part = match whole {
        Json::Array(elements) => elements.get_mut(at),
        Json::Object(members) => members.get_mut(at).map(|(_, value)| value),
        _ => None,
    };
    if let Some(part @ (Json::Array(_) | Json::Object(_))) = part {
        if random.chance(50) {
            return note(random, part);
        }
    }
    match (whole, turn) {
        (Json::Array(elements), 0) => elements.push(value(random, 2)),
        (Json::Array(elements), 1) => elements[at] = value(random, 2),
        (Json::Array(elements), _) => drop(elements.remove(at)),
        (Json::Object(members), 1) => members[at].1 = value(random, 2),
        (Json::Object(members), 2) => drop(members.remove(at)),
        (object, _) => put(object, &name(random), value(random, 2)),
    }
}

fn change(random: &mut Random, sheet: &mut Json, readings: &[Reading]) {
    let left: Vec<&Reading> = readings.iter().filter(|reading| may_go(reading) && gives(sheet, &reading.text).is_some()).collect();
    match random.below(100) {
        0..=54 if !left.is_empty() => {
            let at = random.below(left.len());
            cut(random, sheet, &left[at].text);
        }
        0..=84 => {
            if let Some(root) = member_mut(sheet, random.pick(ROOTS)) {
                note(random, root);
            }
        }
        85..=89 => remove(sheet, random.pick(&["id", "from_state", "condition"])),
        90..=93 => put(sheet, random.pick(&["id", "from_state"]), text(some_text(random))),
        94..=96 => put(sheet, random.pick(&["entity", "to_state"]), text(some_text(random))),
        97 => put(sheet, "version", Json::Number(random.below(1000).to_string())),
        _ => put(sheet, "invariants", Json::Array(Vec::new())),
    }
}

/// Members in another order, at every depth.
pub fn shuffle(random: &mut Random, value: &mut Json) {
    match value {
        Json::Array(elements) => elements.iter_mut().for_each(|element| shuffle(random, element)),
        Json::Object(members) => {
            random.shuffle(members);
            members.iter_mut().for_each(|(_, value)| shuffle(random, value));
        }
        _ => (),
    }
}

/// A sheet of which the premises hold together with the old one, whose readings these are.
pub fn erased(random: &mut Random, old: &Json, readings: &[Reading]) -> Json {
    let mut new = old.clone();
    for _ in 0..random.below(9) {
        let mut changed = new.clone();
        change(random, &mut changed, readings);
        if premises(readings, old, &changed).is_some() {
            new = changed;
        }
    }
    new
}
