//! The smallest sheet that still shows a difference: parts are dropped or replaced by smaller ones, each step an accepted sheet again.

use crate::parse::parsed;
use generate::json::{object, Json, Style, Writer};
use generate::random::Random;
use std::time::{Duration, Instant};

/// What a value stands for in a sheet.
#[derive(Clone, Copy)]
enum Part {
    Sheet,
    Rules,
    Rule,
    Outcomes,
    Outcome,
    Effect,
    Moves,
    Sources,
    Texts,
    Text,
    Flag,
    Version,
    Condition,
    Quantifier,
    Conditions,
    Pair,
    Values,
    Value,
}

fn part_of(whole: Part, name: &str) -> Part {
    match (whole, name) {
        (Part::Sheet, "args" | "fields" | "old_fields") => Part::Values,
        (Part::Sheet, "states") => Part::Texts,
        (Part::Sheet, "preconditions" | "invariants") => Part::Rules,
        (Part::Sheet, "outcomes") => Part::Outcomes,
        (Part::Sheet, "version") => Part::Version,
        (Part::Sheet, "condition") | (Part::Rule, "assert") | (Part::Outcome, "when") | (Part::Quantifier, "that") => Part::Condition,
        (Part::Outcome, "wrong_state") => Part::Flag,
        (Part::Outcome, "effect") => Part::Effect,
        (Part::Effect, _) => Part::Moves,
        (Part::Moves, "from") => Part::Sources,
        (Part::Condition, "all" | "any") => Part::Conditions,
        (Part::Condition, "not") => Part::Condition,
        (Part::Condition, "for_all" | "for_any") => Part::Quantifier,
        (Part::Condition, "exists") | (Part::Quantifier, "in") | (Part::Values | Part::Value, _) => Part::Value,
        (Part::Condition, _) => Part::Pair,
        _ => Part::Text,
    }
}

fn may_go(whole: Part, name: &str) -> bool {
    match whole {
        Part::Sheet => ["id", "from_state", "state", "condition"].contains(&name),
        Part::Rule => name != "assert",
        Part::Outcome => name != "name",
        Part::Values | Part::Value => true,
        _ => false,
    }
}

fn element_of(whole: Part) -> Part {
    match whole {
        Part::Rules => Part::Rule,
        Part::Outcomes => Part::Outcome,
        Part::Conditions => Part::Condition,
        Part::Texts | Part::Sources => Part::Text,
        _ => Part::Value,
    }
}

/// Beginnings, ends, and the text less one character.
fn shorter(text: &str) -> Vec<String> {
    let characters: Vec<char> = text.chars().collect();
    let half = characters.len() / 2;
    let mut found = vec![String::new(), characters[half..].iter().collect(), characters[..half].iter().collect()];
    if let Some((before, _)) = text.rsplit_once('.') {
        found.push(before.to_owned());
    }
    for at in 0..characters.len().min(64) {
        found.push(characters.iter().enumerate().filter(|(index, _)| *index != at).map(|(_, character)| *character).collect());
    }
    found
}

fn is_number(text: &str) -> bool {
    text.starts_with(|first: char| first == '-' || first.is_ascii_digit()) && serde_json::from_str::<serde_json::Number>(text).is_ok()
}

fn without<T: Clone>(list: &[T], from: usize, to: usize) -> Vec<T> {
    list[..from].iter().chain(&list[to..]).cloned().collect()
}

/// The list less its halves, and less each element.
fn fewer<T: Clone>(list: &[T]) -> Vec<Vec<T>> {
    let half = list.len() / 2;
    let halves = [(0, list.len()), (half, list.len()), (0, half)];
    halves.into_iter().chain((0..list.len()).map(|at| (at, at + 1))).map(|(from, to)| without(list, from, to)).collect()
}

/// The conditions that a condition holds.
fn conditions(condition: &Json) -> Vec<Json> {
    let Json::Object(members) = condition else {
        return Vec::new();
    };
    let [(operator, held)] = &members[..] else {
        return Vec::new();
    };
    match operator.as_str() {
        "all" | "any" => held.parts().into_iter().cloned().collect(),
        "not" => vec![held.clone()],
        "for_all" | "for_any" => held.member("that").cloned().into_iter().collect(),
        _ => Vec::new(),
    }
}

/// What may stand in the place of a value whatever it holds.
fn others(part: Part, value: &Json) -> Vec<Json> {
    let parts = || value.parts().into_iter().cloned();
    match part {
        Part::Condition => [Json::Bool(true), Json::Bool(false)].into_iter().chain(conditions(value)).collect(),
        Part::Value => {
            let least = [Json::Number("0".to_owned()), Json::Text(String::new()), Json::Array(Vec::new()), Json::Null, object([])];
            least.into_iter().chain(parts()).collect()
        }
        Part::Effect => vec![Json::Text("none".to_owned())],
        Part::Sources => parts().collect(),
        Part::Version => vec![Json::Number("0".to_owned())],
        _ => Vec::new(),
    }
}

/// Values that may stand in the place of one, likely smaller; its parts are as they were, or gone.
fn smaller(part: Part, value: &Json) -> Vec<Json> {
    let mut found = others(part, value);
    match value {
        Json::Object(members) if matches!(part, Part::Values | Part::Value) => found.extend(fewer(members).into_iter().map(Json::Object)),
        Json::Object(members) => {
            let gone = (0..members.len()).filter(|at| may_go(part, &members[*at].0));
            found.extend(gone.map(|at| Json::Object(without(members, at, at + 1))));
        }
        Json::Array(elements) if !matches!(part, Part::Pair) => found.extend(fewer(elements).into_iter().map(Json::Array)),
        Json::Text(text) if !matches!(part, Part::Effect) => found.extend(shorter(text).into_iter().map(Json::Text)),
        Json::Number(number) if matches!(part, Part::Value) => found.extend(shorter(number).into_iter().filter(|text| is_number(text)).map(Json::Number)),
        _ => {}
    }
    found
}

/// What stands at a path of places, and what it stands for.
fn standing<'a>(mut value: &'a Json, path: &[usize]) -> Option<(Part, &'a Json)> {
    let mut part = Part::Sheet;
    for at in path {
        (part, value) = match value {
            Json::Object(members) => members.get(*at).map(|(name, value)| (part_of(part, name), value))?,
            Json::Array(elements) => (element_of(part), elements.get(*at)?),
            _ => return None,
        };
    }
    Some((part, value))
}

fn replaced(value: &Json, path: &[usize], new: Json) -> Json {
    let Some((at, rest)) = path.split_first() else {
        return new;
    };
    let mut value = value.clone();
    match &mut value {
        Json::Object(members) => members[*at].1 = replaced(&members[*at].1, rest, new),
        Json::Array(elements) => elements[*at] = replaced(&elements[*at], rest, new),
        _ => {}
    }
    value
}

/// Every path, an outer one before those inside it.
fn paths(value: &Json, path: &mut Vec<usize>, found: &mut Vec<Vec<usize>>) {
    found.push(path.clone());
    for (at, part) in value.parts().into_iter().enumerate() {
        path.push(at);
        paths(part, path, found);
        path.pop();
    }
}

/// How a smaller sheet is written: plainly, with all texts escaped, with spaces, or with both.
const STYLES: [(usize, usize); 4] = [(0, 0), (0, 100), (40, 0), (40, 100)];

fn written(sheet: &Json, (spaces, escapes): (usize, usize)) -> String {
    let mut writer = Writer { random: &mut Random::new(1), style: Style { spaces, escapes, shuffled: false }, out: String::new() };
    writer.value(sheet);
    writer.out
}

fn size(sheet: &Json) -> (usize, String) {
    let text = written(sheet, STYLES[0]);
    (text.len(), text)
}

/// The sheet with what stands at a path made as small as shows.
fn shrunk_at(mut sheet: Json, path: &[usize], shows: &impl Fn(&Json) -> bool) -> Json {
    loop {
        let Some((part, value)) = standing(&sheet, path) else {
            return sheet;
        };
        let now = size(value);
        let next = smaller(part, value).into_iter().filter(|next| size(next) < now).map(|next| replaced(&sheet, path, next)).find(|next| shows(next));
        match next {
            Some(next) => sheet = next,
            None => return sheet,
        }
    }
}

/// Shrinking ends after so long, small enough or not.
pub const LONGEST: Duration = Duration::from_secs(20);

/// A smaller sheet that `shows` the difference as this one does.
pub fn shrunk(text: &str, shows: impl Fn(&str) -> bool) -> String {
    let Some(mut sheet) = parsed(text) else {
        return text.to_owned();
    };
    let Some(style) = STYLES.into_iter().find(|style| shows(&written(&sheet, *style))) else {
        return text.to_owned();
    };
    let (start, shows) = (Instant::now(), |sheet: &Json| shows(&written(sheet, style)));
    loop {
        let (before, mut found) = (size(&sheet), Vec::new());
        paths(&sheet, &mut Vec::new(), &mut found);
        for path in found {
            if start.elapsed() > LONGEST {
                return written(&sheet, style);
            }
            sheet = shrunk_at(sheet, &path, &shows);
        }
        if size(&sheet) == before {
            return written(&sheet, style);
        }
    }
}
