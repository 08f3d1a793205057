//! Operands, each with the value that it likely resolves to: expressions, texts that stand for themselves, written arrays and objects.

use crate::json::{text, Json};
use crate::number::respelled;
use crate::random::Random;
use crate::world::{some_text, value, World};

/// A binder in force, with one of the values that it takes.
pub struct Binder {
    pub name: String,
    pub value: Option<Json>,
}

pub struct Operand {
    pub written: Json,
    pub value: Option<Json>,
}

const UNKNOWN: &[&str] = &[
    "$foo",
    "$",
    "$.",
    "$.a",
    "$id.x",
    "$state.",
    "$entity.",
    "$argsx",
    "$version.1",
    "$from_state.",
    "$Args.v",
    "$fields2.a",
    "$to_state.x",
    "$old_fields_",
    "$ args",
    "$é",
];
const WHOLE: &[&str] = &["$entity", "$version", "$to_state", "$state", "$args", "$fields", "$old_fields"];

fn step(value: &Json, path: &str) -> Option<Json> {
    let (first, rest) = path.split_once('.').map_or((path, None), |(first, rest)| (first, Some(rest)));
    let next = value.member(first)?;
    rest.map_or_else(|| Some(next.clone()), |rest| step(next, rest))
}

/// A path from the arguments or fields, whose first part is not empty.
fn from_root(root: &Json, path: &str) -> Option<Json> {
    if path.is_empty() || path.starts_with('.') {
        return None;
    }
    step(root, path)
}

/// What an expression gives; nothing also where it is refused.
fn gives(world: &World, binders: &[Binder], expression: &str) -> Option<Json> {
    let body = &expression[1..];
    let (name, path) = body.split_once('.').map_or((body, None), |(name, path)| (name, Some(path)));
    if let Some(binder) = binders.iter().rev().find(|binder| binder.name == name) {
        let value = binder.value.as_ref()?;
        return path.map_or_else(|| Some(value.clone()), |path| step(value, path));
    }
    match (name, path) {
        ("id", None) => world.id.clone().map(Json::Text),
        ("entity", None) => Some(text(world.entity.clone())),
        ("version", None) => Some(Json::Number(world.version.clone())),
        ("from_state", None) => world.from_state.clone().map(Json::Text),
        ("to_state" | "state", None) => Some(text(world.to_state.clone())),
        ("args", None) => Some(world.args.clone()),
        ("fields", None) => Some(world.fields.clone()),
        ("old_fields", None) => Some(world.old_fields.clone()),
        ("args", Some(path)) => from_root(&world.args, path),
        ("fields", Some(path)) => from_root(&world.fields, path),
        ("old_fields", Some(path)) => from_root(&world.old_fields, path),
        _ => None,
    }
}

/// A path along members that are there; it may end at the start.
fn path(random: &mut Random, value: &Json, start: String) -> String {
    let Json::Object(members) = value else {
        return start;
    };
    let named: Vec<&(String, Json)> = members.iter().filter(|(name, _)| !name.contains('.')).collect();
    if named.is_empty() || random.chance(20) {
        return start;
    }
    let (name, value) = named[random.below(named.len())];
    path(random, value, format!("{start}.{name}"))
}

fn present(random: &mut Random, world: &World, binders: &[Binder]) -> String {
    if !binders.is_empty() && random.chance(60) {
        let binder = &binders[random.below(binders.len())];
        let value = binder.value.clone().unwrap_or(Json::Null);
        return path(random, &value, format!("${}", binder.name));
    }
    match random.below(100) {
        0..=44 => path(random, &world.args, "$args".to_owned()),
        45..=64 => path(random, &world.fields, "$fields".to_owned()),
        65..=74 => path(random, &world.old_fields, "$old_fields".to_owned()),
        75..=84 if world.id.is_some() => "$id".to_owned(),
        85..=89 if world.from_state.is_some() => "$from_state".to_owned(),
        _ => random.pick(WHOLE).to_owned(),
    }
}

fn missing(random: &mut Random, world: &World, binders: &[Binder]) -> String {
    match random.below(100) {
        0..=19 => random.pick(&["$args.", "$args..a", "$fields.", "$old_fields..", "$args..", "$fields..v"]).to_owned(),
        20..=49 => random.pick(&["$args.zz", "$args.v.zz", "$fields.zz", "$old_fields.zz", "$args.a..", "$args.\u{1}q\"\\"]).to_owned(),
        50..=69 if !binders.is_empty() => {
            let binder = &binders[random.below(binders.len())].name;
            format!("${binder}.{}", random.pick(&["zz", "", ".", "a.zz"]))
        }
        70..=79 if world.from_state.is_none() => "$from_state".to_owned(),
        _ => path(random, &world.args, "$args".to_owned()) + ".zz",
    }
}

fn expression(random: &mut Random, world: &World, binders: &[Binder]) -> String {
    if random.chance(world.unknown) {
        return random.pick(UNKNOWN).to_owned();
    }
    if random.chance(world.missing) {
        return missing(random, world, binders);
    }
    if random.chance(world.unaddressed) {
        return "$id".to_owned();
    }
    present(random, world, binders)
}

fn expressed(world: &World, binders: &[Binder], expression: String) -> Operand {
    let value = gives(world, binders, &expression).filter(|value| *value != Json::Null);
    Operand { written: text(expression), value }
}

pub fn missing_operand(random: &mut Random, world: &World, binders: &[Binder]) -> Json {
    let expression = text(missing(random, world, binders));
    match random.below(8) {
        0 => Json::Array(vec![Json::Number("1".to_owned()), expression]),
        1 => crate::json::object([("k", expression)]),
        _ => expression,
    }
}

/// A value as written in a condition: `$` at the start of a text is doubled.
pub fn literal(value: &Json) -> Json {
    match value {
        Json::Text(value) if value.starts_with('$') => text(format!("${value}")),
        Json::Array(elements) => Json::Array(elements.iter().map(literal).collect()),
        Json::Object(members) => Json::Object(members.iter().map(|(name, value)| (name.clone(), literal(value))).collect()),
        other => other.clone(),
    }
}

/// An equal value: numbers spelled otherwise, members in another order.
pub fn same(random: &mut Random, value: &Json) -> Json {
    match value {
        Json::Number(number) => Json::Number(respelled(random, number)),
        Json::Array(elements) => Json::Array(elements.iter().map(|element| same(random, element)).collect()),
        Json::Object(members) => {
            let mut members: Vec<(String, Json)> = members.iter().map(|(name, value)| (name.clone(), same(random, value))).collect();
            random.shuffle(&mut members);
            Json::Object(members)
        }
        other => other.clone(),
    }
}

/// A value that differs, often in a small part only.
pub fn other(random: &mut Random, value: &Json) -> Json {
    match value {
        Json::Number(number) if random.chance(70) && !number.contains(['e', 'E']) => {
            Json::Number(if number.contains('.') { format!("{number}1") } else { format!("{number}.5") })
        }
        Json::Text(value) if random.chance(70) => text(format!("{value}{}", random.pick(&["x", "é", "a"]))),
        Json::Bool(value) => Json::Bool(!value),
        Json::Array(elements) if !elements.is_empty() => {
            let mut elements = elements.clone();
            let at = random.below(elements.len());
            elements[at] = other(random, &elements[at]);
            Json::Array(elements)
        }
        Json::Object(members) if !members.is_empty() => {
            let mut members = members.clone();
            let at = random.below(members.len());
            if random.chance(30) {
                members[at].0.push('+');
            } else {
                members[at].1 = other(random, &members[at].1);
            }
            Json::Object(members)
        }
        _ => crate::world::value(random, 1),
    }
}

fn gathered(parts: Vec<Operand>, whole: impl Fn(Vec<Json>) -> Json) -> Operand {
    let value = parts.iter().map(|part| part.value.clone()).collect::<Option<Vec<Json>>>();
    Operand { written: whole(parts.into_iter().map(|part| part.written).collect()), value: value.map(whole) }
}

/// Any operand.
pub fn operand(random: &mut Random, world: &World, binders: &[Binder], depth: usize) -> Operand {
    match random.below(if depth == 0 { 70 } else { 100 }) {
        0..=44 => {
            let expression = expression(random, world, binders);
            expressed(world, binders, expression)
        }
        45..=69 => {
            let value = if random.chance(20) { text(some_text(random)) } else { value(random, depth) };
            Operand { written: literal(&value), value: Some(value) }
        }
        70..=84 => {
            let parts = (0..random.below(4)).map(|_| operand(random, world, binders, depth - 1)).collect();
            gathered(parts, Json::Array)
        }
        _ => {
            let mut names: Vec<String> = (0..random.below(4)).map(|_| crate::world::name(random)).collect();
            names.sort();
            names.dedup();
            let parts = names.iter().map(|_| operand(random, world, binders, depth - 1)).collect();
            gathered(parts, |values| Json::Object(names.iter().cloned().zip(values).collect()))
        }
    }
}

/// An operand that resolves, and its value.
pub fn resolved(random: &mut Random, world: &World, binders: &[Binder], wanted: impl Fn(&Json) -> bool) -> Option<(Json, Json)> {
    for _ in 0..8 {
        let expression = present(random, world, binders);
        let Operand { written, value: Some(value) } = expressed(world, binders, expression) else {
            continue;
        };
        if wanted(&value) {
            return Some((written, value));
        }
    }
    None
}
