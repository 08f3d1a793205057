//! Whole sheets: rules, outcomes, states.

use crate::condition::{Aim, Conditions};
use crate::json::{object, text, Json};
use crate::random::Random;
use crate::world::{some_text, world, World};

const STATES: &[&str] = &["in", "out", "a", "b", "", "é", "q\"q", "done"];
const NAMES: &[&str] = &["one", "two", "", "q\"uote", "back\\slash", "😀", "tab\t", "\u{1f}", "a name of some length", "$args.v"];

fn condition(random: &mut Random, world: &World, aim: Aim, depth: usize) -> Json {
    Conditions { random, world, binders: Vec::new() }.condition(aim, depth)
}

fn aim(random: &mut Random, of_true: usize, of_false: usize, of_unknown: usize) -> Aim {
    match random.below(100) {
        drawn if drawn < of_true => Aim::True,
        drawn if drawn < of_true + of_false => Aim::False,
        drawn if drawn < of_true + of_false + of_unknown => Aim::Unknown,
        _ => Aim::Any,
    }
}

fn depth(random: &mut Random) -> usize {
    match random.below(100) {
        0..=39 => 0,
        40..=69 => 1,
        70..=89 => 2,
        _ => random.between(3, 4),
    }
}

fn rules(random: &mut Random, world: &World, most: usize) -> Json {
    let count = random.below(most + 1);
    let rules = (0..count).map(|_| {
        let aim = aim(random, 70, 8, 8);
        let depth = depth(random);
        let mut members = vec![("assert".to_owned(), condition(random, world, aim, depth))];
        for member in ["name", "message"] {
            if random.chance(50) {
                members.push((member.to_owned(), text(random.pick(NAMES))));
            }
        }
        Json::Object(members)
    });
    Json::Array(rules.collect())
}

fn sources(random: &mut Random) -> Json {
    if random.chance(40) {
        return text(random.pick(STATES));
    }
    Json::Array((0..random.below(4)).map(|_| text(random.pick(STATES))).collect())
}

fn effect(random: &mut Random) -> Json {
    if random.chance(65) {
        return object([("moves", object([("to", text(random.pick(STATES))), ("from", sources(random))]))]);
    }
    text(random.pick(&["none", "creates", "updates"]))
}

fn outcome(random: &mut Random, world: &World, last: bool) -> Json {
    let mut members = vec![("name".to_owned(), text(random.pick(NAMES)))];
    if random.chance(if last { 30 } else { 80 }) {
        let aim = if last { aim(random, 60, 10, 10) } else { aim(random, 25, 55, 8) };
        let depth = depth(random);
        members.push(("when".to_owned(), condition(random, world, aim, depth)));
    }
    if random.chance(if last { 10 } else { 30 }) {
        members.push(("in_state".to_owned(), text(random.pick(STATES))));
    }
    if random.chance(25) {
        members.push(("wrong_state".to_owned(), Json::Bool(random.chance(if last { 30 } else { 60 }))));
    }
    if random.chance(75) {
        members.push(("effect".to_owned(), effect(random)));
    }
    Json::Object(members)
}

fn outcomes(random: &mut Random, world: &World, most: usize) -> Json {
    let count = if random.chance(6) { 0 } else { random.between(1, most) };
    Json::Array((0..count).map(|place| outcome(random, world, place + 1 == count)).collect())
}

fn states(random: &mut Random) -> Json {
    Json::Array((0..random.below(6)).map(|_| text(random.pick(STATES))).collect())
}

fn framed(world: &World, rest: Vec<(&str, Json)>) -> Json {
    let mut members: Vec<(String, Json)> = Vec::new();
    let own = [
        ("entity", text(world.entity.clone())),
        ("version", Json::Number(world.version.clone())),
        ("args", world.args.clone()),
        ("fields", world.fields.clone()),
        ("old_fields", world.old_fields.clone()),
        ("to_state", text(world.to_state.clone())),
    ];
    let optional = [("id", &world.id), ("from_state", &world.from_state)];
    let optional = optional.into_iter().filter_map(|(name, value)| Some((name, text(value.clone()?))));
    for (name, value) in own.into_iter().chain(optional).chain(rest) {
        members.push((name.to_owned(), value));
    }
    for list in ["states", "preconditions", "invariants", "outcomes"] {
        if members.iter().all(|(name, _)| name != list) {
            members.push((list.to_owned(), Json::Array(Vec::new())));
        }
    }
    Json::Object(members)
}

/// Rules, outcomes and mostly a condition.
pub fn mixed(random: &mut Random) -> Json {
    let world = world(random);
    let heavy = random.below(4);
    let many = if random.chance(3) { 20 } else { 0 };
    let mut rest = vec![
        ("states", states(random)),
        ("preconditions", rules(random, &world, if heavy == 0 { 4 + many } else { 1 })),
        ("invariants", rules(random, &world, if heavy == 1 { 4 + many } else { 1 })),
        ("outcomes", outcomes(random, &world, if heavy == 2 { 6 + many } else { 3 })),
    ];
    if random.chance(90) {
        rest.push(("state", text(random.pick(STATES))));
    }
    if random.chance(80) {
        let aim = aim(random, 30, 30, 20);
        let depth = if heavy == 3 { random.between(2, 5) } else { depth(random) };
        rest.push(("condition", condition(random, &world, aim, depth)));
    }
    framed(&world, rest)
}

/// Rules and outcomes whose expressions are known ones; those of a binder that is never met are not.
pub fn decision(random: &mut Random) -> Json {
    let mut world = world(random);
    world.unknown = 0;
    world.unaddressed = if world.id.is_some() { world.unaddressed } else { 0 };
    let mut rest = vec![
        ("states", states(random)),
        ("preconditions", rules(random, &world, 3)),
        ("invariants", rules(random, &world, 1)),
        ("outcomes", outcomes(random, &world, 5)),
    ];
    if random.chance(97) {
        rest.push(("state", text(random.pick(STATES))));
    }
    if random.chance(20) {
        rest.push(("condition", condition(random, &world, Aim::Any, 1)));
    }
    framed(&world, rest)
}

/// A condition and nothing else to decide.
pub fn condition_alone(random: &mut Random) -> Json {
    let world = world(random);
    let aim = aim(random, 30, 30, 20);
    let depth = depth(random) + 1;
    framed(&world, vec![("condition", condition(random, &world, aim, depth))])
}

/// A small condition on small arguments.
pub fn small(random: &mut Random) -> Json {
    let (args, condition) = crate::small::small(random);
    let fields = object([("a", text("f"))]);
    let id = random.chance(50).then(|| "i".to_owned());
    let (text, version) = (String::new(), "1".to_owned());
    let world = World {
        args,
        fields,
        old_fields: object([]),
        id,
        from_state: None,
        to_state: text.clone(),
        entity: text,
        version,
        unknown: 0,
        missing: 0,
        unaddressed: 0,
    };
    framed(&world, vec![("condition", condition)])
}

/// `$c`, or sometimes `$d` where that is bound.
fn bound(random: &mut Random, names: &[&str]) -> Json {
    text(if names.contains(&"d") && random.chance(30) { "$d" } else { "$c" })
}

/// A text in brackets, mostly those of arrays; the outermost is an array's.
fn wrapped(random: &mut Random, inner: Json, wraps: usize) -> Json {
    (1..=wraps).fold(inner, |inner, wrap| if wrap == wraps || random.chance(90) { Json::Array(vec![inner]) } else { object([("k", inner)]) })
}

/// Chained quantifiers: each collection wraps the outer binder in as many brackets as the text has left, or fewer.
pub fn deep(random: &mut Random) -> Json {
    let mut world = world(random);
    world.id = Some(some_text(random));
    let levels = random.between(2, 31);
    let names: Vec<&str> = (0..levels).map(|level| if level == 0 || random.chance(85) { "c" } else { "d" }).collect();
    let pair = Json::Array(vec![bound(random, &names), bound(random, &names)]);
    // below 31 binders no bracket is left for a pair's array
    let mut chain = if levels == 31 { object([("exists", bound(random, &names))]) } else { object([(random.pick(&["eq", "ne", "in", "contains"]), pair)]) };
    for level in (0..levels).rev() {
        let left = 64 - 1 - 2 * (level + 1);
        let wraps = if random.chance(80) { left } else { random.between(1, left) };
        let inner = if level == 0 { text("$args") } else { bound(random, &names[..level]) };
        let over = wrapped(random, inner, wraps);
        chain = object([(random.pick(&["for_all", "for_any"]), object([("in", over), ("as", text(names[level])), ("that", chain)]))]);
    }
    framed(&world, vec![("condition", chain)])
}
