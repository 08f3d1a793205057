//! What a sheet holds to be read: arguments, fields, old fields, texts.

use crate::json::{text, Json};
use crate::number::number;
use crate::random::Random;

const NAMES: &[&str] =
    &["v", "a", "b", "n", "t", "list", "o", "k", "x", "", "id", "args", "c", "é", "😀", "a b", "q\"q", "u\\u", "\0", "$w", "dot.ted", "A", "aa", "null"];
const TEXTS: &[&str] = &[
    "",
    "a",
    "ab",
    "abc",
    "abcabc",
    "b",
    "in",
    "out",
    "x",
    "é",
    "e\u{301}",
    "😀",
    "a😀b",
    "$args.v",
    "$",
    "$$",
    "$foo",
    "$$foo",
    "tab\there",
    "line\nfeed",
    "q\"uote",
    "back\\slash",
    "\u{1}",
    "\u{7f}",
    "\u{2028}",
    "true",
    "null",
    "1",
    "ab.c",
    "\u{10ffff}",
    "aab",
    "aaab",
    "/",
    "\0",
    "a\0b",
];

/// What may go wrong on a sheet, in percent of the places where it can.
pub struct World {
    pub args: Json,
    pub fields: Json,
    pub old_fields: Json,
    pub id: Option<String>,
    pub from_state: Option<String>,
    pub to_state: String,
    pub entity: String,
    pub version: String,
    pub unknown: usize,
    pub missing: usize,
    pub unaddressed: usize,
}

pub fn name(random: &mut Random) -> String {
    random.pick(NAMES).to_owned()
}

pub fn some_text(random: &mut Random) -> String {
    random.pick(TEXTS).to_owned()
}

pub fn value(random: &mut Random, depth: usize) -> Json {
    match random.below(if depth == 0 { 70 } else { 100 }) {
        0..=29 => Json::Number(number(random)),
        30..=54 => text(some_text(random)),
        55..=62 => Json::Bool(random.chance(50)),
        63..=69 => Json::Null,
        70..=86 => {
            let length = random.below(4);
            let mut elements: Vec<Json> = (0..length).map(|_| value(random, depth - 1)).collect();
            // an element met again settles `contains` and equality later than at the first place
            if length > 1 && random.chance(30) {
                elements[length - 1] = elements[0].clone();
            }
            Json::Array(elements)
        }
        _ => some_object(random, depth - 1, 3),
    }
}

pub fn some_object(random: &mut Random, depth: usize, most: usize) -> Json {
    let mut members: Vec<(String, Json)> = Vec::new();
    for _ in 0..random.below(most + 1) {
        let name = name(random);
        if members.iter().all(|(key, _)| *key != name) {
            members.push((name, value(random, depth)));
        }
    }
    Json::Object(members)
}

fn rate(random: &mut Random, often: usize, percent: usize) -> usize {
    if random.chance(often) {
        percent
    } else {
        0
    }
}

/// Arguments; now and then many of them.
fn arguments(random: &mut Random, depth: usize) -> Json {
    let mut args = some_object(random, depth, 5);
    if let (Json::Object(members), true) = (&mut args, random.chance(4)) {
        for index in 0..random.between(10, 60) {
            members.push((format!("w{index}"), value(random, depth)));
        }
    }
    args
}

pub fn world(random: &mut Random) -> World {
    let depth = random.between(1, 3);
    World {
        args: arguments(random, depth),
        fields: some_object(random, depth, 3),
        old_fields: some_object(random, 1, 2),
        id: random.chance(60).then(|| some_text(random)),
        from_state: random.chance(60).then(|| some_text(random)),
        to_state: some_text(random),
        entity: some_text(random),
        version: random.pick(&["0", "1", "1", "7", "10", "4294967295"]).to_owned(),
        unknown: rate(random, 30, 20),
        missing: rate(random, 50, 12),
        unaddressed: rate(random, 30, 25),
    }
}
