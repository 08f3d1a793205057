//! Accepted sheets of every form, from a seed.

mod condition;
pub mod json;
pub mod number;
mod operand;
pub mod random;
mod sheet;
mod small;
pub mod world;

use json::{Json, Style, Writer};
use random::Random;

/// The limits of a sheet, in bytes, in open brackets and in nodes.
const BYTES: usize = 32_768;
const BRACKETS: usize = 64;
const NODES: usize = 4_096;

/// The shapes that can be asked for, the first where none is.
pub const SHAPES: [&str; 4] = ["mixed", "condition", "deep", "small"];

fn written(random: &mut Random, sheet: &Json) -> String {
    let style = Style { spaces: if random.chance(20) { 15 } else { 0 }, escapes: if random.chance(30) { 8 } else { 0 }, shuffled: random.chance(70) };
    let mut writer = Writer { random, style, out: String::new() };
    writer.value(sheet);
    writer.out
}

fn brackets(value: &Json) -> usize {
    match value {
        Json::Array(_) | Json::Object(_) => 1 + value.parts().into_iter().map(brackets).max().unwrap_or(0),
        _ => 0,
    }
}

fn nodes(value: &Json) -> usize {
    let names = if let Json::Object(members) = value { members.len() } else { 0 };
    1 + names + value.parts().into_iter().map(nodes).sum::<usize>()
}

/// One of the texts of a drawn sheet of a shape, within the limits.
pub fn sheet(random: &mut Random, shape: &str) -> String {
    loop {
        let sheet = match shape {
            "condition" => sheet::condition_alone(random),
            "deep" => sheet::deep(random),
            "small" => sheet::small(random),
            _ => sheet::mixed(random),
        };
        let text = written(random, &sheet);
        if text.len() <= BYTES && brackets(&sheet) <= BRACKETS && nodes(&sheet) <= NODES {
            return text;
        }
    }
}

/// A drawn sheet to decide by, likely clean, and most likely within the limits.
pub fn decision(random: &mut Random) -> Json {
    sheet::decision(random)
}

/// Two number texts, often of one value.
pub fn number_pair(random: &mut Random) -> (String, String) {
    if random.chance(50) {
        return small::number_pair(random);
    }
    let left = number::number(random);
    let right = if random.chance(50) { number::respelled(random, &left) } else { number::number(random) };
    (left, right)
}
