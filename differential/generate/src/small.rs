//! Small sheets over small alphabets, where chance meets the corners: number pairs, texts in texts, paths with empty parts and shadowed binders.

use crate::json::{object, text, Json};
use crate::random::Random;

const EXPONENTS: &[&str] = &[
    "0",
    "1",
    "-1",
    "2",
    "9",
    "-9",
    "10",
    "-10",
    "99",
    "-99",
    "100",
    "-100",
    "999999999999999999999",
    "-999999999999999999999",
    "1000000000000000000000",
    "-1000000000000000000000",
];

/// Digits with few values, so that pairs meet.
fn digits(random: &mut Random) -> String {
    (0..random.between(1, 4)).map(|_| random.pick(&["0", "0", "1", "9"])).collect()
}

/// A number of the value `digits` times ten to `exponent`, with the point moved.
fn spelled(random: &mut Random, sign: &str, digits: &str, exponent: i128) -> String {
    let trailing = random.below(3);
    let padded = format!("{}{digits}{}", "0".repeat(random.below(3)), "0".repeat(trailing));
    let point = random.between(1, padded.len());
    let (whole, fraction) = padded.split_at(point);
    let whole = whole.trim_start_matches('0');
    let whole = if whole.is_empty() { "0" } else { whole };
    let exponent = exponent - trailing as i128 + fraction.len() as i128;
    let mark = if fraction.is_empty() { String::new() } else { format!(".{fraction}") };
    let plus = if exponent >= 0 { random.pick(&["", "+", "0", "+00"]) } else { "" };
    match exponent {
        0 if random.chance(50) => format!("{sign}{whole}{mark}"),
        _ => format!("{sign}{whole}{mark}{}{plus}{exponent}", random.pick(&["e", "E"])),
    }
}

/// Two numbers of one value, or of values near each other.
pub fn number_pair(random: &mut Random) -> (String, String) {
    let (first, exponent) = (digits(random), random.pick(EXPONENTS).parse::<i128>().expect("an exponent"));
    let sign = random.pick(&["", "", "-"]);
    let (second, other) = match random.below(4) {
        0 => (digits(random), exponent),
        1 => (first.clone(), exponent + 1),
        _ => (first.clone(), exponent),
    };
    let other_sign = if random.chance(90) { sign } else { "-" };
    (spelled(random, sign, &first, exponent), spelled(random, other_sign, &second, other))
}

fn numbers(random: &mut Random) -> (Json, Json) {
    let (left, right) = number_pair(random);
    let operator = random.pick(&["eq", "ne", "gt", "gte", "lt", "lte"]);
    let condition = object([(operator, Json::Array(vec![text("$args.n"), Json::Number(right)]))]);
    (object([("n", Json::Number(left))]), condition)
}

fn few(random: &mut Random, most: usize) -> String {
    (0..random.below(most + 1)).map(|_| random.pick(&["a", "a", "b", "é", "\0"])).collect()
}

fn texts(random: &mut Random) -> (Json, Json) {
    let whole = few(random, 7);
    let operator = random.pick(&["contains", "contains", "starts_with", "ends_with", "in", "eq"]);
    let part = text(few(random, 3));
    let right = if operator == "in" { Json::Array(vec![text(few(random, 1)), part]) } else { part };
    (object([("n", text(whole))]), object([(operator, Json::Array(vec![text("$args.n"), right]))]))
}

fn nested(random: &mut Random, depth: usize) -> Json {
    if depth == 0 || random.chance(15) {
        return match random.below(4) {
            0 => Json::Null,
            1 => Json::Array(vec![Json::Number("1".to_owned())]),
            _ => Json::Number("1".to_owned()),
        };
    }
    let names = ["", "a", "b"].into_iter().filter(|_| random.chance(65)).collect::<Vec<_>>();
    Json::Object(names.into_iter().map(|name| (name.to_owned(), nested(random, depth - 1))).collect())
}

/// An expression: mostly of the arguments or a binder in force.
fn expression(random: &mut Random, binders: &[&str]) -> Json {
    let mut expression = match binders {
        [.., _] if random.chance(60) => format!("${}", binders[random.below(binders.len())]),
        _ => random.pick(&["$args", "$args", "$args", "$args", "$args", "$fields", "$old_fields", "$id", "$$", "$a", "$"]).to_owned(),
    };
    for _ in 0..random.below(5) {
        expression += random.pick(&[".", ".", ".", ".a", ".a", ".a", ".b", ".b", ".b", ".a.", "a"]);
    }
    text(expression)
}

fn operand(random: &mut Random, binders: &[&str]) -> Json {
    match random.below(10) {
        0 => Json::Number("1".to_owned()),
        1 => Json::Array(vec![expression(random, binders), Json::Number("1".to_owned())]),
        2 => object([("a", expression(random, binders)), ("", expression(random, binders))]),
        _ => expression(random, binders),
    }
}

fn condition(random: &mut Random, binders: &mut Vec<&'static str>, depth: usize) -> Json {
    match random.below(if depth == 0 { 5 } else { 10 }) {
        0 => object([("exists", operand(random, binders))]),
        1 => object([("contains", Json::Array(vec![operand(random, binders), operand(random, binders)]))]),
        2..=4 => object([("eq", Json::Array(vec![operand(random, binders), operand(random, binders)]))]),
        5 => object([("not", condition(random, binders, depth - 1))]),
        6 => object([(random.pick(&["all", "any"]), Json::Array(vec![condition(random, binders, depth - 1), condition(random, binders, depth - 1)]))]),
        _ => {
            let (over, name) = (operand(random, binders), random.pick(&["", "a", "b", "c", "args", "id", "a.", "$"]));
            binders.push(name);
            let body = condition(random, binders, depth - 1);
            binders.pop();
            object([(random.pick(&["for_all", "for_any"]), object([("in", over), ("as", text(name)), ("that", body)]))])
        }
    }
}

fn paths(random: &mut Random) -> (Json, Json) {
    let names = ["", "a", "b"].into_iter().filter(|_| random.chance(80)).collect::<Vec<_>>();
    let args = Json::Object(names.into_iter().map(|name| (name.to_owned(), nested(random, 3))).collect());
    let depth = random.below(4);
    (args, condition(random, &mut Vec::new(), depth))
}

/// Arguments and a condition on them.
pub fn small(random: &mut Random) -> (Json, Json) {
    match random.below(4) {
        0 => numbers(random),
        1 => texts(random),
        _ => paths(random),
    }
}
