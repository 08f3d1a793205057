//! Conditions with a truth aimed at: the aim is likely met, not surely, so that all answers occur often.

use crate::json::{object, text, Json};
use crate::number::number;
use crate::operand::{literal, missing_operand, operand, other, resolved, same, Binder, Operand};
use crate::random::Random;
use crate::world::{some_text, value, World};

#[derive(Clone, Copy, PartialEq)]
pub enum Aim {
    True,
    False,
    Unknown,
    Any,
}

const PAIRS: &[&str] = &["eq", "ne", "gt", "gte", "lt", "lte", "in", "contains", "starts_with", "ends_with"];
const BINDERS: &[&str] = &["c", "d", "c", "v", "args", "fields", "", "id", "state", "a.b", "$x", "é", "old_fields", "foo", "entity", "😀"];

pub struct Conditions<'a> {
    pub random: &'a mut Random,
    pub world: &'a World,
    pub binders: Vec<Binder>,
}

fn form(operator: &str, holds: Json) -> Json {
    object([(operator, holds)])
}

fn pair(operator: &str, left: Json, right: Json) -> Json {
    form(operator, Json::Array(vec![left, right]))
}

impl Conditions<'_> {
    fn operand(&mut self, depth: usize) -> Operand {
        operand(self.random, self.world, &self.binders, depth)
    }

    fn any_pair(&mut self) -> Json {
        let operator = self.random.pick(PAIRS);
        let left = self.operand(2).written;
        let right = self.operand(2).written;
        pair(operator, left, right)
    }

    /// An operand that likely resolves, with its value.
    fn known(&mut self, wanted: impl Fn(&Json) -> bool) -> Option<(Json, Json)> {
        resolved(self.random, self.world, &self.binders, wanted)
    }

    fn known_or_written(&mut self) -> (Json, Json) {
        self.known(|_| true).unwrap_or_else(|| {
            let value = value(self.random, 2);
            (literal(&value), value)
        })
    }

    fn equality(&mut self, holds: bool) -> Json {
        let (written, value) = self.known_or_written();
        let alike = self.random.chance(60);
        let right = if alike { same(self.random, &value) } else { other(self.random, &value) };
        let (left, right) = if self.random.chance(70) { (written, literal(&right)) } else { (literal(&right), written) };
        pair(if alike == holds { "eq" } else { "ne" }, left, right)
    }

    fn order(&mut self, holds: bool) -> Json {
        let (written, known) = self.known(|value| matches!(value, Json::Number(_))).unwrap_or_else(|| {
            let number = Json::Number(number(self.random));
            (number.clone(), number)
        });
        let tie = self.random.chance(35);
        let bound = if tie { same(self.random, &known) } else { Json::Number(self.random.pick(&["-1e400", "-5", "-1e-9", "1e-9", "50", "1e400"]).to_owned()) };
        let operator = match (tie, holds) {
            (true, true) => self.random.pick(&["gte", "lte"]),
            (true, false) => self.random.pick(&["gt", "lt"]),
            _ => self.random.pick(&["gt", "gte", "lt", "lte"]),
        };
        if self.random.chance(50) {
            pair(operator, written, bound)
        } else {
            pair(operator, bound, written)
        }
    }

    fn membership(&mut self, holds: bool) -> Json {
        let (written, value) = self.known_or_written();
        let mut elements: Vec<Json> = (0..self.random.below(3)).map(|_| other(self.random, &value)).collect();
        if holds {
            let at = self.random.below(elements.len() + 1);
            elements.insert(at, same(self.random, &value));
        }
        let list = literal(&Json::Array(elements));
        if self.random.chance(50) {
            pair("in", written, list)
        } else {
            pair("contains", list, written)
        }
    }

    fn inside(&mut self, holds: bool) -> Json {
        let known = self.known(|value| matches!(value, Json::Text(_) | Json::Array(_) | Json::Object(_)));
        let (written, value) = known.unwrap_or_else(|| {
            let value = text(some_text(self.random));
            (literal(&value), value)
        });
        let part = match &value {
            Json::Array(elements) if holds && !elements.is_empty() => {
                let at = self.random.below(elements.len());
                same(self.random, &elements[at])
            }
            Json::Object(members) if holds && !members.is_empty() => text(members[self.random.below(members.len())].0.clone()),
            Json::Text(whole) if holds => return self.text_form(written, whole),
            _ => other(self.random, &value),
        };
        pair("contains", written, literal(&part))
    }

    fn text_form(&mut self, written: Json, whole: &str) -> Json {
        let characters: Vec<char> = whole.chars().collect();
        let start = self.random.below(characters.len() + 1);
        let end = self.random.between(start, characters.len());
        let (operator, part) = match self.random.below(3) {
            0 => ("starts_with", &characters[..end]),
            1 => ("ends_with", &characters[start..]),
            _ => ("contains", &characters[start..end]),
        };
        pair(operator, written, literal(&text(part.iter().collect::<String>())))
    }

    fn exists(&mut self, holds: bool) -> Json {
        let operand = match holds {
            true if self.random.chance(20) => Json::Null,
            true => self.known_or_written().0,
            false => missing_operand(self.random, self.world, &self.binders),
        };
        form("exists", operand)
    }

    fn settled(&mut self, holds: bool) -> Json {
        match self.random.below(16) {
            0..=1 => Json::Bool(holds),
            2..=5 => self.equality(holds),
            6..=8 => self.order(holds),
            9..=10 => self.membership(holds),
            11..=12 => self.inside(holds),
            13..=14 => self.exists(holds),
            _ if !holds => {
                // kinds that do not fit are False
                let operator = self.random.pick(&["gt", "lte", "in", "starts_with", "ends_with", "contains"]);
                let number = Json::Number(number(self.random));
                pair(operator, number, self.known_or_written().0)
            }
            _ => self.text_form(text("a😀b"), "a😀b"),
        }
    }

    fn open(&mut self) -> Json {
        if self.random.chance(15) {
            let written = self.random.pick(&["abc", "", "$version", "$entity"]);
            let body = self.condition(Aim::Any, 0);
            return self.quantifier(text(written), None, body);
        }
        let operator = self.random.pick(PAIRS);
        let missing = missing_operand(self.random, self.world, &self.binders);
        let present = self.operand(1).written;
        if self.random.chance(50) {
            pair(operator, missing, present)
        } else {
            pair(operator, present, missing)
        }
    }

    fn quantifier(&mut self, over: Json, name: Option<&str>, body: Json) -> Json {
        let name = name.unwrap_or_else(|| self.random.pick(BINDERS));
        let operator = self.random.pick(&["for_all", "for_any"]);
        form(operator, object([("in", over), ("as", text(name)), ("that", body)]))
    }

    /// A collection with the value it likely has.
    fn collection(&mut self) -> Operand {
        if self.random.chance(55) {
            if let Some((written, value)) = self.known(|value| !value.parts().is_empty()) {
                return Operand { written, value: Some(value) };
            }
        }
        if !self.binders.is_empty() && self.random.chance(40) {
            // wrap a binder: what is bound then nests deeper than the text
            let binder = self.random.below(self.binders.len());
            let (written, value) = (text(format!("${}", self.binders[binder].name)), self.binders[binder].value.clone());
            return match self.random.below(3) {
                0 => Operand { written: Json::Array(vec![Json::Array(vec![written])]), value: value.map(|value| Json::Array(vec![Json::Array(vec![value])])) },
                1 => Operand { written: object([("k", written)]), value: value.map(|value| object([("k", value)])) },
                _ => Operand { written: Json::Array(vec![object([("v", written)])]), value: value.map(|value| Json::Array(vec![object([("v", value)])])) },
            };
        }
        self.operand(2)
    }

    fn quantified(&mut self, aim: Aim, depth: usize) -> Json {
        let Operand { written, value } = self.collection();
        let name = self.random.pick(BINDERS);
        let element = value.as_ref().and_then(|value| {
            let parts = value.parts();
            (!parts.is_empty()).then(|| parts[self.random.below(parts.len())].clone())
        });
        self.binders.push(Binder { name: name.to_owned(), value: element });
        let body = self.condition(aim, depth - 1);
        self.binders.pop();
        self.quantifier(written, Some(name), body)
    }

    /// `all` where `settles` is False, `any` where it is True: children of the other truth, and one that makes the aim.
    fn connected(&mut self, aim: Aim, depth: usize) -> Json {
        let all = self.random.chance(50);
        let (operator, rest, settles) = if all { ("all", Aim::True, Aim::False) } else { ("any", Aim::False, Aim::True) };
        let other = if aim == settles || aim == Aim::Any { Aim::Any } else { rest };
        let mut children: Vec<Json> = (0..self.random.below(3)).map(|_| self.condition(other, depth - 1)).collect();
        if aim != rest || self.random.chance(60) {
            let at = self.random.below(children.len() + 1);
            children.insert(at, self.condition(aim, depth - 1));
        }
        form(operator, Json::Array(children))
    }

    fn negated(&mut self, aim: Aim, depth: usize) -> Json {
        let inner = match aim {
            Aim::True => Aim::False,
            Aim::False => Aim::True,
            same => same,
        };
        form("not", self.condition(inner, depth - 1))
    }

    pub fn condition(&mut self, aim: Aim, depth: usize) -> Json {
        match self.random.below(if depth == 0 { 45 } else { 100 }) {
            0..=44 => match aim {
                Aim::True => self.settled(true),
                Aim::False => self.settled(false),
                Aim::Unknown => self.open(),
                Aim::Any => match self.random.below(4) {
                    0 => self.settled(true),
                    1 => self.settled(false),
                    _ => self.any_pair(),
                },
            },
            45..=64 => self.connected(aim, depth),
            65..=74 => self.negated(aim, depth),
            _ => self.quantified(aim, depth),
        }
    }
}
