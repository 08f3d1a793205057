//! The readings of a sheet's rules, and whether its conditions are clean, in the paper's words.

use crate::value::is_known;
use generate::json::Json;

/// An expression that no binder in force takes.
pub struct Reading {
    pub text: String,
    pub under_exists: bool,
}

#[derive(Default)]
struct Walk<'a> {
    binders: Vec<&'a str>,
    readings: Vec<Reading>,
}

impl<'a> Walk<'a> {
    fn operand(&mut self, operand: &'a Json, under_exists: bool) {
        match operand {
            Json::Text(text) if text.starts_with('$') && !text.starts_with("$$") => {
                let first = text[1..].split('.').next().unwrap_or_default();
                if !self.binders.contains(&first) {
                    self.readings.push(Reading { text: text.clone(), under_exists });
                }
            }
            _ => operand.parts().into_iter().for_each(|part| self.operand(part, under_exists)),
        }
    }

    fn condition(&mut self, condition: &'a Json) {
        let Json::Object(members) = condition else {
            return;
        };
        let [(form, holds)] = &members[..] else {
            return;
        };
        match form.as_str() {
            "all" | "any" => holds.parts().into_iter().for_each(|child| self.condition(child)),
            "not" => self.condition(holds),
            "exists" => self.operand(holds, true),
            "for_all" | "for_any" => {
                if let (Some(over), Some(Json::Text(name)), Some(body)) = (holds.member("in"), holds.member("as"), holds.member("that")) {
                    self.operand(over, false);
                    self.binders.push(name);
                    self.condition(body);
                    self.binders.pop();
                }
            }
            _ => self.operand(holds, false),
        }
    }
}

/// The conditions that stand as such a member of the elements of such a list.
fn conditions<'a>(sheet: &'a Json, list: &str, member: &'a str) -> impl Iterator<Item = &'a Json> {
    let elements = sheet.member(list).map(Json::parts).unwrap_or_default();
    elements.into_iter().filter_map(move |element| element.member(member))
}

fn read<'a>(conditions: impl Iterator<Item = &'a Json>) -> Vec<Reading> {
    let mut walk = Walk::default();
    conditions.for_each(|condition| walk.condition(condition));
    walk.readings
}

/// The readings of preconditions and guards, reached or not.
pub fn readings(sheet: &Json) -> Vec<Reading> {
    read(conditions(sheet, "preconditions", "assert").chain(conditions(sheet, "outcomes", "when")))
}

/// Whether every expression of every condition of the sheet is the sheet's or a binder's in force there, and `$id`, unbound, only with an `id`. The demand
/// asks it of preconditions and guards alone; the other conditions are kept clean too.
pub fn is_clean(sheet: &Json) -> bool {
    let others = read(conditions(sheet, "invariants", "assert").chain(sheet.member("condition")));
    let has_id = sheet.member("id").is_some();
    readings(sheet).iter().chain(&others).all(|reading| is_known(&reading.text) && (has_id || reading.text != "$id"))
}
