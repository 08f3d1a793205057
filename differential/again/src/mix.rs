//! What the pairs of a run were, so that a run that asks little is seen.

use crate::pair::{Judged, Pair};
use crate::readings::Reading;
use generate::json::Json;
use std::collections::BTreeMap;

const NUMBERS: [u32; 7] = [0, 15, 16, 19, 20, 21, 22];
const FORMS: [&str; 7] =
    ["a quantifier", "exists", "a nested path", "a guard with in_state", "a guard with wrong_state", "only a null gone", "only notes changed"];

#[derive(Default)]
struct Row {
    pairs: u64,
    vanished: u64,
    other: u64,
}

#[derive(Default)]
pub struct Mix {
    pub drawn: u64,
    by_number: BTreeMap<u32, Row>,
    forms: BTreeMap<&'static str, u64>,
}

/// Whether a member of such a name stands anywhere.
fn has(value: &Json, names: &[&str]) -> bool {
    let named = matches!(value, Json::Object(members) if members.iter().any(|(name, _)| names.contains(&name.as_str())));
    named || value.parts().into_iter().any(|part| has(part, names))
}

fn forms(pair: &Pair, readings: &[Reading], judged: &Judged) -> [bool; 7] {
    let list = |name: &str| pair.old.member(name).map(Json::parts).unwrap_or_default();
    let conditions: Vec<&Json> =
        list("preconditions").into_iter().chain(list("outcomes")).filter_map(|one| one.member("assert").or(one.member("when"))).collect();
    let guarded = |name: &str| list("outcomes").into_iter().any(|outcome| outcome.member("when").is_some() && outcome.member(name).is_some());
    [
        conditions.iter().any(|condition| has(condition, &["for_all", "for_any"])),
        conditions.iter().any(|condition| has(condition, &["exists"])),
        readings.iter().any(|reading| reading.text.split('.').count() > 2),
        guarded("in_state"),
        guarded("wrong_state"),
        judged.became.changed && judged.became.vanished.is_empty(),
        !judged.became.changed && !crate::value::equal(&pair.old, &pair.new),
    ]
}

impl Mix {
    pub fn add(&mut self, pair: &Pair, readings: &[Reading], judged: &Judged) {
        let row = self.by_number.entry(judged.replies[0].number).or_default();
        row.pairs += 1;
        row.vanished += u64::from(!judged.became.vanished.is_empty());
        row.other += u64::from(judged.replies[0] != judged.replies[1]);
        for (form, holds) in FORMS.into_iter().zip(forms(pair, readings, judged)) {
            *self.forms.entry(form).or_default() += u64::from(holds);
        }
    }

    pub fn merge(&mut self, other: Mix) {
        self.drawn += other.drawn;
        for (number, row) in other.by_number {
            let all = self.by_number.entry(number).or_default();
            *all = Row { pairs: all.pairs + row.pairs, vanished: all.vanished + row.vanished, other: all.other + row.other };
        }
        for (form, count) in other.forms {
            *self.forms.entry(form).or_default() += count;
        }
    }

    pub fn print(&self) {
        for (number, Row { pairs, vanished, other }) in &self.by_number {
            println!("  old number {number}: {pairs} pairs, {vanished} with a vanished reading, {other} with another line");
        }
        let forms: Vec<String> = self.forms.iter().map(|(form, count)| format!("{form} {count}")).collect();
        println!("  pairs with {}", forms.join(", "));
    }

    /// A third of the pairs lost a reading, and every number and form is among them.
    pub fn is_meaningful(&self) -> bool {
        let (pairs, vanished) = self.by_number.values().fold((0, 0), |(pairs, vanished), row| (pairs + row.pairs, vanished + row.vanished));
        let numbers = NUMBERS.iter().all(|number| self.by_number.contains_key(number));
        3 * vanished >= pairs && numbers && FORMS.iter().all(|form| self.forms.get(form).is_some_and(|count| *count > 0))
    }
}
