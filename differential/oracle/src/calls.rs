//! The paper's six calls by the reference functions. A child module of the runtime, whose private functions it calls.
//!
//! The functions name a rule or guard that refuses, not its place: the place is that of the first list, cut behind it, that gives the same error.

use super::{admit_state, check_invariants, check_preconditions, evaluate_condition, select_outcome, TemplateContext, Unobserved};
use crate::{sheet::Sheet, CoreError, OutcomeDefinition, Truth};

const COMMAND: &str = "decide";

pub enum Answer {
    Truth(Truth, Vec<String>),
    Passed,
    Selected(usize, String),
    Admitted(usize, String),
    /// An error, and the place of the rule or outcome that it speaks of.
    Refused(CoreError, usize),
    /// The sheet or the call lacks what the call needs.
    NoInput,
}

fn context(sheet: &Sheet) -> TemplateContext<'_> {
    TemplateContext {
        definition: &sheet.definition,
        id: sheet.id.as_deref(),
        args: &sheet.args,
        arguments_schema: None,
        old_fields: &sheet.old_fields,
        new_fields: &sheet.fields,
        from_state: sheet.from_state.as_deref(),
        to_state: &sheet.to_state,
    }
}

/// The place of the last element in the shortest beginning of a list that gives an error.
fn place(length: usize, error: &CoreError, of_first: impl Fn(usize) -> Result<(), CoreError>) -> usize {
    let shortest = (1..=length).find(|count| of_first(*count).as_ref() == Err(error));
    shortest.map_or(length, |count| count - 1)
}

fn evaluate(sheet: &Sheet) -> Answer {
    let Some(condition) = &sheet.condition else {
        return Answer::NoInput;
    };
    let mut names = Unobserved::new();
    match evaluate_condition(condition, &context(sheet), None, &mut names) {
        Ok(truth) => Answer::Truth(truth, names.into_iter().collect()),
        Err(error) => Answer::Refused(error, 0),
    }
}

fn preconditions(sheet: &Sheet) -> Result<(), (CoreError, usize)> {
    let rules = &sheet.operation.preconditions;
    let of_first = |count: usize| check_preconditions(COMMAND, &rules[..count], &context(sheet));
    of_first(rules.len()).map_err(|error| {
        let at = place(rules.len(), &error, of_first);
        (error, at)
    })
}

fn invariants(sheet: &Sheet) -> Result<(), (CoreError, usize)> {
    let length = sheet.definition.invariants.len();
    let of_first = |count: usize| {
        let mut definition = sheet.definition.clone();
        definition.invariants.truncate(count);
        let whole = context(sheet);
        check_invariants(&definition, &TemplateContext { definition: &definition, ..whole })
    };
    of_first(length).map_err(|error| {
        let at = place(length, &error, of_first);
        (error, at)
    })
}

/// The place of an outcome that a function gave back, by its address.
fn outcome_place(outcomes: &[OutcomeDefinition], given: &OutcomeDefinition) -> usize {
    outcomes.iter().position(|outcome| std::ptr::eq(outcome, given)).expect("the outcome is the sheet's")
}

fn select(sheet: &Sheet) -> Result<usize, (CoreError, usize)> {
    let outcomes = &sheet.operation.outcomes;
    let of_first = |count: usize| select_outcome(COMMAND, &outcomes[..count], sheet.state.as_deref(), &context(sheet));
    match of_first(outcomes.len()) {
        Ok(outcome) => Ok(outcome_place(outcomes, outcome)),
        Err(error) => {
            let at = place(outcomes.len(), &error, |count| of_first(count).map(|_| ()));
            Err((error, at))
        }
    }
}

fn admit(sheet: &Sheet, at: usize) -> Answer {
    let outcomes = &sheet.operation.outcomes;
    let (Some(outcome), Some(state)) = (outcomes.get(at), &sheet.state) else {
        return Answer::NoInput;
    };
    match admit_state(&sheet.definition, &sheet.operation, COMMAND, outcome, state) {
        Ok(outcome) => Answer::Admitted(outcome_place(outcomes, outcome), outcome.name.clone()),
        Err(error) => Answer::Refused(error, at),
    }
}

/// Preconditions, then select, then admit.
fn decide(sheet: &Sheet) -> Answer {
    if sheet.state.is_none() {
        return Answer::NoInput;
    }
    match preconditions(sheet).and_then(|()| select(sheet)) {
        Ok(at) => admit(sheet, at),
        Err((error, at)) => Answer::Refused(error, at),
    }
}

/// Whether a decision admits an outcome, by one run of each function: what a decision costs the Rust, less the places that its errors do not name.
pub fn decided(sheet: &Sheet) -> bool {
    let (context, outcomes) = (context(sheet), &sheet.operation.outcomes);
    let Some(state) = &sheet.state else {
        return false;
    };
    check_preconditions(COMMAND, &sheet.operation.preconditions, &context)
        .and_then(|()| select_outcome(COMMAND, outcomes, Some(state), &context))
        .and_then(|outcome| admit_state(&sheet.definition, &sheet.operation, COMMAND, outcome, state))
        .is_ok()
}

fn checked(result: Result<(), (CoreError, usize)>) -> Answer {
    match result {
        Ok(()) => Answer::Passed,
        Err((error, at)) => Answer::Refused(error, at),
    }
}

pub fn answer(call: &str, at: usize, sheet: &Sheet) -> Option<Answer> {
    Some(match call {
        "evaluate" => evaluate(sheet),
        "preconditions" => checked(preconditions(sheet)),
        "invariants" => checked(invariants(sheet)),
        "select" => match select(sheet) {
            Ok(at) => Answer::Selected(at, sheet.operation.outcomes[at].name.clone()),
            Err((error, at)) => Answer::Refused(error, at),
        },
        "admit" => admit(sheet, at),
        "decide" => decide(sheet),
        _ => return None,
    })
}
