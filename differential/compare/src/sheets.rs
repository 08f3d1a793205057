//! Accepted sheets through all six calls, here and in the Rust, and pairs of numbers in three comparisons.

use crate::shrink::shrunk;
use crate::{Counts, Options};
use generate::random::Random;
use intake::{Call, Lent, Reply, WORK};
use oracle::Sheet;
use std::cell::RefCell;
use std::cmp::Ordering;
use std::fmt;

/// How much output a call is lent: more than its line, just as much, or so many bytes too few.
#[derive(Clone, Copy)]
pub enum Room {
    Enough,
    Exact,
    Short(usize),
}

#[derive(Clone, Copy)]
pub struct Question {
    pub call: Call,
    pub words: usize,
    pub room: Room,
}

pub struct Difference {
    question: Question,
    sheet: String,
    expected: Reply,
    found: Result<Reply, String>,
}

fn shown(reply: &Reply) -> String {
    format!("{} {}", reply.number, reply.line.as_deref().map_or("-".into(), String::from_utf8_lossy))
}

impl Difference {
    /// The call, and what both sides answer.
    pub fn said(&self) -> String {
        let found = self.found.as_ref().map_or_else(String::clone, shown);
        format!("{}: {found}, and not {}", self.question.call.name(), shown(&self.expected))
    }
}

impl fmt::Display for Difference {
    fn fmt(&self, to: &mut fmt::Formatter<'_>) -> fmt::Result {
        let Question { call, words, .. } = self.question;
        let place = if let Call::Admit(place) = call { format!(" {place}") } else { String::new() };
        writeln!(to, "difference in {}{place}, work of {words} words", call.name())?;
        writeln!(to, "  sheet    {}", self.sheet)?;
        writeln!(to, "  expected {}", shown(&self.expected))?;
        match &self.found {
            Ok(found) => write!(to, "  found    {}", shown(found)),
            Err(broken) => write!(to, "  found    {broken}"),
        }
    }
}

/// What the Rust answers, and the output that a call is lent for it. Work that is too small and output that is too short rest on the paper alone.
fn expected(sheet: &Sheet, question: Question) -> (Reply, usize) {
    let (number, line) = oracle::answer(question.call.name(), question.call.place(), sheet).expect("the call is one of the six");
    let length = line.as_ref().map_or(0, |line| line.len() + 1);
    let bytes = match question.room {
        Room::Enough => length + 100,
        Room::Exact => length,
        Room::Short(less) => length.saturating_sub(less),
    };
    let reply = if question.words < WORK {
        Reply { number: 1, line: None }
    } else if bytes < length {
        Reply { number: 23, line: None }
    } else {
        Reply { number: u32::from(number), line: line.map(String::into_bytes) }
    };
    (reply, bytes)
}

/// The reply to a question where both sides agree.
fn asked(lent: &mut Lent, text: &str, sheet: &Sheet, question: Question) -> Result<Reply, Difference> {
    let (expected, bytes) = expected(sheet, question);
    let found = lent.ask(question.call, text.as_bytes(), question.words, bytes);
    if found.as_ref() == Ok(&expected) {
        Ok(expected)
    } else {
        Err(Difference { question, sheet: text.to_owned(), expected, found })
    }
}

/// All questions on one text; the replies, or the first difference.
pub fn compared(lent: &mut Lent, text: &str, questions: &[Question]) -> Option<Result<Vec<Reply>, Difference>> {
    let sheet = Sheet::read(text).ok()?;
    Some(questions.iter().map(|question| asked(lent, text, &sheet, *question)).collect())
}

/// The same difference on a sheet as small as can be found. A sheet that is read stays one that is read.
pub fn smallest(difference: Difference) -> Difference {
    let is_read = |found: &Result<Reply, String>| !matches!(found, Ok(Reply { number: 2..=11, .. }));
    let (read, question) = (is_read(&difference.found), difference.question);
    let lent = RefCell::new(Lent::new(1 << 15, 1 << 20));
    let again = |text: &str| match compared(&mut lent.borrow_mut(), text, &[question]) {
        Some(Err(other)) if is_read(&other.found) == read => Some(other),
        _ => None,
    };
    let text = shrunk(&difference.sheet, |text| again(text).is_some());
    again(&text).unwrap_or(difference)
}

fn room(random: &mut Random) -> Room {
    match random.below(10) {
        0..=6 => Room::Enough,
        7..=8 => Room::Exact,
        _ => Room::Short(if random.chance(60) { 1 } else { random.between(1, 80) }),
    }
}

pub fn questions(random: &mut Random, options: &Options) -> Vec<Question> {
    let place = if random.chance(2) { u64::MAX - random.below(3) as u64 } else { random.pick(&[&0, &0, &0, &1, &1, &2, &5]).to_owned() };
    let calls = [Call::Evaluate, Call::Preconditions, Call::Invariants, Call::Select, Call::Admit(place), Call::Decide];
    let asked = calls.into_iter().filter(|call| options.asks(call.name()));
    asked
        .map(|call| {
            let words = match random.below(200) {
                0 => random.pick(&[&0, &1, &(WORK - 1)]).to_owned(),
                1..=9 => WORK + random.below(40),
                _ => WORK,
            };
            Question { call, words, room: room(random) }
        })
        .collect()
}

/// Small sheets first, so that a difference is likely met on one.
pub fn shape(index: u64) -> &'static str {
    match index % 100 {
        0..=21 => "small",
        22..=28 => "condition",
        99 => "deep",
        _ => "mixed",
    }
}

/// The sheet at an index: the same one in every run with the seed.
pub fn one_sheet(lent: &mut Lent, counts: &mut Counts, options: &Options, index: u64) -> Result<(), Difference> {
    let mut random = options.random(index);
    let text = generate::sheet(&mut random, shape(index));
    options.trace(text.as_bytes());
    let questions = questions(&mut random, options);
    let replies = compared(lent, &text, &questions).unwrap_or_else(|| panic!("serde does not read {text}"))?;
    for (question, reply) in questions.iter().zip(&replies) {
        counts.add(question.call.name(), reply);
    }
    Ok(())
}

/// One pair of numbers by `number::compare`, and by `lt`, `eq` and `gt` of a sheet, since the order has no call of its own.
pub fn one_pair(lent: &mut Lent, counts: &mut Counts, options: &Options, index: u64) -> Result<(), Difference> {
    let (left, right) = generate::number_pair(&mut options.random(index));
    let order = oracle::compare(&left, &right).expect("both are numbers");
    for (operator, wanted) in [("lt", Ordering::Less), ("eq", Ordering::Equal), ("gt", Ordering::Greater)] {
        let text = format!(
            r#"{{"entity":"","version":0,"to_state":"","args":{{"n":{left}}},"fields":{{}},"old_fields":{{}},"states":[],"preconditions":[],"invariants":[],"outcomes":[],"condition":{{"{operator}":["$args.n",{right}]}}}}"#
        );
        options.trace(text.as_bytes());
        let line = format!("(truth {} (names))", order == wanted);
        let expected = Reply { number: 0, line: Some(line.into_bytes()) };
        let question = Question { call: Call::Evaluate, words: WORK, room: Room::Enough };
        let found = lent.ask(question.call, text.as_bytes(), WORK, 1000);
        if found.as_ref() != Ok(&expected) {
            return Err(Difference { question, sheet: text, expected, found });
        }
        counts.add("compare", &expected);
    }
    Ok(())
}
