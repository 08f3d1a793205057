//! Damaged and random bytes through all six calls. What is held: the promises on number, output and work table; one number of reading for all calls;
//! 2 and 3 where they belong; 4 only where serde_json reads no JSON either, 9 to 11 only where it does; and the Rust's answer where a text is read.

use crate::sheets::{compared, questions, Question, Room};
use crate::shrink::LONGEST;
use crate::{Counts, Options};
use generate::random::Random;
use intake::{Lent, Reply, WORK};
use std::fs::File;
use std::io::Write;
use std::sync::Mutex;
use std::time::Instant;

const TOKENS: &[&[u8]] = &[
    b"{",
    b"}",
    b"[",
    b"]",
    b",",
    b":",
    b"\"",
    b"\\",
    b" ",
    b"\n",
    b"-",
    b"0",
    b"1",
    b"9",
    b".",
    b"e",
    b"E+",
    b"t",
    b"true",
    b"false",
    b"null",
    b"\"a\"",
    b"\"a\":",
    b"{\"a\":",
    b"\"\\u0061\":",
    b"\"b\"",
    b"\"\\ud83d\\ude00\"",
    b"\\ud800",
    b"\\udc00\\udc00",
    b"\\ud800\\ud800",
    b"\\ud83d\\u0041",
    b"\\udc00",
    b"\"\\n\"",
    b"\xc3\xa9",
    b"\xf0\x9f\x98\x80",
    b"\xed\xa0\x80",
    b"\xef\xbb\xbf",
    b"\xff",
    b"\0",
    b"\x1f",
    b"\x7f",
    b"1e5",
    b"00",
    b"1.",
    b"-0",
    b"[[",
    b"]]",
    b"\"x\":null,",
    b"\\u0024",
    b"\\x",
];

/// Values that a part of a sheet may not be, and conditions at fault.
const FAULTS: &[&[u8]] = &[
    b"null",
    b"5",
    b"4294967296",
    b"1.0",
    b"\"\"",
    b"\"none\"",
    b"[]",
    b"{}",
    b"[null]",
    b"{\"before\":1}",
    b"{\"truthy\":null,\"x\":1}",
    b"{\"all\":[{\"after\":1},null]}",
    b"{\"not\":null}",
    b"{\"eq\":[1]}",
    b"{\"eq\":[1,2,3]}",
    b"{\"foo\":1}",
    b"{\"any\":{}}",
    b"{\"for_all\":{\"in\":[],\"as\":1,\"that\":true}}",
    b"{\"for_any\":{\"in\":[],\"as\":\"c\"}}",
    b"{\"for_any\":{\"in\":[],\"as\":\"c\",\"that\":{\"compare\":1}}}",
    b"{\"moves\":{\"to\":\"a\"}}",
    b"{\"none\":null}",
    b"{\"moves\":{\"to\":\"a\",\"from\":\"b\"}}",
    b"{\"assert\":true}",
    b"{\"name\":\"n\"}",
    b"true",
];

fn bytes(random: &mut Random, length: usize) -> Vec<u8> {
    (0..length).map(|_| random.below(256) as u8).collect()
}

fn tokens(random: &mut Random, most: usize) -> Vec<u8> {
    (0..random.below(most + 1)).flat_map(|_| random.pick(TOKENS)).copied().collect()
}

/// One change of some bytes.
fn changed(random: &mut Random, text: &mut Vec<u8>) {
    let at = random.below(text.len() + 1);
    let end = text.len().min(at + random.below(4));
    let far = text.len().min(at + random.below(60));
    match random.below(8) {
        0 => drop(text.drain(at..end)),
        1 => text.truncate(at),
        2 => {
            let again = text[at..far].to_vec();
            text.splice(far..far, again);
        }
        3 => drop(text.splice(at..end, random.pick(TOKENS).iter().copied())),
        4 => drop(text.drain(at..far)),
        5 if at < text.len() => text[at] ^= 1 << random.below(8),
        _ => drop(text.splice(at..at, random.pick(TOKENS).iter().copied())),
    }
}

/// Where a value ends that starts at a place of a JSON text.
fn end_of(text: &[u8], start: usize) -> usize {
    let (mut at, mut open) = (start, 0);
    while at < text.len() {
        match text[at] {
            b'"' => {
                at += 1;
                while at < text.len() && text[at] != b'"' {
                    at += if text[at] == b'\\' { 2 } else { 1 };
                }
            }
            b'{' | b'[' => open += 1,
            b',' | b'}' | b']' if open == 0 => return at,
            b'}' | b']' => open -= 1,
            _ => {}
        }
        at += 1;
    }
    text.len()
}

/// The value after some colon, comma or bracket replaced by a fault.
fn faulted(random: &mut Random, text: &mut Vec<u8>) {
    let starts: Vec<usize> = (0..text.len()).filter(|at| b":[,".contains(&text[*at])).collect();
    if let Some(start) = starts.get(random.below(starts.len().max(1))) {
        let end = end_of(text, start + 1);
        text.splice(start + 1..end, random.pick(FAULTS).iter().copied());
    }
}

/// A text right before a limit, then some tokens.
fn edge(random: &mut Random) -> Vec<u8> {
    let mut text = match random.below(4) {
        0 => {
            let mut text = random.pick(&[&b""[..], b"[", b"-", b"{\"a\":"]).to_vec();
            text.extend_from_slice(random.pick(&[&b"1"[..], b"0.", b"1e", b"1e+", b"12.5e-"]));
            text.extend(std::iter::repeat_n(b'1', random.between(248, 256)));
            text
        }
        1 => (0..random.between(60, 66)).flat_map(|_| random.pick(&[&b"["[..], b"[", b"{\"a\":", b"[1,", b"{\"b\":0,\"\":"])).copied().collect(),
        2 => {
            // brackets, names and zeros up to a few nodes less than a sheet may have, or just as many
            let mut text = random.pick(&[&b"["[..], b"{\"a\":[", &[b'['; 64]]).to_vec();
            let used = if text[0] == b'{' { 3 } else { text.len() };
            text.extend(b"0,".repeat(random.between(4_092, 4_096) - used));
            text.extend_from_slice(random.pick(&[&b""[..], b"0]", b"0],\"b\":1}", b"{\"a\"", b"{\"a\":1,\"b\":2", b"[[", b"tx", b"\"x"]));
            text
        }
        _ => {
            let mut text = generate::sheet(random, "small").into_bytes();
            text.resize(random.between(32_760, 32_775), b' ');
            return text;
        }
    };
    text.extend(tokens(random, 4));
    text
}

pub fn text(random: &mut Random) -> Vec<u8> {
    match random.below(20) {
        0 => {
            let length = random.below(200);
            bytes(random, length)
        }
        1..=2 => tokens(random, 30),
        3 => edge(random),
        way => {
            let shape = random.pick(&["mixed", "mixed", "mixed", "condition", "small"]);
            let mut text = generate::sheet(random, shape).into_bytes();
            for _ in 0..random.pick(&[&1, &1, &1, &2, &4]).to_owned() {
                if way < 12 {
                    changed(random, &mut text);
                } else {
                    faulted(random, &mut text);
                }
            }
            text
        }
    }
}

/// Texts and numbers for the model of the paper: `NUMBER HEX` a line.
pub struct Sample {
    file: Option<Mutex<File>>,
    every: u64,
}

impl Sample {
    pub fn new(options: &Options) -> Self {
        let file = options.sample.as_ref().map(|path| Mutex::new(File::create(path).expect("the sample can be written")));
        Self { file, every: options.every }
    }

    fn add(&self, index: u64, text: &[u8], number: u32) {
        let Some(file) = self.file.as_ref().filter(|_| index % self.every == 0) else {
            return;
        };
        let hex: String = text.iter().map(|byte| format!("{byte:02x}")).collect();
        writeln!(file.lock().expect("no writer panics"), "{number} {hex}").expect("the sample can be written");
    }
}

/// What is wrong with the number that reading a text gives, 0 where it is read.
fn misread(text: &[u8], number: u32) -> Option<&'static str> {
    let utf8 = std::str::from_utf8(text).is_ok();
    let json = || serde_json::from_slice::<serde_json::Value>(text).is_ok();
    match number {
        2 => (text.len() <= 32_768).then_some("2, though it is not too long"),
        _ if text.len() > 32_768 => Some("over 32,768 bytes, and not 2"),
        3 => utf8.then_some("3, though it is UTF-8"),
        _ if !utf8 => Some("not UTF-8, and not 3"),
        4 => json().then_some("4, though it is JSON"),
        5..=8 => None,
        _ => (!json()).then_some("read, though it is not JSON"),
    }
}

/// The replies to all questions on one text.
fn replies(lent: &mut Lent, text: &[u8], questions: &[Question]) -> Result<Vec<Reply>, String> {
    let reply = |question: &Question| {
        let bytes = if let Room::Short(bytes) = question.room { bytes } else { 4_000 };
        lent.ask(question.call, text, question.words, bytes).map_err(|broken| format!("{}: {broken}", question.call.name()))
    };
    questions.iter().map(reply).collect()
}

/// The number of reading that a reply shows: none where the work table was too small.
fn reading(question: &Question, reply: &Reply) -> Option<u32> {
    match reply.number {
        _ if question.words < WORK => None,
        number @ 1..=11 => Some(number),
        _ => Some(0),
    }
}

/// The Rust's answers on a text that is read.
fn answered(lent: &mut Lent, text: &[u8], questions: &[Question]) -> Result<(), String> {
    let text = std::str::from_utf8(text).map_err(|_| "read, though it is not UTF-8")?;
    let enough: Vec<Question> = questions.iter().map(|question| Question { words: WORK, room: Room::Enough, ..*question }).collect();
    match compared(lent, text, &enough) {
        None => Err("read, though the Rust does not read it".to_owned()),
        Some(Err(difference)) => Err(difference.said()),
        Some(Ok(_)) => Ok(()),
    }
}

/// The number that reading gives a text, if any call shows it, and the replies to all questions; or what is wrong.
fn checked(lent: &mut Lent, text: &[u8], questions: &[Question]) -> Result<(Option<u32>, Vec<Reply>), String> {
    let replies = replies(lent, text, questions)?;
    let mut numbers = questions.iter().zip(&replies).filter_map(|(question, reply)| reading(question, reply));
    let number = numbers.next();
    if numbers.any(|other| Some(other) != number) {
        return Err("two calls read it differently".to_owned());
    }
    if let Some(wrong) = number.and_then(|number| misread(text, number)) {
        return Err(wrong.to_owned());
    }
    if number == Some(0) {
        answered(lent, text, questions)?;
    }
    Ok((number, replies))
}

/// The text less what can go while the same is wrong with it: ever shorter runs of bytes.
fn shrunk(lent: &mut Lent, text: &[u8], questions: &[Question], wrong: &str) -> Vec<u8> {
    let (start, mut text) = (Instant::now(), text.to_vec());
    let mut run = text.len().div_ceil(2);
    while run > 0 {
        let mut at = 0;
        while at < text.len() && start.elapsed() < LONGEST {
            let end = text.len().min(at + run);
            let less = [&text[..at], &text[end..]].concat();
            match checked(lent, &less, questions) {
                Err(other) if other == wrong => text = less,
                _ => at = end,
            }
        }
        run /= 2;
    }
    text
}

fn shown(text: &[u8], wrong: &str) -> String {
    let hex: String = text.iter().map(|byte| format!("{byte:02x}")).collect();
    format!("{wrong}\n  text     {}\n  in hex   {hex}", String::from_utf8_lossy(text))
}

pub fn one_text(lent: &mut Lent, counts: &mut Counts, options: &Options, sample: &Sample, index: u64) -> Result<(), String> {
    let mut random = options.random(index);
    let text = text(&mut random);
    options.trace(&text);
    let questions = questions(&mut random, options);
    match checked(lent, &text, &questions) {
        Err(wrong) => Err(shown(&shrunk(lent, &text, &questions, &wrong), &wrong)),
        Ok((number, replies)) => {
            number.into_iter().for_each(|number| sample.add(index, &text, number));
            questions.iter().zip(&replies).for_each(|(question, reply)| counts.add(question.call.name(), reply));
            Ok(())
        }
    }
}
