//! The smallest pair found that still breaks the demand: a part of both sheets goes, or something smaller takes its place.

use crate::pair::{Noise, Pair};
use generate::json::{text, Json};
use generate::random::Random;
use intake::Reply;
use std::slice;
use std::time::{Duration, Instant};

const LONGEST: Duration = Duration::from_secs(10);

#[derive(Clone)]
enum Key {
    Name(String),
    Place(usize),
}

fn keys(value: &Json) -> Vec<Key> {
    match value {
        Json::Object(members) => members.iter().map(|(name, _)| Key::Name(name.clone())).collect(),
        _ => (0..value.parts().len()).map(Key::Place).collect(),
    }
}

fn part<'a>(value: &'a Json, key: &Key) -> Option<&'a Json> {
    match (key, value) {
        (Key::Name(name), _) => value.member(name),
        (Key::Place(at), Json::Array(elements)) => elements.get(*at),
        _ => None,
    }
}

/// The ways to all parts, a whole before its parts.
fn ways(value: &Json) -> Vec<Vec<Key>> {
    let mut found = Vec::new();
    for key in keys(value) {
        found.push(vec![key.clone()]);
        let below = part(value, &key).map(ways).unwrap_or_default();
        found.extend(below.into_iter().map(|way| [slice::from_ref(&key), &way].concat()));
    }
    found
}

/// The value without the part that a way leads to, or with another one there; as it is where the way leads nowhere.
fn edited(value: &Json, way: &[Key], instead: Option<&Json>) -> Json {
    let (Some((key, rest)), mut whole) = (way.split_first(), value.clone()) else {
        return value.clone();
    };
    let new = if rest.is_empty() { instead.cloned() } else { part(value, key).map(|part| edited(part, rest, instead)) };
    match (&mut whole, key) {
        (Json::Object(members), Key::Name(name)) => {
            if let Some(at) = members.iter().position(|(key, _)| key == name) {
                members.splice(at..=at, new.map(|new| (name.clone(), new)));
            }
        }
        (Json::Array(elements), Key::Place(at)) if *at < elements.len() => drop(elements.splice(at..=at, new)),
        _ => (),
    }
    whole
}

/// What may take the place of a part: nothing, its own parts and theirs, and the smallest ones.
fn instead(value: &Json) -> Vec<Option<Json>> {
    let smallest = [Json::Bool(true), Json::Bool(false), text(""), Json::Number("0".to_owned())];
    let parts = value.parts().into_iter().flat_map(|part| [vec![part], part.parts()].concat()).cloned();
    std::iter::once(None).chain(parts.chain(smallest).map(Some)).collect()
}

fn plain_pair(old: Json, new: Json) -> Pair {
    Pair::spelled(&mut Random::new(0), old, new, 0, 0)
}

fn is_wrong(noise: &Noise, pair: &Pair) -> bool {
    pair.judged(noise, &mut Random::new(0), &pair.readings()).is_some_and(|judged| judged.wrong.is_some())
}

fn length(pair: &Pair) -> usize {
    pair.texts.iter().map(String::len).sum()
}

/// A smaller pair that is wrong as well.
fn smaller(noise: &Noise, pair: &Pair, start: Instant) -> Option<Pair> {
    let sheets = [&pair.old, &pair.new];
    for whole in sheets {
        for way in ways(whole) {
            let found = way.iter().try_fold(whole, part)?;
            for instead in instead(found) {
                let [old, new] = sheets.map(|sheet| edited(sheet, &way, instead.as_ref()));
                let tried = plain_pair(old, new);
                if length(&tried) < length(pair) && is_wrong(noise, &tried) {
                    return Some(tried);
                }
            }
            if start.elapsed() > LONGEST {
                return None;
            }
        }
    }
    None
}

fn shown(reply: &Reply) -> String {
    format!("{} {}", reply.number, reply.line.as_deref().map_or("-".into(), String::from_utf8_lossy))
}

/// The words for a wrong pair.
pub fn smallest(pair: Pair) -> String {
    let (start, noise) = (Instant::now(), Noise::new(0));
    let spelled = plain_pair(pair.old.clone(), pair.new.clone());
    let mut pair = if is_wrong(&noise, &spelled) { spelled } else { pair };
    while let Some(found) = smaller(&noise, &pair, start) {
        pair = found;
    }
    let readings = pair.readings();
    let judged = pair.judged(&noise, &mut Random::new(0), &readings);
    let (wrong, [old, new]) =
        judged.map_or(("", [const { String::new() }; 2]), |judged| (judged.wrong.unwrap_or_default(), judged.replies.each_ref().map(shown)));
    format!("broken: {wrong}\n  old sheet  {}\n  old answer {old}\n  new sheet  {}\n  new answer {new}", pair.texts[0], pair.texts[1])
}
