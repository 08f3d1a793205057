//! Two sheets, decided by the library on memory that holds anything, and held to the demand.

use crate::demand::{held, is_accepted, premises, Became};
use crate::readings::{readings, Reading};
use generate::json::{Json, Style, Writer};
use generate::random::Random;
use intake::{parts_of, Call, Reply, WORK};

/// What the program `intake` lends.
const OUTPUT: usize = 65_536;

/// Bytes drawn at random, to fill the memory that calls are lent.
pub struct Noise(Vec<u8>);

impl Noise {
    pub fn new(seed: u64) -> Self {
        let mut random = Random::new(seed);
        Self((0..1 << 16).flat_map(|_| random.next().to_le_bytes()).collect())
    }

    /// So many bytes from anywhere in the noise.
    fn drawn(&self, random: &mut Random, bytes: usize) -> &[u8] {
        let start = random.below(self.0.len() - bytes);
        &self.0[start..start + bytes]
    }

    /// A call on a work table and an output of its own, which hold random bytes.
    fn asked(&self, random: &mut Random, call: Call, sheet: &str) -> Reply {
        let words = self.drawn(random, 4 * WORK).chunks_exact(4);
        let mut work: Vec<u32> = words.map(|bytes| u32::from_le_bytes([bytes[0], bytes[1], bytes[2], bytes[3]])).collect();
        let mut out = self.drawn(random, OUTPUT).to_vec();
        // SAFETY: the pointers are those of vectors of these lengths, borrowed for the call.
        let (number, length) = parts_of(unsafe { call.word(sheet.as_bytes(), work.as_mut_ptr(), WORK, out.as_mut_ptr(), OUTPUT) });
        let line = out.get(..length).and_then(|line| line.strip_suffix(b"\n")).map(<[u8]>::to_vec);
        Reply { number, line }
    }
}

/// Two sheets as trees and as texts.
pub struct Pair {
    pub old: Json,
    pub new: Json,
    pub texts: [String; 2],
}

/// The decisions on two sheets of which the premises hold, what became of the readings, and what is wrong, if anything.
pub struct Judged<'a> {
    pub replies: [Reply; 2],
    pub became: Became<'a>,
    pub wrong: Option<&'static str>,
}

/// One of the texts of a sheet: so many percent of the places for spaces and escapes take them, members stand as they do.
fn spelled(random: &mut Random, sheet: &Json, spaces: usize, escapes: usize) -> String {
    let mut writer = Writer { random, style: Style { spaces, escapes, shuffled: false }, out: String::new() };
    writer.value(sheet);
    writer.out
}

impl Pair {
    pub fn spelled(random: &mut Random, old: Json, new: Json, spaces: usize, escapes: usize) -> Self {
        let texts = [&old, &new].map(|sheet| spelled(random, sheet, spaces, escapes));
        Self { old, new, texts }
    }

    pub fn readings(&self) -> Vec<Reading> {
        readings(&self.old)
    }

    /// None where the premises do not hold.
    pub fn judged<'a>(&self, noise: &Noise, random: &mut Random, readings: &'a [Reading]) -> Option<Judged<'a>> {
        let became = premises(readings, &self.old, &self.new)?;
        let [old, new] = [0, 1].map(|sheet| noise.asked(random, Call::Decide, &self.texts[sheet]));
        if !is_accepted(&old) || !is_accepted(&new) {
            return None;
        }
        let wrong = held(&self.old, &became, &old, &new, || noise.asked(random, Call::Select, &self.texts[0])).err();
        Some(Judged { replies: [old, new], became, wrong })
    }
}
