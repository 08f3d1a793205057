// Writes the list of number pairs of crates/numbers (stdin) and the order that number.rs gives each (stdout).
// `make.sh` builds and runs it.
#[allow(dead_code)]
mod number;

use serde_json::Number;
use std::cmp::Ordering;

// number.rs parses a String as a Number, which serde_json 1.0.87 does not offer.
pub trait ParseNumber {
    fn parse(&self) -> Result<Number, serde_json::Error>;
}

impl ParseNumber for String {
    fn parse(&self) -> Result<Number, serde_json::Error> {
        serde_json::from_str(self)
    }
}

// Numbers that look random and are the same in every run (xorshift).
struct Random(u64);

impl Random {
    fn below(&mut self, n: u64) -> u64 {
        self.0 ^= self.0 << 13;
        self.0 ^= self.0 >> 7;
        self.0 ^= self.0 << 17;
        self.0 % n
    }

    fn digits(&mut self, length: u64, alphabet: &str) -> String {
        let alphabet = alphabet.as_bytes();
        (0..length)
            .map(|_| char::from(alphabet[self.below(alphabet.len() as u64) as usize]))
            .collect()
    }

    // Few digits, many zeros and nines: values that are equal or near each other come up often.
    fn number(&mut self) -> String {
        let mut text = String::new();
        if self.below(3) == 0 {
            text.push('-');
        }
        match self.below(3) {
            0 => text.push('0'),
            _ => {
                text.push_str(&self.digits(1, "129"));
                let more = self.below(4);
                text.push_str(&self.digits(more, "0019"));
            }
        }
        if self.below(2) == 0 {
            text.push('.');
            let more = 1 + self.below(4);
            text.push_str(&self.digits(more, "0001"));
        }
        if self.below(2) == 0 {
            text.push_str(["e", "E", "e+", "e-", "E-"][self.below(5) as usize]);
            let more = 1 + self.below(3);
            text.push_str(&self.digits(more, "0012"));
        }
        text
    }
}

fn all_pairs(pairs: &mut Vec<(String, String)>, texts: &[&str]) {
    for left in texts {
        for right in texts {
            pairs.push((left.to_string(), right.to_string()));
        }
    }
}

fn both_ways(pairs: &mut Vec<(String, String)>, left: &str, right: &str) {
    pairs.push((left.to_string(), right.to_string()));
    pairs.push((right.to_string(), left.to_string()));
}

// The pairs of the P table, and what the slips of a comparison would get wrong.
fn table(pairs: &mut Vec<(String, String)>) {
    both_ways(pairs, "1.0", "10e-1");
    both_ways(pairs, "-0", "0.00");
    both_ways(pairs, "9e12345678901234567890", "1e12345678901234567891");
    for (left, right) in [
        ("1", "2"), ("-1", "-2"), ("-1", "1"), ("0", "-1"), ("-0", "1"), ("10", "9"), ("0.1", "0.01"), ("0.10", "0.1"),
        ("1e1", "1e-1"), ("1e0", "1e-0"), ("99", "100"), ("99e1", "1e3"), ("0.99", "1"), ("12", "120"), ("1.2", "1.02"),
        ("9e9", "1e10"), ("9e99", "1e100"), ("9e-10", "1e-9"), ("18446744073709551615", "18446744073709551616"),
        ("1e18446744073709551616", "1e0"), ("1e-18446744073709551616", "1e0"), ("1e9223372036854775808", "1e-9223372036854775808"),
    ] {
        both_ways(pairs, left, right);
    }
}

fn spellings(pairs: &mut Vec<(String, String)>) {
    all_pairs(pairs, &["120", "120.0", "1.2e2", "12e1", "0.12e3", "1200e-1", "120e0", "120E-0", "1.20e+2", "0.00012e6", "121", "119.9"]);
    all_pairs(pairs, &["0", "-0", "0.0", "-0.00", "0e5", "-0e-7", "0E+300", "0.000e99999999999999999999", "1e-400"]);
    all_pairs(pairs, &["-0.005", "-5e-3", "-50E-4", "-0.5e-2", "-0.0050", "-500e-5", "-0.00005e2", "-0.0049", "5e-3"]);
    all_pairs(pairs, &["1e0", "1", "0.1e1", "10e-1", "1.000", "1000e-3", "0.0001e4", "1E+000"]);
}

// Texts of 252 to 255 bytes, and pairs of them that are equal or differ in one digit.
fn limits(pairs: &mut Vec<(String, String)>) {
    for length in [1, 2, 3, 127, 128, 129, 252, 253, 254, 255] {
        let nines = "9".repeat(length);
        let power = format!("1{}", "0".repeat(length - 1));
        both_ways(pairs, &nines, &power);
        both_ways(pairs, &nines, &nines);
        both_ways(pairs, &power, &format!("1e{}", length - 1));
        both_ways(pairs, &power, &format!("1e{}", length));
        if length > 3 {
            let fraction = "0".repeat(length - 3);
            both_ways(pairs, &format!("0.{fraction}1"), &format!("1e-{}", length - 2));
            both_ways(pairs, &format!("0.{fraction}1"), &format!("0.{fraction}2"));
            both_ways(pairs, &format!("-0.{}", "3".repeat(length - 3)), &format!("-0.{}4", "3".repeat(length - 4)));
        }
        if length > 4 {
            exponents(pairs, length);
        }
    }
}

// Exponents that reach up to a text's last byte; a carry and a borrow through every digit.
fn exponents(pairs: &mut Vec<(String, String)>, length: usize) {
    let nines = "9".repeat(length - 4);
    let zeros = "0".repeat(length - 4);
    both_ways(pairs, &format!("12e{nines}"), &format!("1.2e1{}", &zeros[..length - 5]));
    both_ways(pairs, &format!("1e{nines}"), &format!("0.1e1{}", &zeros[..length - 5]));
    both_ways(pairs, &format!("1e-{nines}"), &format!("10e-1{}", &zeros[..length - 5]));
    both_ways(pairs, &format!("1e1{zeros}"), &format!("1e{nines}9"));
    both_ways(pairs, &format!("1e-1{}", &zeros[1..]), &format!("1e-{nines}"));
    both_ways(pairs, &format!("-1e{nines}8"), &format!("-1e{nines}9"));
    both_ways(pairs, &format!("2e{nines}8"), &format!("1e{nines}9"));
    both_ways(pairs, &format!("1e{zeros}7"), "1e7");
    both_ways(pairs, &format!("1e-{}7", &zeros[1..]), "1e-7");
}

// Exponents of 250 digits that differ first, in the middle, last, or in the sign.
fn long_exponents(pairs: &mut Vec<(String, String)>, random: &mut Random) {
    for place in [0, 125, 249] {
        let digits = random.digits(250, "123456789");
        let mut other = digits.clone().into_bytes();
        other[place] = if other[place] == b'9' { b'8' } else { other[place] + 1 };
        let other = String::from_utf8(other).unwrap();
        for sign in ["", "-", "+"] {
            both_ways(pairs, &format!("1e{sign}{digits}"), &format!("1e{sign}{other}"));
            both_ways(pairs, &format!("-9e{sign}{digits}"), &format!("-1e{sign}{other}"));
        }
        both_ways(pairs, &format!("1e{digits}"), &format!("1e-{digits}"));
        both_ways(pairs, &format!("10e{digits}"), &format!("1e{digits}"));
    }
}

fn main() {
    let directory = std::env::args().nth(1).expect("the folder to write into");
    let mut random = Random(20_240_229);
    let mut pairs = Vec::new();
    table(&mut pairs);
    spellings(&mut pairs);
    limits(&mut pairs);
    long_exponents(&mut pairs, &mut random);
    for _ in 0..700 {
        pairs.push((random.number(), random.number()));
    }
    let (mut list, mut orders) = (String::new(), String::new());
    for (left, right) in &pairs {
        assert!(left.len() <= 255 && right.len() <= 255, "{left} {right}");
        let number = |text: &str| serde_json::from_str::<Number>(text).expect(text);
        orders.push_str(match number::compare(&number(left), &number(right)) {
            Ordering::Less => "less\n",
            Ordering::Equal => "equal\n",
            Ordering::Greater => "greater\n",
        });
        list.push_str(&format!("{left} {right}\n"));
    }
    assert!(list.len() <= 262_144, "{} bytes", list.len());
    std::fs::write(format!("{directory}/stdin"), list).unwrap();
    std::fs::write(format!("{directory}/stdout"), orders).unwrap();
    println!("{} pairs", pairs.len());
}
