//! Number texts in every spelling, and other spellings of the same value.

use crate::random::Random;

const PLAIN: &[&str] =
    &["0", "1", "2", "3", "-1", "-0", "10", "100", "3.61", "3.58", "2.5", "-2.5", "0.00", "1.0", "10e-1", "0.1e1", "1e0", "12", "120", "12e1"];
const ODD: &[&str] = &[
    "0e5",
    "-0.0e-7",
    "0E+12345678901234567890",
    "1E+2",
    "1e-400",
    "1e400",
    "-1e400",
    "9e12345678901234567890",
    "1e12345678901234567891",
    "-9e12345678901234567890",
    "1e-12345678901234567890",
    "10e-12345678901234567891",
    "0.0001e4",
    "100e-2",
    "1e00000000000000000000000000000000000000000001",
    "18446744073709551616",
    "18446744073709551615.0000000001",
    "0.30000000000000000000000000000000000000004",
    "0.3",
    "-0.30000000000000004",
    "99999999999999999999999999999999e9",
    "1e99999999999999999999999999999999999999999",
    "0.00000000000000000000000000000000000000000001e99999999999999999999999999999999999999999",
];

fn long(random: &mut Random) -> String {
    let mut digits = String::from("1");
    let length = random.between(200, 249);
    while digits.len() < length {
        digits.push(char::from(b'0' + random.below(10) as u8));
    }
    match random.below(4) {
        0 => format!("{digits}e1"),
        1 => format!("0.{digits}"),
        2 => format!("1e{digits}"),
        _ => format!("-1.5e-{digits}"),
    }
}

pub fn number(random: &mut Random) -> String {
    match random.below(100) {
        0..=59 => random.pick(PLAIN).to_owned(),
        60..=74 => random.pick(ODD).to_owned(),
        75 => long(random),
        _ => {
            let sign = if random.chance(30) { "-" } else { "" };
            let whole = random.below(20);
            let fraction = if random.chance(40) { format!(".{}", random.below(100)) } else { String::new() };
            let exponent =
                if random.chance(20) { format!("{}{}{}", random.pick(&["e", "E"]), random.pick(&["", "+", "-"]), random.below(12)) } else { String::new() };
            format!("{sign}{whole}{fraction}{exponent}")
        }
    }
}

struct Parts<'a> {
    sign: &'a str,
    whole: &'a str,
    fraction: &'a str,
    exponent: &'a str,
}

fn parts(number: &str) -> Parts<'_> {
    let unsigned = number.strip_prefix('-').unwrap_or(number);
    let sign = &number[..number.len() - unsigned.len()];
    let (mantissa, exponent) = unsigned.split_once(['e', 'E']).unwrap_or((unsigned, "0"));
    let (whole, fraction) = mantissa.split_once('.').unwrap_or((mantissa, ""));
    Parts { sign, whole, fraction, exponent }
}

/// The same value, spelled otherwise; the same text where its exponent is past 64 bits or the text is long.
pub fn respelled(random: &mut Random, number: &str) -> String {
    let Parts { sign, whole, fraction, exponent } = parts(number);
    let Ok(exponent) = exponent.parse::<i64>() else {
        return number.to_owned();
    };
    if number.len() > 60 || exponent.abs() > 1_000_000 {
        return number.to_owned();
    }
    let digits = format!("{whole}{fraction}");
    let stripped = digits.trim_start_matches('0');
    let zeros = "0".repeat(random.below(4));
    if stripped.is_empty() {
        return format!("{}0{}{}", random.pick(&["", "-"]), random.pick(&["", ".0", ".000"]), random.pick(&["", "e7", "E-3"]));
    }
    let exponent = exponent - fraction.len() as i64;
    let mark = random.pick(&["e", "E"]);
    let spelled = match random.below(4) {
        0 => format!("{stripped}{zeros}{mark}{}", exponent - zeros.len() as i64),
        1 => format!("0.{zeros}{stripped}{mark}{}", exponent + (stripped.len() + zeros.len()) as i64),
        2 => {
            let (first, rest) = stripped.split_at(1);
            format!("{first}.{rest}0{mark}{}", exponent + rest.len() as i64)
        }
        _ if exponent >= 0 && exponent < 20 => format!("{stripped}{}.{zeros}0", "0".repeat(exponent as usize)),
        _ => format!("{stripped}{mark}{}0{}", if exponent < 0 { "-" } else { random.pick(&["", "+"]) }, exponent.abs()),
    };
    format!("{sign}{spelled}")
}
