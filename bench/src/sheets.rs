//! The sheets that are timed: one of each kind that an author may think of, and series of growing ones.

/// The paper's own sheet.
const PAPER: &str = include_str!("../../examples/rebuild.json");

fn joined(count: usize, part: impl Fn(usize) -> String) -> String {
    (0..count).map(part).collect::<Vec<_>>().join(",")
}

fn sheet(args: &str, preconditions: &str, outcomes: &str) -> String {
    format!(
        r#"{{"entity":"unit","version":3,"args":{args},"fields":{{"kind":"nmc","maker":"b"}},"old_fields":{{}},"to_state":"in","state":"in","states":["in","out"],"preconditions":[{preconditions}],"invariants":[],"outcomes":[{outcomes}]}}"#
    )
}

/// A sheet of one rule over its arguments, and an outcome without a guard.
fn asserted(args: &str, assert: &str) -> String {
    sheet(
        args,
        &format!(r#"{{"assert":{assert}}}"#),
        r#"{"name":"rebuild"}"#,
    )
}

const OUTCOMES: &str = r#"{"name":"scrap","when":{"lt":["$args.worst",2.5]}},{"name":"split","when":{"gt":["$args.spread",0.4]},"effect":{"moves":{"to":"out","from":["in"]}}},{"name":"rebuild","effect":{"moves":{"to":"out","from":["in"]}}}"#;

fn readings(count: usize) -> String {
    joined(count, |index| format!("3.{:03}", 580 + index % 90))
}

fn rule(index: usize) -> String {
    let assert = match index % 5 {
        0 => r#"{"for_all":{"in":"$args.v","as":"c","that":{"gt":["$c",2.5]}}}"#,
        1 => r#"{"gte":["$args.count",12]}"#,
        2 => r#"{"eq":["$fields.kind","nmc"]}"#,
        3 => r#"{"in":["$fields.maker",["a","b","c"]]}"#,
        _ => r#"{"all":[{"exists":"$args.v"},{"not":{"lt":["$args.spread",-10]}}]}"#,
    };
    format!(r#"{{"name":"rule {index}","assert":{assert},"message":"does not hold"}}"#)
}

fn typical(rules: usize, count: usize) -> String {
    let args = format!(
        r#"{{"v":[{}],"count":{count},"worst":3.58,"spread":0.09}}"#,
        readings(count)
    );
    sheet(&args, &joined(rules, rule), OUTCOMES)
}

/// Readings of some length each, so that few nodes fill the bytes.
fn long_readings(bytes: usize) -> String {
    let count = bytes / 16;
    let v = joined(count, |index| {
        format!("3.{:013}", 5_800_000_000_000 + index)
    });
    let args = format!(r#"{{"v":[{v}],"worst":3.58,"spread":0.09}}"#);
    sheet(&args, &rule(0), OUTCOMES)
}

/// Readings as one object.
fn members(count: usize, assert: &str) -> String {
    let args = format!(
        "{{{}}}",
        joined(count, |index| format!(
            r#""r{:04}":3.{}"#,
            index * 7919 % count,
            index % 10
        ))
    );
    asserted(&args, assert)
}

fn looked_up(count: usize) -> String {
    let reads = joined(10, |index| {
        format!(r#"{{"gt":["$args.r{:04}",2.5]}}"#, index * count / 10)
    });
    members(count, &format!(r#"{{"all":[{reads}]}}"#))
}

fn walked(count: usize) -> String {
    members(
        count,
        r#"{"for_all":{"in":"$args","as":"c","that":{"gt":["$c",2.5]}}}"#,
    )
}

/// Quantifiers in one another, each over the same few elements.
fn quantifiers(depth: usize, elements: usize) -> String {
    let body = (0..depth).fold(r#"{"gt":["$c",2.5]}"#.to_owned(), |inner, _| {
        format!(r#"{{"for_all":{{"in":"$args.v","as":"c","that":{inner}}}}}"#)
    });
    let args = format!(r#"{{"v":[{}]}}"#, readings(elements));
    asserted(&args, &body)
}

/// Two equal values of so many brackets.
fn nested(brackets: usize) -> String {
    let value = format!("{}1{}", "[".repeat(brackets), "]".repeat(brackets));
    let args = format!(r#"{{"a":{value},"b":{value}}}"#);
    asserted(&args, r#"{"eq":["$args.a","$args.b"]}"#)
}

/// Chained binders, each bound to the one before in brackets: what is compared nests far deeper than the text.
fn wrapped(binders: usize) -> String {
    let body = (0..binders).fold(r#"{"eq":["$c","$c"]}"#.to_owned(), |inner, level| {
        let outer = if level + 1 == binders { "$args" } else { "$c" };
        let brackets = 2 * (binders - level).min(25);
        let over = format!(
            "{}\"{outer}\"{}",
            "[".repeat(brackets),
            "]".repeat(brackets)
        );
        format!(r#"{{"for_all":{{"in":{over},"as":"c","that":{inner}}}}}"#)
    });
    asserted("{}", &body)
}

/// A rule that reads so many things which are missing: all of them become names.
fn missing(count: usize) -> String {
    let reads = joined(count, |index| {
        format!(r#"{{"eq":["$args.r{:03}",0]}}"#, index * 7919 % count)
    });
    asserted("{}", &format!(r#"{{"all":[{reads}]}}"#))
}

/// Many rules that read the first thing they read, which is missing.
fn unknown_first() -> String {
    typical(20, 200).replacen(
        r#""assert":{"for_all":{"in":"$args.v""#,
        r#""assert":{"for_all":{"in":"$args.w""#,
        1,
    )
}

/// The text forms.
const FORMS: [&str; 3] = ["contains", "starts_with", "ends_with"];

/// So many short texts, each asked for a short part, which some have.
fn short_texts(form: &str, count: usize) -> String {
    let asked = joined(count, |index| {
        let part = ["cell", "nmc 3", "14 Ah"][index % 3];
        format!(r#"{{"{form}":["$args.t{index:03}","{part}"]}}"#)
    });
    let texts = joined(count, |index| {
        format!(r#""t{index:03}":"cell {index:03} of 14 Ah""#)
    });
    asserted(&format!("{{{texts}}}"), &format!(r#"{{"any":[{asked}]}}"#))
}

/// A note of so many bytes that is asked for ten keywords, of which it begins with one and ends with another.
fn note(form: &str, bytes: usize) -> String {
    let words = "the cover was cut and ground, its ends are clean; ".repeat(bytes / 50 + 1);
    let note = format!("swollen{}corroded", &words[..bytes - 15]);
    let keywords = [
        "swollen",
        "leaking",
        "burnt",
        "punctured",
        "dented",
        "flooded",
        "rewelded",
        "bulging",
        "cracked",
        "corroded",
    ];
    let asked = joined(keywords.len(), |index| {
        format!(r#"{{"{form}":["$args.note","{}"]}}"#, keywords[index])
    });
    asserted(
        &format!(r#"{{"note":"{note}"}}"#),
        &format!(r#"{{"any":[{asked}]}}"#),
    )
}

/// One letter so many times, asked for half as many with another letter at their end.
fn repeated(form: &str, bytes: usize) -> String {
    let args = format!(
        r#"{{"text":"{}","part":"{}b"}}"#,
        "a".repeat(bytes),
        "a".repeat(bytes / 2 - 1)
    );
    asserted(
        &args,
        &format!(r#"{{"not":{{"{form}":["$args.text","$args.part"]}}}}"#),
    )
}

/// Members whose names all meet in one mark: each pair of letters gives the same number, times 31 and added.
fn colliding(count: usize) -> String {
    let name = |index: usize| -> String {
        (0..7)
            .map(|digit| ["Aa", "BB", "C#"][index / 3_usize.pow(digit) % 3])
            .collect()
    };
    let members = joined(count, |index| format!(r#""{}":1"#, name(index)));
    asserted(&format!("{{{members}}}"), r#"{"exists":"$args"}"#)
}

/// Three quantifiers, one in the other: over so many elements, over 10 and over 10.
fn three_quantifiers(elements: usize) -> String {
    let args = format!(r#"{{"v":[{}],"w":[{}]}}"#, readings(elements), readings(10));
    asserted(
        &args,
        r#"{"for_all":{"in":"$args.v","as":"a","that":{"for_all":{"in":"$args.w","as":"b","that":{"for_all":{"in":"$args.w","as":"c","that":{"gt":["$c",2.5]}}}}}}}"#,
    )
}

/// A reading that is not among so many.
fn among(count: usize) -> String {
    asserted(
        &format!(r#"{{"v":[{}],"x":3.999}}"#, readings(count)),
        r#"{"not":{"in":["$args.x","$args.v"]}}"#,
    )
}

/// Two equal values of so many objects in arrays in one another, the members of one in the other order.
fn deep(levels: usize) -> String {
    let value =
        |part: &dyn Fn(String) -> String| (0..levels).fold("1".to_owned(), |inner, _| part(inner));
    let left = value(&|inner| format!(r#"{{"at":3.61,"kind":"nmc","of":[{inner}]}}"#));
    let right = value(&|inner| format!(r#"{{"of":[{inner}],"kind":"nmc","at":3.610}}"#));
    asserted(
        &format!(r#"{{"a":{left},"b":{right}}}"#),
        r#"{"eq":["$args.a","$args.b"]}"#,
    )
}

/// So many numbers of 255 bytes with this end, each compared with one that differs only near its end.
fn long_numbers(count: usize, end: &str) -> String {
    let number = |last: usize| format!("3.{}{last}{end}", "6".repeat(252 - end.len()));
    let v = joined(count, |index| number(index % 9 + 1));
    asserted(
        &format!(r#"{{"v":[{v}],"least":{}}}"#, number(0)),
        r#"{"for_all":{"in":"$args.v","as":"c","that":{"gt":["$c","$args.least"]}}}"#,
    )
}

/// Sheets that are accepted.
fn accepted() -> Vec<(&'static str, String)> {
    vec![
        ("the paper's sheet", PAPER.trim_end().to_owned()),
        ("20 rules, 200 readings", typical(20, 200)),
        ("32 KiB of readings", long_readings(32_000)),
        ("2,000 members, 10 looked up", looked_up(2_000)),
        ("2,000 members, all walked", walked(2_000)),
        ("1,600 names that meet in one mark", colliding(1_600)),
        ("8 nested quantifiers of 2", quantifiers(8, 2)),
        ("8 nested quantifiers of 3", quantifiers(8, 3)),
        (
            "3 nested quantifiers of 200, 10 and 10",
            three_quantifiers(200),
        ),
        ("`in` over 2,000 elements", among(2_000)),
        ("60 brackets, compared", nested(60)),
        ("30 levels of objects in arrays, compared", deep(30)),
        ("8 binders in brackets, compared", wrapped(8)),
        ("100 numbers of 255 bytes, compared", long_numbers(100, "")),
        (
            "100 numbers of 255 bytes with exponents, compared",
            long_numbers(100, "e-9"),
        ),
    ]
}

/// Accepted sheets that ask one of the text forms.
fn searched(form: &str) -> [(String, String); 3] {
    [
        (format!("50 short texts, `{form}`"), short_texts(form, 50)),
        (
            format!("a note of 2,000 bytes, ten keywords, `{form}`"),
            note(form, 2_000),
        ),
        (
            format!("16,000 and 8,000 bytes, `{form}`"),
            repeated(form, 16_000),
        ),
    ]
}

/// Sheets that are refused, at last one that is no UTF-8.
fn refused() -> Vec<(&'static str, Vec<u8>)> {
    let (text, many) = (typical(20, 200), missing(200));
    let mut not_utf8 = text.clone().into_bytes();
    *not_utf8.last_mut().expect("the sheet is not empty") = 0xff;
    vec![
        ("refused 16 with 200 names", many.into_bytes()),
        ("refused 4 at byte 0", format!("x{text}").into_bytes()),
        (
            "refused 9 after 4 KiB",
            text.replacen(r#""entity":"unit","#, "", 1).into_bytes(),
        ),
        ("refused 16 by the first rule", unknown_first().into_bytes()),
        (
            "refused 2",
            format!("{text}{}", " ".repeat(32_768)).into_bytes(),
        ),
        ("refused 3 at the last byte", not_utf8),
    ]
}

pub fn rows() -> Vec<(String, Vec<u8>)> {
    let named = accepted()
        .into_iter()
        .map(|(name, text)| (name.to_owned(), text));
    named
        .chain(FORMS.into_iter().flat_map(searched))
        .map(|(name, text)| (name, text.into_bytes()))
        .chain(
            refused()
                .into_iter()
                .map(|(name, text)| (name.to_owned(), text)),
        )
        .collect()
}

type Series = (String, Vec<(usize, String)>);

fn of(sizes: &[usize], sheet: &dyn Fn(usize) -> String) -> Vec<(usize, String)> {
    sizes.iter().map(|size| (*size, sheet(*size))).collect()
}

fn series_of_forms() -> impl Iterator<Item = Series> {
    FORMS.iter().flat_map(|form| {
        [
            (
                format!("short texts, `{form}`"),
                of(&[25, 50, 100], &|count| short_texts(form, count)),
            ),
            (
                format!("bytes of a note, ten keywords, `{form}`"),
                of(&[1_000, 2_000, 4_000], &|bytes| note(form, bytes)),
            ),
            (
                format!("bytes of one letter, `{form}`"),
                of(&[4_000, 8_000, 16_000], &|bytes| repeated(form, bytes)),
            ),
        ]
    })
}

/// Sheets that grow in one thing.
pub fn series() -> Vec<Series> {
    let others = [
        (
            "bytes of readings",
            of(&[4_000, 8_000, 16_000, 32_000], &long_readings),
        ),
        (
            "members, 10 looked up",
            of(&[250, 500, 1_000, 2_000], &looked_up),
        ),
        (
            "members, all walked",
            of(&[250, 500, 1_000, 2_000], &walked),
        ),
        (
            "elements under one rule",
            of(&[250, 500, 1_000, 2_000], &|count| typical(1, count)),
        ),
        (
            "rules over 100 readings",
            of(&[5, 10, 20, 40], &|rules| typical(rules, 100)),
        ),
        (
            "nested quantifiers of 2",
            of(&[2, 4, 6, 8], &|depth| quantifiers(depth, 2)),
        ),
        ("missing names", of(&[50, 100, 200, 400], &missing)),
        ("brackets compared", of(&[15, 30, 60], &nested)),
        ("binders in brackets", of(&[2, 4, 8], &wrapped)),
        (
            "names that meet in one mark",
            of(&[200, 400, 800, 1_600], &colliding),
        ),
        (
            "elements under the first of 3 nested quantifiers",
            of(&[50, 100, 200], &three_quantifiers),
        ),
        ("elements under `in`", of(&[500, 1_000, 2_000], &among)),
        ("levels of objects in arrays", of(&[7, 15, 30], &deep)),
        (
            "numbers of 255 bytes",
            of(&[25, 50, 100], &|count| long_numbers(count, "")),
        ),
        (
            "numbers of 255 bytes with exponents",
            of(&[25, 50, 100], &|count| long_numbers(count, "e-9")),
        ),
    ];
    others
        .map(|(name, series)| (name.to_owned(), series))
        .into_iter()
        .chain(series_of_forms())
        .collect()
}
