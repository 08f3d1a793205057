//! JSON trees, and one of the many texts of each: spaces, escapes and the order of members are drawn.

use crate::random::Random;

#[derive(Clone, PartialEq)]
pub enum Json {
    Null,
    Bool(bool),
    Number(String),
    Text(String),
    Array(Vec<Json>),
    Object(Vec<(String, Json)>),
}

pub fn text(text: impl Into<String>) -> Json {
    Json::Text(text.into())
}

pub fn object<const N: usize>(members: [(&str, Json); N]) -> Json {
    Json::Object(members.into_iter().map(|(name, value)| (name.to_owned(), value)).collect())
}

impl Json {
    pub fn member(&self, name: &str) -> Option<&Json> {
        match self {
            Json::Object(members) => members.iter().find(|(key, _)| key == name).map(|(_, value)| value),
            _ => None,
        }
    }

    /// The elements of an array, the members' values of an object.
    pub fn parts(&self) -> Vec<&Json> {
        match self {
            Json::Array(elements) => elements.iter().collect(),
            Json::Object(members) => members.iter().map(|(_, value)| value).collect(),
            _ => Vec::new(),
        }
    }
}

/// How often, in percent, a text takes each freedom.
pub struct Style {
    pub spaces: usize,
    pub escapes: usize,
    pub shuffled: bool,
}

pub struct Writer<'a> {
    pub random: &'a mut Random,
    pub style: Style,
    pub out: String,
}

impl Writer<'_> {
    fn space(&mut self) {
        while self.random.chance(self.style.spaces) {
            self.out.push(' ');
        }
    }

    fn token(&mut self, token: &str) {
        self.space();
        self.out.push_str(token);
        self.space();
    }

    fn unit(&mut self, unit: u16) {
        let digits = format!("{unit:04x}");
        for digit in digits.chars() {
            let digit = if self.random.chance(50) { digit.to_ascii_uppercase() } else { digit };
            self.out.push(digit);
        }
    }

    fn escaped(&mut self, character: char) {
        let short = match character {
            '"' => "\\\"",
            '\\' => "\\\\",
            '/' => "\\/",
            '\u{8}' => "\\b",
            '\u{c}' => "\\f",
            '\n' => "\\n",
            '\r' => "\\r",
            '\t' => "\\t",
            _ => "",
        };
        if !short.is_empty() && self.random.chance(60) {
            self.out.push_str(short);
            return;
        }
        for unit in character.encode_utf16(&mut [0; 2]) {
            self.out.push_str("\\u");
            self.unit(*unit);
        }
    }

    fn text(&mut self, text: &str) {
        self.space();
        self.out.push('"');
        for character in text.chars() {
            let must = character < ' ' || character == '"' || character == '\\';
            if must || self.random.chance(self.style.escapes) {
                self.escaped(character);
            } else {
                self.out.push(character);
            }
        }
        self.out.push('"');
        self.space();
    }

    fn list<T>(&mut self, open: &str, close: &str, parts: &[T], part: impl Fn(&mut Self, &T)) {
        self.token(open);
        for (index, value) in parts.iter().enumerate() {
            if index > 0 {
                self.token(",");
            }
            part(self, value);
        }
        self.token(close);
    }

    pub fn value(&mut self, value: &Json) {
        match value {
            Json::Null => self.token("null"),
            Json::Bool(value) => self.token(if *value { "true" } else { "false" }),
            Json::Number(number) => self.token(number),
            Json::Text(text) => self.text(text),
            Json::Array(elements) => self.list("[", "]", elements, |writer, element| writer.value(element)),
            Json::Object(members) => {
                let mut members: Vec<&(String, Json)> = members.iter().collect();
                if self.style.shuffled {
                    self.random.shuffle(&mut members);
                }
                self.list("{", "}", &members, |writer, (name, value)| {
                    writer.text(name);
                    writer.token(":");
                    writer.value(value);
                });
            }
        }
    }
}
