//! The tree of an accepted sheet: members as they are written, texts decoded.

use generate::json::Json;

struct Reader<'a> {
    text: &'a [u8],
    at: usize,
}

impl Reader<'_> {
    fn skip(&mut self) -> u8 {
        while matches!(self.text.get(self.at), Some(b' ' | b'\t' | b'\n' | b'\r')) {
            self.at += 1;
        }
        self.text.get(self.at).copied().unwrap_or(0)
    }

    fn take(&mut self, count: usize) -> &str {
        let start = self.at;
        self.at += count;
        std::str::from_utf8(&self.text[start..self.at]).unwrap_or("")
    }

    fn string(&mut self) -> Option<String> {
        let rest = &self.text[self.at..];
        let mut end = 1;
        while *rest.get(end)? != b'"' {
            end += if rest[end] == b'\\' { 2 } else { 1 };
        }
        serde_json::from_str(self.take(end + 1)).ok()
    }

    /// What stands between brackets, parted by commas.
    fn list<T>(&mut self, close: u8, mut part: impl FnMut(&mut Self) -> Option<T>) -> Option<Vec<T>> {
        self.at += 1;
        let mut parts = Vec::new();
        while self.skip() != close {
            if self.skip() == b',' {
                self.at += 1;
            }
            parts.push(part(self)?);
        }
        self.at += 1;
        Some(parts)
    }

    fn member(&mut self) -> Option<(String, Json)> {
        self.skip();
        let name = self.string()?;
        self.skip();
        self.at += 1;
        Some((name, self.value()?))
    }

    fn value(&mut self) -> Option<Json> {
        Some(match self.skip() {
            b'{' => Json::Object(self.list(b'}', Self::member)?),
            b'[' => Json::Array(self.list(b']', Self::value)?),
            b'"' => Json::Text(self.string()?),
            _ => {
                let length = self.text[self.at..].iter().take_while(|byte| !b",]} \t\r\n".contains(byte)).count();
                match self.take(length) {
                    "null" => Json::Null,
                    "true" => Json::Bool(true),
                    "false" => Json::Bool(false),
                    number => Json::Number(number.to_owned()),
                }
            }
        })
    }
}

pub fn parsed(text: &str) -> Option<Json> {
    Reader { text: text.as_bytes(), at: 0 }.value()
}
