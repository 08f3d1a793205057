//! A line read back: which place it names, and which names.

#[derive(Debug, PartialEq)]
pub enum Form {
    Word(String),
    Text(String),
    List(Vec<Form>),
}

struct Reader<'a> {
    left: &'a str,
}

impl Reader<'_> {
    fn take(&mut self) -> Option<char> {
        let mut characters = self.left.chars();
        let first = characters.next()?;
        self.left = characters.as_str();
        Some(first)
    }

    fn text(&mut self) -> Option<String> {
        let mut text = String::new();
        loop {
            match self.take()? {
                '"' => return Some(text),
                '\\' => match self.take()? {
                    'u' => {
                        let (digits, rest) = self.left.split_at_checked(4)?;
                        self.left = rest;
                        text.push(char::from_u32(u32::from_str_radix(digits, 16).ok()?)?);
                    }
                    plain => text.push(plain),
                },
                plain => text.push(plain),
            }
        }
    }

    fn form(&mut self) -> Option<Form> {
        match self.left.chars().next()? {
            '(' => {
                self.take();
                let mut forms = Vec::new();
                while !self.left.starts_with(')') {
                    forms.push(self.form()?);
                    self.left = self.left.strip_prefix(' ').unwrap_or(self.left);
                }
                self.take();
                Some(Form::List(forms))
            }
            '"' => {
                self.take();
                self.text().map(Form::Text)
            }
            _ => {
                let length = self.left.find([' ', '(', ')', '"']).filter(|length| *length > 0)?;
                let (word, rest) = self.left.split_at(length);
                self.left = rest;
                Some(Form::Word(word.to_owned()))
            }
        }
    }
}

/// The parts of a line's one form.
fn forms(line: &[u8]) -> Option<Vec<Form>> {
    let mut reader = Reader { left: std::str::from_utf8(line).ok()? };
    match reader.form()? {
        Form::List(forms) if reader.left.is_empty() => Some(forms),
        _ => None,
    }
}

fn place(form: &Form) -> Option<usize> {
    match form {
        Form::Word(digits) => digits.parse().ok(),
        _ => None,
    }
}

/// The place in a line `(selected 1 "rebuild")`.
pub fn selected(line: &[u8]) -> Option<usize> {
    match &forms(line)?[..] {
        [Form::Word(word), at, Form::Text(_)] if word == "selected" => place(at),
        _ => None,
    }
}

/// The place in the line of a refusal with this number, one of those that name a rule or guard.
pub fn refused(line: &[u8], number: u32) -> Option<usize> {
    match &forms(line)?[..] {
        [Form::Word(word), Form::Word(digits), at, ..] if word == "refused" && *digits == number.to_string() => place(at),
        _ => None,
    }
}

/// The names of an unobservable refusal.
pub fn names(line: &[u8]) -> Option<Vec<String>> {
    let Form::List(list) = forms(line)?.pop()? else {
        return None;
    };
    let mut list = list.into_iter();
    if list.next()? != Form::Word("names".to_owned()) {
        return None;
    }
    list.map(|form| if let Form::Text(name) = form { Some(name) } else { None }).collect()
}
