//! A reader of JSON (RFC 8259), as far as a manifest needs it.

/// Arrays and objects are nested at most this deep.
pub const MAX_DEPTH: usize = 32;

/// A value.
pub enum Value {
    Text(String),
    /// A whole number that is not negative.
    Number(u64),
    List(Vec<Value>),
    Object(Vec<Member>),
    /// Another number, true, false or null.
    Other,
}

/// A member of an object.
pub struct Member {
    pub name: String,
    pub value: Value,
    /// The value as it is written.
    pub raw: String,
}

/// The one value of a text.
pub fn read(text: &str) -> Result<Value, String> {
    Reader::whole(text)
}

/// Reads a text from left to right.
struct Reader<'a> {
    text: &'a str,
    at: usize,
    depth: usize,
}

impl<'a> Reader<'a> {
    fn whole(text: &'a str) -> Result<Value, String> {
        let mut reader = Reader { text, at: 0, depth: 0 };
        let value = reader.value()?;
        match reader.peek() {
            None => Ok(value),
            Some(_) => Err(reader.wrong("the end")),
        }
    }

    /// The next byte that is not white space.
    fn peek(&mut self) -> Option<u8> {
        while let Some(b' ' | b'\t' | b'\n' | b'\r') = self.byte() {
            self.at += 1;
        }
        self.byte()
    }

    fn byte(&self) -> Option<u8> {
        self.text.as_bytes().get(self.at).copied()
    }

    fn wrong(&self, due: &str) -> String {
        let line = 1 + self.text.as_bytes()[..self.at].iter().filter(|&&byte| byte == b'\n').count();
        format!("{due} is expected at byte {}, in line {line}", self.at)
    }

    /// Skips white space and takes this byte.
    fn expect(&mut self, due: u8) -> Result<(), String> {
        if self.peek() != Some(due) {
            return Err(self.wrong(&format!("'{}'", char::from(due))));
        }
        self.at += 1;
        Ok(())
    }

    /// Take this byte if it is there.
    fn takes(&mut self, byte: u8) -> bool {
        let there = self.peek() == Some(byte);
        self.at += usize::from(there);
        there
    }

    fn value(&mut self) -> Result<Value, String> {
        match self.peek() {
            Some(b'"') => self.string().map(Value::Text),
            Some(b'{') => self.nested(Reader::object),
            Some(b'[') => self.nested(Reader::array),
            Some(b'-' | b'0'..=b'9') => self.number(),
            _ => ["true", "false", "null"].into_iter().find_map(|word| self.word(word)).ok_or_else(|| self.wrong("a value")),
        }
    }

    fn word(&mut self, word: &str) -> Option<Value> {
        let there = self.text[self.at..].starts_with(word);
        self.at += if there { word.len() } else { 0 };
        there.then_some(Value::Other)
    }

    fn nested(&mut self, inner: fn(&mut Self) -> Result<Value, String>) -> Result<Value, String> {
        if self.depth == MAX_DEPTH {
            return Err(format!("it is nested more than {MAX_DEPTH} deep"));
        }
        (self.depth, self.at) = (self.depth + 1, self.at + 1);
        let value = inner(self)?;
        self.depth -= 1;
        Ok(value)
    }

    fn object(&mut self) -> Result<Value, String> {
        let mut members = Vec::new();
        if self.takes(b'}') {
            return Ok(Value::Object(members));
        }
        loop {
            if self.peek() != Some(b'"') {
                return Err(self.wrong("a member's name"));
            }
            let name = self.string()?;
            self.expect(b':')?;
            self.peek();
            let from = self.at;
            let value = self.value()?;
            members.push(Member { name, value, raw: self.text[from..self.at].to_owned() });
            if !self.takes(b',') {
                return self.expect(b'}').map(|()| Value::Object(members));
            }
        }
    }

    fn array(&mut self) -> Result<Value, String> {
        let mut values = Vec::new();
        if self.takes(b']') {
            return Ok(Value::List(values));
        }
        loop {
            values.push(self.value()?);
            if !self.takes(b',') {
                return self.expect(b']').map(|()| Value::List(values));
            }
        }
    }

    fn digits(&mut self) -> Result<usize, String> {
        let from = self.at;
        while self.byte().is_some_and(|byte| byte.is_ascii_digit()) {
            self.at += 1;
        }
        if from == self.at {
            return Err(self.wrong("a digit"));
        }
        Ok(self.at - from)
    }

    fn number(&mut self) -> Result<Value, String> {
        let from = self.at;
        self.at += usize::from(self.byte() == Some(b'-'));
        let zero = self.byte() == Some(b'0');
        if self.digits()? > 1 && zero {
            return Err(self.wrong("a number without a zero before it"));
        }
        if self.byte() == Some(b'.') {
            self.at += 1;
            self.digits()?;
        }
        if let Some(b'e' | b'E') = self.byte() {
            self.at += 1;
            self.at += usize::from(matches!(self.byte(), Some(b'+' | b'-')));
            self.digits()?;
        }
        Ok(self.text[from..self.at].parse().map_or(Value::Other, Value::Number))
    }

    /// A string, from its opening quote on.
    fn string(&mut self) -> Result<String, String> {
        self.at += 1;
        let mut string = String::new();
        loop {
            let rest = &self.text[self.at..];
            let plain = rest.find(|character| matches!(character, '"' | '\\' | '\0'..='\x1f')).unwrap_or(rest.len());
            string.push_str(&rest[..plain]);
            self.at += plain;
            match self.byte() {
                Some(b'"') => {
                    self.at += 1;
                    return Ok(string);
                }
                Some(b'\\') => string.push(self.escape()?),
                _ => return Err(self.wrong("the end of a string")),
            }
        }
    }

    /// An escape, from its backslash on.
    fn escape(&mut self) -> Result<char, String> {
        let letter = self.text.as_bytes().get(self.at + 1).copied();
        self.at += 2;
        match letter {
            Some(b'"') => Ok('"'),
            Some(b'\\') => Ok('\\'),
            Some(b'/') => Ok('/'),
            Some(b'b') => Ok('\x08'),
            Some(b'f') => Ok('\x0c'),
            Some(b'n') => Ok('\n'),
            Some(b'r') => Ok('\r'),
            Some(b't') => Ok('\t'),
            Some(b'u') => self.unicode(),
            _ => {
                self.at -= 2;
                Err(self.wrong("an escape"))
            }
        }
    }

    /// A character by its four hexadecimal digits, or by two escapes, a high and a low surrogate.
    fn unicode(&mut self) -> Result<char, String> {
        let high = self.hexadecimal()?;
        if !(0xd800..0xdc00).contains(&high) {
            return char::from_u32(high).ok_or_else(|| self.wrong("a high surrogate before a low one"));
        }
        if !self.text[self.at..].starts_with("\\u") {
            return Err(self.wrong("a low surrogate after a high one"));
        }
        self.at += 2;
        let low = self.hexadecimal()?;
        let low = low.checked_sub(0xdc00).filter(|low| *low < 0x400).ok_or_else(|| self.wrong("a low surrogate after a high one"))?;
        char::from_u32(0x10000 + 0x400 * (high - 0xd800) + low).ok_or_else(|| self.wrong("a character"))
    }

    fn hexadecimal(&mut self) -> Result<u32, String> {
        let digits = self.text.as_bytes().get(self.at..self.at + 4).filter(|digits| digits.iter().all(u8::is_ascii_hexdigit));
        let digits = digits.and_then(|digits| std::str::from_utf8(digits).ok()).ok_or_else(|| self.wrong("four hexadecimal digits"))?;
        self.at += 4;
        u32::from_str_radix(digits, 16).map_err(|_| self.wrong("four hexadecimal digits"))
    }
}
