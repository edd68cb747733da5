//! A reader of JSON (RFC 8259), for what the tool prints.
#![allow(dead_code)] // each test uses a part

use std::iter::Peekable;
use std::str::Chars;

#[derive(Clone, Debug, PartialEq)]
pub enum Json {
    Flag(bool),
    Number(i64),
    Text(String),
    List(Vec<Json>),
    Object(Vec<(String, Json)>),
}

impl Json {
    /// One value, and nothing after it.
    pub fn parse(text: &str) -> Result<Json, String> {
        let mut letters = text.chars().peekable();
        let value = value(&mut letters)?;
        match letters.next() {
            None => Ok(value),
            Some(more) => Err(format!("'{more}' after the value")),
        }
    }

    pub fn kind(&self) -> &'static str {
        match self {
            Json::Flag(_) => "flag",
            Json::Number(_) => "number",
            Json::Text(_) => "text",
            Json::List(values) => match values.first() {
                None => "list",
                Some(Json::Object(_)) => "list of objects",
                Some(Json::Number(_)) => "list of numbers",
                Some(_) => "list of texts",
            },
            Json::Object(_) => "object",
        }
    }

    pub fn get(&self, name: &str) -> Option<&Json> {
        match self {
            Json::Object(members) => members.iter().find(|(member, _)| member == name).map(|(_, value)| value),
            _ => None,
        }
    }
}

fn value(letters: &mut Peekable<Chars>) -> Result<Json, String> {
    match letters.peek() {
        Some('{') => object(letters).map(Json::Object),
        Some('[') => list(letters).map(Json::List),
        Some('"') => string(letters).map(Json::Text),
        Some('t') => word(letters, "true").map(|()| Json::Flag(true)),
        Some('f') => word(letters, "false").map(|()| Json::Flag(false)),
        Some('-' | '0'..='9') => number(letters).map(Json::Number),
        other => Err(format!("no value at {other:?}")),
    }
}

fn word(letters: &mut Peekable<Chars>, word: &str) -> Result<(), String> {
    match word.chars().all(|letter| letters.next() == Some(letter)) {
        true => Ok(()),
        false => Err(format!("not '{word}'")),
    }
}

fn number(letters: &mut Peekable<Chars>) -> Result<i64, String> {
    let mut digits = String::new();
    while let Some(digit) = letters.next_if(|&letter| letter == '-' || letter.is_ascii_digit()) {
        digits.push(digit);
    }
    match digits.trim_start_matches('-') {
        "0" => {}
        zero if zero.starts_with('0') => return Err(format!("'{digits}' begins with 0")),
        _ => {}
    }
    digits.parse().map_err(|_| format!("'{digits}' is no number"))
}

fn string(letters: &mut Peekable<Chars>) -> Result<String, String> {
    word(letters, "\"")?;
    let mut text = String::new();
    loop {
        match letters.next().ok_or("a string without its end")? {
            '"' => return Ok(text),
            '\\' => text.push(escape(letters)?),
            control @ '\0'..='\x1f' => return Err(format!("{control:?} in a string")),
            letter => text.push(letter),
        }
    }
}

fn escape(letters: &mut Peekable<Chars>) -> Result<char, String> {
    match letters.next() {
        Some(letter @ ('"' | '\\' | '/')) => Ok(letter),
        Some('n') => Ok('\n'),
        Some('r') => Ok('\r'),
        Some('t') => Ok('\t'),
        Some('u') => {
            let digits: String = letters.take(4).collect();
            u32::from_str_radix(&digits, 16).ok().and_then(char::from_u32).ok_or(format!("\\u{digits}"))
        }
        other => Err(format!("no escape: {other:?}")),
    }
}

fn list(letters: &mut Peekable<Chars>) -> Result<Vec<Json>, String> {
    word(letters, "[")?;
    let mut values = Vec::new();
    if letters.next_if_eq(&']').is_some() {
        return Ok(values);
    }
    loop {
        values.push(value(letters)?);
        match letters.next() {
            Some(',') => {}
            Some(']') => return Ok(values),
            other => return Err(format!("{other:?} in a list")),
        }
    }
}

fn object(letters: &mut Peekable<Chars>) -> Result<Vec<(String, Json)>, String> {
    word(letters, "{")?;
    let mut members: Vec<(String, Json)> = Vec::new();
    if letters.next_if_eq(&'}').is_some() {
        return Ok(members);
    }
    loop {
        let name = string(letters)?;
        word(letters, ":")?;
        if members.iter().any(|(member, _)| *member == name) {
            return Err(format!("'{name}' twice"));
        }
        members.push((name, value(letters)?));
        match letters.next() {
            Some(',') => {}
            Some('}') => return Ok(members),
            other => return Err(format!("{other:?} in an object")),
        }
    }
}
