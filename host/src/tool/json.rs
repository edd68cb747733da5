//! Objects of JSON (RFC 8259), one to a line.

use std::fmt::Display;

/// An object, its members in the order in which they are added.
#[derive(Clone, Debug, Default)]
pub struct Object(String);

impl Object {
    pub fn new() -> Self {
        Object::default()
    }

    fn member(mut self, name: &str, value: &str) -> Self {
        self.0 += &format!("{}{}:{value}", if self.0.is_empty() { "" } else { "," }, quoted(name));
        self
    }

    pub fn number(self, name: &str, value: impl Display) -> Self {
        self.member(name, &value.to_string())
    }

    pub fn flag(self, name: &str, value: bool) -> Self {
        self.member(name, &value.to_string())
    }

    pub fn text(self, name: &str, value: &str) -> Self {
        self.member(name, &quoted(value))
    }

    /// Bytes: a string if they are UTF-8, otherwise the member `hex`.
    pub fn bytes(self, name: &str, bytes: &[u8]) -> Self {
        match std::str::from_utf8(bytes) {
            Ok(text) => self.text(name, text),
            Err(_) => self.text("hex", &bytes.iter().map(|byte| format!("{byte:02x}")).collect::<String>()),
        }
    }

    pub fn object(self, name: &str, value: &Object) -> Self {
        self.member(name, &value.braced())
    }

    pub fn objects(self, name: &str, values: impl IntoIterator<Item = Object>) -> Self {
        self.list(name, values.into_iter().map(|value| value.braced()))
    }

    pub fn texts<'a>(self, name: &str, values: impl IntoIterator<Item = &'a String>) -> Self {
        self.list(name, values.into_iter().map(|value| quoted(value)))
    }

    pub fn numbers(self, name: &str, values: &[u8]) -> Self {
        self.list(name, values.iter().map(u8::to_string))
    }

    /// A value as it is written.
    pub fn raw(self, name: &str, value: &str) -> Self {
        self.member(name, value)
    }

    fn list(self, name: &str, values: impl Iterator<Item = String>) -> Self {
        self.member(name, &format!("[{}]", values.collect::<Vec<_>>().join(",")))
    }

    fn braced(&self) -> String {
        format!("{{{}}}", self.0)
    }

    /// The object on a line of its own.
    pub fn line(&self) -> String {
        self.braced() + "\n"
    }
}

/// A string in its quotes.
fn quoted(text: &str) -> String {
    let mut quoted = String::from("\"");
    for character in text.chars() {
        match character {
            '"' | '\\' => quoted.extend(['\\', character]),
            '\n' => quoted += "\\n",
            '\r' => quoted += "\\r",
            '\t' => quoted += "\\t",
            '\0'..='\x1f' | '\x7f' => quoted += &format!("\\u{:04x}", character as u32),
            _ => quoted.push(character),
        }
    }
    quoted + "\""
}

#[cfg(test)]
mod tests {
    use super::Object;

    #[test]
    fn members() {
        let inner = Object::new().flag("good", true);
        let object = Object::new().text("name", "a \"b\" \\ \n\r\t\x01é").number("size", 5).object("inner", &inner).numbers("counted", &[10, 65]);
        assert_eq!(object.line(), "{\"name\":\"a \\\"b\\\" \\\\ \\n\\r\\t\\u0001é\",\"size\":5,\"inner\":{\"good\":true},\"counted\":[10,65]}\n");
        assert_eq!(Object::new().bytes("row", b"CH").objects("list", [inner]).line(), "{\"row\":\"CH\",\"list\":[{\"good\":true}]}\n");
        assert_eq!(Object::new().bytes("row", &[0xff, 1]).texts("words", &["x".to_owned()]).line(), "{\"hex\":\"ff01\",\"words\":[\"x\"]}\n");
        assert_eq!(Object::new().line(), "{}\n");
    }
}
