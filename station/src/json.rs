//! JSON objects, written out.

use std::fmt::Display;

/// An object, member by member in the order in which they are added.
#[derive(Default)]
pub struct Object {
    members: Vec<String>,
}

impl Object {
    pub fn string(self, key: &str, value: &str) -> Object {
        self.raw(key, string(value))
    }

    /// A string, or null.
    pub fn optional(self, key: &str, value: Option<&str>) -> Object {
        self.raw(key, value.map_or("null".to_string(), string))
    }

    pub fn number(self, key: &str, value: impl Into<u64>) -> Object {
        self.raw(key, value.into())
    }

    pub fn truth(self, key: &str, value: bool) -> Object {
        self.raw(key, value)
    }

    pub fn strings<'a>(self, key: &str, values: impl Iterator<Item = &'a str>) -> Object {
        let values: Vec<String> = values.map(string).collect();
        self.raw(key, format!("[{}]", values.join(",")))
    }

    /// An object, or null.
    pub fn object(self, key: &str, value: Option<Object>) -> Object {
        self.raw(
            key,
            value.map_or("null".to_string(), |object| object.text()),
        )
    }

    /// An array of objects.
    pub fn objects(self, key: &str, values: impl Iterator<Item = Object>) -> Object {
        let values: Vec<String> = values.map(|object| object.text()).collect();
        self.raw(key, format!("[{}]", values.join(",")))
    }

    fn raw(mut self, key: &str, value: impl Display) -> Object {
        self.members.push(format!("{}:{value}", string(key)));
        self
    }

    /// The members without braces, so that another can stand before or behind them.
    pub fn members(&self) -> String {
        self.members.join(",")
    }

    pub fn text(&self) -> String {
        format!("{{{}}}", self.members())
    }
}

/// A string with its quotes.
fn string(value: &str) -> String {
    let mut text = String::from("\"");
    for character in value.chars() {
        match character {
            '"' | '\\' => text.extend(['\\', character]),
            '\u{20}'.. => text.push(character),
            _ => text.push_str(&format!("\\u{:04x}", u32::from(character))),
        }
    }
    text.push('"');
    text
}
