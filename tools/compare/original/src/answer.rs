//! The line of an answer: fields `name=value` with tabs between them.

use std::fmt::Display;
use std::panic::{self, AssertUnwindSafe};

/// The text that a word of a request stands for.
pub fn plain(word: &str) -> String {
    let mut text = String::new();
    let mut chars = word.chars();
    while let Some(c) = chars.next() {
        match c {
            '\\' => match chars.next() {
                Some('t') => text.push('\t'),
                Some('n') => text.push('\n'),
                Some('r') => text.push('\r'),
                Some(other) => text.push(other),
                None => {}
            },
            _ => text.push(c),
        }
    }
    text
}

/// The text in a field: with tabs, line ends and backslashes escaped.
pub fn escaped(text: &str) -> String {
    let mut line = String::new();
    for c in text.chars() {
        match c {
            '\t' => line.push_str("\\t"),
            '\n' => line.push_str("\\n"),
            '\r' => line.push_str("\\r"),
            '\\' => line.push_str("\\\\"),
            _ => line.push(c),
        }
    }
    line
}

/// `None`, or the text after an equals sign.
pub fn option(text: Option<impl AsRef<str>>) -> String {
    match text {
        Some(text) => format!("={}", text.as_ref()),
        None => "None".to_string(),
    }
}

/// The texts, each followed by a semicolon, which no text has.
pub fn list<T: AsRef<str>>(texts: impl IntoIterator<Item = T>) -> String {
    texts.into_iter().map(|text| escaped(text.as_ref()) + "\\;").collect()
}

#[derive(Default)]
pub struct Answer {
    line: String,
}

impl Answer {
    /// A field whose value needs no escape.
    pub fn field(&mut self, name: &str, value: impl Display) {
        if !self.line.is_empty() {
            self.line.push('\t');
        }
        self.line.push_str(&format!("{name}={value}"));
    }

    /// A field of any text.
    pub fn text(&mut self, name: &str, text: &str) {
        self.field(name, escaped(text));
    }

    /// A field whose value may stop the call.
    pub fn guarded(&mut self, name: &str, value: impl FnOnce() -> String) {
        match panic::catch_unwind(AssertUnwindSafe(value)) {
            Ok(value) => self.field(name, value),
            Err(_) => self.field(name, "stops"),
        }
    }

    pub fn into_line(self) -> String {
        self.line
    }
}
