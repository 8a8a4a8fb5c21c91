//! Objects of JSON on a line each.

use std::fmt::Write as _;
use std::path::Path;

/// An object that fields are added to.
#[derive(Clone, Debug)]
pub struct Object(String);

impl Object {
    pub fn new() -> Self {
        Self(String::from("{"))
    }

    fn name(&mut self, name: &str) {
        if self.0.len() > 1 {
            self.0.push(',');
        }
        quote(&mut self.0, name);
        self.0.push(':');
    }

    pub fn text(&mut self, name: &str, value: &str) -> &mut Self {
        self.name(name);
        quote(&mut self.0, value);
        self
    }

    /// A file's name. One that is not UTF-8 is there as near as a text comes to it, and its bytes in hexadecimal beside.
    pub fn file(&mut self, file: &Path) -> &mut Self {
        self.text("file", &file.to_string_lossy());
        if file.to_str().is_none() {
            let bytes = file.as_os_str().as_encoded_bytes().iter();
            let bytes: String = bytes.map(|byte| format!("{byte:02x}")).collect();
            self.text("file_bytes", &bytes);
        }
        self
    }

    pub fn number(&mut self, name: &str, value: impl Into<i128>) -> &mut Self {
        self.name(name);
        let _ = write!(self.0, "{}", value.into());
        self
    }

    pub fn numbers(&mut self, name: &str, values: &[u32]) -> &mut Self {
        self.name(name);
        self.0.push('[');
        for (place, value) in values.iter().enumerate() {
            let before = if place > 0 { "," } else { "" };
            let _ = write!(self.0, "{before}{value}");
        }
        self.0.push(']');
        self
    }

    pub fn objects(&mut self, name: &str, values: impl IntoIterator<Item = Self>) -> &mut Self {
        self.name(name);
        self.0.push('[');
        for (place, value) in values.into_iter().enumerate() {
            if place > 0 {
                self.0.push(',');
            }
            self.0.push_str(&value.done());
        }
        self.0.push(']');
        self
    }

    /// The object's text.
    pub fn done(&self) -> String {
        format!("{}}}", self.0)
    }
}

fn quote(out: &mut String, text: &str) {
    out.push('"');
    for c in text.chars() {
        match c {
            '"' => out.push_str("\\\""),
            '\\' => out.push_str("\\\\"),
            '\n' => out.push_str("\\n"),
            '\r' => out.push_str("\\r"),
            '\t' => out.push_str("\\t"),
            c if c < ' ' || c == '\u{7f}' => {
                let _ = write!(out, "\\u{:04x}", u32::from(c));
            }
            c => out.push(c),
        }
    }
    out.push('"');
}

#[cfg(test)]
mod tests {
    use super::Object;

    #[test]
    fn an_object_is_one_line_whatever_its_text() {
        let mut object = Object::new();
        object.text("a\"b", "x\\y\n\u{1}ß").number("n", -3);
        object.objects("o", [Object::new(), Object::new()]);
        let text = r#"{"a\"b":"x\\y\n\u0001ß","n":-3,"o":[{},{}]}"#;
        assert_eq!(object.done(), text);
    }
}
