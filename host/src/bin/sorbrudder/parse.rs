//! A line of JSON, read.

use std::iter::Peekable;
use std::str::Chars;

/// A value. A number is kept as it is written.
#[derive(Clone, Debug, PartialEq, Eq)]
pub enum Value {
    Null,
    Truth(bool),
    Number(String),
    Text(String),
    List(Vec<Self>),
    Object(Vec<(String, Self)>),
}

/// How deep values may lie in values.
const MOST_DEEP: usize = 32;

impl Value {
    /// The value of a text, which has nothing besides.
    pub fn of(text: &str) -> Option<Self> {
        let mut rest = Rest(text.chars().peekable());
        let value = rest.value(MOST_DEEP)?;
        rest.blanks();
        rest.0.next().is_none().then_some(value)
    }

    /// A field of an object.
    pub fn field(&self, name: &str) -> Option<&Self> {
        match self {
            Self::Object(fields) => {
                let field = fields.iter().find(|(known, _)| known == name);
                field.map(|(_, value)| value)
            }
            _ => None,
        }
    }

    pub fn text(&self) -> Option<&str> {
        match self {
            Self::Text(text) => Some(text),
            _ => None,
        }
    }

    /// A number that fits.
    pub fn number<N: std::str::FromStr>(&self) -> Option<N> {
        match self {
            Self::Number(number) => number.parse().ok(),
            _ => None,
        }
    }
}

/// What is left of a text.
struct Rest<'t>(Peekable<Chars<'t>>);

impl Rest<'_> {
    fn blanks(&mut self) {
        while self.0.next_if(|c| " \t\r\n".contains(*c)).is_some() {}
    }

    /// Takes a sign, behind blanks.
    fn takes(&mut self, sign: char) -> bool {
        self.blanks();
        self.0.next_if_eq(&sign).is_some()
    }

    fn value(&mut self, deep: usize) -> Option<Value> {
        self.blanks();
        match self.0.peek()? {
            '{' => self.object(deep.checked_sub(1)?),
            '[' => self.list(deep.checked_sub(1)?),
            '"' => self.string().map(Value::Text),
            _ => self.word(),
        }
    }

    /// A number, or one of the three names.
    fn word(&mut self) -> Option<Value> {
        let mut word = String::new();
        while let Some(c) = self
            .0
            .next_if(|c| c.is_ascii_alphanumeric() || "+-.".contains(*c))
        {
            word.push(c);
        }
        match word.as_str() {
            "null" => Some(Value::Null),
            "true" => Some(Value::Truth(true)),
            "false" => Some(Value::Truth(false)),
            number => {
                let is_number = number.starts_with(|c: char| c.is_ascii_digit() || c == '-');
                (is_number && number.parse::<f64>().is_ok()).then_some(Value::Number(word))
            }
        }
    }

    fn list(&mut self, deep: usize) -> Option<Value> {
        let mut values = Vec::new();
        self.takes('[');
        if self.takes(']') {
            return Some(Value::List(values));
        }
        loop {
            values.push(self.value(deep)?);
            if self.takes(']') {
                return Some(Value::List(values));
            }
            self.takes(',').then_some(())?;
        }
    }

    fn object(&mut self, deep: usize) -> Option<Value> {
        let mut fields = Vec::new();
        self.takes('{');
        if self.takes('}') {
            return Some(Value::Object(fields));
        }
        loop {
            self.blanks();
            let name = self.string()?;
            self.takes(':').then_some(())?;
            fields.push((name, self.value(deep)?));
            if self.takes('}') {
                return Some(Value::Object(fields));
            }
            self.takes(',').then_some(())?;
        }
    }

    fn string(&mut self) -> Option<String> {
        self.0.next_if_eq(&'"')?;
        let mut text = String::new();
        loop {
            match self.0.next()? {
                '"' => return Some(text),
                '\\' => text.push(self.escaped()?),
                c if c < ' ' => return None,
                c => text.push(c),
            }
        }
    }

    /// What stands behind a `\`.
    fn escaped(&mut self) -> Option<char> {
        Some(match self.0.next()? {
            'n' => '\n',
            'r' => '\r',
            't' => '\t',
            'b' => '\u{8}',
            'f' => '\u{c}',
            'u' => {
                let high = self.four()?;
                if !(0xD800..0xDC00).contains(&high) {
                    return char::from_u32(high);
                }
                self.0.next_if_eq(&'\\')?;
                self.0.next_if_eq(&'u')?;
                let low = self
                    .four()?
                    .checked_sub(0xDC00)
                    .filter(|low| *low < 0x400)?;
                return char::from_u32(0x1_0000 + ((high - 0xD800) << 10) + low);
            }
            sign @ ('"' | '\\' | '/') => sign,
            _ => return None,
        })
    }

    fn four(&mut self) -> Option<u32> {
        let mut number = 0;
        for _ in 0..4 {
            number = number << 4 | self.0.next()?.to_digit(16)?;
        }
        Some(number)
    }
}

#[cfg(test)]
mod tests {
    use super::Value;
    use crate::json::Object;

    #[test]
    fn what_is_written_is_read() {
        let mut object = Object::new();
        object.text("a\"b", "x\\y\n\u{1}ß𝄞").number("n", -3);
        object.numbers("w", &[1, u32::MAX]);
        let value = Value::of(&object.done()).expect("an object");
        let text = value.field("a\"b").and_then(Value::text);
        assert_eq!(text, Some("x\\y\n\u{1}ß𝄞"));
        assert_eq!(value.field("n").and_then(Value::number), Some(-3i16));
        let words = ["1", "4294967295"].map(|word| Value::Number(word.into()));
        assert_eq!(value.field("w"), Some(&Value::List(words.to_vec())));
    }

    #[test]
    fn what_is_no_value_is_none() {
        for text in [
            "",
            "{",
            "{\"a\"}",
            "[1,]",
            "[1 2]",
            "nul",
            "\"a",
            "1 1",
            "\"\\x\"",
            "\"\\ud800\"",
            "+1",
            "{1:2}",
            "\"\u{1}\"",
        ] {
            assert_eq!(Value::of(text), None, "{text}");
        }
        assert_eq!(Value::of(&"[".repeat(100_000)), None);
        assert_eq!(
            Value::of(" [ true , null , \"\\ud834\\udd1e\" , {} ] "),
            Some(Value::List(vec![
                Value::Truth(true),
                Value::Null,
                Value::Text("𝄞".into()),
                Value::Object(Vec::new())
            ]))
        );
    }
}
