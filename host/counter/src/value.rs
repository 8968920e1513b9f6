//! JSON, read: enough of it for the answers of counter-write, a line each, and for the notes that go with them.

use crate::sha256::Sum;

/// Values in values; no answer has more of them.
const MOST_LEVELS: u32 = 8;

#[derive(Debug, Clone, PartialEq, Eq)]
pub enum Value {
    Null,
    Flag(bool),
    /// Nothing counts below 0 here, or has a fraction.
    Number(u64),
    Text(String),
    List(Vec<Value>),
    Object(Vec<(String, Value)>),
}

impl Value {
    /// None for anything that is not one value, whole and sound.
    pub fn read(text: &str) -> Option<Value> {
        let mut reader = Reader { rest: text };
        let value = reader.value(MOST_LEVELS)?;
        reader.space();
        reader.rest.is_empty().then_some(value)
    }

    pub fn get(&self, name: &str) -> Option<&Value> {
        match self {
            Value::Object(fields) => {
                fields.iter().find(|(own, _)| own == name).map(|(_, value)| value)
            }
            _ => None,
        }
    }

    pub fn number(&self) -> Option<u64> {
        match self {
            Value::Number(number) => Some(*number),
            _ => None,
        }
    }

    pub fn flag(&self) -> Option<bool> {
        match self {
            Value::Flag(flag) => Some(*flag),
            _ => None,
        }
    }

    pub fn text(&self) -> Option<&str> {
        match self {
            Value::Text(text) => Some(text),
            _ => None,
        }
    }

    pub fn list(&self) -> Option<&[Value]> {
        match self {
            Value::List(items) => Some(items),
            _ => None,
        }
    }

    /// The bytes that a text of hexadecimal digits stands for.
    pub fn bytes(&self) -> Option<Vec<u8>> {
        unhex(self.text()?)
    }

    pub fn sum(&self) -> Option<Sum> {
        self.bytes()?.try_into().ok()
    }
}

/// The bytes that hexadecimal digits stand for, two each.
pub fn unhex(text: &str) -> Option<Vec<u8>> {
    let digit = |c: u8| (c as char).to_digit(16).map(|digit| digit as u8);
    let (pairs, rest) = text.as_bytes().as_chunks();
    let bytes = pairs.iter().map(|&[high, low]| Some(digit(high)? << 4 | digit(low)?));
    if rest.is_empty() { bytes.collect() } else { None }
}

struct Reader<'a> {
    rest: &'a str,
}

impl<'a> Reader<'a> {
    fn space(&mut self) {
        self.rest = self.rest.trim_start_matches([' ', '\t', '\r', '\n']);
    }

    /// Whether this comes next, behind spaces; then it is passed.
    fn passes(&mut self, word: &str) -> bool {
        self.space();
        self.rest.strip_prefix(word).map(|rest| self.rest = rest).is_some()
    }

    fn value(&mut self, levels: u32) -> Option<Value> {
        let levels = levels.checked_sub(1)?;
        self.space();
        match self.rest.as_bytes().first()? {
            b'"' => self.text().map(Value::Text),
            b'[' => self.list(levels),
            b'{' => self.object(levels),
            b'0'..=b'9' => self.number(),
            _ if self.passes("null") => Some(Value::Null),
            _ if self.passes("true") => Some(Value::Flag(true)),
            _ if self.passes("false") => Some(Value::Flag(false)),
            _ => None,
        }
    }

    fn number(&mut self) -> Option<Value> {
        let end = self.rest.find(|c: char| !c.is_ascii_digit()).unwrap_or(self.rest.len());
        let (digits, rest) = self.rest.split_at(end);
        self.rest = rest;
        let leads = digits.len() > 1 && digits.starts_with('0');
        if leads { None } else { digits.parse().ok().map(Value::Number) }
    }

    fn list(&mut self, levels: u32) -> Option<Value> {
        let mut items = Vec::new();
        self.each(("[", "]"), |reader| reader.value(levels).map(|value| items.push(value)))?;
        Some(Value::List(items))
    }

    fn object(&mut self, levels: u32) -> Option<Value> {
        let mut fields = Vec::new();
        self.each(("{", "}"), |reader| {
            reader.space();
            let name = reader.text()?;
            let value = reader.passes(":").then(|| reader.value(levels))??;
            fields.push((name, value));
            Some(())
        })?;
        Some(Value::Object(fields))
    }

    /// What stands between two ends, with commas between.
    fn each(
        &mut self,
        (begin, end): (&str, &str),
        mut one: impl FnMut(&mut Self) -> Option<()>,
    ) -> Option<()> {
        if !self.passes(begin) {
            return None;
        }
        if self.passes(end) {
            return Some(());
        }
        loop {
            one(self)?;
            if self.passes(end) {
                return Some(());
            }
            if !self.passes(",") {
                return None;
            }
        }
    }

    fn text(&mut self) -> Option<String> {
        self.rest = self.rest.strip_prefix('"')?;
        let mut text = String::new();
        loop {
            let plain = self.rest.find(['"', '\\'])?;
            text.push_str(&self.rest[..plain]);
            let escaped = self.rest.as_bytes()[plain] == b'\\';
            self.rest = &self.rest[plain + 1..];
            if !escaped {
                return Some(text);
            }
            text.push(self.escaped()?);
        }
    }

    /// The character behind a `\`.
    fn escaped(&mut self) -> Option<char> {
        let c = self.rest.chars().next()?;
        self.rest = &self.rest[c.len_utf8()..];
        Some(match c {
            '"' | '\\' | '/' => c,
            'b' => '\u{8}',
            'f' => '\u{c}',
            'n' => '\n',
            'r' => '\r',
            't' => '\t',
            'u' => match self.unit()? {
                high @ 0xD800..0xDC00 => {
                    self.rest = self.rest.strip_prefix("\\u")?;
                    char::decode_utf16([high, self.unit()?]).next()?.ok()?
                }
                unit => char::from_u32(unit.into())?,
            },
            _ => return None,
        })
    }

    fn unit(&mut self) -> Option<u16> {
        let digits = self.rest.get(..4)?;
        self.rest = &self.rest[4..];
        let bytes = unhex(digits)?;
        Some(u16::from_be_bytes(bytes.try_into().ok()?))
    }
}

#[cfg(test)]
mod tests {
    use super::*;
    use crate::json::Json;

    #[test]
    fn an_answer_is_read() {
        let line = "{\"answer\":\"decided\",\"copy\":[1280,1536,256],\"word\":[1064,\"0000001a\"],\"totals\":[]}\n";
        let value = Value::read(line).unwrap();
        assert_eq!(value.get("answer").unwrap().text(), Some("decided"));
        let copy: Vec<_> = value.get("copy").unwrap().list().unwrap().iter().collect();
        assert_eq!(copy, [1280, 1536, 256].map(Value::Number).iter().collect::<Vec<_>>());
        let word = &value.get("word").unwrap().list().unwrap()[1];
        assert_eq!(word.bytes(), Some(vec![0, 0, 0, 0x1A]));
        assert_eq!(value.get("totals"), Some(&Value::List(Vec::new())));
        assert_eq!(value.get("lost"), None);
    }

    #[test]
    fn what_is_written_here_is_read_here() {
        let text = "a \"name\" \\ of \u{1}\u{7f}\n ü 漢 \u{1F600}";
        let object = Json::Object(vec![
            ("text", text.into()),
            ("null", Json::Null),
            ("flags", Json::List(vec![true.into(), false.into()])),
            ("number", u64::MAX.into()),
        ]);
        let value = Value::read(&object.document()).unwrap();
        assert_eq!(value.get("text").unwrap().text(), Some(text));
        assert_eq!(value.get("null"), Some(&Value::Null));
        let flags = value.get("flags").unwrap().list().unwrap();
        assert_eq!(flags.iter().map(Value::flag).collect::<Vec<_>>(), [Some(true), Some(false)]);
        assert_eq!(value.get("number").unwrap().number(), Some(u64::MAX));
    }

    #[test]
    fn nothing_else_is() {
        let deep = "[".repeat(2000);
        let others = [
            "",
            " ",
            "{",
            "{}x",
            "{} {}",
            "[1,]",
            "[1 2]",
            "{\"a\"}",
            "{\"a\":}",
            "{a:1}",
            "-1",
            "1.5",
            "01",
            "18446744073709551616",
            "nul",
            "\"a",
            "\"\\x\"",
            "\"\\u12\"",
            "\"\\ud800\"",
            "\"\\ud800\\u0041\"",
            "\"\\udc00\"",
            &deep,
        ];
        for other in others {
            assert_eq!(Value::read(other), None, "{other}");
        }
        for odd in ["0", "0g", "+1", " 00", "ü"] {
            assert_eq!(unhex(odd), None, "{odd}");
        }
        assert_eq!(unhex(""), Some(Vec::new()));
        assert_eq!(unhex("00ff7F"), Some(vec![0, 0xFF, 0x7F]));
    }
}
