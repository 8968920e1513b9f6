//! JSON, written: enough of it for the program's answers.

use crate::names;
use crate::sha256::hex;
use std::fmt::Write;

#[derive(Debug)]
pub enum Json {
    Null,
    Flag(bool),
    Number(i128),
    Text(String),
    List(Vec<Json>),
    Object(Vec<(&'static str, Json)>),
}

impl From<bool> for Json {
    fn from(flag: bool) -> Json {
        Json::Flag(flag)
    }
}

impl From<u32> for Json {
    fn from(number: u32) -> Json {
        Json::Number(number.into())
    }
}

impl From<u64> for Json {
    fn from(number: u64) -> Json {
        Json::Number(number.into())
    }
}

impl From<i64> for Json {
    fn from(number: i64) -> Json {
        Json::Number(number.into())
    }
}

impl From<usize> for Json {
    fn from(number: usize) -> Json {
        Json::Number(number as i128)
    }
}

impl From<&str> for Json {
    fn from(text: &str) -> Json {
        Json::Text(text.to_string())
    }
}

impl From<String> for Json {
    fn from(text: String) -> Json {
        Json::Text(text)
    }
}

impl<T: Into<Json>> From<Option<T>> for Json {
    fn from(value: Option<T>) -> Json {
        value.map_or(Json::Null, Into::into)
    }
}

/// Bytes as a text: byte b is the character with number b, so that no byte is lost.
pub fn latin(bytes: &[u8]) -> Json {
    Json::Text(bytes.iter().map(|&b| b as char).collect())
}

/// The fields of an entry's path: its text, and its bytes.
pub fn path(bytes: &[u8]) -> [(&'static str, Json); 2] {
    [("path", names::text(bytes).into()), ("path_bytes", hex(bytes).into())]
}

/// Those of a name.
pub fn name(bytes: &[u8]) -> [(&'static str, Json); 2] {
    [("name", names::text(bytes).into()), ("name_bytes", hex(bytes).into())]
}

impl Json {
    /// The answer of a command that did what was asked: its fields behind the status.
    pub fn answer(fields: Vec<(&'static str, Json)>) -> Json {
        let status = ("status", 0u32.into());
        Json::Object([status].into_iter().chain(fields).collect())
    }

    /// The whole document, ended by a line feed.
    pub fn document(&self) -> String {
        let mut out = String::new();
        self.render(&mut out, 0);
        out.push('\n');
        out
    }

    fn plain(&self) -> bool {
        !matches!(self, Json::List(_) | Json::Object(_))
    }

    /// On one line where every member is plain, else one line a member.
    fn render(&self, out: &mut String, depth: usize) {
        match self {
            Json::Null => out.push_str("null"),
            Json::Flag(flag) => out.push_str(if *flag { "true" } else { "false" }),
            Json::Number(number) => out.push_str(&number.to_string()),
            Json::Text(text) => quote(out, text),
            Json::List(items) => {
                let wide = items.iter().all(Json::plain);
                let members = items.iter().map(|item| (None, item));
                group(out, depth, wide, ('[', ']'), members);
            }
            Json::Object(fields) => {
                let wide = depth > 0 && fields.iter().all(|(_, value)| value.plain());
                let members = fields.iter().map(|(name, value)| (Some(*name), value));
                group(out, depth, wide, ('{', '}'), members);
            }
        }
    }
}

fn group<'a>(
    out: &mut String,
    depth: usize,
    wide: bool,
    ends: (char, char),
    members: impl Iterator<Item = (Option<&'static str>, &'a Json)>,
) {
    let mut any = false;
    out.push(ends.0);
    for (name, value) in members {
        match (any, wide) {
            (false, true) => {}
            (true, true) => out.push_str(", "),
            (_, false) => {
                out.push_str(if any { ",\n" } else { "\n" });
                out.push_str(&"  ".repeat(depth + 1));
            }
        }
        any = true;
        if let Some(name) = name {
            quote(out, name);
            out.push_str(": ");
        }
        value.render(out, depth + 1);
    }
    if any && !wide {
        out.push('\n');
        out.push_str(&"  ".repeat(depth));
    }
    out.push(ends.1);
}

fn quote(out: &mut String, text: &str) {
    out.push('"');
    for c in text.chars() {
        match c {
            '"' => out.push_str("\\\""),
            '\\' => out.push_str("\\\\"),
            ' '..='~' => out.push(c),
            _ => {
                let mut units = [0; 2];
                for unit in c.encode_utf16(&mut units) {
                    let _ = write!(out, "\\u{unit:04x}");
                }
            }
        }
    }
    out.push('"');
}
