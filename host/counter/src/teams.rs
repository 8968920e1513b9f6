//! The teams of a record: their numbers, and names for people. A list names them, and gives each its limit and
//! its share.

use crate::failure::{DATA, Failure, Outcome};
use crate::lines;
use crate::names;
use crate::text::{is_number, is_obeyed, number};
use counter_sys::TEAMS;
use std::collections::BTreeMap;
use std::ffi::OsStr;
use std::path::Path;

/// A limit that is none.
pub const OPEN: u32 = u32::MAX;

/// Most bytes of a name.
const LONGEST: usize = 100;

/// How a limit is written that is none.
pub const NONE: &str = "none";

/// The names by the teams' numbers; a team may have none.
#[derive(Debug, Clone, Default, PartialEq, Eq)]
pub struct Names(BTreeMap<u32, Option<String>>);

impl Names {
    pub fn is_empty(&self) -> bool {
        self.0.is_empty()
    }

    pub fn numbers(&self) -> impl Iterator<Item = u32> {
        self.0.keys().copied()
    }

    pub fn name(&self, team: u32) -> Option<&str> {
        self.0.get(&team)?.as_deref()
    }

    /// How a team is called in what is said of it.
    pub fn called(&self, team: u32) -> String {
        format!("team {}", self.name(team).map_or(team.to_string(), names::file))
    }

    /// All of them in words.
    pub fn told(&self) -> String {
        let one = |(number, name): (&u32, &Option<String>)| {
            let name =
                name.as_ref().map_or(String::new(), |name| format!(" {}", names::file(name)));
            format!("{number}{name}")
        };
        self.0.iter().map(one).collect::<Vec<_>>().join(", ")
    }

    /// The team of this name, or of this number. No name is a number.
    pub fn find(&self, given: &OsStr) -> Option<u32> {
        let named = |name: &Option<String>| name.as_deref().is_some_and(|name| given == name);
        let named = self.0.iter().find(|(_, name)| named(name)).map(|(team, _)| *team);
        let number = number(given.as_encoded_bytes()).ok();
        named.or(number.filter(|team| self.0.contains_key(team)))
    }

    /// One more, or what is wrong with it.
    pub fn add(&mut self, team: u32, name: Option<String>) -> Result<(), String> {
        if team as usize >= TEAMS {
            return Err(format!(
                "there is no team {team}: teams have the numbers 0 to {}",
                TEAMS - 1
            ));
        }
        if self.0.contains_key(&team) {
            return Err(format!("team {team} is there twice"));
        }
        if let Some(name) = &name {
            let shown = short(name);
            if let Some(why) = unfit(name) {
                return Err(format!("the name \"{shown}\": {why}"));
            }
            if let Some(other) = self.find(OsStr::new(name)) {
                return Err(format!("the name \"{shown}\" is that of team {other} already"));
            }
        }
        self.0.insert(team, name);
        Ok(())
    }
}

/// A name that may be of any length.
fn short(name: &str) -> String {
    match name.char_indices().nth(LONGEST) {
        Some((end, _)) => format!("{}..", names::file(&name[..end])),
        None => names::file(name),
    }
}

/// Whether it shows nothing, where it stands in a name.
fn is_unseen(c: char) -> bool {
    matches!(c, '\u{ad}' | '\u{200b}'..='\u{200f}' | '\u{2060}' | '\u{feff}')
}

/// What is wrong with a name.
fn unfit(name: &str) -> Option<String> {
    let words: Vec<&str> = name.split_ascii_whitespace().collect();
    match name {
        _ if is_number(name.as_bytes()) => {
            Some("this is a number, and --team would take it for one".into())
        }
        _ if name.len() > LONGEST => {
            Some(format!("it has {} bytes, and {LONGEST} are the most", name.len()))
        }
        _ if name.contains('#') => Some("it holds a #; a comment has a line of its own".into()),
        _ if name.contains(is_obeyed) => {
            Some("it holds a control character, or one that turns the direction of writing".into())
        }
        _ if name.contains(is_unseen) => Some("it holds a character that shows nothing".into()),
        _ if name.trim() != name || name.is_empty() => {
            Some("it is blank, at one end or altogether".into())
        }
        _ if words.join(" ") != name => Some("it holds two spaces, one behind the other".into()),
        _ => None,
    }
}

// A list of them --------------------------------------------------------------------------

/// What a list gives. Teams that are not on it have limit and share 0.
pub struct Listed {
    pub names: Names,
    pub limits: [u32; TEAMS],
    pub shares: [u32; TEAMS],
}

impl Listed {
    /// No list: one team has everything.
    pub fn none() -> Listed {
        Listed { names: Names::default(), limits: [OPEN; TEAMS], shares: [0; TEAMS] }
    }

    /// A line a team; lines that are empty or begin with # say nothing.
    pub fn read(list: &Path) -> Outcome<Listed> {
        let (limits, shares) = ([0; TEAMS], [0; TEAMS]);
        let mut listed = Listed { names: Names::default(), limits, shares };
        for (number, line) in lines::read(list, "a folder, not a list of teams")? {
            if !matches!(line.trim_ascii_start().first(), None | Some(b'#')) {
                listed.add(&line).map_err(|why| lines::wrong(list, number, &why))?;
            }
        }
        match listed.names.is_empty() {
            true => Err(Failure::error(DATA, format!("{}: it names no team", names::file(list)))),
            false => Ok(listed),
        }
    }

    fn add(&mut self, line: &[u8]) -> Result<(), String> {
        let text = std::str::from_utf8(line).map_err(|_| "this is no UTF-8")?;
        if text.contains(|c: char| c.is_control() && c != '\t') {
            return Err("this line holds a control character".into());
        }
        let mut words = text.split_ascii_whitespace();
        let (Some(team), Some(limit), Some(share)) = (words.next(), words.next(), words.next())
        else {
            return Err("a team's number, its limit, its share and its name are wanted".into());
        };
        let given =
            |what: &str, word: &str| number(word.as_bytes()).map_err(|why| format!("{what} {why}"));
        let team = given("team", team)?;
        let limit = match limit {
            NONE | "-" => OPEN,
            word if !is_number(word.as_bytes()) => {
                let word = names::file(word);
                return Err(format!("limit {word}: a number of bytes is wanted, or `{NONE}`"));
            }
            word => given("limit", word)?,
        };
        let share = given("share", share)?;
        let name = words.collect::<Vec<_>>().join(" ");
        self.names.add(team, Some(name).filter(|name| !name.is_empty()))?;
        self.limits[team as usize] = limit;
        self.shares[team as usize] = share;
        Ok(())
    }
}
