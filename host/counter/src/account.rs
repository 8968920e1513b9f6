//! A totals record with the names of its teams: the text that a file has of it, and what is said of it. A
//! record without teams goes by team 0, which may take what it likes.

use crate::failure::{Failure, Measures, Whose};
use crate::json::Json;
use crate::names;
use crate::teams::{NONE, Names, OPEN};
use crate::text::{bytes, counted, grouped, width};
use counter_sys::{Record, TEAMS, Team};
use std::fmt::Write;

#[derive(Debug, Clone, PartialEq, Eq)]
pub struct Account {
    pub record: Record,
    /// None of them: the record has no teams.
    pub names: Names,
}

/// It goes into an edit of this team, and comes back.
#[derive(Debug, Clone, PartialEq, Eq)]
pub struct Turn {
    pub account: Account,
    pub team: u32,
}

/// A record that refuses no edit of an image with so many bytes used.
pub fn open(used: u32) -> Record {
    Record { used, largest: 0, teams: [Team { limit: OPEN, ..Team::default() }; TEAMS] }
}

// Its text --------------------------------------------------------------------------------

/// What it begins with, in every form.
const BEGIN: &[u8] = b"counter record ";

/// The first line of one without teams, and of one with teams.
const FIRST: &str = "counter record 1\n";
const SECOND: &str = "counter record 2\n";

/// What an editor may put before a text.
const MARK: &[u8] = b"\xEF\xBB\xBF";

/// Whether it begins as one does. No image does that opens, which has its magic where a record has letters.
pub fn begins(bytes: &[u8]) -> bool {
    const MAGIC: [u8; 4] = [0xC2, 0x33, 0x9F, 0x3D];
    let text = bytes.strip_prefix(MARK).unwrap_or(bytes);
    text.starts_with(BEGIN) && bytes.get(0x1C..0x20).is_none_or(|word| word != MAGIC)
}

/// Whether it begins as one with teams does.
pub fn has_teams(bytes: &[u8]) -> bool {
    let text = bytes.strip_prefix(MARK).unwrap_or(bytes);
    text.starts_with(SECOND.trim_end().as_bytes())
}

impl Account {
    pub fn text(&self) -> String {
        let Record { used, largest, teams } = &self.record;
        if self.names.is_empty() {
            return format!("{FIRST}used {used} largest {largest} edits {}\n", teams[0].edits);
        }
        let count = self.names.numbers().count();
        let mut out = format!("{SECOND}used {used} largest {largest} teams {count}\n");
        for number in self.names.numbers() {
            let Team { limit, share, taken, edits } = teams[number as usize];
            let limit = if limit == OPEN { NONE.into() } else { limit.to_string() };
            let name =
                self.names.name(number).map_or(String::new(), |name| format!(" name {name}"));
            let _ = writeln!(
                out,
                "team {number} limit {limit} share {share} taken {taken} edits {edits}{name}"
            );
        }
        out
    }

    /// One exactly as it is written, or what is wrong.
    pub fn parse(bytes: &[u8]) -> Result<Account, String> {
        if bytes.starts_with(MARK) {
            return Err("it begins with a byte order mark; none is wanted".into());
        }
        let text = std::str::from_utf8(bytes).map_err(|_| "it is no UTF-8")?;
        if text.contains('\r') {
            return Err("its lines end with CR LF; LF alone is wanted".into());
        }
        let account = match (text.strip_prefix(FIRST), text.strip_prefix(SECOND)) {
            (Some(rest), _) => without_teams(rest),
            (_, Some(rest)) => with_teams(rest),
            _ => Err("its first line is of no version that this program knows".into()),
        }?;
        let written = account.text();
        if written == text {
            return Ok(account);
        }
        let lines = written.split_inclusive('\n').zip(text.split_inclusive('\n'));
        let same = lines.take_while(|(written, line)| written == line).count();
        Err(format!("line {} is not as the program writes it", same + 1))
    }
}

fn without_teams(text: &str) -> Result<Account, String> {
    const WANTED: &str = "line 2: `used N largest N edits N` is wanted";
    let line = text.lines().next().unwrap_or_default();
    let [used, largest, edits] = numbers(line, ["used", "largest", "edits"]).ok_or(WANTED)?;
    let mut record = Record { largest, ..open(used) };
    record.teams[0].edits = edits;
    Ok(Account { record, names: Names::default() })
}

fn with_teams(text: &str) -> Result<Account, String> {
    let mut lines = text.lines().zip(2..);
    let (line, _) = lines.next().unwrap_or_default();
    let [used, largest, count] = numbers(line, ["used", "largest", "teams"])
        .ok_or("line 2: `used N largest N teams N` is wanted")?;
    let (mut teams, mut names) = ([Team::default(); TEAMS], Names::default());
    for (line, at) in lines {
        let (line, name) = match line.split_once(" name ") {
            Some((line, name)) => (line, Some(name.to_string())),
            None => (line, None),
        };
        let words = ["team", "limit", "share", "taken", "edits"];
        let [team, limit, share, taken, edits] = numbers(line, words).ok_or_else(|| {
            format!("line {at}: `team N limit N share N taken N edits N name NAME` is wanted")
        })?;
        names.add(team, name).map_err(|why| format!("line {at}: {why}"))?;
        teams[team as usize] = Team { limit, share, taken, edits };
    }
    let there = names.numbers().count();
    match there {
        0 => Err("it has the form of one with teams, and no team".into()),
        _ if there == count as usize => {
            Ok(Account { record: Record { used, largest, teams }, names })
        }
        _ => Err(format!("it has {}, and line 2 says {count}", counted(there, "team", "teams"))),
    }
}

/// The numbers of a line, each behind its word.
fn numbers<const N: usize>(line: &str, words: [&str; N]) -> Option<[u32; N]> {
    let mut parts = line.split(' ');
    let mut found = [0; N];
    for (word, number) in words.into_iter().zip(&mut found) {
        parts.next().filter(|part| *part == word)?;
        *number = match parts.next()? {
            NONE => OPEN,
            digits => digits.parse().ok()?,
        };
    }
    parts.next().is_none().then_some(found)
}

// What is said ----------------------------------------------------------------------------

/// What a team has not yet taken of its share.
fn left_of_share(team: &Team) -> u64 {
    team.share.saturating_sub(team.taken).into()
}

/// The same of its limit, if it has one.
fn left_of_limit(team: &Team) -> Option<u64> {
    (team.limit != OPEN).then(|| team.limit.saturating_sub(team.taken).into())
}

impl Account {
    fn team(&self, number: u32) -> &Team {
        &self.record.teams[number as usize]
    }

    /// How many edits were accepted, of all teams together.
    fn edits(&self) -> u64 {
        self.record.teams.iter().map(|team| u64::from(team.edits)).sum()
    }

    /// Free bytes go by the image's disc end.
    fn free(&self, disc_end: u32) -> u64 {
        disc_end.saturating_sub(self.record.used).into()
    }

    /// Used and free bytes, the largest free region, the edits; without an image no free bytes.
    pub fn line(&self, disc_end: Option<u32>) -> String {
        let free = disc_end
            .map_or(String::new(), |end| format!("free {} bytes, ", grouped(self.free(end))));
        format!(
            "used {} bytes, {free}largest free region {} bytes, edits {}\n",
            grouped(self.record.used.into()),
            grouped(self.record.largest.into()),
            grouped(self.edits())
        )
    }

    /// A line a team.
    pub fn table(&self) -> String {
        let heads =
            ["team", "name", "limit", "share", "taken", "left of limit", "left of share", "edits"];
        let row = |number: u32| {
            let team = self.team(number);
            let limit = |bytes: Option<u64>| bytes.map_or(NONE.into(), grouped);
            [
                number.to_string(),
                self.names.name(number).map_or(String::new(), names::file),
                limit((team.limit != OPEN).then_some(team.limit.into())),
                grouped(team.share.into()),
                grouped(team.taken.into()),
                limit(left_of_limit(team)),
                grouped(left_of_share(team)),
                grouped(team.edits.into()),
            ]
        };
        let rows = [heads.map(String::from)].into_iter().chain(self.names.numbers().map(row));
        let rows: Vec<_> = rows.collect();
        let wide = |i: usize| rows.iter().map(|row| width(&row[i])).max().unwrap_or(0);
        let wide: [usize; 8] = std::array::from_fn(wide);
        let mut out = String::new();
        for row in rows {
            for (i, text) in row.iter().enumerate() {
                let room = " ".repeat(wide[i] - width(text));
                // Names begin under each other, numbers end so.
                let text = if i == 1 { [text, &*room].concat() } else { [&*room, text].concat() };
                out.push_str(if i == 0 { "" } else { "  " });
                out.push_str(&text);
            }
            out.push('\n');
        }
        out
    }

    /// What whoever made the record should know of its teams.
    pub fn notes(&self, disc_end: u32) -> Vec<String> {
        let shares: u64 = self.record.teams.iter().map(|team| u64::from(team.share)).sum();
        let free = self.free(disc_end);
        let mut notes = Vec::new();
        if shares > free {
            notes.push(format!(
                "all shares together are {}, and {} are free: a team may be refused (28) within its share",
                bytes(shares),
                grouped(free)
            ));
        }
        for number in self.names.numbers() {
            let Team { limit, share, .. } = *self.team(number);
            if share > limit {
                notes.push(format!(
                    "the share of {} is {} and its limit {}: what is above the limit is kept for it, and it \
                     can never take that",
                    self.names.called(number),
                    bytes(share.into()),
                    grouped(limit.into())
                ));
            }
        }
        notes
    }

    fn fields(&self, disc_end: Option<u32>) -> Vec<(&'static str, Json)> {
        vec![
            ("used", self.record.used.into()),
            ("free", disc_end.map(|end| self.free(end)).into()),
            ("largest_free", self.record.largest.into()),
            ("edits", self.edits().into()),
        ]
    }

    fn team_json(&self, number: u32) -> Json {
        let team = self.team(number);
        Json::Object(vec![
            ("number", number.into()),
            ("name", self.names.name(number).into()),
            ("limit", team.limit.into()),
            ("share", team.share.into()),
            ("taken", team.taken.into()),
            ("left_of_limit", left_of_limit(team).into()),
            ("left_of_share", left_of_share(team).into()),
            ("edits", team.edits.into()),
        ])
    }

    /// With all its teams.
    pub fn json(&self, disc_end: Option<u32>) -> Json {
        let teams = self.names.numbers().map(|number| self.team_json(number)).collect();
        let teams = (!self.names.is_empty()).then_some(Json::List(teams));
        let mut fields = self.fields(disc_end);
        fields.push(("teams", teams.into()));
        Json::Object(fields)
    }
}

impl Turn {
    fn team(&self) -> &Team {
        self.account.team(self.team)
    }

    /// The lines that are said after every edit.
    pub fn line(&self, disc_end: u32) -> String {
        let Account { names, .. } = &self.account;
        let mut out = self.account.line(Some(disc_end));
        if !names.is_empty() {
            let team = self.team();
            let limit = match team.limit {
                OPEN => "no limit".into(),
                limit => format!("limit {}", bytes(limit.into())),
            };
            let _ = writeln!(
                out,
                "{}: taken {}, {limit}, {} left of its share of {}, edits {}",
                names.called(self.team),
                bytes(team.taken.into()),
                bytes(left_of_share(team)),
                bytes(team.share.into()),
                grouped(team.edits.into())
            );
        }
        out
    }

    pub fn json(&self, disc_end: u32) -> Json {
        let mut fields = self.account.fields(Some(disc_end));
        let team = (!self.account.names.is_empty()).then(|| self.account.team_json(self.team));
        fields.push(("team", team.into()));
        Json::Object(fields)
    }
}

// Refusals --------------------------------------------------------------------------------

/// What an edit would do to the space of a disc.
pub struct Spent {
    /// Used bytes before and after.
    pub before: u32,
    pub after: u32,
    /// Free bytes after.
    pub free: u32,
}

impl Spent {
    fn cost(&self) -> i64 {
        i64::from(self.after) - i64::from(self.before)
    }
}

/// What an edit costs, in words.
fn costs(cost: i64) -> String {
    let much = bytes(cost.unsigned_abs());
    match cost {
        0 => "the edit costs nothing".into(),
        1.. => format!("the edit costs {much}"),
        _ => format!("the edit gives {much} back"),
    }
}

impl Turn {
    /// The refusal with 27, with by how many bytes.
    pub fn above_limit(&self, refusal: Failure, spent: &Spent) -> Failure {
        let Team { limit, taken, .. } = *self.team();
        let cost = spent.cost();
        let above = (i64::from(taken) + cost - i64::from(limit)).max(0) as u64;
        let of = match limit {
            OPEN => format!("{}, the most that any team can take", grouped(limit.into())),
            _ => format!(
                "its limit of {}; if it may take more, raise the limit in the record's FILE",
                grouped(limit.into())
            ),
        };
        let words = format!(
            "{} has taken {} and {}: {} above {of}",
            self.account.names.called(self.team),
            bytes(taken.into()),
            costs(cost),
            grouped(above)
        );
        let team = self.whose();
        refusal.because(words).measured(Measures::Limit { team, taken, cost, limit, above })
    }

    /// The same with 28.
    pub fn below_shares(&self, refusal: Failure, spent: &Spent) -> Failure {
        let teams = self.account.record.teams.iter().zip(0..);
        let others = teams.filter(|(_, number)| *number != self.team);
        let others: u64 = others.map(|(team, _)| left_of_share(team)).sum();
        let (cost, free) = (spent.cost(), u64::from(spent.free));
        let short = others.saturating_sub(free);
        let words = format!(
            "{} and leaves {} free, and the other teams have {} yet to take of their shares: {} short",
            costs(cost),
            grouped(free),
            grouped(others),
            grouped(short)
        );
        let team = self.whose();
        refusal.because(words).measured(Measures::Shares { team, cost, free, others, short })
    }

    fn whose(&self) -> Whose {
        let name = self.account.names.name(self.team).map(String::from);
        Whose { number: self.team, name }
    }

    /// The refusal with 25, with what has come to its end.
    pub fn at_its_end(&self, refusal: Failure) -> Failure {
        let names = &self.account.names;
        let what = match (self.team().edits, names.is_empty()) {
            (u32::MAX, true) => "the record's count is at its end".into(),
            (u32::MAX, false) => format!("the count of {} is at its end", names.called(self.team)),
            _ => "the record's used bytes are not the image's".into(),
        };
        let (teams, anew) = match names.is_empty() {
            true => ("", ""),
            false => (" --teams LIST", ", in which no team has taken anything"),
        };
        refusal.because(format!(
            "{what}; `counter record IMAGE --record FILE{teams} --force` makes a new one{anew}"
        ))
    }
}
