//! Both sides under way: calls are asked in batches, many images side by side, and each answer is
//! held to the verdict.

use crate::calls::{self, Call, hex, unhex};
use crate::child::{Side, batch};
use crate::codec::{Codec, Mixed, Others, StandIns};
use crate::features::{
    features, of_made, of_maximum, of_names, of_program, of_record, of_team, of_text, of_turn,
};
use crate::judge::{
    Account, Class, Given, New, Verdict, judge, keeps_size, listing_after, odd_name, record_after,
    told_where, used_after,
};
use crate::ledger::Ledger;
use crate::masters;
use crate::maxima;
use crate::random::Random;
use crate::records;
use crate::rules::{self, Change, MAXIMUM, Record, Refusal, TEAMS, Tree, set_word};
use crate::teams;
use std::collections::BTreeMap;
use std::fs;
use std::path::{Path, PathBuf};
use std::rc::Rc;

/// Images that are under way at a time.
pub const WAVE: usize = 96;

/// Calls that look at a random image, and edits of it.
const LOOKS: usize = 14;
const EDITS: usize = 11;

/// Edits of a list by turns, and how often each is asked again, with another record and team.
const TURNS: usize = 20;
const AGAIN: usize = 3;

/// Faults that are printed with a replay, and after which a run ends unless it is told to go on.
pub const FAULTS: usize = 8;

#[derive(Default)]
pub struct Counts {
    pub images: u64,
    pub refused_images: u64,
    /// Random images that no stand-ins serve for.
    pub left_out: u64,
    pub states: u64,
    /// By command: calls, of them accepted.
    pub calls: BTreeMap<&'static str, (u64, u64)>,
    /// By command and number: refusals.
    pub refusals: BTreeMap<(&'static str, u32), u64>,
    /// Boundaries met.
    pub features: BTreeMap<&'static str, u64>,
    /// By entry and command: differences.
    pub differences: BTreeMap<(Class, &'static str), u64>,
    pub faults: usize,
    /// By what is wrong: faults.
    pub wrong: BTreeMap<String, u64>,
}

impl Counts {
    pub fn total(&self) -> u64 {
        self.calls.values().map(|(calls, _)| calls).sum()
    }
}

pub struct Run {
    pub probe: Side,
    pub oracle: Side,
    pub counts: Counts,
    pub codec: Rc<Codec>,
    pub place: PathBuf,
    /// Whether the library has insert and make-directories.
    pub inserts: bool,
    /// Faults after which the run ends.
    pub faults: usize,
}

/// One image under way.
pub struct Case {
    pub r: Random,
    /// For records and maxima, so that all else stays the same.
    pub aside: Random,
    image: Vec<u8>,
    /// What opening says by the rules, however many words are lent.
    pub opened: Result<Tree, Refusal>,
    odd: Option<Class>,
    pub name: String,
    /// The program as it was at first: its offset and its bytes.
    program: Option<(usize, Vec<u8>)>,
    /// Kept where a list of edits is made, of an image that opens.
    ledger: Option<Ledger>,
    /// Whether a record is made at opening and handed on through the list, and what it holds.
    hands_on: bool,
    record: Option<Record>,
    /// Whether it began with shares that are together within the free bytes.
    fair: bool,
    /// Whether the edits go by the record that is handed on.
    by_turns: bool,
    /// Whether the table's maximum is near the table's size, and is stated anew between edits.
    states: bool,
    codec: Rc<Codec>,
    stand_ins: StandIns,
    /// Where the image has names that do not come back; the oracle then keeps it with stand-ins.
    others: Option<Others>,
    /// No stand-ins serve for these names: the original is asked to open the image, and no more.
    pub mixed: Option<Class>,
}

impl Case {
    pub fn new(r: Random, image: Vec<u8>, name: String, codec: &Rc<Codec>) -> Self {
        let opened = rules::open(&image, usize::MAX);
        let odd = odd_name(&image);
        let program = opened.as_ref().ok().and_then(|tree| tree.program);
        let program = program.map(|(at, size)| (at as usize, size as usize));
        let program = program.map(|(at, size)| (at, image[at..at + size].to_vec()));
        let (codec, stand_ins) = (codec.clone(), StandIns::default());
        let mut aside = Random::new(r.clone().next());
        let hands_on = aside.chance(50);
        let mut case = Self {
            r,
            aside,
            image,
            opened,
            odd,
            name,
            program,
            ledger: None,
            hands_on,
            record: None,
            fair: false,
            by_turns: false,
            states: false,
            codec,
            stand_ins,
            others: None,
            mixed: None,
        };
        case.find_others();
        case
    }

    pub fn image(&self) -> &[u8] {
        &self.image
    }

    pub fn into_image(self) -> Vec<u8> {
        self.image
    }

    /// The image is now another one.
    pub fn become_image(&mut self, image: Vec<u8>) {
        self.opened = rules::open(&image, usize::MAX);
        self.image = image;
        self.find_others();
    }

    fn find_others(&mut self) {
        let Ok(tree) = &self.opened else { return };
        (self.others, self.mixed) =
            match Others::of(&self.codec, &mut self.stand_ins, &self.image, tree) {
                Ok(others) => (others, None),
                Err(Mixed(class)) => (None, Some(class)),
            };
    }

    /// The call as the original has to be asked in place of it, where it has a name or path, or the
    /// image has names, that do not come back or that the rules have not.
    fn twin(&mut self, call: &Call) -> Option<String> {
        let Some(text) = call.text() else {
            return self.others.as_ref().map(|_| call.line_of_original());
        };
        let twin = self.stand_ins.twin(&self.codec, text);
        (self.others.is_some() || twin != text).then(|| call.line_of_any(&twin))
    }

    /// What the original's answer to a twin stands for.
    pub fn back(&self, call: &Call, answer: &str) -> String {
        let text = |digits: &str| hex(&self.stand_ins.back(&unhex(digits)));
        match (call, answer.strip_prefix("ok ")) {
            (Call::Listing, Some(listing)) => format!("ok {}", text(listing)),
            (Call::List, Some(entries)) => {
                let entry = |entry: &str| {
                    let (numbers, path) = entry.rsplit_once(':').unwrap();
                    format!(" {numbers}:{}", text(path))
                };
                format!("ok{}", entries.split(' ').map(entry).collect::<String>())
            }
            _ => answer.into(),
        }
    }

    /// Makes the image the current one on both sides, and saves it.
    pub fn load(&self, lines: &mut Batch, path: &Path) {
        fs::write(path, &self.image).unwrap();
        lines.both(format!("image {}", path.display()));
        self.stand_in(lines);
        lines.both(format!("save {}", self.name));
    }

    /// The image that the oracle has is as it is: stand-ins go in.
    pub fn stand_in(&self, lines: &mut Batch) {
        if let Some(others) = &self.others {
            lines.oracle(others.twin());
        }
    }

    /// A third of the images as they are, which state any number, a third without a maximum, and a third
    /// with one that counts.
    pub fn with_maximum(mut self) -> Self {
        let kind = self.aside.below(3);
        if kind > 0 && self.image.len() >= 0x440 {
            self.states = kind == 1;
            let maximum = if self.states { maxima::any(&mut self.aside, &self.image) } else { 0 };
            self.state(maximum);
        }
        self
    }

    fn state(&mut self, maximum: u32) {
        set_word(&mut self.image, MAXIMUM, maximum);
        self.opened = rules::open(&self.image, usize::MAX);
    }

    /// States another maximum, for which 26 is just due for this edit or just not, on both sides.
    pub fn state_for(&mut self, lines: &mut Batch, call: &Call) {
        let Ok(tree) = &self.opened else { return };
        let maximum = maxima::beside(&mut self.aside, tree, call);
        self.state(maximum);
        lines.both(format!("load {}", self.name));
        lines.both(format!("patch {MAXIMUM:#x} {}", hex(&maximum.to_be_bytes())));
        lines.both(format!("save {}", self.name));
    }

    fn with_ledger(mut self) -> Self {
        self.ledger = self.opened.as_ref().ok().map(|tree| Ledger::of(tree, &self.image));
        self
    }

    /// The image that an accepted edit left: `head` is what it now begins with.
    fn edited(&self, head: &str) -> (Vec<u8>, Result<Tree, Refusal>) {
        let (mut image, head) = (self.image.clone(), unhex(head.strip_prefix("ok ").unwrap()));
        image[..head.len()].copy_from_slice(&head);
        let opened = rules::open(&image, usize::MAX);
        (image, opened)
    }

    pub fn opened_with(&self, words: usize) -> Result<Tree, Refusal> {
        match &self.opened {
            Ok(tree) if words >= 4 * (tree.entries.len() + 2) => self.opened.clone(),
            _ => rules::open(&self.image, words),
        }
    }

    /// What an edit in the list takes: the record of the edit before it, or one that is made, and the
    /// team whose turn it is.
    fn hand_on(&mut self) -> Option<Take> {
        let tree = self.opened.as_ref().ok().filter(|_| self.hands_on)?;
        let record = self.record.unwrap_or_else(|| {
            let (limits, shares) = teams::start(&mut self.aside, tree);
            let record = Record::of(tree, &limits, &shares);
            self.fair = record.left_to_others(TEAMS) <= tree.free_bytes();
            record
        });
        let team = teams::turn(&mut self.aside, &record);
        Some(Take { account: Account { record, team }, made: self.record.is_none() })
    }

    /// What is wrong with a list from a fair start after an edit that gave this answer and this record.
    fn unfair(
        &self,
        before: &Tree,
        asked: &Asked,
        answer: &str,
        told: &str,
    ) -> Option<&'static str> {
        let (Some(taken), Ok(after)) = (asked.taken, &self.opened) else { return None };
        let Some(record) = Record::told(told) else { return Some("a record that is none") };
        if record.left_to_others(TEAMS) > after.free_bytes() {
            return Some("a fair list: free bytes below what all teams have left of their shares");
        }
        if record.teams.iter().any(|team| team.taken > team.limit) {
            return Some("a fair list: a team that has taken more than its limit");
        }
        let cost = used_after(before, &asked.call)? as i64 - before.used() as i64;
        let own = taken.account.record.teams.get(taken.account.team as usize)?;
        (answer == "err 28" && own.taken as i64 + cost <= own.share as i64)
            .then_some("a fair list: 28 for an edit within its share")
    }

    /// How much memory to lend for a call: often just enough, sometimes one too little.
    pub fn lend(&mut self, call: &Call) -> (usize, usize) {
        let r = &mut self.r;
        let Ok(tree) = &self.opened else {
            let count = match self.image.get(0x440..0x44c) {
                Some(root) => rules::word(root, 8).min(200) as usize,
                None => 1,
            };
            let least = 4 * (count.max(1) + 2);
            return (*r.pick(&[400, 400, 400, least, least - 1, 0]), r.below(64));
        };
        let old = 4 * (tree.entries.len() + 2);
        let valid = match call {
            Call::InsertDirectory(number, _) | Call::MakeDirectories(number, _) => {
                (*number as usize) < tree.entries.len()
            }
            _ => true,
        };
        let new = if valid { New::of(tree, call) } else { None };
        let (least, table) =
            new.map_or((old, 64), |new| (4 * (new.entries + 2), new.size() as usize));
        let words = match r.below(24) {
            0 => least - 1,
            1..=4 => least,
            5 => old,
            6 => old - 1,
            7 => r.below(16),
            _ => least + r.below(100),
        };
        let bytes = match r.below(24) {
            0 => table - 1,
            1..=4 => table,
            5 => 0,
            _ => table + r.below(200),
        };
        if r.below(2000) == 0 { (65_544, 2_097_152) } else { (words, bytes) }
    }
}

/// What an edit takes: a record that is made of the image as it is, or set. Either way it holds these
/// numbers.
#[derive(Clone, Copy)]
pub struct Take {
    account: Account,
    made: bool,
}

impl Take {
    pub fn set(account: Account) -> Self {
        Self { account, made: false }
    }

    /// The command.
    pub fn line(&self) -> String {
        let record = &self.account.record;
        if !self.made {
            return format!("set_record {}", record.words());
        }
        let limits = record.teams.iter().map(|team| team.limit as u32).collect();
        let shares = record.teams.iter().map(|team| team.share as u32).collect();
        Call::MakeRecord(limits, shares).line()
    }
}

/// What an edit took, and where in the batch the record is told, before it and behind it.
#[derive(Clone, Copy)]
pub struct Taken {
    pub account: Account,
    made: bool,
    before: usize,
    pub after: usize,
}

/// A call that was asked, and where in the batch its answers are.
pub struct Asked {
    pub case: usize,
    pub call: Call,
    pub words: usize,
    pub bytes: usize,
    pub probe: usize,
    pub oracle: usize,
    pub twin: Option<usize>,
    pub taken: Option<Taken>,
    /// Asked once more with another record; the list goes on from the other one.
    again: bool,
    /// The original's hash after an edit that it was not told a place for.
    alone: Option<usize>,
    /// Hashes after an edit: Counter's; the original's, as it is and with the game name put back.
    pub hashes: Option<(usize, usize, usize)>,
    /// The whole images after an edit, on both sides, where the original's has stand-ins.
    whole: Option<(usize, usize)>,
    peek: usize,
    /// The listing afterwards, on both sides.
    listing: Option<(usize, usize)>,
    /// Counter's answers after an edit of an image with a program.
    program: Option<Program>,
}

impl Asked {
    /// With the words and bytes lent, the answers of probe and oracle, and nothing that is asked of an edit only.
    fn new(
        case: usize,
        call: Call,
        [words, bytes]: [usize; 2],
        [probe, oracle]: [usize; 2],
        twin: Option<usize>,
    ) -> Self {
        let (taken, alone, hashes, whole, listing, program) = (None, None, None, None, None, None);
        Self {
            case,
            call,
            words,
            bytes,
            probe,
            oracle,
            twin,
            taken,
            again: false,
            alone,
            hashes,
            whole,
            peek: 0,
            listing,
            program,
        }
    }
}

/// Where in the batch these are: total, used total, free regions, and the program's bytes.
pub struct Program {
    total: usize,
    used: usize,
    free: usize,
    bytes: usize,
}

#[derive(Default)]
pub struct Batch {
    probe: Vec<String>,
    oracle: Vec<String>,
}

impl Batch {
    pub fn both(&mut self, line: String) {
        self.probe.push(line.clone());
        self.oracle.push(line);
    }
    pub fn probe(&mut self, line: String) -> usize {
        self.probe.push(line);
        self.probe.len() - 1
    }
    pub fn oracle(&mut self, line: String) -> usize {
        self.oracle.push(line);
        self.oracle.len() - 1
    }

    /// A call that Counter is asked for, with the memory lent and the record that an edit takes; `ample`:
    /// enough words to make it.
    fn ask(
        &mut self,
        call: &Call,
        [words, bytes]: [usize; 2],
        take: Option<Take>,
        ample: usize,
    ) -> (usize, Option<Taken>) {
        let taken = take.map(|take| {
            if take.made {
                self.probe(format!("lend {ample} 0"));
            }
            let before = self.probe(take.line());
            self.probe(format!("team {}", take.account.team));
            (take, before)
        });
        self.probe(format!("lend {words} {bytes}"));
        let answer = self.probe(call.line());
        let taken = taken.map(|(Take { account, made }, before)| {
            let after = self.probe("record".into());
            self.probe("drop_record".into());
            Taken { account, made, before, after }
        });
        (answer, taken)
    }
}

/// The game name that the original takes in place of one without a zero byte.
fn without_name() -> String {
    format!("patch 0x20 {}", "0".repeat(2 * 0x3e0))
}

impl Run {
    pub fn new(probe: &str, oracle: &str, place: &Path, inserts: bool) -> std::io::Result<Self> {
        fs::create_dir_all(place)?;
        let mut oracle = Side::start(oracle)?;
        let codec = Rc::new(Codec::of(&mut oracle));
        Ok(Self {
            probe: Side::start(probe)?,
            oracle,
            counts: Counts::default(),
            codec,
            place: place.into(),
            inserts,
            faults: FAULTS,
        })
    }

    pub fn ask(&mut self, lines: &Batch) -> (Vec<String>, Vec<String>) {
        self.probe.send(batch(&lines.probe));
        self.oracle.send(batch(&lines.oracle));
        (self.probe.read(&lines.probe), self.oracle.read(&lines.oracle))
    }

    pub fn over(&self) -> bool {
        self.counts.faults >= self.faults
    }

    fn count(&mut self, call: &Call, verdict: &Verdict) {
        self.count_answer(call.name(), &verdict.expected);
        if let Some(class) = verdict.class {
            *self.counts.differences.entry((class, call.name())).or_default() += 1;
        }
    }

    /// An answer that is as it has to be.
    pub fn count_answer(&mut self, call: &'static str, answer: &str) {
        let (calls, accepted) = self.counts.calls.entry(call).or_default();
        *calls += 1;
        match answer.strip_prefix("err ") {
            Some(number) => {
                let number = number.parse().unwrap_or(0);
                *self.counts.refusals.entry((call, number)).or_default() += 1;
            }
            None => *accepted += 1,
        }
    }

    // Images made up at random --------------------------------------------------------------

    /// `images` masters and damaged copies, looked at and edited.
    pub fn random(&mut self, seed: u64, images: u64) {
        let (mut begun, mut waves) = (0, 0);
        while begun < images && !self.over() {
            let mut cases = vec![];
            while cases.len() < WAVE && begun < images {
                let mut r =
                    Random::new(seed.wrapping_add(begun.wrapping_mul(0x2545_f491_4f6c_dd1d)));
                let image =
                    if r.chance(35) { masters::damaged(&mut r) } else { masters::master(&mut r) };
                let case = Case::new(r, image, format!("c{}a", cases.len()), &self.codec);
                self.counts.left_out += u64::from(case.mixed.is_some());
                cases.extend(case.mixed.is_none().then(|| case.with_maximum().with_ledger()));
                begun += 1;
            }
            self.carry_on(&mut cases);
            waves += 1;
            if waves % 100 == 0 {
                eprintln!("{begun} images, {} calls", self.counts.total());
            }
        }
    }

    /// These images, looked at and edited.
    pub fn given(&mut self, seed: u64, images: Vec<Vec<u8>>) {
        let of = |(i, image)| {
            let r = Random::new(seed.wrapping_add(i as u64));
            Case::new(r, image, format!("c{i}a"), &self.codec)
        };
        let cases = images.into_iter().enumerate().map(of);
        let mut cases: Vec<Case> =
            cases.filter(|case| case.mixed.is_none()).map(Case::with_ledger).collect();
        self.carry_on(&mut cases);
    }

    /// `images` masters, each with a list of edits by turns.
    pub fn by_turns(&mut self, seed: u64, images: u64) {
        let (mut begun, mut waves) = (0, 0);
        while begun < images && !self.over() {
            let mut cases = vec![];
            while cases.len() < WAVE && begun < images {
                let mut r =
                    Random::new(seed.wrapping_add(begun.wrapping_mul(0x5851_f42d_4c95_7f2d)));
                let image = masters::master(&mut r);
                let case = Case::new(r, image, format!("c{}a", cases.len()), &self.codec);
                begun += 1;
                if case.mixed.is_none() && case.opened.is_ok() {
                    let case = Case { hands_on: true, by_turns: true, ..case };
                    cases.push(case.with_maximum().with_ledger());
                }
            }
            self.looks(&mut cases, 1);
            for _ in 0..TURNS {
                if self.over() {
                    return;
                }
                self.edits(&mut cases);
            }
            self.ledgers(&cases);
            waves += 1;
            if waves % 20 == 0 {
                eprintln!("{begun} images, {} calls", self.counts.total());
            }
        }
    }

    /// Calls that look at each image, and a list of edits of each that opens.
    fn carry_on(&mut self, cases: &mut [Case]) {
        self.looks(cases, LOOKS);
        for _ in 0..EDITS {
            if self.over() {
                return;
            }
            self.edits(cases);
        }
        if !self.over() {
            self.ledgers(cases);
        }
    }

    fn looks(&mut self, cases: &mut [Case], looks: usize) {
        let (mut lines, mut asked, mut odd) = (Batch::default(), vec![], vec![]);
        for (i, case) in cases.iter_mut().enumerate() {
            self.counts.images += 1;
            self.counts.refused_images += u64::from(case.opened.is_err());
            case.load(&mut lines, &self.place.join(i.to_string()));
            let nameless = case.odd == Some(Class::NameWithoutZero) && case.opened.is_ok();
            if nameless {
                odd.push(lines.oracle("open".into()));
                lines.oracle(without_name());
            }
            for j in 0..looks {
                let mut call = calls::look(&mut case.r, case.opened.as_ref().ok(), &case.image);
                if j == 0 {
                    call = Call::Open;
                }
                if let Err(refusal) = &case.opened
                    && j == looks - 1
                    && refusal.number > 3
                {
                    call = edit_of_refused(&mut case.r, self.inserts);
                }
                let reads_name = matches!(
                    call,
                    Call::Header | Call::Window(..) | Call::Dol | Call::DolWindow(_)
                );
                // With no program the DOL's window shows the table, and with it the stand-ins.
                let reads_table = matches!(call, Call::Dol | Call::DolWindow(_))
                    && case.program.is_none()
                    && case.others.is_some();
                if nameless && reads_name || reads_table {
                    call = Call::Free;
                }
                asked.push(ask_look(&mut lines, i, case, call));
            }
            if case.aside.chance(50) {
                std::mem::swap(&mut case.r, &mut case.aside);
                let (limits, shares) = teams::lists(&mut case.r);
                asked.push(ask_look(&mut lines, i, case, Call::MakeRecord(limits, shares)));
                std::mem::swap(&mut case.r, &mut case.aside);
            }
        }
        let (probe, oracle) = self.ask(&lines);
        for at in odd {
            if oracle[at] != "err Text:NoNulTerminator" {
                self.fault("the game name has no zero byte", &[], "open", &oracle[at], "", "ok");
            }
            *self.counts.differences.entry((Class::NameWithoutZero, "open")).or_default() += 1;
        }
        for asked in &asked {
            self.hold(&cases[asked.case], asked, &probe, &oracle);
        }
    }

    /// One edit of each image that opens.
    fn edits(&mut self, cases: &mut [Case]) {
        let (mut lines, mut asked) = (Batch::default(), vec![]);
        for (i, case) in cases.iter_mut().enumerate() {
            if case.opened.is_err() {
                continue;
            }
            let take = case.hand_on();
            let Ok(tree) = &case.opened else { continue };
            let call = match &take {
                Some(take) if case.by_turns => {
                    teams::edit(&mut case.r, tree, &take.account, case.image.len(), self.inserts)
                }
                _ => match case.r.below(11) {
                    0 | 1 => calls::fill(&mut case.r, tree, case.image.len()),
                    _ => calls::edit(&mut case.r, tree, self.inserts),
                },
            };
            if case.states && case.aside.chance(40) {
                case.state_for(&mut lines, &call);
            }
            let memory = case.lend(&call);
            let ample = case.by_turns && case.aside.chance(80);
            let memory = if ample { (0x4000, 0x4000) } else { memory };
            let edit = ask_edit_with(&mut lines, i, case, call, memory.into(), take);
            // The same once more, with a record for which 27, 28 or 25 is just due or just not.
            let again = if case.by_turns { AGAIN } else { usize::from(case.aside.chance(15)) };
            for _ in 0..again {
                asked.push(ask_again(&mut lines, case, &edit));
            }
            asked.push(edit);
        }
        if asked.is_empty() {
            return;
        }
        let (probe, oracle) = self.ask(&lines);
        for asked in &asked {
            if !self.hold(&cases[asked.case], asked, &probe, &oracle) || asked.again {
                continue;
            }
            let (case, accepted) = (&mut cases[asked.case], probe[asked.probe].starts_with("ok"));
            let Ok(before) = case.opened.clone() else { continue };
            if let Some(taken) = asked.taken {
                let moved = || record_after(&before, &asked.call, taken.account).ok()?.ok();
                case.record = if accepted { moved() } else { Some(taken.account.record) };
            }
            if accepted {
                self.counts.states += 1;
                (case.image, case.opened) = case.edited(&probe[asked.peek]);
                case.name = other(&case.name);
                case.find_others();
                if let (Some(ledger), Ok(after)) = (&mut case.ledger, &case.opened) {
                    ledger.accept(&asked.call);
                    ledger.charge(asked.taken.map(|taken| taken.account.team), after.used());
                }
                if case.opened.is_err() {
                    let what = "an accepted edit left an image that does not open";
                    self.fault(what, &[], &asked.call.line(), "", "", "");
                }
            }
            let Some(taken) = asked.taken.filter(|_| case.fair) else { continue };
            let told = &probe[taken.after];
            match case.unfair(&before, asked, &probe[asked.probe], told) {
                None => {
                    self.met(of_turn(&before, &asked.call, &taken.account, &probe[asked.probe]))
                }
                Some(what) => {
                    let account = taken.account;
                    let line = format!("set_record {}", account.record.words());
                    let lines = [line, format!("team {}", account.team)];
                    self.fault(what, &lines, &asked.call.line(), "", told, "");
                }
            }
        }
    }

    /// After its list of edits each image, held to its ledger.
    fn ledgers(&mut self, cases: &[Case]) {
        let (mut lines, mut asked) = (Batch::default(), vec![]);
        for case in cases {
            let (Ok(tree), Some(ledger)) = (&case.opened, &case.ledger) else { continue };
            lines.probe(format!("load {}", case.name));
            let begins = ledger.begins().into_iter();
            let peeks: Vec<_> = begins
                .map(|(number, bytes)| {
                    let at = tree.entries.get(number).map_or(0, |file| file.offset);
                    (lines.probe(format!("peek {at} {}", bytes.len())), bytes)
                })
                .collect();
            asked.push((tree, ledger, case.record, case.fair, peeks));
        }
        let (probe, _) = self.ask(&lines);
        for (tree, ledger, record, fair, peeks) in asked {
            let lost = peeks.iter().any(|(at, bytes)| probe[*at] != format!("ok {}", hex(bytes)));
            let wrong = ledger.wrong(tree).or(lost.then_some("the ledger: a file's first bytes"));
            match wrong.or(ledger.wrong_record(tree, record)) {
                None => {
                    self.met(ledger.features());
                    if record.is_some() {
                        self.met(vec!["record: made at opening, and held to the list of edits"]);
                    }
                    if fair {
                        self.met(vec!["teams: lists from a fair start"]);
                    }
                }
                Some(what) => {
                    // What was accepted is so without a maximum too.
                    let without = vec![format!("patch {MAXIMUM:#x} 00000000")];
                    let lines = [image_lines(&ledger.first), without, ledger.accepted.clone()];
                    let lines = lines.concat();
                    self.fault(what, &lines, "", "", "", "");
                }
            }
        }
    }

    /// The answers to one call, held to the verdict; true if all is well.
    pub fn hold(
        &mut self,
        case: &Case,
        asked: &Asked,
        probe: &[String],
        oracle: &[String],
    ) -> bool {
        match trouble(case, asked, probe, oracle) {
            Ok(verdict) => {
                self.count(&asked.call, &verdict);
                self.count_afterwards(case, asked, probe, oracle);
                let opened = case.opened_with(asked.words);
                if let Some(taken) = &asked.taken {
                    let tree = opened.as_ref().ok();
                    let (account, expected) = (&taken.account, &verdict.expected);
                    self.met(of_record(tree, &asked.call, account, taken.made, expected));
                    self.met(of_team(tree, &asked.call, account, expected));
                }
                if let (Call::MakeRecord(limits, shares), Ok(tree)) = (&asked.call, &opened) {
                    self.met(of_made(tree, limits, shares));
                }
                if asked.again {
                    return true;
                }
                if let Ok(tree) = &opened {
                    let (words, bytes) = (asked.words, asked.bytes);
                    self.met(of_maximum(tree, &asked.call, &verdict.expected, bytes));
                    self.met(features(tree, &asked.call, &verdict.expected, words, bytes));
                }
                if asked.call == Call::Open {
                    self.met(of_program(&case.image, &opened));
                    self.met(of_names(&case.image, &opened));
                }
                self.met(of_text(&asked.call, &verdict.expected));
                if asked.program.is_some() && probe[asked.probe].starts_with("ok") {
                    self.met(vec!["program: held to its bytes and the totals after an edit"]);
                }
                true
            }
            Err((what, _)) if self.counts.faults >= FAULTS => {
                self.fault(&what, &[], "", "", "", "");
                false
            }
            Err((what, expected)) => {
                let (lines, ours) = (self.replay(case, asked, &what), &probe[asked.probe]);
                let twin = asked.twin.map_or("", |at| oracle[at].as_str());
                let theirs = format!("{} {twin}", oracle[asked.oracle]);
                self.fault(&what, &lines, &asked.call.line(), &theirs, ours, &expected);
                false
            }
        }
    }

    pub fn met(&mut self, features: Vec<&'static str>) {
        for feature in features {
            *self.counts.features.entry(feature).or_default() += 1;
        }
    }

    fn count_afterwards(
        &mut self,
        case: &Case,
        asked: &Asked,
        probe: &[String],
        oracle: &[String],
    ) {
        if !both_accept(asked, probe, oracle) {
            return;
        }
        if let Some((ours, theirs, _)) = asked.hashes
            && asked.whole.is_none()
            && probe[ours] != oracle[theirs]
        {
            let key = (Class::NameBehindZero, asked.call.name());
            *self.counts.differences.entry(key).or_default() += 1;
        }
        // Both accept, and the original by itself takes some of the program, or writes other names.
        if let (Some(alone), Some(told), Some((ours, theirs, _))) =
            (asked.alone, asked.twin, asked.hashes)
            && oracle[asked.oracle] == oracle[told]
        {
            let (wanted, class) = match &case.others {
                Some(others) => (&probe[ours], others.class),
                None => (&oracle[theirs], Class::ProgramEdits),
            };
            if oracle[alone] != *wanted && (case.odd.is_none() || case.others.is_none()) {
                *self.counts.differences.entry((class, asked.call.name())).or_default() += 1;
            }
        }
        if asked.listing.is_some() {
            let (calls, accepted) = self.counts.calls.entry("listing").or_default();
            *calls += 1;
            *accepted += 1;
        }
    }

    pub fn fault(
        &mut self,
        what: &str,
        lines: &[String],
        call: &str,
        theirs: &str,
        ours: &str,
        expected: &str,
    ) {
        self.counts.faults += 1;
        *self.counts.wrong.entry(what.into()).or_default() += 1;
        if self.counts.faults > FAULTS {
            return;
        }
        println!("\nFAULT: {what}");
        println!("  the original: {}", cut(theirs));
        println!("  Counter:      {}", cut(ours));
        println!("  rules:        {}", cut(expected));
        println!("  replay, on either side:");
        for line in lines {
            println!("    {line}");
        }
        println!("    {}", cut(call));
    }

    /// Commands that make the image a call was made on, with as many bytes zero as still show
    /// the same trouble.
    fn replay(&mut self, case: &Case, asked: &Asked, what: &str) -> Vec<String> {
        let load = format!("load {}", case.name);
        let answer = self.probe.ask(&[load, format!("peek 0 {}", case.image.len())]);
        let mut image = unhex(answer[1].strip_prefix("ok ").unwrap_or(""));
        if image.len() <= 0x2_0000 && case.odd.is_none() && self.shows(&image, asked, what) {
            for step in [0x400, 0x100, 0x40, 0x10, 4, 1] {
                for at in (0..image.len()).step_by(step) {
                    let end = (at + step).min(image.len());
                    if image[at..end].iter().all(|b| *b == 0) {
                        continue;
                    }
                    let kept = image[at..end].to_vec();
                    image[at..end].fill(0);
                    if !self.shows(&image, asked, what) {
                        image[at..end].copy_from_slice(&kept);
                    }
                }
            }
        }
        let mut lines = image_lines(&image);
        lines.push(format!("lend {} {}", asked.words, asked.bytes));
        if let Some(Taken { account, .. }) = asked.taken {
            lines.push(format!("set_record {}", account.record.words()));
            lines.push(format!("team {}", account.team));
        }
        lines
    }

    /// Whether the same call on `image` meets the same trouble.
    fn shows(&mut self, image: &[u8], asked: &Asked, what: &str) -> bool {
        let mut case = Case::new(Random::new(0), image.to_vec(), "shrinka".into(), &self.codec);
        let mut lines = Batch::default();
        case.load(&mut lines, &self.place.join("shrink"));
        let (call, memory) = (asked.call.clone(), [asked.words, asked.bytes]);
        let take = asked.taken.map(|taken| Take::set(taken.account));
        let asked = if call.edits() && case.opened.is_ok() {
            ask_edit_with(&mut lines, 0, &mut case, call, memory, take)
        } else {
            ask_look_with(&mut lines, 0, &mut case, call, memory, take)
        };
        let (probe, oracle) = self.ask(&lines);
        trouble(&case, &asked, &probe, &oracle).is_err_and(|(other, _)| other == what)
    }

    /// Whether the original can only be asked to open an image.
    pub fn is_mixed(&self, image: &[u8]) -> bool {
        Case::new(Random::new(0), image.to_vec(), String::new(), &self.codec).mixed.is_some()
    }

    // Given calls on a given image -------------------------------------------------------------

    /// Each call on the image as it is, edits too: nothing is carried on.
    pub fn each(&mut self, image: Vec<u8>, calls: &[(Call, usize, usize)]) {
        let with =
            |(call, words, bytes): &(Call, usize, usize)| (call.clone(), *words, *bytes, None);
        self.each_with(image, &calls.iter().map(with).collect::<Vec<_>>());
    }

    /// The same with records that the edits take.
    pub fn each_with(&mut self, image: Vec<u8>, calls: &[(Call, usize, usize, Option<Account>)]) {
        self.counts.images += 1;
        self.counts.refused_images += u64::from(rules::open(&image, usize::MAX).is_err());
        for part in calls.chunks(512) {
            let mut case = Case::new(Random::new(0), image.clone(), "each".into(), &self.codec);
            assert!(case.mixed.is_none(), "an image that the original can only be asked to open");
            let (mut lines, mut asked) = (Batch::default(), vec![]);
            case.load(&mut lines, &self.place.join("each"));
            for (call, words, bytes, account) in part {
                let (call, memory, take) = (call.clone(), [*words, *bytes], account.map(Take::set));
                if call.edits() && case.opened.is_ok() {
                    asked.push(ask_edit_with(&mut lines, 0, &mut case, call, memory, take));
                } else {
                    lines.both("load each".into());
                    asked.push(ask_look_with(&mut lines, 0, &mut case, call, memory, take));
                }
            }
            let (probe, oracle) = self.ask(&lines);
            for asked in &asked {
                self.hold(&case, asked, &probe, &oracle);
            }
            if self.over() {
                return;
            }
        }
    }

    /// `open` on each image, and `calls` on each that opens; each is given by the bytes, with their
    /// offsets, that differ from those of `base`.
    pub fn variants(&mut self, base: &[u8], variants: &[Vec<(usize, Vec<u8>)>], calls: &[Call]) {
        let path = self.place.join("base");
        fs::write(&path, base).unwrap();
        for part in variants.chunks(2048) {
            let (mut lines, mut asked, mut cases) = (Batch::default(), vec![], vec![]);
            for (i, patches) in part.iter().enumerate() {
                let mut image = base.to_vec();
                lines.both(format!("image {}", path.display()));
                for (at, bytes) in patches {
                    image[*at..at + bytes.len()].copy_from_slice(bytes);
                    lines.both(format!("patch {at:#x} {}", hex(bytes)));
                }
                let mut case = Case::new(Random::new(0), image, String::new(), &self.codec);
                case.stand_in(&mut lines);
                asked.push(ask_look_with(&mut lines, i, &mut case, Call::Open, [64, 0], None));
                if case.opened.is_ok() && case.mixed.is_none() {
                    for call in calls {
                        let call = call.clone();
                        asked.push(ask_look_with(&mut lines, i, &mut case, call, [64, 0], None));
                    }
                }
                self.counts.images += 1;
                self.counts.refused_images += u64::from(case.opened.is_err());
                cases.push(case);
            }
            let (probe, oracle) = self.ask(&lines);
            for asked in &asked {
                if !self.over() {
                    self.hold_variant(&cases[asked.case], asked, &probe, &oracle);
                }
            }
            if self.over() {
                return;
            }
        }
    }

    fn hold_variant(&mut self, case: &Case, asked: &Asked, probe: &[String], oracle: &[String]) {
        match trouble(case, asked, probe, oracle) {
            Ok(verdict) => {
                self.count(&asked.call, &verdict);
                if asked.call == Call::Open {
                    self.met(of_program(&case.image, &case.opened));
                    self.met(of_names(&case.image, &case.opened));
                }
                self.met(of_text(&asked.call, &verdict.expected));
            }
            Err((what, expected)) => {
                let mut lines = image_lines(&case.image);
                lines.push(format!("lend {} {}", asked.words, asked.bytes));
                let (ours, theirs) = (&probe[asked.probe], &oracle[asked.oracle]);
                self.fault(&what, &lines, &asked.call.line(), theirs, ours, &expected);
            }
        }
    }

    pub fn finish(self) -> Counts {
        self.probe.finish();
        self.oracle.finish();
        let _ = fs::remove_dir_all(&self.place);
        self.counts
    }
}

/// Whether the original accepts, asked as the rules would have it, and Counter too.
fn both_accept(asked: &Asked, probe: &[String], oracle: &[String]) -> bool {
    let theirs = &oracle[asked.twin.unwrap_or(asked.oracle)];
    probe[asked.probe].starts_with("ok") && theirs.starts_with("ok")
}

/// The verdict, if the answers to a call are as they have to be; otherwise what is wrong, and what
/// Counter has to answer.
fn trouble(
    case: &Case,
    asked: &Asked,
    probe: &[String],
    oracle: &[String],
) -> Result<Verdict, (String, String)> {
    let opened = case.opened_with(asked.words);
    let (words, bytes) = (asked.words, asked.bytes);
    let others = case.others.as_ref().map(|others| others.class).or(case.mixed);
    let (call, codec) = (&asked.call, &*case.codec);
    let account = asked.taken.map(|taken| taken.account);
    let image = &case.image;
    let given = Given { image, opened: &opened, call, words, bytes, account, codec, others };
    let twin = asked.twin.map(|at| case.back(call, &oracle[at]));
    let verdict = judge(&given, &oracle[asked.oracle], twin.as_deref())
        .map_err(|what| (format!("on no list: {what}"), String::new()))?;
    let wrong = |what: &str| Err((what.to_string(), verdict.expected.clone()));
    if verdict.expected != probe[asked.probe] {
        return wrong("Counter's answer");
    }
    let accepted = verdict.expected.starts_with("ok");
    let moved = match (&opened, account) {
        (Ok(tree), Some(account)) if accepted => record_after(tree, call, account).unwrap().ok(),
        _ => account.map(|account| account.record),
    };
    if let (Some(taken), Some(moved)) = (&asked.taken, moved) {
        if probe[taken.before] != format!("ok {}", taken.account.record) {
            return wrong("the record before an edit");
        }
        if probe[taken.after] != format!("ok {moved}") {
            return Err(("the record after an edit".into(), format!("ok {moved}")));
        }
    }
    if !both_accept(asked, probe, oracle) || !asked.call.edits() {
        return Ok(verdict);
    }
    let same = match (asked.whole, asked.hashes) {
        (Some((ours, theirs)), _) => {
            let bytes = |answer: &str| unhex(answer.strip_prefix("ok ").unwrap());
            bytes(&probe[ours]) == case.stand_ins.image_back(&bytes(&oracle[theirs]))
        }
        (None, Some((ours, _, theirs))) => probe[ours] == oracle[theirs],
        (None, None) => true,
    };
    if !same {
        return wrong("the image afterwards");
    }
    let Ok(after) = case.edited(&probe[asked.peek]).1 else {
        return wrong("the image afterwards does not open");
    };
    // No edit writes the field, or a table that it forbids.
    if let Ok(tree) = &opened
        && (after.maximum != tree.maximum
            || !keeps_size(tree, call) && after.forbids(after.fst_size))
    {
        return wrong("the stated maximum and the table afterwards");
    }
    // What the sums say of the new image, and what it says itself.
    if let (Ok(tree), Some(moved), Some(Account { record, team })) = (&opened, moved, account)
        && record.moved(team as usize, Change::between(tree, &after)) != Ok(moved)
    {
        return wrong("the record and the image afterwards");
    }
    if let Some((ours, theirs)) = asked.listing
        && listing_after(&case.back(&Call::Listing, &oracle[theirs]), &after).as_ref()
            != Ok(&probe[ours])
    {
        return wrong("the listing afterwards");
    }
    if let (Some(told), Some((_, bytes))) = (&asked.program, &case.program) {
        let answer = |at: usize| probe[at].as_str();
        if answer(told.bytes) != format!("ok {}", hex(bytes)) {
            return wrong("the program's bytes afterwards");
        }
        let free: Vec<String> =
            after.free.iter().map(|(at, size)| format!(" {at}:{size}")).collect();
        if answer(told.total) != format!("ok {}", after.disc_end)
            || answer(told.used) != format!("ok {}", after.used())
            || answer(told.free) != format!("ok{}", free.concat())
        {
            return wrong("the totals or the free regions afterwards");
        }
        // Used and free bytes fill the disc, by Counter's own numbers.
        let numbers = |at| numbers_of(answer(at));
        let free: u64 = numbers(told.free).iter().skip(1).step_by(2).sum();
        if numbers(told.used)[0] + free != numbers(told.total)[0] {
            return wrong("used total and free regions together");
        }
    }
    Ok(verdict)
}

/// The numbers of an answer.
fn numbers_of(answer: &str) -> Vec<u64> {
    answer.split([' ', ':']).filter_map(|word| word.parse().ok()).collect()
}

/// Commands that make an image.
pub fn image_lines(image: &[u8]) -> Vec<String> {
    let mut lines = vec!["size 0".to_string(), format!("size {}", image.len())];
    let mut at = 0;
    while at < image.len() {
        if image[at] == 0 {
            at += 1;
            continue;
        }
        let mut end = at;
        while end < image.len() && image[end..(end + 8).min(image.len())].iter().any(|b| *b != 0) {
            end += 1;
        }
        lines.push(format!("patch {at:#x} {}", hex(&image[at..end])));
        at = end;
    }
    lines
}

fn cut(text: &str) -> String {
    if text.len() <= 3000 { text.into() } else { format!("{} ...", &text[..3000]) }
}

/// Two names take turns: an edit's result is saved beside what it was made from.
pub fn other(name: &str) -> String {
    let (stem, turn) = name.split_at(name.len() - 1);
    format!("{stem}{}", if turn == "a" { "b" } else { "a" })
}

/// An edit of an image that the rules refuse; it has no tree to be made up from.
fn edit_of_refused(r: &mut Random, inserts: bool) -> Call {
    match r.below(if inserts { 8 } else { 5 }) {
        0 => Call::Move(r.below(4) as u32, r.below(0x1000) as u32),
        1 => Call::Resize(r.below(4) as u32, r.below(0x200) as u32),
        2 => Call::Fill(r.below(4) as u32, vec![0xc1; r.below(0x200)]),
        3 => Call::FillZeros(r.below(4) as u32, r.next() >> r.within(31, 63)),
        4 => Call::Rewrite,
        5 => Call::InsertFile(r.below(4) as u32, b"n".to_vec()),
        6 => Call::InsertDirectory(r.below(4) as u32, b"n".to_vec()),
        _ => Call::MakeDirectories(r.below(4) as u32, b"n/m".to_vec()),
    }
}

fn ask_look(lines: &mut Batch, i: usize, case: &mut Case, call: Call) -> Asked {
    let (words, bytes) = case.lend(&call);
    // No edit of an image that does not open alters a record.
    let account = (call.edits() && case.hands_on).then(|| teams::any(&mut case.aside));
    ask_look_with(lines, i, case, call, [words, bytes], account.map(Take::set))
}

pub fn ask_look_with(
    lines: &mut Batch,
    i: usize,
    case: &mut Case,
    call: Call,
    memory: [usize; 2],
    take: Option<Take>,
) -> Asked {
    let (probe, taken) = lines.ask(&call, memory, take, 0);
    if let Call::MakeRecord(..) = call {
        lines.probe("drop_record".into());
    }
    if let Some(others) = &case.others {
        lines.oracle(others.real());
    }
    // An edit of an image that the rules refuse is held to opening.
    let oracle = if call.edits() { "open".into() } else { call.line_of_original() };
    let oracle = lines.oracle(oracle);
    case.stand_in(lines);
    let twin = if call.edits() { None } else { case.twin(&call) };
    let twin = twin.map(|twin| lines.oracle(twin));
    Asked { taken, ..Asked::new(i, call, memory, [probe, oracle], twin) }
}

/// The edit `asked` once more, with a record at the boundaries of 27, 28 and 25. The original's answers
/// are those to `asked`, and so is its new image.
pub fn ask_again(lines: &mut Batch, case: &mut Case, asked: &Asked) -> Asked {
    let (call, memory) = (asked.call.clone(), [asked.words, asked.bytes]);
    let account = match &case.opened {
        Ok(tree) if case.aside.chance(20) => records::beside(&mut case.aside, tree, &call),
        Ok(tree) => teams::beside(&mut case.aside, tree, &call),
        Err(_) => teams::any(&mut case.aside),
    };
    lines.probe(format!("load {}", case.name));
    let (probe, taken) = lines.ask(&call, memory, Some(Take::set(account)), 0);
    let hashes =
        asked.hashes.map(|(_, theirs, repaired)| (lines.probe("hash".into()), theirs, repaired));
    let whole = asked
        .whole
        .map(|(_, theirs)| (lines.probe(format!("peek 0 {}", case.image.len())), theirs));
    // The other edit may be refused where this one is not.
    let peek = lines.probe(lines.probe[asked.peek].clone());
    let again = Asked::new(asked.case, call, memory, [probe, asked.oracle], asked.twin);
    Asked { taken, again: true, hashes, whole, peek, ..again }
}

pub fn ask_edit_with(
    lines: &mut Batch,
    i: usize,
    case: &mut Case,
    call: Call,
    memory: [usize; 2],
    take: Option<Take>,
) -> Asked {
    let twin = case.twin(&call);
    let fit = |text: &[u8]| rules::units(text).all(rules::fit);
    let whole = case.others.is_some() || twin.is_some() && call.text().is_some_and(fit);
    let (from, to) = (&case.name, other(&case.name));
    lines.probe(format!("load {from}"));
    // Enough words for the image as it is and as it will be.
    let ample = case.opened.as_ref().map_or(0, |tree| 4 * tree.entries.len()) + 0x1000;
    let (probe, taken) = lines.ask(&call, memory, take, ample);
    let ours = lines.probe("hash".into());
    let all = format!("peek 0 {}", case.image.len());
    let whole = whole.then(|| (lines.probe(all.clone()), 0));
    lines.probe(format!("save {to}"));
    // What the next edits are made up from: header and table, however far it grows.
    let written = |tree: &Tree| tree.fst_offset as usize + 12 * tree.entries.len() + tree.texts();
    let end = case.opened.as_ref().map_or(0, |tree| written(tree).max(tree.table_end() as usize));
    let end = end + 0x4000;
    let peek = lines.probe(format!("peek 0 {}", end.min(case.image.len())));
    let begin = |lines: &mut Batch| {
        lines.oracle(format!("load {from}"));
        if case.odd == Some(Class::NameWithoutZero) {
            lines.oracle(without_name());
        }
    };
    begin(lines);
    if let Some(others) = &case.others {
        lines.oracle(others.real());
    }
    let oracle = lines.oracle(call.line());
    let told = case.opened.as_ref().ok().and_then(|tree| told_where(tree, &call));
    let alone = (told.is_some() || case.others.is_some()).then(|| lines.oracle("hash".into()));
    let again = told.is_some() && call.fills();
    let twin = told.or(twin).map(|twin| {
        begin(lines);
        let twin = lines.oracle(twin);
        if again {
            lines.oracle(call.line());
        }
        twin
    });
    let listing = if case.r.chance(40) {
        lines.probe(format!("lend {ample} 0"));
        Some((lines.probe("listing".into()), lines.oracle("listing".into())))
    } else {
        None
    };
    let mut theirs = lines.oracle("hash".into());
    let mut repaired = theirs;
    if case.odd.is_some() {
        lines.oracle(format!("patch 0x20 {}", hex(&case.image[0x20..0x400])));
        repaired = lines.oracle("hash".into());
        if case.odd == Some(Class::NameWithoutZero) {
            theirs = repaired;
        }
    }
    let whole = whole.map(|(ours, _)| (ours, lines.oracle(all)));
    lines.oracle(format!("save {to}"));
    let hashes = Some((ours, theirs, repaired));
    let program = case.program.as_ref().map(|(at, bytes)| {
        lines.probe(format!("lend {ample} 0"));
        let [total, used, free] = ["total", "used", "free"].map(|line| lines.probe(line.into()));
        Program { total, used, free, bytes: lines.probe(format!("peek {at} {}", bytes.len())) }
    });
    let asked = Asked::new(i, call, memory, [probe, oracle], twin);
    Asked { taken, alone, hashes, whole, peek, listing, program, ..asked }
}
