//! A script carried out: the image, what is lent and the window from line to line, and what a call gives.

use crate::script::Part;
use crate::zeros::Zeros;
use counter_sys::guarded::{Element, Guarded};
use counter_sys::{DOL_WORDS, HEADER_SIZE, RECORD_WORDS, Record, TEAM_WORDS, TEAMS, call};

/// What a call gave, in the form of a script's answer: its number, the words of the answer, and a text.
#[derive(Debug, Default, PartialEq, Eq)]
pub struct Given {
    pub numbers: Vec<u64>,
    pub text: Vec<u8>,
}

pub struct Stage {
    image: Vec<u8>,
    kept: Vec<u8>,
    words: usize,
    bytes: usize,
    list: usize,
    window: [u64; 3],
    /// The record that edits take and give back, if one is in use, and the team that they carry then.
    record: Option<Record>,
    team: u32,
}

/// What one call is lent; none of it is zero before.
struct Lent {
    image: Guarded<u8>,
    words: Guarded<u32>,
    bytes: Guarded<u8>,
    list: Guarded<u32>,
}

impl Lent {
    fn of(stage: &Stage) -> Lent {
        Lent {
            image: Guarded::of(&stage.image),
            words: Guarded::new(stage.words),
            bytes: Guarded::new(stage.bytes),
            list: Guarded::new(stage.list),
        }
    }

    /// Nothing beside what was lent is touched.
    fn margins_stay(&self) -> bool {
        self.image.margins_stay()
            && self.words.margins_stay()
            && self.bytes.margins_stay()
            && self.list.margins_stay()
    }
}

/// The checksum of the scripts: FNV-1a of 64 bits.
pub fn checksum(bytes: &[u8]) -> u64 {
    bytes
        .iter()
        .fold(0xcbf2_9ce4_8422_2325, |sum, b| (sum ^ u64::from(*b)).wrapping_mul(0x0100_0000_01b3))
}

/// The text time and again, each time larger by `step`.
fn turned(part: &mut [u8], step: usize, text: &[u8]) -> Result<(), String> {
    holds(part.is_empty() || !text.is_empty(), "a text is missing")?;
    for (i, byte) in part.iter_mut().enumerate() {
        let turn = (i / text.len()).wrapping_mul(step) as u8;
        *byte = text[i % text.len()].wrapping_add(turn);
    }
    Ok(())
}

fn holds(promise: bool, broken: &str) -> Result<(), String> {
    if promise { Ok(()) } else { Err(broken.into()) }
}

/// A call whose answer is `N` slots: its number, and the slots where it is accepted; they stay where it is refused.
fn slots<T: Element + Into<u64>, const N: usize>(
    call: impl FnOnce(&mut [T; N]) -> u32,
) -> Result<Vec<u64>, String> {
    let mut slots = Guarded::<T>::new(N);
    let number = call(slots.slots());
    holds(slots.margins_stay(), "something beside the slots was written")?;
    let mut given = vec![u64::from(number)];
    if number == 0 {
        given.extend(slots.slice().iter().map(|slot| (*slot).into()));
    } else {
        holds(slots.stays_from(0), "a refusal wrote into the slots")?;
    }
    Ok(given)
}

/// `used` words of the list behind the numbers; the others stay.
fn listed(
    given: &mut Vec<u64>,
    list: &Guarded<u32>,
    each: u64,
    count: usize,
) -> Result<(), String> {
    let used = if given[0] == 0 { given[count] * each } else { 0 } as usize;
    holds(used <= list.len() && list.stays_from(used), "words behind the list were written")?;
    given.extend(list.slice()[..used].iter().map(|word| u64::from(*word)));
    Ok(())
}

impl Stage {
    pub fn new() -> Stage {
        Stage {
            image: vec![],
            kept: vec![],
            words: 0,
            bytes: 0,
            list: 0,
            window: [0; 3],
            record: None,
            team: 0,
        }
    }

    pub fn image(&self) -> &[u8] {
        &self.image
    }

    /// How many words are lent.
    pub fn words(&self) -> usize {
        self.words
    }

    /// A line that makes the image or says what is lent; false where it is a call.
    pub fn set_up(&mut self, line: &Part) -> Result<bool, String> {
        let numbers = line.numbers(1)?;
        let at = |i: usize| numbers.get(i).map(|n| *n as usize).ok_or("a number is missing");
        match line.words[0].as_str() {
            "size" => self.image.resize(at(0)?, 0),
            "patch" => self.fill(at(0)?, line.text.len(), 0, &line.text)?,
            "fill" => {
                let step = if numbers.len() > 2 { at(2)? } else { 0 };
                self.fill(at(0)?, at(1)?, step, &line.text)?
            }
            "save" => self.kept = self.image.clone(),
            "load" => self.image = self.kept.clone(),
            "lend" => (self.words, self.bytes, self.list) = (at(0)?, at(1)?, at(2)?),
            "window" => self.window = [at(0)? as u64, at(1)? as u64, at(2)? as u64],
            "record" if numbers.is_empty() => self.record = None,
            "record" => {
                let teams = numbers.len().checked_sub(2).ok_or("a number is missing")?;
                holds(teams.is_multiple_of(TEAM_WORDS), "a team has four numbers")?;
                self.record = Some(Record::of(filled(&numbers)?));
            }
            "team" => {
                holds(numbers.len() == 1, "a number too many or too few")?;
                self.team = word(numbers[0])?;
            }
            _ => return Ok(false),
        }
        Ok(true)
    }

    /// `count` bytes of the image, as `turned` has them.
    fn fill(&mut self, at: usize, count: usize, step: usize, text: &[u8]) -> Result<(), String> {
        let end = at.saturating_add(count);
        let part = self.image.get_mut(at..end).ok_or("bytes past the image's end")?;
        turned(part, step, text)
    }

    /// Carries out a call of the C face.
    pub fn call(&mut self, line: &Part) -> Result<Given, String> {
        let name = line.words[0].as_str();
        // make_record's are lists.
        let numbers = if name == "make_record" { vec![] } else { line.numbers(1)? };
        let right = match name {
            "make_record" => line.words.len() <= 3,
            "fill_file" => [1, 3].contains(&numbers.len()),
            // The sizes of the files stand behind its two.
            "master" => numbers.len() >= 2,
            _ => numbers.len() == arity(name),
        };
        holds(right, "a number too many or too few")?;
        let mut lent = Lent::of(self);
        let given = match name {
            "seek_start" | "seek_current" | "seek_end" | "read" => {
                self.on_window(name, numbers[0], &lent)?
            }
            "insert_file" | "insert_directory" | "make_directories" | "move_file"
            | "resize_file" | "rewrite" | "move_copy" | "move_table" | "resize_copy"
            | "resize_table" => self.edit(name, filled(&numbers)?, &line.text, &mut lent)?,
            "zero" => self.zero(filled(&numbers)?, &mut lent)?,
            "small_tables" => small_tables(filled(&numbers)?)?,
            "make_record" => self.make_record(line, &mut lent)?,
            "sheet" => self.sheet(&line.text, &mut lent)?,
            "fill_file" | "fill_zeros" => self.fill_file(name, &numbers, &line.text, &mut lent)?,
            "master" => self.master(&numbers, &line.text, &mut lent)?,
            _ => self.look(name, filled(&numbers)?, &line.text, &mut lent)?,
        };
        holds(lent.margins_stay(), "something beside what was lent was written")?;
        Ok(given)
    }

    /// The record of the image, or the number of its refusal; and what edits take: the record in use and the team, or
    /// that fresh one and team 0.
    fn taken(&self) -> Result<(Result<Record, u32>, Record, u32), String> {
        let fresh = fresh_record(&self.image, self.words)?;
        let marked = Record::of([u32::MARK; RECORD_WORDS]);
        let taken = self.record.or(fresh.ok()).unwrap_or(marked);
        let team = if self.record.is_some() { self.team } else { 0 };
        Ok((fresh, taken, team))
    }

    fn edit(
        &mut self,
        name: &str,
        [a, b]: [u32; 2],
        text: &[u8],
        l: &mut Lent,
    ) -> Result<Given, String> {
        let (fresh, taken, team) = self.taken()?;
        let mut record = Guarded::of(&taken.slots());
        let (image, words, bytes) = (l.image.slice_mut(), l.words.slice_mut(), l.bytes.slice_mut());
        // A call lent all three, with the record, the team and what else it takes.
        macro_rules! change {
            ($name:ident($($given:tt)*)) => {
                slots::<u32, 0>(|_| unsafe {
                    call!($name(
                        mut image, mut words, mut bytes, = record.slots(), = team $($given)*
                    ))
                })?
            };
        }
        macro_rules! insert {
            ($name:ident) => {
                slots::<u32, 1>(|s| unsafe {
                    call!($name(
                        mut image, mut words, mut bytes, = record.slots(), = team, = a, in text, = s
                    ))
                })?
            };
        }
        macro_rules! table {
            ($name:ident) => {
                slots::<u32, 2>(|s| unsafe {
                    call!($name(
                        mut image, mut words, mut bytes, = record.slots(), = team, = a, = b, = s
                    ))
                })?
            };
        }
        let mut numbers = match name {
            "move_copy" => change!(counter_move_copy(, = a, = b)),
            "resize_copy" => change!(counter_resize_copy(, = a, = b)),
            "move_table" => table!(counter_move_table),
            "resize_table" => table!(counter_resize_table),
            "insert_file" => insert!(counter_insert_file),
            "insert_directory" => insert!(counter_insert_directory),
            "make_directories" => insert!(counter_make_directories),
            "move_file" => change!(counter_move_file(, = a, = b)),
            "resize_file" => change!(counter_resize_file(, = a, = b)),
            "fill_file" => change!(counter_fill_file(, = a, in text)),
            _ => change!(counter_rewrite()),
        };
        holds(l.words.is_zero() && l.bytes.is_zero(), "working memory is not zero")?;
        holds(numbers[0] == 0 || l.image.slice() == self.image, "a refusal changed the image")?;
        self.image.copy_from_slice(l.image.slice());
        holds(record.margins_stay(), "something beside the record was written")?;
        let given = Record::of(*record.slots());
        holds(numbers[0] == 0 || given == taken, "a refusal changed the record")?;
        let copies = matches!(name, "move_copy" | "resize_copy");
        holds(!copies || given == taken, "a copy changed the record")?;
        holds(
            fresh.is_ok() || fresh == Err(numbers[0] as u32),
            "the edit and a record of the image are not refused alike",
        )?;
        numbers.insert(1, checksum(&self.image));
        if self.record.is_some() {
            numbers.extend(told(given));
            self.record = Some(given);
        } else if numbers[0] == 0 {
            let mut wanted = fresh_record(&self.image, self.words)?
                .map_err(|number| format!("the image is refused afterwards: {number}"))?;
            if !copies {
                wanted.teams[0].taken = wanted.used.saturating_sub(taken.used);
                wanted.teams[0].edits = 1;
            }
            holds(given == wanted, "the record is not the new image's")?;
        }
        Ok(Given { numbers, text: vec![] })
    }

    /// Zeros over so many bytes from an offset on.
    fn zero(&mut self, [offset, size]: [u32; 2], l: &mut Lent) -> Result<Given, String> {
        let (image, words) = (l.image.slice_mut(), l.words.slice_mut());
        let mut given = slots::<u32, 0>(|_| unsafe {
            call!(counter_zero(mut image, mut words, = offset, = size))
        })?;
        holds(l.words.is_zero(), "working memory is not zero")?;
        holds(l.bytes.stays_from(0), "working bytes that were not lent were written")?;
        holds(given[0] == 0 || l.image.slice() == self.image, "a refusal changed the image")?;
        self.image.copy_from_slice(l.image.slice());
        given.push(checksum(&self.image));
        Ok(Given { numbers: given, text: vec![] })
    }

    /// Limits and shares of the teams, team 0 first; 0 for those that are not named.
    fn make_record(&mut self, line: &Part, l: &mut Lent) -> Result<Given, String> {
        let lists: [[u32; TEAMS]; 2] = [filled(&line.list(1)?)?, filled(&line.list(2)?)?];
        let [mut limits, mut shares] = lists.map(|list| Guarded::of(&list));
        let (most, kept) = (limits.slots(), shares.slots());
        let (image, words) = (l.image.slice(), l.words.slice_mut());
        let mut given = slots::<u32, RECORD_WORDS>(|s| unsafe {
            call!(counter_make_record(in image, mut words, = most, = kept, = s))
        })?;
        holds(l.words.is_zero(), "working memory is not zero")?;
        holds(l.image.slice() == self.image, "a call that reads changed the image")?;
        holds([limits.slice(), shares.slice()] == lists, "limits or shares were written to")?;
        if given[0] == 0 {
            let record = Record::of(filled(&given[1..])?);
            given.truncate(1);
            given.extend(told(record));
            self.record = Some(record);
        }
        Ok(Given { numbers: given, text: vec![] })
    }

    /// The clip is the text, or as many bytes as `turned` makes of it, or zeros, which nobody can write to.
    fn fill_file(
        &mut self,
        name: &str,
        numbers: &[u64],
        text: &[u8],
        l: &mut Lent,
    ) -> Result<Given, String> {
        let target = filled(&numbers[..1])?;
        if name == "fill_zeros" {
            let zeros =
                Zeros::new(numbers[1] as usize).ok_or("so many zeros cannot be reserved")?;
            return self.edit("fill_file", target, zeros.slice(), l);
        }
        let mut clip = text.to_vec();
        if let [_, count, step] = numbers {
            clip.resize(*count as usize, 0);
            turned(&mut clip, *step as usize, text)?;
        }
        let lent = Guarded::of(&clip);
        let given = self.edit("fill_file", target, lent.slice(), l)?;
        holds(lent.margins_stay() && lent.slice() == clip, "the clip was written to")?;
        Ok(given)
    }

    /// The text is the sheet. What a refused one leaves of image and record is the script's to say, but for one of
    /// which no line has run.
    fn sheet(&mut self, text: &[u8], l: &mut Lent) -> Result<Given, String> {
        let (fresh, taken, team) = self.taken()?;
        let (mut record, sheet) = (Guarded::of(&taken.slots()), Guarded::of(text));
        let mut line = Guarded::<u32>::new(1);
        let (image, words, bytes) = (l.image.slice_mut(), l.words.slice_mut(), l.bytes.slice_mut());
        let (of_team, read, slot) = (record.slots(), sheet.slice(), line.slots());
        let number = unsafe {
            call!(counter_sheet(
                mut image, mut words, mut bytes, = of_team, = team, in read, = slot
            ))
        };
        holds(l.words.is_zero() && l.bytes.is_zero(), "working memory is not zero")?;
        holds(sheet.margins_stay() && sheet.slice() == text, "the sheet was written to")?;
        holds(record.margins_stay(), "something beside the record was written")?;
        holds(line.margins_stay(), "something beside the line was written")?;
        let line = line.slice()[0];
        holds(number != 0 || line == 0, "a line, and none was refused")?;
        let given = Record::of(*record.slots());
        let none_ran = number != 0 && line < 2;
        holds(!none_ran || l.image.slice() == self.image, "a refusal changed the image")?;
        holds(!none_ran || given == taken, "a refusal changed the record")?;
        holds(
            number == 30 || fresh.is_ok() || fresh == Err(number),
            "the sheet and a record of the image are not refused alike",
        )?;
        self.image.copy_from_slice(l.image.slice());
        let mut numbers = vec![u64::from(number), checksum(&self.image), u64::from(line)];
        if self.record.is_some() {
            numbers.extend(told(given));
            self.record = Some(given);
        } else if given != taken {
            let mut wanted = fresh_record(&self.image, self.words)?
                .map_err(|number| format!("the image is refused afterwards: {number}"))?;
            wanted.teams[0] = given.teams[0];
            holds(given == wanted, "the record is not the new image's")?;
        }
        Ok(Given { numbers, text: vec![] })
    }

    /// The numbers are the disc end, the game code and the sizes; the text is the paths, with the zero bytes
    /// that end them.
    fn master(&mut self, numbers: &[u64], paths: &[u8], l: &mut Lent) -> Result<Given, String> {
        let numbers = numbers.iter().map(|number| word(*number)).collect::<Result<Vec<_>, _>>()?;
        let (disc_end, game_code) = (numbers[0], numbers[1].to_be_bytes());
        let (sizes, paths) = (Guarded::of(&numbers[2..]), Guarded::of(paths));
        let (sizes, paths) = (sizes.slice(), paths.slice());
        let (image, words, bytes) = (l.image.slice_mut(), l.words.slice_mut(), l.bytes.slice_mut());
        let mut given = slots::<u32, 0>(|_| unsafe {
            call!(counter_master(
                mut image, mut words, mut bytes, = &game_code, = disc_end, in sizes, in paths
            ))
        })?;
        holds(l.words.is_zero() && l.bytes.is_zero(), "working memory is not zero")?;
        holds(given[0] == 0 || l.image.slice() == self.image, "a refusal changed the image")?;
        let end = disc_end as usize;
        holds(
            l.image.slice().get(end..) == self.image.get(end..),
            "bytes behind the disc end were written",
        )?;
        self.image.copy_from_slice(l.image.slice());
        given.push(checksum(&self.image));
        Ok(Given { numbers: given, text: vec![] })
    }

    fn look(
        &mut self,
        name: &str,
        [a, b]: [u32; 2],
        text: &[u8],
        l: &mut Lent,
    ) -> Result<Given, String> {
        let (image, words, list) = (l.image.slice(), l.words.slice_mut(), l.list.slice_mut());
        let mut buffer =
            Guarded::<u8>::new(if matches!(name, "list" | "report") { a as usize } else { 0 });
        // A call on the image and the words, with what else it takes.
        macro_rules! ask {
            ($kind:ty, $slots:expr, $name:ident($($given:tt)*)) => {
                slots::<$kind, { $slots }>(|s| unsafe { call!($name(in image, mut words $($given)*, = s)) })?
            };
        }
        let mut given = match name {
            "open" => ask!(u32, 5, counter_open()),
            "totals" => ask!(u32, 2, counter_totals()),
            "program" => ask!(u32, 2, counter_program()),
            "entry" => ask!(u32, 4, counter_entry(, = a)),
            "lookup" => ask!(u32, 4, counter_lookup(, = a, in text)),
            "entries" => ask!(u32, 5, counter_entries(, mut list)),
            "free_regions" => ask!(u32, 1, counter_free_regions(, mut list)),
            "free_clusters" => ask!(u32, 1, counter_free_clusters(, mut list)),
            "max_region_size" => ask!(u32, 1, counter_max_region_size(, = a, = b)),
            "max_file_size" => ask!(u32, 1, counter_max_file_size(, = a)),
            "allocate" => ask!(u32, 2, counter_allocate(, = a, = b)),
            "clear" => ask!(u32, 4, counter_clear(, = a, = b)),
            "open_file" => ask!(u64, 3, counter_open_file(, = a)),
            "open_dol" => {
                let mut header = Guarded::<u32>::new(DOL_WORDS);
                let mut given = ask!(u64, 3, counter_open_dol(, = header.slots()));
                let used = if given[0] == 0 { DOL_WORDS } else { 0 };
                holds(header.stays_from(used), "a refusal wrote the header")?;
                given.extend(header.slice()[..used].iter().map(|word| u64::from(*word)));
                given
            }
            "list" => ask!(u64, 1, counter_list(, mut buffer.slice_mut())),
            "report" => ask!(u64, 1, counter_report(, mut buffer.slice_mut())),
            "header" => return header(image),
            _ => return Err(format!("`{name}` is no call")),
        };
        holds(l.words.is_zero(), "working memory is not zero")?;
        holds(l.image.slice() == self.image, "a call that reads changed the image")?;
        match name {
            "entries" => listed(&mut given, &l.list, 6, 4)?,
            "free_regions" => listed(&mut given, &l.list, 2, 1)?,
            "free_clusters" => listed(&mut given, &l.list, 3, 1)?,
            "open_file" | "open_dol" if given[0] == 0 => {
                self.window = [given[1], given[2], given[3]]
            }
            _ => {}
        }
        let used = if given[0] == 0 && buffer.len() > 0 { given[1] as usize } else { 0 };
        holds(
            used <= buffer.len() && buffer.stays_from(used),
            "bytes behind the text were written",
        )?;
        Ok(Given { numbers: given, text: buffer.slice()[..used].to_vec() })
    }

    fn on_window(&mut self, name: &str, to: u64, l: &Lent) -> Result<Given, String> {
        let mut window = Guarded::of(&self.window);
        if name == "read" {
            let mut buffer = Guarded::of(&vec![b'.'; to as usize]);
            let mut given = slots::<u64, 1>(|s| unsafe {
                call!(counter_read(= window.slots(), in l.image.slice(), mut buffer.slice_mut(), = s))
            })?;
            holds(
                buffer.margins_stay() && window.margins_stay(),
                "something beside the buffer was written",
            )?;
            self.window.copy_from_slice(window.slice());
            given.push(self.window[2]);
            return Ok(Given { numbers: given, text: buffer.slice().to_vec() });
        }
        let number = unsafe {
            match name {
                "seek_start" => call!(counter_seek_start(= window.slots(), = to)),
                "seek_current" => call!(counter_seek_current(= window.slots(), = to as i64)),
                _ => call!(counter_seek_end(= window.slots(), = to as i64)),
            }
        };
        holds(window.margins_stay(), "something beside the window was written")?;
        let after = window.slice();
        holds(after[..2] == self.window[..2], "a seek moved the window itself")?;
        holds(number == 0 || after == self.window, "a refusal changed the window")?;
        self.window.copy_from_slice(after);
        let mut numbers = vec![u64::from(number)];
        numbers.extend((number == 0).then_some(self.window[2]));
        Ok(Given { numbers, text: vec![] })
    }
}

fn header(image: &[u8]) -> Result<Given, String> {
    let mut fields = Guarded::<u8>::new(HEADER_SIZE);
    let number = unsafe { call!(counter_header(in image, = fields.slots())) };
    holds(fields.margins_stay(), "something beside the header was written")?;
    holds(number == 0 || fields.stays_from(0), "a refusal wrote the header")?;
    let mut numbers = vec![u64::from(number)];
    numbers.extend((number == 0).then(|| checksum(fields.slice())));
    Ok(Given { numbers, text: vec![] })
}

/// The tables in the front of a list of so many bytes; nothing else is lent.
fn small_tables([entries, len]: [u32; 2]) -> Result<Given, String> {
    let mut list = Guarded::<u8>::new(len as usize);
    let bytes = list.slice_mut();
    let mut given =
        slots::<u32, 1>(|s| unsafe { call!(counter_small_tables(= entries, mut bytes, = s)) })?;
    let each = (14 * u64::from(entries)).saturating_sub(2);
    let used = if given[0] == 0 { given[1].saturating_mul(each) } else { 0 };
    holds(used <= u64::from(len), "more tables than the list holds")?;
    let used = used as usize;
    holds(list.stays_from(used), "bytes behind the tables were written")?;
    given.extend((given[0] == 0).then(|| checksum(&list.slice()[..used])));
    Ok(Given { numbers: given, text: vec![] })
}

/// A record of an image whose teams may take anything, with so many words lent; or the number of its refusal.
fn fresh_record(image: &[u8], words: usize) -> Result<Result<Record, u32>, String> {
    let mut words = vec![0; words];
    let (limits, shares) = ([u32::MAX; TEAMS], [0; TEAMS]);
    let made = slots::<u32, RECORD_WORDS>(|s| unsafe {
        call!(counter_make_record(in image, mut words, = &limits, = &shares, = s))
    })?;
    Ok(match made[0] {
        0 => Ok(Record::of(filled(&made[1..])?)),
        number => Err(number as u32),
    })
}

/// A record as an answer: the teams behind the last one that is not all 0 are left out.
fn told(record: Record) -> Vec<u64> {
    let mut numbers = record.slots().map(u64::from).to_vec();
    while numbers.len() > 2 && numbers.ends_with(&[0; TEAM_WORDS]) {
        numbers.truncate(numbers.len() - TEAM_WORDS);
    }
    numbers
}

/// How many numbers a call takes.
fn arity(name: &str) -> usize {
    match name {
        "open" | "totals" | "program" | "entries" | "free_regions" | "free_clusters"
        | "open_dol" | "header" | "rewrite" | "sheet" => 0,
        "max_region_size" | "allocate" | "clear" | "move_file" | "resize_file" | "fill_zeros"
        | "move_copy" | "move_table" | "resize_copy" | "resize_table" | "zero" | "small_tables" => {
            2
        }
        _ => 1,
    }
}

/// The numbers, each of 32 bits, and 0 behind them.
fn filled<const N: usize>(numbers: &[u64]) -> Result<[u32; N], String> {
    holds(numbers.len() <= N, "a number too many")?;
    let mut words = [0; N];
    for (place, number) in words.iter_mut().zip(numbers) {
        *place = word(*number)?;
    }
    Ok(words)
}

fn word(number: u64) -> Result<u32, String> {
    u32::try_from(number).map_err(|_| format!("{number} has more than 32 bits"))
}
