//! The parts of an image that are no files, held against what they were: the header field by field, the
//! system area, the table, the program, and what lies behind the disc end.

use crate::given::Given;
use crate::header::{FIELDS, FST_SIZE, Field};
use crate::json::Json;
use crate::layout::Layout;
use crate::manifest::OLD_HEADER;
use crate::stored::{Departure, what_lies_at};
use crate::text::grouped;

pub const UNCHANGED: &str = "unchanged";
const CHANGED: &str = "changed";
const UNKNOWN: &str = "unknown";
/// Of a table alone: exactly what a rewrite of its tree writes.
const ANEW: &str = "written anew";

pub struct Area {
    pub name: &'static str,
    /// A field of the header.
    field: Option<&'static str>,
    pub status: &'static str,
    /// Where the first byte differs, or where the part begins that does.
    at: Option<u64>,
    /// Where that part ends, if no more is known than that it differs.
    until: Option<u64>,
    more: String,
    pub given: bool,
}

/// Where a part differs first, if it does: offset and size.
type First<'a> = dyn Fn((u64, u64)) -> Option<u64> + 'a;

impl Area {
    fn new(name: &'static str) -> Area {
        let (field, status, more) = (None, UNCHANGED, String::new());
        Area { name, field, status, at: None, until: None, more, given: false }
    }

    fn changed(name: &'static str, at: Option<u64>, more: String) -> Area {
        Area { status: CHANGED, at, more, ..Area::new(name) }
    }

    /// Held to a sum: what differs lies somewhere in its part.
    pub fn by_sum(self, (start, size): (u64, u64)) -> Area {
        match self.at {
            Some(_) => Area { at: Some(start), until: Some(start + size), ..self },
            None => self,
        }
    }

    pub fn differs(&self) -> bool {
        [CHANGED, UNKNOWN].contains(&self.status)
    }

    /// It differs, or may, and has no leave.
    pub fn breaks(&self) -> bool {
        self.differs() && !self.given
    }

    /// What it is, and where it differs.
    pub fn words(&self) -> String {
        let field = self.field.map(|field| format!("{field} "));
        let at = self.at.map(|at| match self.until {
            Some(until) => format!("somewhere in {at:#x} to {until:#x}"),
            None => format!("at {at:#x}"),
        });
        let about = [field.unwrap_or_default(), at.unwrap_or_default()].concat();
        match (about.is_empty(), self.more.is_empty()) {
            (true, true) => self.name.into(),
            (true, false) => format!("{}: {}", self.name, self.more),
            (false, true) => format!("{}: {about}", self.name),
            (false, false) => format!("{}: {about}, {}", self.name, self.more),
        }
    }

    pub fn json(&self) -> Json {
        Json::Object(vec![
            ("name", self.name.into()),
            ("status", self.status.into()),
            ("changed", self.differs().into()),
            ("given", self.given.into()),
            ("field", self.field.into()),
            ("offset", self.at.into()),
        ])
    }
}

/// The header: each field that differs, or one line for all; the table's size goes with the table.
pub fn header(given: &Given, first: impl Fn(&'static Field) -> Option<u64>) -> Vec<Area> {
    let fields = FIELDS.iter().filter(|field| field.name != FST_SIZE);
    let differs = fields.filter_map(|field| {
        let first = first(field)?;
        // A number is told by its own place, a long field by the byte.
        let at = if field.size <= 4 { field.at as u64 } else { first };
        let area = Area::changed("header", Some(at), String::new());
        Some(Area { field: Some(field.name), given: given.gives(field), ..area })
    });
    let found: Vec<Area> = differs.collect();
    if found.is_empty() { vec![Area::new("header")] } else { found }
}

/// The same by the sums of the first version of manifests, which tell no field: no leave is given by them.
pub fn old_header(differs: &dyn Fn(&str) -> Option<u64>) -> Vec<Area> {
    let parts = OLD_HEADER.iter().filter_map(|(name, at, size)| {
        differs(name)?;
        Some(Area::changed("header", Some(*at), String::new()).by_sum((*at, *size)))
    });
    let found: Vec<Area> = parts.collect();
    if found.is_empty() { vec![Area::new("header")] } else { found }
}

/// All between header and table.
pub fn system(old: &Layout, new: &Layout, first: &First) -> Area {
    const NAME: &str = "system area";
    if old.fst.0 != new.fst.0 {
        let more = format!("the table begins at {:#x}, and began at {:#x}", new.fst.0, old.fst.0);
        return Area::changed(NAME, None, more);
    }
    let Some(at) = first(old.system()) else { return Area::new(NAME) };
    let program = old.program.map(|program| program.place);
    let within = program.is_some_and(|place| {
        let start = u64::from(place.offset);
        (start..start + u64::from(place.size)).contains(&at)
    });
    let more = if within { "in the program".into() } else { String::new() };
    Area::changed(NAME, Some(at), more)
}

/// What the table was.
pub enum Was {
    Same,
    /// Another, with its first difference.
    Differs(u64),
    Other,
    Unknown,
}

/// The table, byte for byte: as it was, or exactly what a rewrite of this tree writes, and so what every edit
/// leaves that writes a table. Anything else differs.
pub fn table(new: &Layout, bytes: &[u8], was: Was) -> Area {
    const NAME: &str = "table";
    let fst = new.fst.0.into();
    let lies = |at: u64| what_lies_at(at, fst, bytes);
    let rewrite = match new.departure {
        Departure::None => String::new(),
        Departure::At(at) => {
            format!("what a rewrite writes differs first at {at:#x}, {}", lies(at))
        }
        Departure::Refused(number) => format!("a rewrite of it is refused ({number})"),
    };
    match (was, new.departure) {
        (Was::Same, _) => Area::new(NAME),
        (_, Departure::None) => Area { status: ANEW, ..Area::new(NAME) },
        (Was::Differs(at), Departure::At(anew)) if at == anew => {
            let more = format!("{}; what a rewrite writes differs there, too", lies(at));
            Area::changed(NAME, Some(at), more)
        }
        (Was::Differs(at), _) => Area::changed(NAME, Some(at), format!("{}; {rewrite}", lies(at))),
        (Was::Other, _) => Area::changed(NAME, None, format!("not as it was; {rewrite}")),
        (Was::Unknown, _) => {
            let more = format!("the manifest has no sum of it; {rewrite}");
            Area { status: UNKNOWN, ..Area::changed(NAME, None, more) }
        }
    }
}

/// The program, where one lies behind the table, or lies elsewhere than it did.
pub fn program(old: &Layout, new: &Layout, given: &Given, first: &First) -> Option<Area> {
    const NAME: &str = "program";
    let place = |layout: &Layout| layout.program.map(|program| program.place.offset);
    if place(old) != place(new) {
        let told = |at: Option<u32>| at.map_or("none".into(), |at| format!("{at:#x}"));
        let more = format!("its place {} -> {}", told(place(old)), told(place(new)));
        let leave = Field::named("DOL offset").is_ok_and(|field| given.gives(field));
        return Some(Area { given: leave, ..Area::changed(NAME, None, more) });
    }
    let region = old.behind()?;
    Some(match first((region.offset.into(), region.size.into())) {
        None => Area::new(NAME),
        at => Area::changed(NAME, at, String::new()),
    })
}

/// The disc end, and what lies behind it. Leave for the fields that make the disc end is leave for another
/// one, and for nothing that lies behind both.
pub fn tail(old: &Layout, new: &Layout, given: &Given, first: &First) -> Area {
    const NAME: &str = "disc end and all behind it";
    let end = u64::from(old.disc_end.max(new.disc_end));
    let behind = |layout: &Layout| layout.bytes.saturating_sub(end);
    let differs = match behind(old) {
        0 => None,
        size => first((end, size)),
    };
    if behind(old) != behind(new) {
        let [was, now] = [old.bytes, new.bytes].map(grouped);
        return Area::changed(NAME, differs, format!("the file has {now} bytes, and had {was}"));
    }
    if old.disc_end == new.disc_end {
        return match differs {
            None => Area::new(NAME),
            at => Area::changed(NAME, at, String::new()),
        };
    }
    let more = format!("the disc end {:#x} -> {:#x}", old.disc_end, new.disc_end);
    let sizes =
        ["user size", "disc size"].map(|name| Field::named(name).is_ok_and(|f| given.gives(f)));
    let area = Area::changed(NAME, differs, more);
    Area { given: differs.is_none() && sizes.contains(&true), ..area }
}
