//! What the original's codec makes of the units of a name, as the oracle tells it, and stand-ins for
//! those that it does not turn back into equal bytes: pairs that it does, so that the original can be
//! asked in their place.

use crate::calls::hex;
use crate::child::Side;
use crate::judge::Class;
use crate::rules::{self, Tree};
use std::collections::{BTreeMap, BTreeSet};
use std::ops::RangeInclusive;

/// What becomes of a unit that is read as text and written again.
#[derive(Clone, Copy, PartialEq, Eq, Debug)]
enum Fate {
    Same,
    /// Other bytes.
    Other,
    /// A text that has no bytes.
    Unwritten,
    /// It is no text.
    Unknown,
}

/// By unit: its bytes as a number.
pub struct Codec(Vec<Fate>);

fn number(unit: &[u8]) -> usize {
    unit.iter().fold(0, |number, byte| number << 8 | usize::from(*byte))
}

impl Codec {
    pub fn of(oracle: &mut Side) -> Self {
        let bytes = (0..=255).map(|byte: u8| vec![byte]);
        let pairs = (0x100..=u16::MAX).map(|pair| pair.to_be_bytes().to_vec());
        let units: Vec<_> = bytes.chain(pairs).collect();
        let lines: Vec<_> = units.iter().map(|unit| format!("codec {}", hex(unit))).collect();
        let fates = oracle.ask(&lines).into_iter().map(|answer| match answer.as_str() {
            "ok same" => Fate::Same,
            "ok none" => Fate::Unwritten,
            "ok unknown" => Fate::Unknown,
            _ => Fate::Other,
        });
        Self(fates.collect())
    }

    fn fate(&self, unit: &[u8]) -> Fate {
        self.0[number(unit)]
    }

    /// The entry for a name or path that does not come back, or that comes back although the rules have no such name.
    pub fn class(&self, text: &[u8]) -> Option<Class> {
        let class = |unit| match (rules::fit(unit), self.fate(unit)) {
            (true, Fate::Same) => None,
            (false, Fate::Unknown) => Some(Class::NotText),
            (true, Fate::Unknown) => Some(Class::UnknownPair),
            (true, Fate::Unwritten) => Some(Class::UnwrittenPair),
            (true, Fate::Other) => Some(Class::OtherPair),
            (false, _) => Some(Class::NameBytes),
        };
        rules::units(text).filter_map(class).min()
    }

    /// Whether the original reads a text from these bytes.
    pub fn reads(&self, text: &[u8]) -> bool {
        rules::units(text).all(|unit| self.fate(unit) != Fate::Unknown)
    }
}

/// The `n`-th pair from a lead byte on.
fn pair(lead: u8, n: usize) -> Vec<u8> {
    let trails: Vec<u8> = (0x40..=0x7e).chain(0x80..=0xfc).collect();
    vec![lead + (n / trails.len()) as u8, trails[n % trails.len()]]
}

/// Lead bytes that the stand-ins are taken from; all their pairs come back.
const STAND_INS: RangeInclusive<u8> = 0x99..=0x9f;
/// Pairs that are read and not written: each stands for a byte that no name may hold.
const UNFIT: u8 = 0xf0;

#[derive(Clone, Default)]
pub struct StandIns {
    by_unit: BTreeMap<Vec<u8>, Vec<u8>>,
    /// Pairs that were met as they are, and stand for no other.
    met: BTreeSet<Vec<u8>>,
}

impl StandIns {
    fn of(&mut self, codec: &Codec, unit: &[u8]) -> Vec<u8> {
        if !rules::fit(unit) {
            return pair(UNFIT, unit[0].into());
        }
        if let Some(other) = self.by_unit.get(unit) {
            return other.clone();
        }
        let taken = |unit: &[u8]| self.by_unit.values().any(|other| other == unit);
        if codec.fate(unit) == Fate::Same && !taken(unit) {
            return unit.to_vec();
        }
        let free = |other: &Vec<u8>| !taken(other) && !self.met.contains(other);
        let mut pairs = (0..).map(|n| pair(*STAND_INS.start(), n));
        let other = pairs.find(free).filter(|other| STAND_INS.contains(&other[0])).unwrap();
        self.by_unit.insert(unit.to_vec(), other.clone());
        other
    }

    /// The text that the original is asked about, in bytes.
    pub fn twin(&mut self, codec: &Codec, text: &[u8]) -> Vec<u8> {
        let reserved = |unit: &&[u8]| unit.len() == 2 && STAND_INS.contains(&unit[0]);
        for unit in rules::units(text).filter(reserved) {
            if !self.by_unit.values().any(|other| other == unit) {
                self.met.insert(unit.to_vec());
            }
        }
        rules::units(text).flat_map(|unit| self.of(codec, unit)).collect()
    }

    /// The text that a twin stands for.
    pub fn back(&self, twin: &[u8]) -> Vec<u8> {
        let of = |unit: &[u8]| {
            let found = self.by_unit.iter().find(|(_, other)| *other == unit);
            found.map_or(unit, |(unit, _)| unit).to_vec()
        };
        if self.by_unit.is_empty() {
            twin.to_vec()
        } else {
            rules::units(twin).flat_map(of).collect()
        }
    }

    /// The same for all names of an image.
    pub fn image_back(&self, twin: &[u8]) -> Vec<u8> {
        let mut image = twin.to_vec();
        for name in rules::names(twin) {
            image[name.clone()].copy_from_slice(&self.back(&twin[name]));
        }
        image
    }
}

/// The texts of an image with names that do not come back: as they are, and with stand-ins.
pub struct Others {
    pub class: Class,
    at: usize,
    real: Vec<u8>,
    twin: Vec<u8>,
}

/// Names that do not come back and share bytes such that no stand-ins serve for all of them; their entry.
pub struct Mixed(pub Class);

impl Others {
    pub fn of(
        codec: &Codec,
        stand_ins: &mut StandIns,
        image: &[u8],
        tree: &Tree,
    ) -> Result<Option<Self>, Mixed> {
        let names = rules::names(image);
        let class = names.iter().filter_map(|name| codec.class(&image[name.clone()])).min();
        let Some(class) = class else { return Ok(None) };
        let mut twin = image.to_vec();
        let twins: Vec<_> =
            names.iter().map(|name| stand_ins.twin(codec, &image[name.clone()])).collect();
        for (name, text) in names.iter().zip(&twins).filter(|(name, text)| name.len() == text.len())
        {
            twin[name.clone()].copy_from_slice(text);
        }
        if names.iter().zip(&twins).any(|(name, text)| twin[name.clone()] != text[..]) {
            return Err(Mixed(class));
        }
        let at = tree.fst_offset as usize + 12 * tree.entries.len();
        let texts = at..tree.table_end() as usize;
        let (real, twin) = (image[texts.clone()].to_vec(), twin[texts].to_vec());
        Ok(Some(Self { class, at, real, twin }))
    }

    /// The command that puts the texts as they are into the image.
    pub fn real(&self) -> String {
        format!("patch {:#x} {}", self.at, hex(&self.real))
    }

    /// The command that puts the stand-ins into the image.
    pub fn twin(&self) -> String {
        format!("patch {:#x} {}", self.at, hex(&self.twin))
    }
}
