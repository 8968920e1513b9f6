//! The banner of a disc, /opening.bnr: the titles that the console's menu shows, as YAGCD has them.

use crate::header::Header;
use crate::image::{Desk, Image};
use crate::json::Json;
use crate::names;
use counter_sys::{self as counter, Entry};

/// Where the titles begin, and how long each is: short title, short maker, long title, long maker, comment. A
/// banner BNR2 has six such groups, one a language; the first is the English one.
const TITLES: usize = 0x1820;
const LENGTHS: [usize; 5] = [0x20, 0x20, 0x40, 0x40, 0x80];

pub struct Banner {
    kind: &'static str,
    /// Without what follows their first zero byte.
    texts: [String; 5],
}

impl Banner {
    /// None where there is no file of that name, or where it is no banner.
    pub fn read(image: &Image, desk: &mut Desk, header: &Header) -> Option<Banner> {
        let found = counter::lookup(image.bytes(), &mut desk.lend(), 0, b"/opening.bnr").ok()?;
        let Entry::File { offset, size, .. } = found else { return None };
        let bytes = image.bytes().get(offset as usize..)?.get(..size as usize)?;
        let kind = match bytes.get(..4)? {
            b"BNR1" => "BNR1",
            b"BNR2" => "BNR2",
            _ => return None,
        };
        // A disc for Japan has its titles in Shift-JIS, any other in Latin-1.
        let japanese = kind == "BNR1" && header.bytes(3, 1) == b"J";
        let mut rest = bytes.get(TITLES..).unwrap_or_default();
        let texts = LENGTHS.map(|length| {
            let (text, behind) = rest.split_at(length.min(rest.len()));
            rest = behind;
            let text = text.split(|&b| b == 0).next().unwrap_or_default();
            if japanese { names::text(text) } else { names::latin(text) }
        });
        Some(Banner { kind, texts })
    }

    /// The long title, or the short one where there is none.
    pub fn title(&self) -> Option<&str> {
        [&self.texts[2], &self.texts[0]]
            .map(|text| text.trim())
            .into_iter()
            .find(|text| !text.is_empty())
    }

    /// The maker in the same way.
    pub fn maker(&self) -> Option<&str> {
        [&self.texts[3], &self.texts[1]]
            .map(|text| text.trim())
            .into_iter()
            .find(|text| !text.is_empty())
    }
}

impl From<Banner> for Json {
    fn from(banner: Banner) -> Json {
        const NAMES: [&str; 5] =
            ["short_title", "short_maker", "long_title", "long_maker", "comment"];
        let texts = NAMES.into_iter().zip(banner.texts.map(Json::from));
        Json::Object([("kind", banner.kind.into())].into_iter().chain(texts).collect())
    }
}
