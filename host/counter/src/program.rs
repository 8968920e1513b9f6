//! The program (main.dol): where it lies on the disc, before the table or behind it.

use crate::disc::{not_opened, table_end};
use crate::failure::Outcome;
use crate::image::{Desk, Image};
use crate::json::Json;
use crate::text::grouped;
use counter_sys::{self as counter, Opened, Region};

#[derive(Clone, Copy)]
pub struct Program {
    pub place: Region,
    /// There it is a used region of its own; before the table it counts with all that lies there.
    pub behind: bool,
}

impl Program {
    /// None where the image names no program.
    pub fn read(image: &Image, desk: &mut Desk, opened: &Opened) -> Outcome<Option<Program>> {
        let place = counter::program(image.bytes(), &mut desk.lend())
            .map_err(|number| not_opened(image, number))?;
        Ok(place.map(|place| Program::at(place, table_end(opened))))
    }

    pub fn at(place: Region, table_end: u64) -> Program {
        Program { place, behind: u64::from(place.offset) >= table_end }
    }

    pub fn words(&self) -> String {
        let side = if self.behind { "behind" } else { "before" };
        let (offset, size) = (self.place.offset, grouped(self.place.size.into()));
        format!("{size} bytes at {offset:#x}, {side} the table")
    }
}

impl From<Program> for Json {
    fn from(program: Program) -> Json {
        Json::Object(vec![
            ("offset", program.place.offset.into()),
            ("size", program.place.size.into()),
            ("behind_table", program.behind.into()),
        ])
    }
}
