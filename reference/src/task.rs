//! What every step of one request works on.

use crate::file::read;
use crate::mark::{Field, Mark, Point, See};
use crate::memory::Memory;
use crate::types::{fault, Request, Stage, Step};
use crate::windows::{Place, Table, Trail};

pub struct Task<'a> {
    pub memory: &'a Memory,
    pub request: Request,
    pub see: See<'a>,
    pub trail: Trail,
}

impl<'a> Task<'a> {
    /// 02, Req 05: an entry's bytes as a part of whichever window holds it, none where neither does;
    /// the observer is told where it was, and where it was found.
    pub fn entry(&mut self, table: Table, address: u64, length: u64) -> Option<&'a [u8]> {
        let found = self.memory.holder(address, length);
        let place = Place::of(self.memory, address);
        (self.see)(Mark::Load(table, place, found));
        if let Some(step) = self.trail.step(table, address, found) {
            (self.see)(step);
        }
        self.memory.window(found?).part(address, length)
    }

    /// An entry of one doubleword.
    pub fn load(&mut self, table: Table, address: u64) -> Option<u64> {
        self.entry(table, address, 8).map(read)
    }

    /// Tells the observer of a mark that stands alone.
    pub fn note(&mut self, point: Point) {
        (self.see)(Mark::Point(point));
    }

    /// Tells the observer of fields: accepted where nothing of their context is broken, refused
    /// where the broken check is the field's own.
    pub fn note_fields(&mut self, fields: &[(Field, Point)], broken: Option<Point>) {
        for (field, check) in fields {
            if broken.is_none() || broken == Some(*check) {
                (self.see)(Mark::Field(*field, broken.is_none()));
            }
        }
    }

    /// Ends the step with a fault, and tells the observer which check gave it.
    pub fn end<T>(&mut self, point: Point, cause: u64, stage: Stage) -> Step<T> {
        self.note(point);
        fault(cause, stage)
    }
}

/// The first check of a row that is broken, if any.
pub fn first_broken(checks: &[(bool, Point)]) -> Option<Point> {
    checks
        .iter()
        .find(|(broken, _)| *broken)
        .map(|(_, point)| *point)
}
