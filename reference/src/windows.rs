//! Where the two windows lie, and where an address lies in them, for coverage (02, Req 05). It is told
//! from starts and lengths, apart from the rules themselves, so that a rule that is wrong gives a mark
//! that isn't in the table.

use std::cmp::Ordering::{Equal, Greater, Less};

use crate::mark::{named, Asked, Mark};
use crate::memory::{Memory, Side, Window};

named!(
    /// How the windows lie.
    Lie {
        BadFirst = "2001 by the first alone",
        BadSecond = "2001 by the second alone",
        BadBoth = "2001 by both",
        BothEmptyHere = "both empty, at one place",
        BothEmptyApart = "both empty, at two places",
        FirstEmptyBelow = "the first empty, below the second",
        FirstEmptyAtStart = "the first empty, at the second's start",
        FirstEmptyInside = "the first empty, inside the second",
        FirstEmptyAtEnd = "the first empty, at the second's end",
        FirstEmptyAbove = "the first empty, above the second",
        SecondEmptyBelow = "the second empty, below the first",
        SecondEmptyAtStart = "the second empty, at the first's start",
        SecondEmptyInside = "the second empty, inside the first",
        SecondEmptyAtEnd = "the second empty, at the first's end",
        SecondEmptyAbove = "the second empty, above the first",
        FirstThenSecond = "the second right after the first",
        SecondThenFirst = "the first right after the second",
        FirstBelow = "apart, the first below",
        SecondBelow = "apart, the second below",
        Same = "the same bytes in both",
        FirstInside = "the first inside the second",
        FirstInsideAtStart = "the first inside the second, one start",
        FirstInsideAtEnd = "the first inside the second, one end",
        SecondInside = "the second inside the first",
        SecondInsideAtStart = "the second inside the first, one start",
        SecondInsideAtEnd = "the second inside the first, one end",
        OnePageFirstBelow = "one page in both, the first below",
        OnePageSecondBelow = "one page in both, the second below",
        PagesFirstBelow = "some pages in both, the first below",
        PagesSecondBelow = "some pages in both, the second below",
    }
);

/// A window breaks 2001: not whole pages, or beyond the physical addresses.
fn is_bad(window: &Window) -> bool {
    let [start, length] = [u128::from(window.start), window.bytes.len() as u128];
    (start | length) & 0xFFF != 0
        || (start + length).saturating_sub(1) >> 56 != 0
        || start > 1 << 56
}

impl Lie {
    pub fn of(memory: &Memory) -> Lie {
        let (first, second) = (&memory.first, &memory.second);
        match (is_bad(first), is_bad(second)) {
            (true, true) => return Lie::BadBoth,
            (true, false) => return Lie::BadFirst,
            (false, true) => return Lie::BadSecond,
            (false, false) => {}
        }
        match (first.bytes.is_empty(), second.bytes.is_empty()) {
            (true, true) if first.start == second.start => Lie::BothEmptyHere,
            (true, true) => Lie::BothEmptyApart,
            (true, false) => Lie::first_empty(first.start, second),
            (false, true) => Lie::second_empty(second.start, first),
            (false, false) => Lie::of_ranges(range(first), range(second)),
        }
    }

    fn first_empty(start: u64, other: &Window) -> Lie {
        let (low, high) = range(other);
        match (start.cmp(&low), start.cmp(&high)) {
            (Less, _) => Lie::FirstEmptyBelow,
            (Equal, _) => Lie::FirstEmptyAtStart,
            (_, Less) => Lie::FirstEmptyInside,
            (_, Equal) => Lie::FirstEmptyAtEnd,
            (_, Greater) => Lie::FirstEmptyAbove,
        }
    }

    fn second_empty(start: u64, other: &Window) -> Lie {
        let (low, high) = range(other);
        match (start.cmp(&low), start.cmp(&high)) {
            (Less, _) => Lie::SecondEmptyBelow,
            (Equal, _) => Lie::SecondEmptyAtStart,
            (_, Less) => Lie::SecondEmptyInside,
            (_, Equal) => Lie::SecondEmptyAtEnd,
            (_, Greater) => Lie::SecondEmptyAbove,
        }
    }

    /// Two windows of whole pages, neither of them empty, by their starts and ends.
    fn of_ranges((low, high): (u64, u64), (start, end): (u64, u64)) -> Lie {
        match (high.cmp(&start), end.cmp(&low)) {
            (Equal, _) => return Lie::FirstThenSecond,
            (_, Equal) => return Lie::SecondThenFirst,
            (Less, _) => return Lie::FirstBelow,
            (_, Less) => return Lie::SecondBelow,
            (Greater, Greater) => {}
        }
        match (low.cmp(&start), high.cmp(&end)) {
            (Equal, Equal) => Lie::Same,
            (Equal, Less) => Lie::FirstInsideAtStart,
            (Greater, Equal) => Lie::FirstInsideAtEnd,
            (Greater, Less) => Lie::FirstInside,
            (Equal, Greater) => Lie::SecondInsideAtStart,
            (Less, Equal) => Lie::SecondInsideAtEnd,
            (Less, Greater) => Lie::SecondInside,
            (Less, Less) if high - start == 4_096 => Lie::OnePageFirstBelow,
            (Less, Less) => Lie::PagesFirstBelow,
            (Greater, Greater) if end - low == 4_096 => Lie::OnePageSecondBelow,
            (Greater, Greater) => Lie::PagesSecondBelow,
        }
    }

    /// What 2001 and 2011 say of it: the refusal, or 0.
    fn refusal(self) -> u64 {
        match self {
            Lie::BadFirst | Lie::BadSecond | Lie::BadBoth => 2001,
            Lie::Same
            | Lie::FirstInside
            | Lie::FirstInsideAtStart
            | Lie::FirstInsideAtEnd
            | Lie::SecondInside
            | Lie::SecondInsideAtStart
            | Lie::SecondInsideAtEnd
            | Lie::OnePageFirstBelow
            | Lie::OnePageSecondBelow
            | Lie::PagesFirstBelow
            | Lie::PagesSecondBelow => 2011,
            _ => 0,
        }
    }
}

/// Start and end of a window that 2001 allows.
fn range(window: &Window) -> (u64, u64) {
    (window.start, window.start + window.bytes.len() as u64)
}

named!(
    /// Where an entry or a file is.
    Place {
        First = "in the first window",
        Second = "in the second window",
        Neither = "in neither window",
    }
);

impl Place {
    /// Where an address is, of windows that don't overlap.
    pub fn of(memory: &Memory, address: u64) -> Place {
        let inside = |window: &Window| {
            let from_start = address.checked_sub(window.start);
            from_start.is_some_and(|offset| offset < window.bytes.len() as u64)
        };
        match (inside(&memory.first), inside(&memory.second)) {
            (true, _) => Place::First,
            (_, true) => Place::Second,
            _ => Place::Neither,
        }
    }

    /// The window in which something there is to be found.
    fn side(self) -> Option<Side> {
        match self {
            Place::First => Some(Side::First),
            Place::Second => Some(Side::Second),
            Place::Neither => None,
        }
    }
}

named!(
    /// The tables whose entries are loaded.
    Table {
        DevicePointer = "device directory pointer",
        DeviceContext = "device context",
        ProcessPointer = "process directory pointer",
        ProcessContext = "process context",
        FirstStage = "first-stage entry",
        SecondStage = "second-stage entry",
        Message = "message entry",
    }
);

impl Table {
    /// The tables that may be read right after this one.
    fn next(self) -> &'static [Table] {
        use Table::*;
        match self {
            DevicePointer => &[DevicePointer, DeviceContext],
            // The process directory's root, the first stage's or a message's entry; the second stage
            // comes first where it is on.
            DeviceContext => &[
                ProcessPointer,
                ProcessContext,
                FirstStage,
                SecondStage,
                Message,
            ],
            ProcessPointer => &[ProcessPointer, ProcessContext, SecondStage],
            // Messages need a second stage, so that their entry comes right after a process context
            // only where its first stage is Bare.
            ProcessContext => &[FirstStage, SecondStage, Message],
            FirstStage => &[FirstStage, SecondStage, Message],
            // The last second-stage entry leads to another table's entry, or ends the walk.
            SecondStage => &[SecondStage, ProcessPointer, ProcessContext, FirstStage],
            Message => &[],
        }
    }
}

named!(
    /// What a file is looked for.
    Purpose {
        Store = "store",
        Take = "take",
        TakeMany = "take of many",
        Report = "report",
    }
);

named!(
    /// The windows in which a request found its tables.
    Over {
        First = "tables in the first window",
        Second = "tables in the second window",
        ToSecond = "tables in both windows, from the first on",
        ToFirst = "tables in both windows, from the second on",
    }
);

/// The loads of one request so far.
#[derive(Clone, Default)]
pub struct Trail {
    last: Option<(Table, Side)>,
    over: Option<Over>,
    /// The tables, and the addresses of the entries that were found.
    loads: Vec<(Table, u64)>,
}

impl Trail {
    /// Keeps a load; gives the step from the last one to it, where it leads from window to window.
    pub fn step(&mut self, table: Table, address: u64, found: Option<Side>) -> Option<Mark> {
        let side = found?;
        self.loads.push((table, address));
        let before = self.last.replace((table, side));
        self.over = match (self.over, side) {
            (None | Some(Over::First), Side::First) => Some(Over::First),
            (None | Some(Over::Second), Side::Second) => Some(Over::Second),
            (Some(Over::First), Side::Second) => Some(Over::ToSecond),
            (Some(Over::Second), Side::First) => Some(Over::ToFirst),
            (both, _) => both,
        };
        let (from, left) = before?;
        (left != side).then_some(Mark::Crossed(from, table, left))
    }

    /// The window of the last load.
    pub fn last(&self) -> Option<Side> {
        self.last.map(|(_, side)| side)
    }

    pub fn over(&self) -> Option<Over> {
        self.over
    }

    /// The tables and addresses of the entries that were found, in order.
    pub fn loads(&self) -> &[(Table, u64)] {
        &self.loads
    }

    /// The address of the last entry of a table that was found.
    pub fn last_of(&self, table: Table) -> Option<u64> {
        let mut loads = self.loads.iter().rev();
        loads.find(|load| load.0 == table).map(|load| load.1)
    }

    /// Whether an entry of a table was found in a page, given by its number.
    pub fn read_in(&self, table: Table, page: u64) -> bool {
        let mut loads = self.loads.iter();
        loads.any(|load| load.0 == table && load.1 / 4_096 == page)
    }
}

/// Every mark about the windows, each with the outcome that it must have.
pub fn marks() -> Vec<Mark> {
    let mut marks = Vec::new();
    for &asked in Asked::ALL {
        let lies = Lie::ALL.iter();
        marks.extend(lies.map(|lie| Mark::Windows(asked, *lie, lie.refusal())));
    }
    for &table in Table::ALL {
        let places = Place::ALL.iter();
        marks.extend(places.map(|place| Mark::Load(table, *place, place.side())));
    }
    for &table in Table::ALL {
        for &next in table.next() {
            marks.extend(
                Side::ALL
                    .iter()
                    .map(|side| Mark::Crossed(table, next, *side)),
            );
        }
    }
    for &purpose in Purpose::ALL {
        let places = Place::ALL.iter();
        marks.extend(places.map(|place| Mark::File(purpose, *place, place.side())));
    }
    for &entry in Side::ALL {
        marks.extend(Side::ALL.iter().map(|file| Mark::Message(entry, *file)));
    }
    for answer in 0..4 {
        marks.extend(Over::ALL.iter().map(|over| Mark::Ended(answer, *over)));
    }
    marks
}
