//! Where the file of a message lies by the pages of its request's tables, for coverage (02, Req 06). It
//! is told from the loads, apart from the rule itself, so that a rule that is wrong gives a mark that
//! isn't in the table.

use std::cmp::Ordering::{Equal, Greater, Less};

use crate::mark::{named, Mark, Point};
use crate::memory::Side;
use crate::task::Task;
use crate::windows::Table;

const PAGE: u64 = 4_096;

named!(
    /// What a message entry makes of an access, before any refusal.
    Message {
        Redirect = "redirected",
        Discard = "discarded",
        Store = "to be stored",
    }
);

named!(
    /// Where a page is, by the page of a table's entry.
    Beside {
        Same = "in its page",
        Below = "right below its page",
        Above = "right above its page",
        Apart = "elsewhere",
    }
);

impl Beside {
    fn of(page: u64, table: u64) -> Beside {
        match (page.cmp(&table), page.abs_diff(table)) {
            (Equal, _) => Beside::Same,
            (Less, 1) => Beside::Below,
            (Greater, 1) => Beside::Above,
            _ => Beside::Apart,
        }
    }
}

named!(
    /// The tables in whose page a refused store's file lies.
    Held {
        Context = "the device context's page",
        Entry = "the message entry's page",
        Both = "one page that holds both",
    }
);

named!(
    /// Where in the page of a table's entry the file of a refused store is.
    Within {
        Here = "in the 512 bytes that hold it",
        Lower = "below these",
        Higher = "above these",
        First = "at the page's start, it ends the page",
        Last = "at the page's end, it begins the page",
    }
);

impl Within {
    /// By the addresses of the file and of an entry of so many bytes in its page.
    fn of(file: u64, entry: u64, length: u64) -> Within {
        let [file, entry] = [file % PAGE, entry % PAGE];
        match (file / 512).cmp(&(entry / 512)) {
            Equal => Within::Here,
            Less if file == 0 && entry + length == PAGE => Within::First,
            Less => Within::Lower,
            Greater if file + 512 == PAGE && entry == 0 => Within::Last,
            Greater => Within::Higher,
        }
    }
}

/// The two tables whose pages count, each with the length of its entry.
const COUNTED: [(Table, u64); 2] = [(Table::DeviceContext, 64), (Table::Message, 16)];

/// The tables whose pages don't.
const UNCOUNTED: [Table; 5] = [
    Table::DevicePointer,
    Table::ProcessPointer,
    Table::ProcessContext,
    Table::FirstStage,
    Table::SecondStage,
];

/// Tells the observer of a message by the pages of the two tables: the file that its entry names, or
/// the page that it is redirected to, and whether it was refused with 2012.
pub fn tell(task: &mut Task, message: Message, place: u64, refused: bool) {
    let page = place / PAGE;
    let read = COUNTED.map(|(table, _)| task.trail.last_of(table));
    let [Some(context), Some(entry)] = read else {
        return;
    };
    let [context, entry] = [context, entry].map(|table| Beside::of(page, table / PAGE));
    (task.see)(Mark::Beside(message, context, entry, refused));
}

/// Tells the observer of a refused store: by which tables, in which window, and where in the page.
pub fn tell_refused(task: &mut Task, side: Side, file: u64, guest: u64) {
    let holds = COUNTED.map(|(table, length)| {
        let entry = task.trail.last_of(table)?;
        (entry / PAGE == file / PAGE).then(|| (table, Within::of(file, entry, length)))
    });
    for (table, within) in holds.into_iter().flatten() {
        (task.see)(Mark::Within(table, within));
    }
    let over = match holds {
        [Some(_), Some(_)] => Held::Both,
        [Some(_), None] => Held::Context,
        [None, _] => Held::Entry,
    };
    (task.see)(Mark::OverTables(over, side));
    task.note(match guest % PAGE {
        0 => Point::R2012At0,
        _ => Point::R2012At4,
    });
    if task.request.process_id.is_some() {
        task.note(Point::R2012Process);
    }
}

/// Tells the observer of a store into a page that holds other tables of the request: those that it
/// read, and the start of its message table.
pub fn tell_stored(task: &mut Task, file: u64, message_table: u64) {
    for table in UNCOUNTED {
        if task.trail.read_in(table, file / PAGE) {
            (task.see)(Mark::StoredIn(table));
        }
    }
    if message_table / PAGE == file / PAGE {
        task.note(Point::StoreInMessageTable);
    }
}

/// Every mark about files over tables, each with the outcome that it must have.
pub fn marks() -> Vec<Mark> {
    let mut marks = Vec::new();
    for &message in Message::ALL {
        for &context in Beside::ALL {
            for &entry in Beside::ALL {
                let over = context == Beside::Same || entry == Beside::Same;
                let refused = message == Message::Store && over;
                marks.push(Mark::Beside(message, context, entry, refused));
            }
        }
    }
    for &over in Held::ALL {
        let sides = Side::ALL.iter();
        marks.extend(sides.map(|side| Mark::OverTables(over, *side)));
    }
    for (table, _) in COUNTED {
        let places = Within::ALL.iter();
        marks.extend(places.map(|within| Mark::Within(table, *within)));
    }
    marks.extend(UNCOUNTED.map(Mark::StoredIn));
    marks
}
