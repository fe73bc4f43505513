//! Process directory and process context (003, Process-Directory-Table; 01, Directories).

use crate::device::{mode, page_number, DeviceContext};
use crate::file::read;
use crate::mark::{Field, Point, Setting, Walk};
use crate::paging;
use crate::scheme::{self, is_mode};
use crate::task::{first_broken, Task};
use crate::types::{bit, bits, page_address, Stage, Step};
use crate::windows::Table;

/// The two doublewords of a process context.
#[derive(Clone, Copy, Debug, PartialEq, Eq)]
pub struct ProcessContext {
    pub ta: u64,
    pub fsc: u64,
}

impl ProcessContext {
    /// ta bit 1: supervisor requests are allowed.
    pub fn ens(&self) -> bool {
        bit(self.ta, 1)
    }

    /// ta bit 2: supervisor requests may read and write pages with U = 1 (003, Process-context,
    /// translation attributes; 02, Req 02).
    pub fn sum(&self) -> bool {
        bit(self.ta, 2)
    }
}

/// 01, Directories: PDI[0], PDI[1], PDI[2].
pub fn indices(process_id: u64) -> [u64; 3] {
    [
        bits(process_id, 7, 0),
        bits(process_id, 16, 8),
        bits(process_id, 19, 17),
    ]
}

/// 003, Process to locate the Process-context, step 1: the level count of PD8, PD17, PD20.
pub fn levels(pdtp_mode: u64) -> usize {
    match pdtp_mode {
        1 => 1,
        2 => 2,
        _ => 3,
    }
}

/// 003, Process to translate an IOVA, step 7, conditions 2 and 3.
pub fn check_request(task: &mut Task, context: &DeviceContext) -> Step<()> {
    let Some(process_id) = task.request.process_id else {
        return Ok(());
    };
    let pdtp_mode = context.pdtp_mode();
    let broken = first_broken(&[
        (!context.pdtv(), Point::F260ProcessWithoutPdtv),
        (pdtp_mode == 1 && process_id >= 1 << 8, Point::F260Pd8),
        (pdtp_mode == 2 && process_id >= 1 << 17, Point::F260Pd17),
    ]);
    match broken {
        Some(point) => task.end(point, 260, Stage::Directory),
        None => Ok(()),
    }
}

/// 003, Process to locate the Process-context.
pub fn locate(task: &mut Task, context: &DeviceContext, process_id: u64) -> Step<ProcessContext> {
    let pdi = indices(process_id);
    // Step 1.
    let mut a = page_address(page_number(context.fsc));
    let mut i = levels(context.pdtp_mode()) - 1;
    // Steps 2 to 9; step 2's PDI[2] is read as PDI[i] (D14).
    while i != 0 {
        let place = translate(task, context, a + pdi[i] * 8)?;
        a = page_address(load_non_leaf(task, place)?);
        i -= 1;
    }
    // Steps 2 and 3 for the leaf, then 10 to 13.
    let place = translate(task, context, a + pdi[0] * 16)?;
    load_context(task, place)
}

/// 003, Process to locate the Process-context, step 3: a is a guest address.
fn translate(task: &mut Task, context: &DeviceContext, a: u64) -> Step<u64> {
    let Some(second) = context.second_stage() else {
        task.note(Point::ProcessPhysical);
        return Ok(a);
    };
    task.note(Point::ProcessGuest);
    let page = paging::walk_second(task, &second, Walk::SecondForProcess, None, a)?;
    Ok(page.address)
}

/// 003, Process to locate the Process-context, steps 5 to 9: one non-leaf entry's page number.
fn load_non_leaf(task: &mut Task, address: u64) -> Step<u64> {
    // Step 5.
    let Some(pdte) = task.load(Table::ProcessPointer, address) else {
        return task.end(Point::F265NonLeaf, 265, Stage::ProcessDirectory);
    };
    // Step 7.
    if !bit(pdte, 0) {
        return task.end(Point::F266NonLeaf, 266, Stage::ProcessDirectory);
    }
    // Step 8.
    let broken = first_broken(&[
        (bits(pdte, 9, 1) != 0, Point::F267NonLeafLow),
        (bits(pdte, 63, 54) != 0, Point::F267NonLeafHigh),
    ]);
    if let Some(point) = broken {
        return task.end(point, 267, Stage::ProcessDirectory);
    }
    // Step 9.
    Ok(bits(pdte, 53, 10))
}

/// 003, Process to locate the Process-context, steps 10 to 13.
fn load_context(task: &mut Task, address: u64) -> Step<ProcessContext> {
    // Step 10.
    let Some(entry) = task.entry(Table::ProcessContext, address, 16) else {
        return task.end(Point::F265Context, 265, Stage::ProcessDirectory);
    };
    let [ta, fsc] = [read(entry), read(&entry[8..])];
    // Step 11.
    if !bit(ta, 0) {
        return task.end(Point::F266Context, 266, Stage::ProcessDirectory);
    }
    let context = ProcessContext { ta, fsc };
    // Step 12.
    let broken = misconfigured(&context);
    let field = Field::Mode(Setting::ProcessFsc, mode(fsc));
    task.note_fields(&[(field, Point::F267FscMode)], broken);
    if let Some(point) = broken {
        return task.end(point, 267, Stage::ProcessDirectory);
    }
    Ok(context)
}

/// 003, Process-context configuration checks, at the fixed capabilities.
pub fn misconfigured(context: &ProcessContext) -> Option<Point> {
    let valid = is_mode(&scheme::FIRST, mode(context.fsc));
    first_broken(&[
        // Check 1.
        (bits(context.ta, 11, 3) != 0, Point::F267TaLow),
        (bits(context.ta, 63, 32) != 0, Point::F267TaHigh),
        (bits(context.fsc, 59, 44) != 0, Point::F267FscReserved),
        // Checks 2 and 3.
        (!valid, Point::F267FscMode),
    ])
}
