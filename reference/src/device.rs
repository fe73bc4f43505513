//! Device directory and device context (003, Device-Directory-Table; 01, Directories).

use crate::file::read;
use crate::mark::{Field, Point, Setting, Word};
use crate::paging::{FirstStage, Root};
use crate::scheme::{self, is_mode, of_mode};
use crate::task::{first_broken, Task};
use crate::types::{bit, bits, page_address, Settings, Stage, Step};
use crate::windows::Table;

/// The eight doublewords of an extended device context, and where they lie.
#[derive(Clone, Copy, Debug, PartialEq, Eq)]
pub struct DeviceContext {
    /// The address of its first byte (02, Req 06).
    pub address: u64,
    pub tc: u64,
    pub iohgatp: u64,
    pub ta: u64,
    pub fsc: u64,
    pub msiptp: u64,
    pub mask: u64,
    pub pattern: u64,
    pub reserved: u64,
}

impl DeviceContext {
    /// tc bit 5: fsc holds a process-directory pointer.
    pub fn pdtv(&self) -> bool {
        bit(self.tc, 5)
    }

    /// tc bit 9: requests without a process_id use process 0.
    pub fn dpe(&self) -> bool {
        bit(self.tc, 9)
    }

    /// The mode of the process directory, with PDTV = 1.
    pub fn pdtp_mode(&self) -> u64 {
        mode(self.fsc)
    }

    /// The second stage; none where it is Bare.
    pub fn second_stage(&self) -> Option<Root> {
        of_mode(&scheme::SECOND, mode(self.iohgatp)).map(|scheme| Root {
            scheme,
            table: page_address(page_number(self.iohgatp)),
        })
    }

    /// The address of the message table.
    pub fn message_table(&self) -> u64 {
        page_address(page_number(self.msiptp))
    }

    /// msiptp's mode isn't Off.
    pub fn messages_on(&self) -> bool {
        mode(self.msiptp) != 0
    }
}

/// The page number in bits 43:0 of iohgatp, fsc and msiptp.
pub fn page_number(pointer: u64) -> u64 {
    bits(pointer, 43, 0)
}

/// The mode in bits 63:60 of iohgatp, fsc and msiptp.
pub fn mode(pointer: u64) -> u64 {
    bits(pointer, 63, 60)
}

/// The first stage that an fsc with an iosatp names, under a process context's SUM; none where it is
/// Bare.
pub fn first_stage(fsc: u64, sum: Option<bool>) -> Option<FirstStage> {
    let scheme = of_mode(&scheme::FIRST, mode(fsc))?;
    let root = Root {
        scheme,
        table: page_address(page_number(fsc)),
    };
    Some(FirstStage { root, sum })
}

/// 003, Process to translate an IOVA, step 4: DDI[0], DDI[1], DDI[2].
pub fn indices(device_id: u64) -> [u64; 3] {
    [
        bits(device_id, 5, 0),
        bits(device_id, 14, 6),
        bits(device_id, 23, 15),
    ]
}

/// 003, Process to locate the Device-context, step 1: the level count of a directory mode.
pub fn levels(directory_mode: u64) -> usize {
    match directory_mode {
        2 => 1,
        3 => 2,
        _ => 3,
    }
}

/// 003, Process to translate an IOVA, step 5: is the device_id wider than the mode allows?
pub fn check_width(task: &mut Task, levels: usize, ddi: &[u64; 3]) -> Step<()> {
    let broken = first_broken(&[
        (levels == 2 && ddi[2] != 0, Point::F260TwoLevelsDdi2),
        (levels == 1 && ddi[2] != 0, Point::F260OneLevelDdi2),
        (levels == 1 && ddi[1] != 0, Point::F260OneLevelDdi1),
    ]);
    match broken {
        Some(point) => task.end(point, 260, Stage::Directory),
        None => Ok(()),
    }
}

/// 003, Process to locate the Device-context.
pub fn locate(task: &mut Task, settings: &Settings) -> Step<DeviceContext> {
    let ddi = indices(task.request.device_id);
    // Step 1.
    let mut a = page_address(settings.root);
    let mut i = levels(settings.mode) - 1;
    // Steps 2 to 7.
    while i != 0 {
        a = page_address(load_non_leaf(task, a + ddi[i] * 8)?);
        i -= 1;
    }
    // Steps 8 to 11.
    load_context(task, a + ddi[0] * 64)
}

/// 003, Process to locate the Device-context, steps 3 to 7: one non-leaf entry's page number.
fn load_non_leaf(task: &mut Task, address: u64) -> Step<u64> {
    // Step 3.
    let Some(ddte) = task.load(Table::DevicePointer, address) else {
        return task.end(Point::F257NonLeaf, 257, Stage::Directory);
    };
    // Step 5.
    if !bit(ddte, 0) {
        return task.end(Point::F258NonLeaf, 258, Stage::Directory);
    }
    // Step 6.
    let broken = first_broken(&[
        (bits(ddte, 9, 1) != 0, Point::F259NonLeafLow),
        (bits(ddte, 63, 54) != 0, Point::F259NonLeafHigh),
    ]);
    if let Some(point) = broken {
        return task.end(point, 259, Stage::Directory);
    }
    // Step 7.
    Ok(bits(ddte, 53, 10))
}

/// 003, Process to locate the Device-context, steps 8 to 11.
fn load_context(task: &mut Task, address: u64) -> Step<DeviceContext> {
    // Step 8: a context lies in a window whole or not at all (D13).
    let Some(entry) = task.entry(Table::DeviceContext, address, 64) else {
        return task.end(Point::F257Context, 257, Stage::Directory);
    };
    let words: [u64; 8] = std::array::from_fn(|number| read(&entry[8 * number..]));
    // Step 9.
    if !bit(words[0], 0) {
        return task.end(Point::F258Context, 258, Stage::Directory);
    }
    let [tc, iohgatp, ta, fsc, msiptp, mask, pattern, reserved] = words;
    let context = DeviceContext {
        address,
        tc,
        iohgatp,
        ta,
        fsc,
        msiptp,
        mask,
        pattern,
        reserved,
    };
    // Step 10.
    let broken = misconfigured(&context);
    task.note_fields(&fields(&context), broken);
    if let Some(point) = broken {
        return task.end(point, 259, Stage::Directory);
    }
    Ok(context)
}

/// The fields that 02, Req 03, amends, each with the check that refuses it.
fn fields(context: &DeviceContext) -> [(Field, Point); 5] {
    let (setting, fsc_point) = match context.pdtv() {
        true => (Setting::Pdtp, Point::F259PdtpMode),
        false => (Setting::DeviceFsc, Point::F259FscMode),
    };
    let second = mode(context.iohgatp);
    let quarter = page_number(context.iohgatp) % 4;
    [
        (
            Field::Mode(Setting::Iohgatp, second),
            Point::F259IohgatpMode,
        ),
        (Field::Root(second, quarter), Point::F259IohgatpRoot),
        (Field::Mode(setting, mode(context.fsc)), fsc_point),
        (
            Field::Top(Word::Mask, context.mask.checked_ilog2()),
            Point::F259MaskReserved,
        ),
        (
            Field::Top(Word::Pattern, context.pattern.checked_ilog2()),
            Point::F259PatternReserved,
        ),
    ]
}

/// 003, Device-context configuration checks, at the fixed capabilities.
pub fn misconfigured(context: &DeviceContext) -> Option<Point> {
    misconfigured_tc(context)
        .or_else(|| misconfigured_second_stage(context))
        .or_else(|| misconfigured_first_stage(context))
        .or_else(|| misconfigured_messages(context))
}

/// Checks 1 to 7, 12, 18 to 21: in tc only V, DTF, PDTV and DPE may be set (01, Directories).
fn misconfigured_tc(context: &DeviceContext) -> Option<Point> {
    let tc = context.tc;
    first_broken(&[
        (bit(tc, 1), Point::F259TcEnAts),
        (bit(tc, 2), Point::F259TcEnPri),
        (bit(tc, 3), Point::F259TcT2gpa),
        (bit(tc, 6), Point::F259TcPrpr),
        (bit(tc, 7), Point::F259TcGade),
        (bit(tc, 8), Point::F259TcSade),
        (bit(tc, 10), Point::F259TcSbe),
        (bit(tc, 11), Point::F259TcSxl),
        (bits(tc, 23, 12) != 0, Point::F259TcReserved),
        (bits(tc, 31, 24) != 0, Point::F259TcCustom),
        (bits(tc, 63, 32) != 0, Point::F259TcHigh),
        (!context.pdtv() && context.dpe(), Point::F259DpeWithoutPdtv),
    ])
}

/// Checks 13, 14 and 17: iohgatp is Bare, or a scheme with its root on 16 KiB.
fn misconfigured_second_stage(context: &DeviceContext) -> Option<Point> {
    let on = mode(context.iohgatp) != 0;
    let valid = is_mode(&scheme::SECOND, mode(context.iohgatp));
    let root = page_address(page_number(context.iohgatp));
    first_broken(&[
        (!valid, Point::F259IohgatpMode),
        (on && !root.is_multiple_of(16_384), Point::F259IohgatpRoot),
    ])
}

/// Checks 1, 8, 9 and 10: ta and fsc.
fn misconfigured_first_stage(context: &DeviceContext) -> Option<Point> {
    let fsc_mode = mode(context.fsc);
    let iosatp = is_mode(&scheme::FIRST, fsc_mode);
    first_broken(&[
        (bits(context.ta, 11, 0) != 0, Point::F259TaLow),
        (bits(context.ta, 63, 32) != 0, Point::F259TaHigh),
        (bits(context.fsc, 59, 44) != 0, Point::F259FscReserved),
        (context.pdtv() && fsc_mode > 3, Point::F259PdtpMode),
        (!context.pdtv() && !iosatp, Point::F259FscMode),
    ])
}

/// The width of a mask and of a pattern. 003, MSI address mask and pattern: MGPAW is 59 where the
/// capability Sv57x4 is 1, whichever mode iohgatp has; page numbers are 12 bits narrower.
const MESSAGE_PAGE_BITS: u32 = 59 - 12;

/// Checks 1 and 16, the rule on msiptp with a Bare second stage, mask, pattern, eighth doubleword.
fn misconfigured_messages(context: &DeviceContext) -> Option<Point> {
    let second_bare = mode(context.iohgatp) == 0;
    first_broken(&[
        (bits(context.msiptp, 59, 44) != 0, Point::F259MsiptpReserved),
        (mode(context.msiptp) > 1, Point::F259MsiptpMode),
        (context.messages_on() && second_bare, Point::F259MsiptpBare),
        (
            context.mask >> MESSAGE_PAGE_BITS != 0,
            Point::F259MaskReserved,
        ),
        (
            context.pattern >> MESSAGE_PAGE_BITS != 0,
            Point::F259PatternReserved,
        ),
        (context.reserved != 0, Point::F259Eighth),
    ])
}
