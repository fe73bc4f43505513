//! Messages (003, Process to translate addresses of MSIs; 000, 8.1.4 and 8.1.5; 01, Messages).

use crate::device::DeviceContext;
use crate::file::read;
use crate::mark::Point;
use crate::task::{first_broken, Task};
use crate::types::{bit, bits, page_address, Access, Stage, Step};
use crate::windows::Table;

/// What a valid message entry says.
#[derive(Clone, Copy, Debug, PartialEq, Eq)]
pub enum MessageEntry {
    /// M = 3: the page that takes the guest page's place.
    Redirect { page: u64 },
    /// M = 1: a memory-resident interrupt file, and its notice.
    File {
        file: u64,
        notice_address: u64,
        notice_number: u64,
    },
}

/// A valid message entry, and where it lies.
#[derive(Clone, Copy, Debug, PartialEq, Eq)]
pub struct Located {
    /// The address of its first byte (02, Req 06).
    pub address: u64,
    pub entry: MessageEntry,
}

/// 000, 8.1.4: the guest page number equals the pattern in every bit where the mask is zero.
pub fn recognised(guest: u64, mask: u64, pattern: u64) -> bool {
    (guest >> 12) & !mask == pattern & !mask
}

/// 000, 8.1.4: extract(value, mask) packs the masked bits, order kept.
pub fn extract(value: u64, mask: u64) -> u64 {
    let mut result = 0;
    let mut count = 0;
    for place in 0..64 {
        if bit(mask, place) {
            result |= bits(value, place, place) << count;
            count += 1;
        }
    }
    result
}

/// How the ones of a mask stand, for coverage.
fn packed(mask: u64) -> Point {
    let runs =
        (0..64).filter(|place| bit(mask, *place) && (*place == 63 || !bit(mask, *place + 1)));
    match (runs.count(), mask.count_ones()) {
        (0, _) => Point::PackedNone,
        (1, 47) => Point::PackedAll,
        (1, _) => Point::PackedOneRun,
        (2..=7, _) => Point::PackedFewRuns,
        _ => Point::PackedManyRuns,
    }
}

/// 000, 8.1.5; 01, Messages: the alignment that a table under this mask needs.
pub fn alignment(mask: u64) -> u128 {
    let entries = 1u128 << mask.count_ones();
    (16 * entries).max(4_096)
}

/// 003, Process to translate addresses of MSIs, steps 5 to 15, for a recognised address.
pub fn locate(task: &mut Task, context: &DeviceContext, guest: u64) -> Step<Located> {
    // Steps 5 and 6.
    let number = extract(guest >> 12, context.mask);
    let table = context.message_table();
    // 01, Messages: a misaligned table is 263 without a load.
    if !u128::from(table).is_multiple_of(alignment(context.mask)) {
        return task.end(Point::F263Table, 263, Stage::MessageTable);
    }
    task.note(packed(context.mask));
    let address = table + 16 * number;
    let entry = load_entry(task, address)?;
    // Step 15.
    if task.request.access == Access::ReadForExecute {
        let point = match entry {
            MessageEntry::Redirect { .. } => Point::ExecuteAtRedirect,
            MessageEntry::File { .. } => Point::ExecuteAtFile,
        };
        return task.end(point, 1, Stage::MessageTable);
    }
    Ok(Located { address, entry })
}

/// 003, Process to translate addresses of MSIs, steps 7 to 14.
fn load_entry(task: &mut Task, address: u64) -> Step<MessageEntry> {
    // Step 7.
    let Some(entry) = task.entry(Table::Message, address, 16) else {
        return task.end(Point::F261, 261, Stage::MessageTable);
    };
    let [first, second] = [read(entry), read(&entry[8..])];
    // Step 9.
    if !bit(first, 0) {
        return task.end(Point::F262, 262, Stage::MessageTable);
    }
    // Step 10: custom entries are out (01, Messages).
    if bit(first, 63) {
        return task.end(Point::F263Custom, 263, Stage::MessageTable);
    }
    match bits(first, 2, 1) {
        // Step 12.
        0 => task.end(Point::F263Mode0, 263, Stage::MessageTable),
        2 => task.end(Point::F263Mode2, 263, Stage::MessageTable),
        3 => redirect_entry(task, first),
        _ => file_entry(task, first, second),
    }
}

/// 003, step 13; 000, 8.1.5.1: basic translate mode.
fn redirect_entry(task: &mut Task, first: u64) -> Step<MessageEntry> {
    let broken = first_broken(&[
        (bits(first, 9, 3) != 0, Point::F263Mode3Low),
        (bits(first, 62, 54) != 0, Point::F263Mode3High),
    ]);
    if let Some(point) = broken {
        return task.end(point, 263, Stage::MessageTable);
    }
    let page = page_address(bits(first, 53, 10));
    Ok(MessageEntry::Redirect { page })
}

/// 003, step 14; 000, 8.1.5.2: memory-resident interrupt file mode.
fn file_entry(task: &mut Task, first: u64, second: u64) -> Step<MessageEntry> {
    let broken = first_broken(&[
        (bits(first, 6, 3) != 0, Point::F263Mode1Low),
        (bits(first, 62, 54) != 0, Point::F263Mode1High),
        (bits(second, 59, 54) != 0, Point::F263SecondMiddle),
        (bits(second, 63, 61) != 0, Point::F263SecondHigh),
    ]);
    if let Some(point) = broken {
        return task.end(point, 263, Stage::MessageTable);
    }
    Ok(MessageEntry::File {
        file: bits(first, 53, 7) * 512,
        notice_address: page_address(bits(second, 53, 10)),
        notice_number: bits(second, 60, 60) << 10 | bits(second, 9, 0),
    })
}

/// 000, 8.1.5.2; 01, Messages: the identity that an access stores, or why it is discarded.
pub fn identity_to_store(
    access: Access,
    length: u64,
    address: u64,
    data: u32,
) -> Result<u64, Point> {
    let offset = address % 4_096;
    if access != Access::Write {
        return Err(Point::DiscardRead);
    }
    if length != 4 {
        return Err(Point::DiscardLength);
    }
    if offset != 0 && offset != 4 {
        return Err(Point::DiscardOffset);
    }
    let identity = identity_of(address, data);
    match (identity <= 2_047, offset) {
        (true, _) => Ok(identity),
        (false, 0) => Err(Point::DiscardIdentity),
        (false, _) => Err(Point::DiscardIdentityBig),
    }
}

/// 01, The ledger: the data value, at page offset 4 with the four bytes reversed.
pub fn identity_of(address: u64, data: u32) -> u64 {
    match address % 4_096 {
        4 => u64::from(data.swap_bytes()),
        _ => u64::from(data),
    }
}
