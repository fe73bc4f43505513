//! The same job as the proved library, in plain safe Rust written for speed.
//!
//! A walk is a chain of loads, each at an address made of the entry loaded before: what can be computed
//! outside the chain is. An entry's bits are tested together under one mask; causes are computed only
//! where a fault is met.
//!
//! A request is translated in the window that holds the directory's root, as if it were the only one;
//! only where a load isn't in it, once more with both.

use crate::call::{Memory, Window};

/// The access of a request.
#[derive(Clone, Copy, Debug, PartialEq, Eq)]
#[repr(u8)]
pub enum Access {
    Read = 0,
    Write = 1,
    Execute = 2,
}

/// The stage that found a fault.
#[derive(Clone, Copy, Debug, PartialEq, Eq)]
#[repr(u8)]
pub enum Stage {
    Directory = 0,
    ProcessDirectory = 1,
    First = 2,
    Second = 3,
    MessageTable = 4,
}

#[derive(Clone, Copy, Debug)]
pub struct Request {
    pub device: u64,
    pub process: Option<u64>,
    pub supervisor: bool,
    pub access: Access,
    pub address: u64,
    pub length: u64,
    pub value: u32,
}

#[derive(Clone, Copy, Debug, PartialEq, Eq)]
pub enum Answer {
    Translated(u64),
    Redirected(u64),
    Stored { file: u64, notice: u64, number: u64 },
    Discarded,
    Fault { cause: u64, stage: Stage },
    Refused(u64),
    Taken(bool),
}

impl Answer {
    /// Kind, three values, stage.
    #[inline]
    pub fn numbers(self) -> [u64; 5] {
        match self {
            Answer::Translated(address) => [0, address, 0, 0, 0],
            Answer::Redirected(address) => [1, address, 0, 0, 0],
            Answer::Stored {
                file,
                notice,
                number,
            } => [2, file, notice, number, 0],
            Answer::Discarded => [3, 0, 0, 0, 0],
            Answer::Fault { cause, stage } => [4, cause, 0, 0, stage as u64],
            Answer::Refused(number) => [5, number, 0, 0, 0],
            Answer::Taken(pending) => [6, u64::from(pending), 0, 0, 0],
        }
    }
}

/// A fault in one word, so that a step's result goes in two registers: cause, stage above it.
type Fault = u64;

const fn fault(cause: u64, stage: Stage) -> Fault {
    cause | (stage as u64) << 32
}

/// Set in a fault where a load wasn't in the window: it may be in the other.
const LOAD: Fault = 1 << 63;

const STAGES: [Stage; 5] = [
    Stage::Directory,
    Stage::ProcessDirectory,
    Stage::First,
    Stage::Second,
    Stage::MessageTable,
];

const DDT_LOAD: Fault = LOAD | fault(257, Stage::Directory);
const DDT_INVALID: Fault = fault(258, Stage::Directory);
const DDT_MISCONFIGURED: Fault = fault(259, Stage::Directory);
const DISALLOWED: Fault = fault(260, Stage::Directory);
const PDT_LOAD: Fault = LOAD | fault(265, Stage::ProcessDirectory);
const PDT_INVALID: Fault = fault(266, Stage::ProcessDirectory);
const PDT_MISCONFIGURED: Fault = fault(267, Stage::ProcessDirectory);
const MSI_LOAD: Fault = LOAD | fault(261, Stage::MessageTable);
const MSI_INVALID: Fault = fault(262, Stage::MessageTable);
const MSI_MISCONFIGURED: Fault = fault(263, Stage::MessageTable);

#[inline]
fn access_fault(access: Access, stage: Stage) -> Fault {
    let cause = match access {
        Access::Read => 5,
        Access::Write => 7,
        Access::Execute => 1,
    };
    fault(cause, stage)
}

#[inline]
fn page_fault(access: Access) -> Fault {
    let cause = match access {
        Access::Read => 13,
        Access::Write => 15,
        Access::Execute => 12,
    };
    fault(cause, Stage::First)
}

#[inline]
fn guest_page_fault(access: Access) -> Fault {
    let cause = match access {
        Access::Read => 21,
        Access::Write => 23,
        Access::Execute => 20,
    };
    fault(cause, Stage::Second)
}

const PAGE_NUMBER: u64 = (1 << 44) - 1;

// Bits of a page-table entry.
const V: u64 = 1;
const R: u64 = 1 << 1;
const W: u64 = 1 << 2;
const X: u64 = 1 << 3;
const U: u64 = 1 << 4;
const A: u64 = 1 << 6;
const D: u64 = 1 << 7;
const HIGH: u64 = 0x3FF << 54;

/// The bits that tell an entry that leads to a table from every other one.
const KIND: u64 = HIGH | V | R | W | X | U | A | D;

/// The page that an entry names; bits 63:54 are 0 wherever it is used.
#[inline(always)]
fn page_of(entry: u64) -> u64 {
    entry << 2 & !0xFFF
}

/// What a leaf must have for an access; U is the stage's own.
#[inline]
fn needs(access: Access) -> u64 {
    // Reads and writes come mixed, so that a branch here would often be guessed wrong.
    static NEEDS: [u64; 3] = [V | R | A, V | R | W | A | D, V | X | A];
    NEEDS[access as usize]
}

/// What a leaf must have under a mask.
#[derive(Clone, Copy)]
struct Needs {
    mask: u64,
    value: u64,
}

impl Needs {
    /// Whether a leaf has them, and its page is aligned to the bits of an address that it keeps.
    #[inline(always)]
    fn met(self, entry: u64, page: u64, kept: u64) -> bool {
        entry & self.mask == self.value && entry & (R | W) != W && page & kept == 0
    }
}

/// How a walk fails; the caller knows the cause.
enum Broken {
    Load,
    Entry,
}

/// The leaf that a walk ended in: its page, and the bits of an address that it keeps.
#[derive(Clone, Copy)]
struct Leaf {
    page: u64,
    kept: u64,
}

impl Leaf {
    /// Where an address leads.
    #[inline(always)]
    fn target(self, address: u64) -> u64 {
        self.page + (address & self.kept)
    }
}

/// One walk from the root down; `read` gives the entry at a place of a table.
#[inline(always)]
fn walk<E: From<Broken>>(
    tables: Tables,
    root_index: u64,
    address: u64,
    needs: Needs,
    read: impl Fn(u64, u64) -> Result<u64, E>,
) -> Result<Leaf, E> {
    let Tables { root, mut shift } = tables;
    let (mut table, mut place) = (root, root_index * 8);
    loop {
        let entry = read(table, place)?;
        // Here, and not in each branch, so that it needn't wait for what the entry is.
        let page = page_of(entry);
        if entry & KIND == V && shift > 12 {
            shift -= 9;
            (table, place) = (page, (address >> shift & 0x1FF) * 8);
            continue;
        }
        let kept = (1 << shift) - 1;
        if needs.met(entry, page, kept) {
            return Ok(Leaf { page, kept });
        }
        return Err(Broken::Entry.into());
    }
}

/// Where tables are looked for.
trait Tabled: Copy {
    /// So many doublewords in a row from an address on.
    fn load_all<const N: usize>(self, address: u64) -> Option<[u64; N]>;

    /// The doubleword at a place of a table.
    fn word(self, table: u64, place: u64) -> Option<u64>;

    #[inline(always)]
    fn load(self, address: u64) -> Option<u64> {
        self.word(address, 0)
    }

    /// The entry at a place of a table.
    #[inline(always)]
    fn entry(self, table: u64, place: u64) -> Result<u64, Broken> {
        self.word(table, place).ok_or(Broken::Load)
    }

    /// The second stage's leaf for a guest address.
    #[inline(always)]
    fn second_leaf(self, tables: Tables, address: u64, need: u64) -> Result<Leaf, Broken> {
        let index = address >> tables.shift;
        if index > 0x7FF {
            return Err(Broken::Entry);
        }
        let needs = Needs {
            mask: HIGH | need | U,
            value: need | U,
        };
        walk(tables, index, address, needs, |table, place| {
            self.entry(table, place)
        })
    }

    /// A guest address, by the second stage.
    #[inline(always)]
    fn second_stage(self, tables: Tables, address: u64, need: u64) -> Result<u64, Broken> {
        let leaf = self.second_leaf(tables, address, need)?;
        Ok(leaf.target(address))
    }

    /// The first stage's leaf for an address; its tables lie at guest addresses where a second stage is.
    #[inline(always)]
    fn first_leaf(
        self,
        tables: Tables,
        second: Second,
        address: u64,
        needs: Needs,
    ) -> Result<Leaf, FirstBroken> {
        let index = address >> tables.shift & 0x1FF;
        let Some(guest) = second else {
            return walk(tables, index, address, needs, |table, place| {
                Ok(self.entry(table, place)?)
            });
        };
        walk(tables, index, address, needs, |table, place| {
            let place = table + place;
            let leaf = self
                .second_leaf(guest, place, V | R | A)
                .map_err(FirstBroken::Guest)?;
            Ok(self.entry(leaf.page, place & leaf.kept)?)
        })
    }
}

/// One window.
#[derive(Clone, Copy)]
struct One<'a> {
    start: u64,
    bytes: &'a [u8],
}

impl<'a> One<'a> {
    fn of(window: &'a Window) -> One<'a> {
        One {
            start: window.start,
            bytes: &window.bytes,
        }
    }
}

impl Tabled for One<'_> {
    #[inline(always)]
    fn load_all<const N: usize>(self, address: u64) -> Option<[u64; N]> {
        let distance = address.wrapping_sub(self.start);
        let (words, _) = self.bytes.get(distance as usize..)?.as_chunks();
        let words: &[[u8; 8]; N] = words.first_chunk()?;
        Some(words.map(u64::from_le_bytes))
    }

    #[inline(always)]
    fn word(self, table: u64, place: u64) -> Option<u64> {
        // The place is known before the table is, so that the start is taken off in time. An address
        // below the start is farther than the end.
        let distance = table.wrapping_add(place.wrapping_sub(self.start));
        let word = self.bytes.get(distance as usize..)?.first_chunk()?;
        Some(u64::from_le_bytes(*word))
    }
}

/// The window that holds the page of this number; the second where neither does.
#[inline(always)]
fn usual(memory: &Memory, page: u64) -> One<'_> {
    let first = One::of(&memory.first);
    if (page << 12).wrapping_sub(first.start) < first.bytes.len() as u64 {
        return first;
    }
    One::of(&memory.second)
}

/// Two windows.
#[derive(Clone, Copy)]
struct Both<'a>(One<'a>, One<'a>);

impl Tabled for Both<'_> {
    #[inline(always)]
    fn load_all<const N: usize>(self, address: u64) -> Option<[u64; N]> {
        let first = self.0.load_all(address);
        first.or_else(|| self.1.load_all(address))
    }

    #[inline(always)]
    fn word(self, table: u64, place: u64) -> Option<u64> {
        let first = self.0.word(table, place);
        first.or_else(|| self.1.word(table, place))
    }
}

/// The tables of one stage: the address of their root, and where its index begins in an address.
#[derive(Clone, Copy)]
struct Tables {
    root: u64,
    shift: u64,
}

impl Tables {
    /// Of an iohgatp or iosatp whose mode is 8, 9 or 10: three, four or five levels.
    #[inline]
    fn of(pointer: u64) -> Tables {
        Tables {
            root: (pointer & PAGE_NUMBER) << 12,
            shift: 30 + 9 * (pointer >> 60 & 3),
        }
    }
}

/// The second stage; none where it is Bare.
type Second = Option<Tables>;

/// One request. Never inlined: requests come one at a time, as calls do to the archive.
#[inline(never)]
pub fn request(memory: &mut Memory, mode: u64, root: u64, request: &Request) -> Answer {
    if let Some(number) = refusal(memory, mode, root, request) {
        return Answer::Refused(number);
    }
    let found = translate(usual(memory, root), mode, root, request);
    if found.is_err_and(|fault| fault & LOAD != 0) {
        return request_in_both(memory, mode, root, request);
    }
    answer(memory, request, found)
}

/// A request whose tables aren't all in the usual window.
#[cold]
#[inline(never)]
fn request_in_both(memory: &mut Memory, mode: u64, root: u64, request: &Request) -> Answer {
    let both = Both(One::of(&memory.first), One::of(&memory.second));
    let found = translate(both, mode, root, request);
    answer(memory, request, found)
}

/// What a request's translation leads to.
#[inline(always)]
fn answer(memory: &mut Memory, request: &Request, found: Result<Found, Fault>) -> Answer {
    match found {
        Ok(Found::Translated(address)) => Answer::Translated(address),
        Ok(Found::Redirected(address)) => Answer::Redirected(address),
        Ok(Found::Record(first, second)) => record(memory, request, first, second),
        Ok(Found::OverTables) => over_tables(request),
        Err(fault) => Answer::Fault {
            cause: fault & 0xFFFF_FFFF,
            stage: STAGES[(fault >> 32 & 7) as usize % 5],
        },
    }
}

/// Takes an interrupt of a file.
#[inline(never)]
pub fn take(memory: &mut Memory, file: u64, identity: u64) -> Answer {
    if let Some(number) = windows_refusal(memory) {
        return Answer::Refused(number);
    }
    if !file.is_multiple_of(512) {
        return Answer::Refused(2008);
    }
    let Some(bytes) = bytes_from(memory, file) else {
        return Answer::Refused(2008);
    };
    if identity > 2_047 {
        return Answer::Refused(2009);
    }
    let Some(byte) = bytes.get_mut(byte_of(identity)) else {
        return Answer::Refused(2008);
    };
    let bit = 1 << (identity % 8);
    let pending = *byte & bit != 0;
    *byte &= !bit;
    Answer::Taken(pending)
}

/// Takes the interrupts of a doubleword that are in a mask, by one load and one store; gives their bits,
/// or the refusal.
#[inline(never)]
pub fn take_many(memory: &mut Memory, file: u64, doubleword: u64, mask: u64) -> Result<u64, u64> {
    if let Some(number) = windows_refusal(memory) {
        return Err(number);
    }
    if !file.is_multiple_of(512) {
        return Err(2008);
    }
    let Some(bytes) = bytes_from(memory, file) else {
        return Err(2008);
    };
    if doubleword > 31 {
        return Err(2009);
    }
    let bytes = bytes.get_mut(16 * doubleword as usize..);
    let Some(word) = bytes.and_then(|bytes| bytes.first_chunk_mut()) else {
        return Err(2008);
    };
    let pending = u64::from_le_bytes(*word);
    *word = (pending & !mask).to_le_bytes();
    Ok(pending & mask)
}

/// The bytes of the window that holds a file, from the file on. Files lie on 512 bytes and windows are
/// whole pages: a file lies inside whole or not at all.
#[inline(always)]
fn bytes_from(memory: &mut Memory, file: u64) -> Option<&mut [u8]> {
    let Memory { first, second } = memory;
    let distance = file.wrapping_sub(first.start);
    if distance < first.bytes.len() as u64 {
        return first.bytes.get_mut(distance as usize..);
    }
    let distance = file.wrapping_sub(second.start);
    if distance < second.bytes.len() as u64 {
        return second.bytes.get_mut(distance as usize..);
    }
    None
}

/// The place in a file of the byte that holds an identity's pending bit.
#[inline]
fn byte_of(identity: u64) -> usize {
    (identity / 64 * 16 + identity % 64 / 8) as usize
}

/// The refusals of both windows, 2001 and 2011.
#[inline(always)]
fn windows_refusal(memory: &Memory) -> Option<u64> {
    const TOP: u64 = 1 << 56;
    let [first, second] = [&memory.first, &memory.second];
    let (start, length) = (first.start, first.bytes.len() as u64);
    let (other_start, other_length) = (second.start, second.bytes.len() as u64);
    // A length is below 2^63: an end that wraps has a start above the top.
    let (end, other_end) = (
        start.wrapping_add(length),
        other_start.wrapping_add(other_length),
    );
    let whole = (start | length | other_start | other_length).is_multiple_of(4_096);
    let low = start <= TOP && end <= TOP && other_start <= TOP && other_end <= TOP;
    if !whole || !low {
        return Some(2001);
    }
    // The greater start is below the lesser end: never where one is empty.
    if start.max(other_start) < end.min(other_end) {
        return Some(2011);
    }
    None
}

#[inline]
fn refusal(memory: &Memory, mode: u64, root: u64, request: &Request) -> Option<u64> {
    if let Some(number) = windows_refusal(memory) {
        return Some(number);
    }
    if mode > 4 || root >> 44 != 0 {
        return Some(2002);
    }
    if request.device >> 24 != 0 {
        return Some(2003);
    }
    match request.process {
        Some(process) if process >> 20 != 0 => return Some(2004),
        None if request.supervisor => return Some(2005),
        _ => {}
    }
    if request.length == 0 || request.length > 4_096 - request.address % 4_096 {
        return Some(2006);
    }
    None
}

/// Where a request leads.
#[derive(Clone, Copy)]
enum Found {
    Translated(u64),
    Redirected(u64),
    Record(u64, u64),
    /// A record whose file lies in the page of the context or of its entry.
    OverTables,
}

#[inline]
fn translate(memory: impl Tabled, mode: u64, root: u64, request: &Request) -> Result<Found, Fault> {
    if mode <= 1 {
        if mode == 0 {
            return Err(fault(256, Stage::Directory));
        }
        return untranslated(request);
    }
    let (page, context) = device_context(memory, mode - 1, root << 12, request.device)?;
    let [tc, iohgatp, _, fsc, msiptp, mask, pattern, _] = context;
    let second = (iohgatp >> 60 != 0).then_some(Tables::of(iohgatp));
    let first = if tc & PDTV == 0 {
        if request.process.is_some() {
            return Err(DISALLOWED);
        }
        fsc
    } else {
        process_first_stage(memory, tc, fsc, second, request)?
    };
    if first >> 60 == 0 && second.is_none() {
        return untranslated(request);
    }
    let address = if first >> 60 == 0 {
        request.address
    } else {
        first_stage(memory, first, second, request)?
    };
    let Some(second) = second else {
        return Ok(Found::Translated(address));
    };
    if msiptp >> 60 != 0 && (address >> 12 ^ pattern) & !mask == 0 {
        return message(memory, page, msiptp, mask, address, request.access);
    }
    match memory.second_stage(second, address, needs(request.access)) {
        Ok(address) => Ok(Found::Translated(address)),
        Err(Broken::Load) => Err(LOAD | access_fault(request.access, Stage::Second)),
        Err(Broken::Entry) => Err(guest_page_fault(request.access)),
    }
}

/// An address that no stage translates.
#[inline]
fn untranslated(request: &Request) -> Result<Found, Fault> {
    if request.address >> 56 != 0 {
        return Err(access_fault(request.access, Stage::Directory));
    }
    Ok(Found::Translated(request.address))
}

const PDTV: u64 = 1 << 5;
const DPE: u64 = 1 << 9;
/// The bits of tc that may be set: V, DTF, PDTV, DPE.
const TC: u64 = 1 | 1 << 4 | PDTV | DPE;
/// Reserved in fsc and msiptp.
const MIDDLE: u64 = 0xFFFF << 44;
/// PSCID in a device's ta.
const PSCID: u64 = 0xF_FFFF << 12;
/// The modes of iohgatp and of iosatp: Bare, and the schemes of three, four and five levels.
const SCHEMES: u64 = 1 | 7 << 8;
/// ENS and SUM in a process's ta.
const ENS: u64 = 1 << 1;
const SUM: u64 = 1 << 2;
/// Tells the first stage to leave U alone, in a bit of iosatp that is 0 in memory.
const ANY_U: u64 = 1 << 44;

/// The page that a directory's non-leaf entry names.
#[inline]
fn non_leaf(entry: u64, invalid: Fault, misconfigured: Fault) -> Result<u64, Fault> {
    if entry & (HIGH | 0x3FF) != V {
        return Err(if entry & V == 0 {
            invalid
        } else {
            misconfigured
        });
    }
    Ok((entry ^ V) << 2)
}

/// The page of a device's context, and the context.
#[inline]
fn device_context(
    memory: impl Tabled,
    levels: u64,
    root: u64,
    device: u64,
) -> Result<(u64, [u64; 8]), Fault> {
    let mut table = root;
    match levels {
        1 if device >> 6 != 0 => return Err(DISALLOWED),
        2 if device >> 15 != 0 => return Err(DISALLOWED),
        _ => {}
    }
    if levels == 3 {
        let entry = memory.load(table + (device >> 15 & 0x1FF) * 8);
        table = non_leaf(entry.ok_or(DDT_LOAD)?, DDT_INVALID, DDT_MISCONFIGURED)?;
    }
    if levels >= 2 {
        let entry = memory.load(table + (device >> 6 & 0x1FF) * 8);
        table = non_leaf(entry.ok_or(DDT_LOAD)?, DDT_INVALID, DDT_MISCONFIGURED)?;
    }
    let context: [u64; 8] = memory
        .load_all(table + (device & 63) * 64)
        .ok_or(DDT_LOAD)?;
    if context[0] & V == 0 {
        return Err(DDT_INVALID);
    }
    if misconfigured(&context) {
        return Err(DDT_MISCONFIGURED);
    }
    Ok((table, context))
}

#[inline]
fn misconfigured(context: &[u64; 8]) -> bool {
    let [tc, iohgatp, ta, fsc, msiptp, mask, pattern, reserved] = *context;
    let set = tc & !TC | ta & !PSCID | (fsc | msiptp) & MIDDLE | (mask | pattern) >> 47 | reserved;
    let first_mode = fsc >> 60;
    let first_wrong = if tc & PDTV != 0 {
        first_mode > 3
    } else {
        tc & DPE != 0 || SCHEMES >> first_mode & 1 == 0
    };
    let second_wrong = if iohgatp >> 60 == 0 {
        msiptp >> 60 != 0
    } else {
        SCHEMES >> (iohgatp >> 60) & 1 == 0 || iohgatp & 3 != 0 || msiptp >> 60 > 1
    };
    set != 0 || first_wrong || second_wrong
}

/// The iosatp of a request under PDTV = 1; a Bare one has mode 0.
fn process_first_stage(
    memory: impl Tabled,
    tc: u64,
    pdtp: u64,
    second: Second,
    request: &Request,
) -> Result<u64, Fault> {
    let levels = pdtp >> 60;
    let process = match request.process {
        Some(process) => process,
        None if tc & DPE != 0 => 0,
        None => return Ok(0),
    };
    match levels {
        0 => return Ok(0),
        1 if process >> 8 != 0 => return Err(DISALLOWED),
        2 if process >> 17 != 0 => return Err(DISALLOWED),
        _ => {}
    }
    let reach = |address: u64| match second {
        None => Ok(address),
        Some(tables) => match memory.second_stage(tables, address, needs(Access::Read)) {
            Ok(place) => Ok(place),
            Err(Broken::Load) => Err(PDT_LOAD),
            Err(Broken::Entry) => Err(guest_page_fault(request.access)),
        },
    };
    let mut table = (pdtp & PAGE_NUMBER) << 12;
    let mut shift = 8 + 9 * (levels - 1);
    while shift > 8 {
        shift -= 9;
        let index = process >> shift & 0x1FF;
        let entry = memory.load(reach(table + index * 8)?);
        table = non_leaf(entry.ok_or(PDT_LOAD)?, PDT_INVALID, PDT_MISCONFIGURED)?;
    }
    let place = reach(table + (process & 0xFF) * 16)?;
    process_context(memory, place, request)
}

/// The iosatp of a process context, with ANY_U where SUM opens user pages to the request.
#[inline]
fn process_context(memory: impl Tabled, place: u64, request: &Request) -> Result<u64, Fault> {
    let [ta, fsc] = memory.load_all(place).ok_or(PDT_LOAD)?;
    if ta & V == 0 {
        return Err(PDT_INVALID);
    }
    let set = ta & !(PSCID | V | ENS | SUM) | fsc & MIDDLE;
    if set != 0 || SCHEMES >> (fsc >> 60) & 1 == 0 {
        return Err(PDT_MISCONFIGURED);
    }
    if request.supervisor && ta & ENS == 0 {
        return Err(DISALLOWED);
    }
    let by_sum = request.supervisor && ta & SUM != 0 && request.access != Access::Execute;
    Ok(fsc | if by_sum { ANY_U } else { 0 })
}

/// How the first stage fails: by itself, or in the second stage's walk to an entry.
enum FirstBroken {
    Own(Broken),
    Guest(Broken),
}

impl From<Broken> for FirstBroken {
    fn from(broken: Broken) -> FirstBroken {
        FirstBroken::Own(broken)
    }
}

/// The device's address, by the first stage.
#[inline]
fn first_stage(
    memory: impl Tabled,
    iosatp: u64,
    second: Second,
    request: &Request,
) -> Result<u64, Fault> {
    let access = request.access;
    let tables = Tables::of(iosatp);
    let high = (request.address as i64) >> (tables.shift + 8);
    if high != 0 && high != -1 {
        return Err(page_fault(access));
    }
    let need = needs(access);
    let needs = Needs {
        mask: HIGH | need | if iosatp & ANY_U == 0 { U } else { 0 },
        value: if request.supervisor { need } else { need | U },
    };
    match memory.first_leaf(tables, second, request.address, needs) {
        Ok(leaf) => Ok(leaf.target(request.address)),
        Err(FirstBroken::Own(Broken::Load)) => Err(LOAD | access_fault(access, Stage::First)),
        Err(FirstBroken::Own(Broken::Entry)) => Err(page_fault(access)),
        Err(FirstBroken::Guest(Broken::Load)) => Err(LOAD | access_fault(access, Stage::Second)),
        Err(FirstBroken::Guest(Broken::Entry)) => Err(guest_page_fault(access)),
    }
}

/// Packs the bits of a value that the mask picks, a run of ones at a time.
#[inline]
fn pack(value: u64, mask: u64) -> u64 {
    let mut rest = mask;
    let mut packed = 0;
    let mut place = 0;
    while rest != 0 {
        let low = rest.trailing_zeros();
        let width = (rest >> low).trailing_ones();
        let run = (1 << width) - 1;
        packed |= (value >> low & run) << place;
        place += width;
        rest &= !(run << low);
    }
    packed
}

/// A message, by its table; the page is that of the device's context.
#[inline]
fn message(
    memory: impl Tabled,
    page: u64,
    msiptp: u64,
    mask: u64,
    address: u64,
    access: Access,
) -> Result<Found, Fault> {
    let table = (msiptp & PAGE_NUMBER) << 12;
    if table & ((16 << mask.count_ones()) - 1) != 0 {
        return Err(MSI_MISCONFIGURED);
    }
    let place = table + 16 * pack(address >> 12, mask);
    let [first, second] = memory.load_all(place).ok_or(MSI_LOAD)?;
    if first & V == 0 {
        return Err(MSI_INVALID);
    }
    let found = match first >> 1 & 3 {
        3 if first & (HIGH | 0x3F8) == 0 => {
            Found::Redirected((first >> 10 & PAGE_NUMBER) << 12 | address & 0xFFF)
        }
        1 if first & (HIGH | 0x78) | second & (HIGH & !(1 << 60)) == 0 => {
            // The file's address, save for bits below its page.
            let file = first << 2;
            if file ^ page < 4_096 || file ^ place < 4_096 {
                Found::OverTables
            } else {
                Found::Record(first, second)
            }
        }
        _ => return Err(MSI_MISCONFIGURED),
    };
    if access == Access::Execute {
        return Err(access_fault(access, Stage::MessageTable));
    }
    Ok(found)
}

/// The identity that a message stores, if it stores one.
#[inline(always)]
fn identity_of(request: &Request) -> Option<u64> {
    let identity = match request.address % 4_096 {
        0 => u64::from(request.value),
        4 => u64::from(request.value.swap_bytes()),
        _ => return None,
    };
    (request.access == Access::Write && request.length == 4 && identity <= 2_047)
        .then_some(identity)
}

/// A message whose file lies in the page of the context or of its entry: so it lies in a window.
#[inline]
fn over_tables(request: &Request) -> Answer {
    match identity_of(request) {
        Some(_) => Answer::Refused(2012),
        None => Answer::Discarded,
    }
}

/// A message under an MRIF entry: stored, discarded or refused.
#[inline]
fn record(memory: &mut Memory, request: &Request, first: u64, second: u64) -> Answer {
    let Some(identity) = identity_of(request) else {
        return Answer::Discarded;
    };
    let file = (first >> 7 & ((1 << 47) - 1)) << 9;
    let bytes = bytes_from(memory, file);
    let Some(byte) = bytes.and_then(|bytes| bytes.get_mut(byte_of(identity))) else {
        return Answer::Refused(2007);
    };
    *byte |= 1 << (identity % 8);
    Answer::Stored {
        file,
        notice: (second >> 10 & PAGE_NUMBER) << 12,
        number: second & 0x3FF | (second >> 60 & 1) << 10,
    }
}
