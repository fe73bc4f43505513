//! Checks of files over tables (02, Req 06): which pages refuse a store with 2012, that nothing changes
//! then, and that discarded and redirected messages, takes and reports know nothing of it.

use crate::check::{
    bench, message_bench, message_context, plain, run, Checks, MESSAGES, P6_ENTRY, SECOND, START,
};
use crate::generate::Call;
use crate::iommu::{report, request, take, take_many};
use crate::layout::{leaf, pointer, root_of, Layout, ALL_FLAGS};
use crate::ledger::Ledger;
use crate::memory::{Memory, Window};
use crate::types::{Access, Answer, Request, Settings};
use crate::window_check::{cut, joined};

/// All checks of this file.
pub fn all(checks: &mut Checks) {
    pages(checks);
    contexts(checks);
    entries(checks);
    one_page(checks);
    discards(checks);
    redirects(checks);
    other_tables(checks);
    cuts(checks);
    outside(checks);
    afterwards(checks);
    ledger(checks);
}

const REFUSED: Answer = Answer::Refused(2012);

fn page(number: u64) -> u64 {
    START + number * 4_096
}

/// The first doubleword of an entry that names a file; its second is 0.
fn naming(file: u64) -> u64 {
    file >> 2 | 3
}

/// The answer of a store under such an entry.
fn stored(file: u64) -> Answer {
    Answer::Stored {
        file,
        notice_address: 0,
        notice_number: 0,
    }
}

/// What a memory is after a store of identity 37: byte 4 of the file gains 32.
fn with_37(before: &Memory, file: u64) -> Memory {
    let mut after = before.clone();
    let place = (file - before.first.start) as usize + 4;
    after.first.bytes[place] |= 32;
    after
}

/// A write of identity 37 at page offset 0, and one at offset 4, each on the same memory: whether both
/// are refused and change nothing, or both store 37 and nothing else.
fn both_writes(layout: &Layout, settings: &Settings, asked: &Request, file: u64) -> [bool; 2] {
    let mut found = [true; 2];
    for (offset, data) in [(0, 37), (4, 37 << 24)] {
        let mut memory = layout.memory.clone();
        let mut asked = *asked;
        asked.address |= offset;
        let answer = request(settings, &mut memory, &asked, data);
        found[0] &= answer == REFUSED && memory == layout.memory;
        found[1] &= answer == stored(file) && memory == with_37(&layout.memory, file);
    }
    found
}

/// Checks the eight files of a page: all of them refused, or all stored.
fn of_page(checks: &mut Checks, name: &str, number: u64, refused: bool, try_file: TryFile) {
    let files = (0..8).map(|file| page(number) + 512 * file);
    let right = files
        .map(try_file)
        .all(|found| found == [refused, !refused]);
    let word = if refused { "refused" } else { "stored" };
    checks.holds(&format!("{name}, file in page {number}: {word}"), right);
}

/// Gives what `both_writes` finds under an entry that names a file.
type TryFile<'a> = &'a dyn Fn(u64) -> [bool; 2];

/// The directory at the start of a bench, of one level.
const ONE_LEVEL: Settings = Settings {
    mode: 2,
    root: START >> 12,
};

/// P6's tables: the device context in page 0, the message entry in page 2, the second stage's root in
/// pages 4 to 7; every file of every page.
fn pages(checks: &mut Checks) {
    let write = plain(Access::Write, 0x8000_6000);
    let try_file = |file| {
        let layout = message_bench([naming(file), 0]);
        both_writes(&layout, &ONE_LEVEL, &write, file)
    };
    for number in 0..16 {
        let refused = number == 0 || number == 2;
        of_page(checks, "P6's tables", number, refused, &try_file);
    }
}

/// The context of each device of a directory's page, from its first 64 bytes to its last; the directory
/// is in page 8.
fn contexts(checks: &mut Checks) {
    let settings = Settings {
        mode: 2,
        root: page(8) >> 12,
    };
    let mut write = plain(Access::Write, 0x8000_6000);
    for (device, name) in [(0, "first"), (31, "32nd"), (63, "last")] {
        write.device_id = device;
        let try_file = |file| {
            let mut layout = Layout::new(START, 16);
            for (number, word) in message_context().iter().enumerate() {
                layout.put(page(8) + 64 * device + 8 * number as u64, *word);
            }
            layout.put(MESSAGES + 32, naming(file));
            both_writes(&layout, &settings, &write, file)
        };
        let name = format!("the {name} context of its page");
        for (number, refused) in [(7, false), (8, true), (9, false), (2, true)] {
            of_page(checks, &name, number, refused, &try_file);
        }
    }
}

/// The first, an inner and the last entry of a message table of 256.
fn entries(checks: &mut Checks) {
    for (number, name) in [(0, "first"), (130, "131st"), (255, "last")] {
        let write = plain(Access::Write, 0x8000_0000 + (number << 12));
        let try_file = |file| {
            let mut context = message_context();
            [context[5], context[6]] = [255, 0x80000];
            let mut layout = bench(context);
            layout.put(MESSAGES + 16 * number, naming(file));
            both_writes(&layout, &ONE_LEVEL, &write, file)
        };
        let name = format!("the {name} entry of its page");
        for (number, refused) in [(1, false), (2, true), (3, false), (0, true)] {
            of_page(checks, &name, number, refused, &try_file);
        }
    }
}

/// Device context and message entry in one and the same page, where entry 255 ends it.
fn one_page(checks: &mut Checks) {
    let write = plain(Access::Write, 0x800F_F000);
    let try_file = |file| {
        let mut context = message_context();
        context[4..7].copy_from_slice(&[root_of(1, START), 255, 0x80000]);
        let mut layout = bench(context);
        layout.put(START + 16 * 255, naming(file));
        both_writes(&layout, &ONE_LEVEL, &write, file)
    };
    for number in 0..3 {
        let name = "context and entry in page 0";
        of_page(checks, name, number, number == 0, &try_file);
    }
}

/// Access, length, page offset and data of accesses that are discarded.
const DISCARDS: [(&str, Access, u64, u64, u32); 9] = [
    ("a read", Access::Read, 4, 0, 37),
    ("a read at offset 4", Access::Read, 4, 4, 37 << 24),
    ("a write of 1 byte", Access::Write, 1, 0, 37),
    ("a write of 8 bytes", Access::Write, 8, 0, 37),
    ("a write at offset 8", Access::Write, 4, 8, 37),
    ("a write at offset 2", Access::Write, 4, 2, 37),
    ("identity 2,048", Access::Write, 4, 0, 2_048),
    ("identity 2^32 - 1", Access::Write, 4, 0, u32::MAX),
    ("identity 37 the other way round", Access::Write, 4, 4, 37),
];

/// 01: other accesses under M = 1 are discarded, before 2007 is looked at, and so before 2012.
fn discards(checks: &mut Checks) {
    for (name, access, length, offset, data) in DISCARDS {
        for number in [0, 2] {
            let mut layout = message_bench([naming(page(number) + 0x200), 0]);
            let before = layout.memory.clone();
            let mut asked = plain(access, 0x8000_6000 | offset);
            asked.length = length;
            let found = run(&mut layout, &asked, data);
            let name = format!("{name}, file in page {number}");
            checks.answer(&name, found, Answer::Discarded);
            checks.holds("it changes nothing", layout.memory == before);
        }
    }
}

/// M = 3: a message redirected to such a page is no store.
fn redirects(checks: &mut Checks) {
    for number in [0, 2] {
        let mut layout = message_bench([page(number) >> 2 | 7, 0]);
        let before = layout.memory.clone();
        let found = run(&mut layout, &plain(Access::Write, 0x8000_6004), 37 << 24);
        let name = format!("redirected to page {number}");
        checks.answer(&name, found, Answer::Redirected(page(number) + 4));
        checks.holds("it changes nothing", layout.memory == before);
    }
}

/// The device and the process of `deep`; their page 0 is a message.
fn of_deep() -> Request {
    let mut asked = plain(Access::Write, 0);
    asked.device_id = 1 << 15 | 2 << 6 | 3;
    asked.process_id = Some(1 << 8 | 5);
    asked
}

/// Three levels of directory in pages 0, 1 and 2, with the context in page 2; a process directory of two
/// levels in pages 3 and 8; a first stage in pages 9, 10 and 11; a second stage with its root in pages 4
/// to 7 and a table in page 12, which maps a GiB of guest addresses to the same physical ones; a message
/// table in pages 14 and 15, with the entry, number 258, in page 15; another device's context in page 16.
fn deep(file: u64) -> Layout {
    let mut layout = Layout::new(START, 18);
    layout.put(page(0) + 8, pointer(page(1)));
    layout.put(page(1) + 2 * 8, pointer(page(2)));
    layout.put(page(1) + 3 * 8, pointer(page(16)));
    layout.put(page(16) + 3 * 64, 1);
    let (second, processes) = (root_of(8, SECOND), root_of(2, page(3)));
    let context = [0x21, second, 0, processes, root_of(1, page(14)), 511];
    for (number, word) in context.iter().enumerate() {
        layout.put(page(2) + 3 * 64 + 8 * number as u64, *word);
    }
    layout.put(page(2) + 3 * 64 + 48, 0x80000);
    layout.put(page(3) + 8, pointer(page(8)));
    layout.put(page(8) + 5 * 16, 1);
    layout.put(page(8) + 5 * 16 + 8, root_of(8, page(9)));
    layout.put(page(9), pointer(page(10)));
    layout.put(page(10), pointer(page(11)));
    layout.put(page(11), leaf(0x8000_0000 + 258 * 4_096, ALL_FLAGS));
    layout.put(SECOND + 8, pointer(page(12)));
    layout.put(page(12), leaf(START, ALL_FLAGS));
    layout.put(page(14) + 258 * 16, naming(file));
    layout
}

/// The directory of `deep`.
const THREE_LEVELS: Settings = Settings {
    mode: 4,
    root: START >> 12,
};

/// Only the pages of the context and of the entry count: not those of the root, of non-leaf entries, of
/// the process directory, of page tables, of the message table's start, of another device's context.
fn other_tables(checks: &mut Checks) {
    let try_file = |file| both_writes(&deep(file), &THREE_LEVELS, &of_deep(), file);
    for number in 0..18 {
        let refused = number == 2 || number == 15;
        of_page(checks, "many tables", number, refused, &try_file);
    }
}

/// The same in two windows, wherever they are cut, the lower one first or second: as in one.
fn cuts(checks: &mut Checks) {
    let asked = of_deep();
    for lower_first in [true, false] {
        let mut right = true;
        for (pages, number) in (0..=18).flat_map(|pages| (0..18).map(move |n| (pages, n))) {
            let layout = deep(page(number) + 0xA00);
            let mut whole = layout.memory.clone();
            let expected = request(&THREE_LEVELS, &mut whole, &asked, 37);
            let mut memory = cut(&layout, pages, lower_first);
            let found = request(&THREE_LEVELS, &mut memory, &asked, 37);
            right &= found == expected && joined(&memory, lower_first) == whole.first.bytes;
            right &= (found == REFUSED) == (number == 2 || number == 15);
        }
        let lower = if lower_first { "first" } else { "second" };
        let name = format!("many tables in two windows, the {lower} below");
        checks.holds(&name, right);
    }
}

/// A file outside the windows is 2007's; the second window's page at the context's offset is its own.
fn outside(checks: &mut Checks) {
    let write = plain(Access::Write, 0x8000_6000);
    let file = START + 0x20_0000;
    let mut layout = message_bench([naming(file), 0]);
    let found = run(&mut layout, &write, 37);
    checks.answer("a file 2 MiB above", found, Answer::Refused(2007));
    layout.memory.second = Window {
        start: file,
        bytes: vec![0; 4_096],
    };
    let found = run(&mut layout, &write, 37);
    checks.answer("the second window there", found, stored(file));
    let alias = 1 << 55 | START;
    let found = run(&mut message_bench([naming(alias), 0]), &write, 37);
    let name = "the context's page number, with a bit more";
    checks.answer(name, found, Answer::Refused(2007));
}

/// After a refusal nothing is pending there; takes and reports serve such a file as any other, and a
/// refused store of what is pending already is refused too.
fn afterwards(checks: &mut Checks) {
    let write = plain(Access::Write, 0x8000_6000);
    let file = MESSAGES + 0xE00;
    let mut layout = message_bench([naming(file), 0]);
    let found = run(&mut layout, &write, 37);
    checks.answer("over the entry", found, REFUSED);
    let memory = &mut layout.memory;
    checks.holds("its report: none", report(memory, file).count == 0);
    checks.answer("its take", take(memory, file, 37), Answer::Taken(false));
    layout.put(file, 1 << 37);
    let before = layout.memory.clone();
    let found = run(&mut layout, &write, 37);
    checks.answer("over the entry, pending already", found, REFUSED);
    checks.holds("it stays pending", layout.memory == before);
    let memory = &mut layout.memory;
    let found = take_many(memory, file, 0, u64::MAX);
    checks.answer("its take of many", found, Answer::TakenMany(1 << 37));
}

/// Demand 3's wording stands: a refused store changes nothing of the ledger, and one that sets its bit
/// all the same breaks it.
fn ledger(checks: &mut Checks) {
    let file = START + 0x200;
    let starting = message_bench([naming(file), P6_ENTRY[1]]).memory;
    let call = Call::Request {
        mode: 2,
        root: START >> 12,
        request: plain(Access::Write, 0x8000_6000),
        data: 37,
    };
    let closes = |ending: &Memory| {
        let mut ledger = Ledger::new(&starting);
        ledger.feed(&call, REFUSED)?;
        ledger.close(ending)
    };
    checks.holds(
        "ledger: a store refused with 2012",
        closes(&starting).is_ok(),
    );
    let wrong = closes(&with_37(&starting, file)).is_err();
    checks.holds("ledger rejects a refusal that sets the bit", wrong);
}
