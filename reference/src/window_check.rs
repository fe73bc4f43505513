//! Checks of the two windows (02, Req 05): which ones are refused, in which order, and that tables and
//! files are found in either.

use crate::check::{message_context, p6_store, plain, run, two_stage_bench};
use crate::check::{Checks, GIGA, MESSAGES, P6_ENTRY, START};
use crate::generate::Call;
use crate::iommu::{report, request, take, take_many};
use crate::layout::{leaf, pointer, root_of, Layout, ALL_FLAGS};
use crate::ledger::Ledger;
use crate::memory::{Memory, Side, Window};
use crate::types::{Access, Answer, Report, Request, Settings};

/// All checks of this file.
pub fn all(checks: &mut Checks) {
    lies(checks);
    order(checks);
    cuts(checks, "both stages", &stages());
    cuts(checks, "directories", &directories());
    swaps(checks);
    files(checks);
    files_by_masks(checks);
    files_elsewhere(checks);
    ledger_of(checks, Side::First, Side::Second);
    ledger_of(checks, Side::Second, Side::First);
    ledger_of_overlap(checks);
}

/// Two windows of zero bytes, each by its start and length.
fn windows(places: [(u64, usize); 2]) -> Memory {
    let [first, second] = places.map(|(start, length)| Window {
        start,
        bytes: vec![0; length],
    });
    Memory { first, second }
}

/// The refusals of a Bare request, of a take, of a take of many and of a report, 0 where there is none.
fn refusals(memory: &mut Memory, asked: &Request, file: u64, identity: u64) -> [u64; 4] {
    let refused = |answer: Answer| match answer {
        Answer::Refused(number) => number,
        _ => 0,
    };
    let bare = Settings { mode: 1, root: 0 };
    [
        refused(request(&bare, memory, asked, 0)),
        refused(take(memory, file, identity)),
        refused(take_many(memory, file, identity / 64, 1)),
        report(memory, file).refusal,
    ]
}

/// A window beside the one of three pages at 0x80000, and the refusal.
const LIES: [(&str, (u64, usize), u64); 28] = [
    ("start misaligned", (0x40200, 0x1000), 2001),
    ("length misaligned", (0x40000, 0x1001), 2001),
    ("empty, start misaligned", (0x40001, 0), 2001),
    ("end above 2^56", ((1 << 56) - 0x1000, 0x2000), 2001),
    ("empty, above 2^56", ((1 << 56) + 0x1000, 0), 2001),
    ("no wrap", (u64::MAX - 0xFFF, 0x1000), 2001),
    ("end at 2^56", ((1 << 56) - 0x1000, 0x1000), 0),
    ("empty, at 2^56", (1 << 56, 0), 0),
    ("empty, at 0", (0, 0), 0),
    ("empty, at the start", (0x80000, 0), 0),
    ("empty, inside", (0x81000, 0), 0),
    ("empty, at the end", (0x83000, 0), 0),
    ("right after", (0x83000, 0x1000), 0),
    ("right before", (0x7F000, 0x1000), 0),
    ("above", (0x84000, 0x1000), 0),
    ("below", (0x7E000, 0x1000), 0),
    ("the last page", (0x82000, 0x3000), 2011),
    ("the first page", (0x7E000, 0x3000), 2011),
    ("two pages above", (0x81000, 0x3000), 2011),
    ("two pages below", (0x7F000, 0x3000), 2011),
    ("the same", (0x80000, 0x3000), 2011),
    ("inside", (0x81000, 0x1000), 2011),
    ("inside, at the start", (0x80000, 0x1000), 2011),
    ("inside, at the end", (0x82000, 0x1000), 2011),
    ("around", (0x7F000, 0x5000), 2011),
    ("around, from the start", (0x80000, 0x4000), 2011),
    ("around, to the end", (0x7F000, 0x4000), 2011),
    ("misaligned and overlapping", (0x80200, 0x1000), 2001),
];

/// Each way for the windows to lie, both ways round, with the file at 0x80000 in the first of them.
fn lies(checks: &mut Checks) {
    let first = (0x80000, 0x3000);
    let asked = plain(Access::Read, 8);
    for (name, other, refusal) in LIES {
        for (order, places) in [("second", [first, other]), ("first", [other, first])] {
            let found = refusals(&mut windows(places), &asked, 0x80000, 0);
            let name = format!("the {order} window {name}: {refusal}");
            checks.holds(&name, found == [refusal; 4]);
        }
    }
}

/// 2011 comes just after 2001, and before every other check.
fn order(checks: &mut Checks) {
    let place = (0x80000, 0x1000);
    let mut bad = plain(Access::Read, 4_095);
    (bad.device_id, bad.process_id, bad.supervisor) = (1 << 24, Some(1 << 20), true);
    let found = refusals(&mut windows([place; 2]), &bad, 1, 2_048);
    checks.holds("2011 before 2003 to 2009", found == [2011; 4]);
    (bad.device_id, bad.process_id) = (0, None);
    let found = refusals(&mut windows([place; 2]), &bad, 0x90000, 0);
    checks.holds("2011 before 2005, 2006 and 2008", found == [2011; 4]);
    let found = refusals(&mut windows([place; 2]), &bad, 0x80000, 2_048);
    checks.holds("2011 before 2009 of a file there", found == [2011; 4]);
    let settings = Settings {
        mode: 5,
        root: 1 << 44,
    };
    let asked = plain(Access::Read, 8);
    let found = request(&settings, &mut windows([place; 2]), &asked, 0);
    checks.answer("2011 before 2002", found, Answer::Refused(2011));
    let both = [(0x80200, 0x1000), (0x80000, 0x1001)];
    let found = refusals(&mut windows(both), &bad, 1, 2_048);
    checks.holds("2001 of both windows before 2011", found == [2001; 4]);
}

/// A bench's one window cut in two after so many pages; the lower part is the first window or not.
pub fn cut(layout: &Layout, pages: usize, lower_first: bool) -> Memory {
    let Window { start, bytes } = &layout.memory.first;
    let (low, high) = bytes.split_at(pages * 4_096);
    let lower = Window {
        start: *start,
        bytes: low.to_vec(),
    };
    let upper = Window {
        start: start + low.len() as u64,
        bytes: high.to_vec(),
    };
    match lower_first {
        true => Memory {
            first: lower,
            second: upper,
        },
        false => Memory {
            first: upper,
            second: lower,
        },
    }
}

/// The bytes of two windows side by side, from the lower one on.
pub fn joined(memory: &Memory, lower_first: bool) -> Vec<u8> {
    let (first, second) = (&memory.first.bytes, &memory.second.bytes);
    match lower_first {
        true => [&first[..], second].concat(),
        false => [&second[..], first].concat(),
    }
}

/// What a bench answers to writes at these addresses by a process or by none, then to takes of both
/// kinds and a report of P6's file.
fn conversation(memory: &mut Memory, bench: &Bench) -> (Vec<Answer>, Report) {
    let settings = Settings {
        mode: bench.mode,
        root: START >> 12,
    };
    let mut answers = Vec::new();
    for &address in bench.addresses {
        let mut asked = plain(Access::Write, address);
        (asked.device_id, asked.process_id) = (bench.device, bench.process);
        answers.push(request(&settings, memory, &asked, 37));
    }
    answers.push(take(memory, START + 0x1200, 38));
    let made = report(memory, START + 0x1200);
    answers.push(take_many(memory, START + 0x1200, 0, !(1 << 37)));
    answers.push(take(memory, START + 0x1200, 37));
    answers.push(take_many(memory, START + 0x1200, 0, u64::MAX));
    (answers, made)
}

/// A memory of one window with 16 pages, and who asks for what in it.
struct Bench {
    layout: Layout,
    mode: u64,
    device: u64,
    process: Option<u64>,
    addresses: &'static [u64],
}

/// Both stages, and a message.
fn stages() -> Bench {
    Bench {
        layout: two_stage_bench(),
        mode: 2,
        device: 0,
        process: None,
        addresses: &[0x1238, 0x2000, 0x3000, 0x4000, 0x2004],
    }
}

/// Directories of three levels each, then a first stage: each table in a page of its own, whose last
/// entry is used, save that there are eight entries in a root of processes.
fn directories() -> Bench {
    let page = |number: u64| START + number * 4_096;
    let mut layout = Layout::new(START, 16);
    layout.put(page(0) + 511 * 8, pointer(page(3)));
    layout.put(page(3) + 511 * 8, pointer(page(2)));
    layout.put(page(2) + 63 * 64, 0x21);
    layout.put(page(2) + 63 * 64 + 24, root_of(3, page(7)));
    layout.put(page(7) + 7 * 8, pointer(page(5)));
    layout.put(page(5) + 511 * 8, pointer(page(6)));
    layout.put(page(6) + 255 * 16, 1);
    layout.put(page(6) + 255 * 16 + 8, root_of(8, page(9)));
    layout.put(page(9) + 255 * 8, pointer(page(8)));
    layout.put(page(8) + 511 * 8, pointer(page(11)));
    layout.put(page(11) + 511 * 8, leaf(0x77_7777_7000, ALL_FLAGS));
    Bench {
        layout,
        mode: 4,
        device: (1 << 24) - 1,
        process: Some((1 << 20) - 1),
        addresses: &[(1 << 38) - 8, 0],
    }
}

/// Two windows side by side answer as the one window that they make up, wherever it is cut.
fn cuts(checks: &mut Checks, name: &str, bench: &Bench) {
    let mut whole = bench.layout.memory.clone();
    let expected = conversation(&mut whole, bench);
    for lower_first in [true, false] {
        for pages in 0..=16 {
            let mut memory = cut(&bench.layout, pages, lower_first);
            let found = conversation(&mut memory, bench);
            let same = found == expected && joined(&memory, lower_first) == whole.first.bytes;
            let lower = if lower_first { "first" } else { "second" };
            let name = format!("{name}, cut after {pages} pages, {lower} below");
            checks.holds(&name, same);
        }
    }
    let reached = |answer: &Answer| matches!(answer, Answer::Translated(0x77_7777_7000..));
    let name = format!("{name}: translated");
    checks.holds(&name, expected.0.first().is_some_and(reached));
}

/// The windows in the other order answer alike.
fn swaps(checks: &mut Checks) {
    let bench = stages();
    let mut memory = bench.layout.memory.clone();
    memory.second = Window {
        start: 7 * GIGA,
        bytes: vec![0xFF; 8_192],
    };
    let Memory { first, second } = memory.clone();
    let mut swapped = Memory {
        first: second,
        second: first,
    };
    let same = conversation(&mut memory, &bench) == conversation(&mut swapped, &bench);
    let kept = memory.first == swapped.second && memory.second == swapped.first;
    checks.holds("the windows in the other order", same && kept);
}

/// P6's memory with a second window that has the file's offset too.
fn two_files(entry: [u64; 2]) -> Layout {
    let mut layout = Layout::of_two([(START, 16), (7 * GIGA, 2)]);
    for (number, word) in message_context().iter().enumerate() {
        layout.put(START + 8 * number as u64, *word);
    }
    layout.put(MESSAGES + 32, entry[0]);
    layout.put(MESSAGES + 40, entry[1]);
    layout
}

/// P6's entry, or the one that names the file at the same offset of the second window.
fn entry_of(side: Side) -> ([u64; 2], u64) {
    let file = match side {
        Side::First => START + 0x1200,
        Side::Second => 7 * GIGA + 0x1200,
    };
    ([file >> 2 | 3, P6_ENTRY[1]], file)
}

/// A store, takes and reports in each window; the file at the same offset of the other is untouched.
fn files(checks: &mut Checks) {
    let write = plain(Access::Write, 0x8000_6000);
    for &side in Side::ALL {
        let other = match side {
            Side::First => Side::Second,
            Side::Second => Side::First,
        };
        let ((entry, file), (_, untouched)) = (entry_of(side), entry_of(other));
        let mut layout = two_files(entry);
        let mut expected = layout.memory.clone();
        expected.window_mut(side).bytes[0x1204] |= 32;
        let found = run(&mut layout, &write, 37);
        let stored = Answer::Stored {
            file,
            notice_address: 0x2800_0000,
            notice_number: 1_029,
        };
        checks.answer(&format!("store, {} window", side.name()), found, stored);
        let gained = layout.memory == expected;
        checks.holds(
            "its byte 4 gains 32, no other byte of either window",
            gained,
        );
        let memory = &mut layout.memory;
        let counts = [file, untouched].map(|file| report(memory, file).count);
        checks.holds("reports: 1 there, 0 in the other window", counts == [1, 0]);
        let taken = [untouched, file, file].map(|file| take(memory, file, 37));
        let expected = [false, true, false].map(Answer::Taken);
        checks.holds(
            "takes: 0 in the other window, then 1, then 0",
            taken == expected,
        );
    }
}

/// Takes of many in each window; the file at the same offset of the other, with the same bits, and the
/// files beside it are untouched.
fn files_by_masks(checks: &mut Checks) {
    for &side in Side::ALL {
        let (_, file) = entry_of(side);
        let mut memory = two_files([0; 2]).memory;
        for &side in Side::ALL {
            memory.window_mut(side).bytes[0x1000..0x1600].fill(0xFF);
        }
        let mut expected = memory.clone();
        expected.window_mut(side).bytes[0x13F0..0x13F8].fill(0xF0);
        let mask = 0x0F0F_0F0F_0F0F_0F0F;
        let found = take_many(&mut memory, file, 31, mask);
        let name = format!("take of many, {} window", side.name());
        checks.answer(&name, found, Answer::TakenMany(mask));
        checks.holds(
            "its eight bytes lose 15, no other byte of either",
            memory == expected,
        );
        let found = take_many(&mut memory, file + 0x2000_0000, 31, mask);
        let name = "take of many, a file in neither window";
        checks.answer(name, found, Answer::Refused(2008));
    }
}

/// A file in neither window, and a message table in the second.
fn files_elsewhere(checks: &mut Checks) {
    let write = plain(Access::Write, 0x8000_6000);
    let mut layout = two_files([(7 * GIGA + 0x2000) >> 2 | 3, 0]);
    let found = run(&mut layout, &write, 37);
    checks.answer("file behind both windows", found, Answer::Refused(2007));
    layout.put(START + 32, root_of(1, 7 * GIGA));
    layout.put(7 * GIGA + 32, P6_ENTRY[0]);
    layout.put(7 * GIGA + 40, P6_ENTRY[1]);
    let found = run(&mut layout, &write, 37);
    checks.answer("message table in the second window", found, p6_store());
}

/// The ledger has accounts of its own for the files of each window: it closes over a store there, and
/// rejects one in the other window, one that sets nothing, one of another identity, and a window moved.
fn ledger_of(checks: &mut Checks, side: Side, other: Side) {
    let (entry, file) = entry_of(side);
    let starting = two_files(entry).memory;
    let call = Call::Request {
        mode: 2,
        root: START >> 12,
        request: plain(Access::Write, 0x8000_6000),
        data: 37,
    };
    let store = Answer::Stored {
        file,
        notice_address: 0,
        notice_number: 0,
    };
    let ends = |ending: &Memory| {
        let mut ledger = Ledger::new(&starting);
        ledger.feed(&call, store)?;
        ledger.close(ending)
    };
    let with = |side: Side, bit: u8| {
        let mut ending = starting.clone();
        ending.window_mut(side).bytes[0x1204] |= bit;
        ending
    };
    let mut moved = with(side, 32);
    moved.window_mut(other).start += 4_096;
    let verdicts = [
        with(side, 32),
        with(other, 32),
        with(side, 0),
        with(side, 64),
        moved,
    ]
    .map(|ending| ends(&ending).is_ok());
    let name = format!("ledger: a store in the {} window", side.name());
    checks.holds(&name, verdicts == [true, false, false, false, false]);
}

/// Where the windows overlap every call is refused, and a file in both is counted in each by itself.
fn ledger_of_overlap(checks: &mut Checks) {
    let mut memory = windows([(0x80000, 0x1000); 2]);
    memory.second.bytes[0] = 1;
    let call = Call::Take {
        file: 0x80000,
        identity: 0,
    };
    let close = |call: &Call, answer: Answer| {
        let mut ledger = Ledger::new(&memory);
        ledger.feed(call, answer)?;
        ledger.close(&memory)
    };
    let refused = close(&call, Answer::Refused(2011)).is_ok();
    checks.holds("ledger: a refused take, overlapping windows", refused);
    let name = "ledger rejects a take that overlapping windows answer";
    let answers = [true, false].map(|pending| close(&call, Answer::Taken(pending)).is_err());
    checks.holds(name, answers == [true; 2]);
    let call = Call::TakeMany {
        file: 0x80000,
        doubleword: 0,
        mask: 1,
    };
    let refused = close(&call, Answer::Refused(2011)).is_ok();
    checks.holds("ledger: a refused take of many there", refused);
    let answers = [0, 1].map(|answered| close(&call, Answer::TakenMany(answered)).is_err());
    checks.holds("ledger rejects a take of many there", answers == [true; 2]);
}
