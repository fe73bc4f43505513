//! The program's own checks: P1 to P14 of 01, its limits (with those of every scheme), the order of
//! its refusals, takes of many, the two windows, files over tables, and the cases of the wired domain.

use crate::aplic;
use crate::device;
use crate::generate::Call;
use crate::iommu::{report, request, take};
use crate::layout::{leaf, pointer, root_of, Layout, ALL_FLAGS};
use crate::ledger::Ledger;
use crate::many_check;
use crate::memory::{Memory, Window};
use crate::message::{alignment, extract, recognised};
use crate::process;
use crate::scheme_check;
use crate::table_check;
use crate::types::{Access, Answer, Request, Settings, Stage};
use crate::window_check;

/// One check: its name, and whether it holds.
#[derive(Clone, Debug)]
pub struct Check {
    pub name: String,
    pub holds: bool,
}

/// The checks made so far.
#[derive(Default)]
pub struct Checks {
    made: Vec<Check>,
}

impl Checks {
    pub fn holds(&mut self, name: &str, holds: bool) {
        self.made.push(Check {
            name: name.to_string(),
            holds,
        });
    }

    /// An answer compared with the one expected.
    pub fn answer(&mut self, name: &str, found: Answer, expected: Answer) {
        let [number, a, b, c] = found.numbers();
        let stage = found.stage().map_or("", |stage| stage.name());
        let line = format!("{name}: {number} {a} {b} {c} {stage}");
        self.holds(line.trim_end(), found == expected);
    }

    /// A case line in 01's form compared with the line expected.
    fn line(&mut self, mark: &str, found: Answer, expected: &str) {
        let [number, a, b, c] = found.numbers();
        let line = format!("{mark} {number} {a} {b} {c}");
        self.holds(&line, line == expected);
    }
}

/// All checks, in order.
pub fn all() -> Vec<Check> {
    let mut checks = Checks::default();
    packing(&mut checks);
    message_cases(&mut checks);
    index_cases(&mut checks);
    refusal_order(&mut checks);
    window_limits(&mut checks);
    takes(&mut checks);
    take_after_report(&mut checks);
    untranslated(&mut checks);
    scheme_check::all(&mut checks);
    context_bits(&mut checks);
    process_rules(&mut checks);
    user_rule(&mut checks);
    user_rule_alone(&mut checks);
    user_rule_below(&mut checks);
    two_stage_rules(&mut checks);
    message_rules(&mut checks);
    ledger_rules(&mut checks);
    many_check::all(&mut checks);
    window_check::all(&mut checks);
    table_check::all(&mut checks);
    aplic::check::all(&mut checks);
    aplic::direct_check::all(&mut checks);
    checks.made
}

pub const START: u64 = 0x4000_0000;
const FILES: u64 = START + 0x1000;
pub const MESSAGES: u64 = START + 0x2000;
pub const FIRST: u64 = START + 0x3000;
pub const SECOND: u64 = START + 0x4000;
pub const PROCESSES: u64 = START + 0x8000;
pub const GIGA: u64 = 1 << 30;
const P5_ENTRY: u64 = 0x0A00_0407;
pub const P6_ENTRY: [u64; 2] = [0x1000_0483, 0x1000_0000_0A00_0005];

/// A fault as an answer.
pub fn fault(cause: u64, stage: Stage) -> Answer {
    Answer::Fault { cause, stage }
}

/// P6's answer.
pub fn p6_store() -> Answer {
    Answer::Stored {
        file: 0x4000_1200,
        notice_address: 0x2800_0000,
        notice_number: 1_029,
    }
}

/// A window with device 0 in a one-level directory at its start.
pub fn bench(context: [u64; 8]) -> Layout {
    let mut layout = Layout::new(START, 16);
    for (number, word) in context.iter().enumerate() {
        layout.put(START + 8 * number as u64, *word);
    }
    layout
}

/// The message context of 01's cases: mask 3, pattern 0x80004, first stage Bare.
pub fn message_context() -> [u64; 8] {
    let second = root_of(8, SECOND);
    [1, second, 0, 0, root_of(1, MESSAGES), 3, 0x80004, 0]
}

/// A first window of so many zero bytes; the second is empty, at 0.
pub fn one_window(start: u64, length: usize) -> Memory {
    let bytes = vec![0; length];
    Memory {
        first: Window { start, bytes },
        second: Window::default(),
    }
}

/// The same window with entry 2 of the message table.
pub fn message_bench(entry: [u64; 2]) -> Layout {
    let mut layout = bench(message_context());
    layout.put(MESSAGES + 32, entry[0]);
    layout.put(MESSAGES + 40, entry[1]);
    layout
}

/// A user request of device 0, four bytes.
pub fn plain(access: Access, address: u64) -> Request {
    Request {
        device_id: 0,
        process_id: None,
        supervisor: false,
        access,
        address,
        length: 4,
    }
}

/// A request under the one-level directory of a bench.
pub fn run(layout: &mut Layout, asked: &Request, data: u32) -> Answer {
    let settings = Settings {
        mode: 2,
        root: layout.memory.first.start >> 12,
    };
    request(&settings, &mut layout.memory, asked, data)
}

/// P1 to P4.
fn packing(checks: &mut Checks) {
    checks.holds(
        "P1 packing 181 under mask 166 gives 14",
        extract(181, 166) == 14,
    );
    checks.holds("P2 packing 181 under mask 0 gives 0", extract(181, 0) == 0);
    let third = recognised(0x8000_6123, 3, 0x80004) && extract(0x8000_6123 >> 12, 3) == 2;
    checks.holds("P3 guest 0x80006123 is file number 2", third);
    let fourth = !recognised(0x8000_8000, 3, 0x80004);
    checks.holds("P4 guest 0x80008000 isn't recognised", fourth);
}

/// P5 to P10, P13 and P14, printed as 01 prints them.
fn message_cases(checks: &mut Checks) {
    let mut p5 = message_bench([P5_ENTRY, 0]);
    let read = plain(Access::Read, 0x8000_6000);
    checks.line("P5", run(&mut p5, &read, 0), "P5 1 671092736 0 0");
    let mut p6 = message_bench(P6_ENTRY);
    let at0 = plain(Access::Write, 0x8000_6000);
    let at4 = plain(Access::Write, 0x8000_6004);
    let before = p6.memory.clone();
    let found = run(&mut p6, &at0, 37);
    checks.line("P6", found, "P6 2 1073746432 671088640 1029");
    let gained = one_gain(&before, &p6.memory, 0x1204, 32);
    checks.holds(
        "P6 byte 4 of the file gains 32, no other byte changes",
        gained,
    );
    let before = p6.memory.clone();
    let found = run(&mut p6, &at4, 620_756_992);
    checks.line("P7", found, "P7 2 1073746432 671088640 1029");
    checks.holds(
        "P7 is identity 37 again: no byte changes",
        before == p6.memory,
    );
    checks.line("P8", run(&mut p6, &at4, 37), "P8 3 0 0 0");
    let before = p6.memory.clone();
    let found = run(&mut p6, &at0, 2_047);
    checks.line("P9", found, "P9 2 1073746432 671088640 1029");
    let gained = one_gain(&before, &p6.memory, 0x1200 + 503, 128);
    checks.holds(
        "P9 byte 503 of the file gains 128, no other byte changes",
        gained,
    );
    checks.line("P10", run(&mut p6, &at0, 2_048), "P10 3 0 0 0");
    let mut p13 = message_bench([0x0A00_0405, 0]);
    checks.line("P13", run(&mut p13, &read, 0), "P13 4 263 0 0");
    let execute = plain(Access::ReadForExecute, 0x8000_6000);
    checks.line("P14", run(&mut p5, &execute, 0), "P14 4 1 0 0");
}

/// Exactly one byte of the first window gains exactly this value.
fn one_gain(before: &Memory, after: &Memory, place: usize, gain: u8) -> bool {
    let mut expected = before.clone();
    expected.first.bytes[place] |= gain;
    before.first.bytes[place] & gain == 0 && expected == *after
}

/// P11 and P12.
fn index_cases(checks: &mut Checks) {
    let indices = device::indices(0x012345);
    checks.holds(
        "P11 device_id 0x012345 gives 5, 141, 2",
        indices == [5, 141, 2],
    );
    let mut layout = bench([0; 8]);
    let settings = Settings {
        mode: 3,
        root: START >> 12,
    };
    let mut asked = plain(Access::Read, 0);
    asked.device_id = 0x012345;
    let found = request(&settings, &mut layout.memory, &asked, 0);
    checks.answer("P11 two levels", found, fault(260, Stage::Directory));
    let indices = process::indices(0x2A5C3);
    checks.holds(
        "P12 process_id 0x2A5C3 gives 195, 165, 1",
        indices == [195, 165, 1],
    );
    let mut layout = bench([0x21, 0, 0, root_of(2, PROCESSES), 0, 0, 0, 0]);
    asked.device_id = 0;
    asked.process_id = Some(0x2A5C3);
    let found = run(&mut layout, &asked, 0);
    checks.answer("P12 PD17", found, fault(260, Stage::Directory));
}

/// Each refusal is given before all later ones: inputs that break a rule and all after it.
fn refusal_order(checks: &mut Checks) {
    let mut memory = one_window(1, 4_096);
    let mut settings = Settings {
        mode: 5,
        root: 1 << 44,
    };
    let mut asked = Request {
        device_id: 1 << 24,
        process_id: Some(1 << 20),
        supervisor: true,
        access: Access::Write,
        address: 4_095,
        length: 2,
    };
    let found = request(&settings, &mut memory, &asked, 0);
    checks.answer("breaks 2001 to 2006", found, Answer::Refused(2001));
    memory.first.start = 0;
    let mut expect = |settings: &Settings, asked: &Request, number: u64, text: &str| {
        let found = request(settings, &mut memory, asked, 0);
        checks.answer(text, found, Answer::Refused(number));
    };
    expect(&settings, &asked, 2002, "breaks 2002 twice, to 2006");
    settings.mode = 2;
    expect(&settings, &asked, 2002, "breaks 2002 (root) to 2006");
    settings.root = 0;
    expect(&settings, &asked, 2003, "breaks 2003 to 2006");
    asked.device_id = 0;
    expect(&settings, &asked, 2004, "breaks 2004 and 2006");
    asked.process_id = None;
    expect(&settings, &asked, 2005, "breaks 2005 and 2006");
    asked.supervisor = false;
    expect(&settings, &asked, 2006, "breaks 2006, crossing");
    asked.length = 0;
    expect(&settings, &asked, 2006, "breaks 2006, length 0");
    asked.length = u64::MAX;
    expect(&settings, &asked, 2006, "breaks 2006, length 2^64 - 1");
    asked.length = 1;
    let found = request(&settings, &mut memory, &asked, 0);
    checks.answer("breaks none", found, fault(258, Stage::Directory));
}

/// Refusal 2001 at its limits; an empty window, and one at the very top.
fn window_limits(checks: &mut Checks) {
    let top = 1u64 << 56;
    let asked = plain(Access::Read, 8);
    let ask = |start: u64, length: usize, mode: u64| {
        let settings = Settings { mode, root: 0 };
        request(&settings, &mut one_window(start, length), &asked, 0)
    };
    let refused = Answer::Refused(2001);
    let passed = Answer::Translated(8);
    checks.answer("window of 1 byte", ask(0, 1, 1), refused);
    checks.answer("window of 4,095 bytes", ask(0, 4_095, 1), refused);
    checks.answer("start 2,048", ask(2_048, 4_096, 1), refused);
    checks.answer("start 2^64 - 1, empty", ask(u64::MAX, 0, 1), refused);
    checks.answer(
        "start 2^64 - 4,096: no wrap",
        ask(u64::MAX - 4_095, 4_096, 1),
        refused,
    );
    checks.answer(
        "start 2^64 - 4,096, empty",
        ask(u64::MAX - 4_095, 0, 1),
        refused,
    );
    checks.answer("window ends at 2^56", ask(top - 4_096, 4_096, 1), passed);
    checks.answer(
        "window ends above 2^56",
        ask(top - 4_096, 8_192, 1),
        refused,
    );
    checks.answer("start 2^56, empty", ask(top, 0, 1), passed);
    checks.answer("start 2^56, one page", ask(top, 4_096, 1), refused);
    checks.answer("empty window, Bare", ask(0, 0, 1), passed);
    let off = fault(256, Stage::Directory);
    checks.answer("empty window, Off", ask(0, 0, 0), off);
    for mode in 2..5 {
        let found = ask(0, 0, mode);
        let name = format!("empty window, mode {mode}");
        checks.answer(&name, found, fault(257, Stage::Directory));
    }
    // A directory in the last page below 2^56.
    let mut layout = Layout::new(top - 4_096, 1);
    layout.put(top - 64, 1);
    let mut last = asked;
    last.device_id = 63;
    let found = run(&mut layout, &last, 0);
    checks.answer("context in the last 64 bytes below 2^56", found, passed);
}

/// Takes: 2001, 2008, 2009 in this order.
fn takes(checks: &mut Checks) {
    let mut memory = one_window(4_096, 8_192);
    let big = u64::MAX;
    let mut ask = |name: &str, start: u64, file: u64, identity: u64, expected: Answer| {
        memory.first.start = start;
        let found = take(&mut memory, file, identity);
        checks.answer(name, found, expected);
    };
    let refused = Answer::Refused;
    ask("take breaks 2001, 2008, 2009", 1, 3, 2_048, refused(2001));
    ask("take breaks 2008 and 2009", 4_096, 3, 2_048, refused(2008));
    ask("take: file misaligned", 4_096, 4_352, 0, refused(2008));
    ask("take: file below", 4_096, 3_584, 0, refused(2008));
    ask("take: file above", 4_096, 12_288, 0, refused(2008));
    ask("take: file 2^64 - 512", 4_096, big - 511, 0, refused(2008));
    ask("take breaks 2009", 4_096, 11_776, 2_048, refused(2009));
    ask("take: identity 2^64 - 1", 4_096, 11_776, big, refused(2009));
    ask(
        "take of 0, last file",
        4_096,
        11_776,
        2_047,
        Answer::Taken(false),
    );
}

/// A report, the take of what it shows, and the refusals of reports.
fn take_after_report(checks: &mut Checks) {
    let mut memory = one_window(4_096, 8_192);
    memory.first.bytes[8_192 - 512 + 503] = 0xC0;
    memory.first.bytes[8_192 - 512 + 511] = 0xFF;
    let made = report(&memory, 11_776);
    let pair = made.pairs[31];
    let right = (made.refusal, made.count) == (0, 2)
        && (pair.pending, pair.enable) == (3 << 62, 0xFF << 56)
        && made.pairs[..31]
            .iter()
            .all(|p| p.pending == 0 && p.enable == 0);
    checks.holds("report: 2 pending, pair 31", right);
    let found = take(&mut memory, 11_776, 2_047);
    checks.answer("take of 1", found, Answer::Taken(true));
    let bytes = &memory.first.bytes[8_192 - 512..];
    let left = bytes[503] == 0x40 && bytes[511] == 0xFF;
    checks.holds("take clears its own bit only", left);
    let found = take(&mut memory, 11_776, 2_047);
    checks.answer("take again", found, Answer::Taken(false));
    for (name, start, file, number) in [
        ("report breaks 2001 and 2008", 1, 3, 2001),
        ("report breaks 2008", 4_096, 3, 2008),
        ("report above", 4_096, 12_288, 2008),
    ] {
        memory.first.start = start;
        let made = report(&memory, file);
        let zero = made.pairs.iter().all(|p| p.pending == 0 && p.enable == 0);
        checks.holds(name, made.refusal == number && made.count == 0 && zero);
    }
}

/// An address of 2^56 or more that no stage translates.
fn untranslated(checks: &mut Checks) {
    let top = 1u64 << 56;
    let mut layout = bench([1, 0, 0, 0, 0, 0, 0, 0]);
    let bare = Settings { mode: 1, root: 0 };
    for (access, cause) in [
        (Access::ReadForExecute, 1),
        (Access::Read, 5),
        (Access::Write, 7),
    ] {
        let name = format!("{} at 2^56", access.name());
        let asked = plain(access, top);
        let expected = fault(cause, Stage::Directory);
        let found = request(&bare, &mut layout.memory, &asked, 0);
        checks.answer(&format!("Bare directory, {name}"), found, expected);
        let found = run(&mut layout, &asked, 0);
        checks.answer(&format!("both stages Bare, {name}"), found, expected);
    }
    let asked = plain(Access::Read, top - 4);
    let passed = Answer::Translated(top - 4);
    let found = request(&bare, &mut layout.memory, &asked, 0);
    checks.answer(
        "Bare directory, the last four bytes below 2^56",
        found,
        passed,
    );
    let found = run(&mut layout, &asked, 0);
    checks.answer(
        "both stages Bare, the last four bytes below 2^56",
        found,
        passed,
    );
    // The device context comes first (D4).
    layout.put(START + 56, 1);
    let found = run(&mut layout, &plain(Access::Read, top), 0);
    let name = "misconfigured context before 2^56";
    checks.answer(name, found, fault(259, Stage::Directory));
}

/// Each of the 512 bits of a valid device context: which ones make it misconfigured.
fn context_bits(checks: &mut Checks) {
    let low44 = (1u64 << 44) - 1;
    // The bits that may change alone, word by word, in the message context (PDTV = 0).
    let free = [
        1 << 4 | 1 << 5,
        // Mode 8 becomes 9 or 10.
        ((1 << 62) - 1) & !3,
        0xFFFF_F000,
        low44 | 1 << 63,
        low44 | 1 << 60,
        (1 << 47) - 1,
        (1 << 47) - 1,
        0,
    ];
    for (word, allowed) in free.iter().enumerate() {
        let mut right = true;
        for bit in 0..64 {
            let mut context = message_context();
            context[word] ^= 1 << bit;
            let found = run(&mut bench(context), &plain(Access::Read, 0), 0);
            let cause = match (word, bit) {
                (0, 0) => Some(258),
                _ if allowed >> bit & 1 == 1 => None,
                _ => Some(259),
            };
            let directory = match found {
                Answer::Fault { cause, .. } if (257..260).contains(&cause) => Some(cause),
                _ => None,
            };
            right &= directory == cause;
        }
        checks.holds(
            &format!("device context, word {word}: each single bit"),
            right,
        );
    }
}

/// Process directories: DPE, widths, ENS, and faults of the second stage under them.
fn process_rules(checks: &mut Checks) {
    let mut asked = plain(Access::Write, 0x5000);
    let passed = Answer::Translated(0x5000);
    let context = |tc: u64, mode: u64| [tc, 0, 0, root_of(mode, PROCESSES), 0, 0, 0, 0];
    let found = run(&mut bench(context(0x21, 1)), &asked, 0);
    checks.answer("PDTV, no process_id, DPE = 0", found, passed);
    let found = run(&mut bench(context(0x221, 1)), &asked, 0);
    let name = "PDTV, no process_id, DPE = 1: process 0";
    checks.answer(name, found, fault(266, Stage::ProcessDirectory));
    asked.process_id = Some(0xF_FFFF);
    asked.supervisor = true;
    let found = run(&mut bench(context(0x21, 0)), &asked, 0);
    checks.answer("Bare process directory, supervisor, 20 bits", found, passed);
    asked.process_id = Some(256);
    let found = run(&mut bench(context(0x21, 1)), &asked, 0);
    checks.answer("PD8, process 256", found, fault(260, Stage::Directory));
    asked.process_id = Some(255);
    let mut layout = bench(context(0x21, 1));
    layout.put(PROCESSES + 255 * 16, 1);
    let found = run(&mut layout, &asked, 0);
    checks.answer(
        "supervisor without ENS",
        found,
        fault(260, Stage::Directory),
    );
    layout.put(PROCESSES + 255 * 16, 3);
    let found = run(&mut layout, &asked, 0);
    checks.answer("supervisor with ENS", found, passed);
    asked.process_id = Some(1 << 17);
    let found = run(&mut bench(context(0x21, 2)), &asked, 0);
    checks.answer("PD17, process 2^17", found, fault(260, Stage::Directory));
    let mut guest = context(0x21, 1);
    guest[1] = root_of(8, SECOND);
    asked.process_id = Some(0);
    let mut layout = bench(guest);
    let found = run(&mut layout, &asked, 0);
    let name = "guest page fault under the process directory, a write";
    checks.answer(name, found, fault(23, Stage::Second));
    layout.put(SECOND + 8, pointer(0));
    let found = run(&mut layout, &asked, 0);
    let name = "access violation under the process directory";
    checks.answer(name, found, fault(265, Stage::ProcessDirectory));
    // Read permission is enough for the directory, also under a write (D7).
    layout.put(SECOND + 8, leaf(START, 0x53));
    let found = run(&mut layout, &asked, 0);
    let name = "process context not valid, read through a page without W and D";
    checks.answer(name, found, fault(266, Stage::ProcessDirectory));
}

/// Device 0 with a PD8 directory; process 0 has ENS, this SUM, and a first stage that maps its first
/// GiB to the sixth by one leaf with this U.
fn process_bench(sum: bool, user: bool) -> Layout {
    let mut layout = bench([0x21, 0, 0, root_of(1, PROCESSES), 0, 0, 0, 0]);
    layout.put(PROCESSES, 3 | u64::from(sum) << 2);
    layout.put(PROCESSES + 8, root_of(8, FIRST));
    layout.put(FIRST, leaf(5 * GIGA, 0xCF | u64::from(user) << 4));
    layout
}

/// A request of process 0.
fn of_process(supervisor: bool, access: Access) -> Request {
    let mut asked = plain(access, 0x1238);
    asked.process_id = Some(0);
    asked.supervisor = supervisor;
    asked
}

/// The rule of U under a process context (003, Process-context, translation attributes; 02, Req 02):
/// supervisor, SUM, U, then the cause of a read, a write and a read-for-execute, 0 for none.
fn user_rule(checks: &mut Checks) {
    let rows = [
        (true, false, false, [0, 0, 0]),
        (true, false, true, [13, 15, 12]),
        (true, true, false, [0, 0, 0]),
        (true, true, true, [0, 0, 12]),
        (false, false, false, [13, 15, 12]),
        (false, false, true, [0, 0, 0]),
        (false, true, false, [13, 15, 12]),
        (false, true, true, [0, 0, 0]),
    ];
    for (supervisor, sum, user, causes) in rows {
        for (access, cause) in Access::ALL.into_iter().zip(causes) {
            let asked = of_process(supervisor, access);
            let found = run(&mut process_bench(sum, user), &asked, 0);
            let expected = match cause {
                0 => Answer::Translated(0x1_4000_1238),
                _ => fault(cause, Stage::First),
            };
            let privilege = if supervisor { "supervisor" } else { "user" };
            let (sum, user) = (u8::from(sum), u8::from(user));
            let name = format!("{privilege}, SUM = {sum}, U = {user}, {}", access.name());
            checks.answer(&name, found, expected);
        }
    }
}

/// SUM opens a page with U = 1 to a supervisor, and stands for no other bit of its leaf.
fn user_rule_alone(checks: &mut Checks) {
    let rows = [
        ("X without R", 0xD9, Access::Read, 13),
        ("A = 0", 0x9F, Access::Read, 13),
        ("no W", 0xDB, Access::Write, 15),
        ("D = 0", 0x5F, Access::Write, 15),
    ];
    for (name, flags, access, cause) in rows {
        let mut layout = process_bench(true, true);
        layout.put(FIRST, leaf(5 * GIGA, flags));
        let found = run(&mut layout, &of_process(true, access), 0);
        let name = format!("supervisor, SUM = 1, U = 1, {name}, {}", access.name());
        checks.answer(&name, found, fault(cause, Stage::First));
    }
}

/// The second stage under a supervisor with SUM = 1 on a page with U = 1: it needs U = 1 itself, for
/// the final address and for the first stage's entry. The guest's second GiB is the window's, which
/// holds the process directory; the first stage's table is found through the fourth.
fn user_rule_below(checks: &mut Checks) {
    let passed = Answer::Translated(0x1_C000_1238);
    let guest_fault = fault(21, Stage::Second);
    let rows = [
        ("all with U = 1", 0xDF, 0xDF, passed),
        ("final address, U = 0", 0xDF, 0xCF, guest_fault),
        ("first-stage entry, U = 0", 0xCF, 0xDF, guest_fault),
    ];
    for (name, table, data, expected) in rows {
        let mut layout = process_bench(true, true);
        layout.put(START + 8, root_of(8, SECOND));
        layout.put(PROCESSES + 8, root_of(8, 3 * GIGA + (FIRST - START)));
        layout.put(SECOND + 8, leaf(START, ALL_FLAGS));
        layout.put(SECOND + 3 * 8, leaf(START, table));
        layout.put(SECOND + 5 * 8, leaf(7 * GIGA, data));
        let found = run(&mut layout, &of_process(true, Access::Read), 0);
        let name = format!("supervisor, SUM = 1, both stages, {name}");
        checks.answer(&name, found, expected);
    }
}

/// Both stages: a first stage of 4 KiB pages whose tables lie at guest addresses. Guest pages 1, 2
/// and 3 are the window's pages 3, 9 and 10, which hold the first stage's three tables.
pub fn two_stage_bench() -> Layout {
    let mut context = message_context();
    context[3] = root_of(8, 0x1000);
    let mut layout = bench(context);
    let (middle, low) = (START + 0xB000, START + 0xC000);
    layout.put(SECOND, pointer(middle));
    layout.put(middle, pointer(low));
    // Read permission is enough for tables (D7).
    layout.put(low + 8, leaf(FIRST, 0x53));
    layout.put(low + 16, leaf(START + 0x9000, 0x53));
    layout.put(low + 24, leaf(START + 0xA000, 0x53));
    layout.put(low + 32, leaf(0x77_7777_7000, ALL_FLAGS));
    layout.put(FIRST, pointer(0x2000));
    layout.put(START + 0x9000, pointer(0x3000));
    layout.put(START + 0xA000 + 8, leaf(0x4000, ALL_FLAGS));
    layout.put(START + 0xA000 + 16, leaf(0x8000_6000, ALL_FLAGS));
    layout.put(START + 0xA000 + 24, leaf(0x5000, ALL_FLAGS));
    layout.put(MESSAGES + 32, P6_ENTRY[0]);
    layout.put(MESSAGES + 40, P6_ENTRY[1]);
    layout
}

/// First-stage entries lie at guest addresses, and recognition uses the guest address.
fn two_stage_rules(checks: &mut Checks) {
    let mut layout = two_stage_bench();
    let write = |address| plain(Access::Write, address);
    let found = run(&mut layout, &write(0x1238), 0);
    checks.answer(
        "both stages, a write",
        found,
        Answer::Translated(0x77_7777_7238),
    );
    let found = run(&mut layout, &write(0x2000), 37);
    checks.answer("a message after the first stage", found, p6_store());
    let found = run(&mut layout, &write(0x3000), 0);
    checks.answer("guest page not mapped", found, fault(23, Stage::Second));
    let found = run(&mut layout, &write(0x4000), 0);
    checks.answer("page not mapped", found, fault(15, Stage::First));
    let found = run(&mut layout, &write(0x8000_6000), 37);
    let name = "the device's own address isn't matched";
    checks.answer(name, found, fault(15, Stage::First));
    let low = START + 0xC000;
    layout.put(low + 24, leaf(START + 0xA000, 0x59));
    let found = run(&mut layout, &write(0x1000), 0);
    let name = "first-stage table on a page without R";
    checks.answer(name, found, fault(23, Stage::Second));
    layout.put(low + 24, leaf(0, 0x53));
    let found = run(&mut layout, &write(0x1000), 0);
    let name = "first-stage table outside the window";
    checks.answer(name, found, fault(7, Stage::First));
    layout.put(START + 0xB000, pointer(0));
    let found = run(&mut layout, &write(0x1000), 0);
    let name = "second-stage table outside the window";
    checks.answer(name, found, fault(7, Stage::Second));
}

/// Messages: alignment, order, refusal 2007 after all other checks (2012 is among those of `table_check`).
fn message_rules(checks: &mut Checks) {
    let aligned = alignment(0) == 4_096
        && alignment(255) == 4_096
        && alignment(511) == 8_192
        && alignment((1 << 29) - 1) == 1 << 33;
    checks.holds("table alignment at 0, 8, 9 and 29 ones", aligned);
    let mut context = message_context();
    context[4] = root_of(1, START + 0x9000);
    context[5] = 511;
    let found = run(&mut bench(context), &plain(Access::Read, 0x8000_6000), 0);
    let name = "nine ones, table on an odd page: 263 without a load";
    checks.answer(name, found, fault(263, Stage::MessageTable));
    let outside = [0x3000_0003, 0];
    let write = plain(Access::Write, 0x8000_6000);
    let found = run(&mut message_bench(outside), &write, 37);
    checks.answer("file outside the window", found, Answer::Refused(2007));
    let found = run(&mut message_bench(outside), &write, 2_048);
    checks.answer("discarded before 2007", found, Answer::Discarded);
    let execute = plain(Access::ReadForExecute, 0x8000_6000);
    let found = run(&mut message_bench(outside), &execute, 0);
    let name = "execute at a file entry, file outside";
    checks.answer(name, found, fault(1, Stage::MessageTable));
    let found = run(&mut message_bench([0x1000_0482, 0]), &write, 37);
    checks.answer("entry not valid", found, fault(262, Stage::MessageTable));
    let mut far = message_context();
    far[4] = root_of(1, 0);
    let found = run(&mut bench(far), &write, 37);
    checks.answer(
        "entry outside the window",
        found,
        fault(261, Stage::MessageTable),
    );
    let mut layout = message_bench(P6_ENTRY);
    let found = run(&mut layout, &write, 0);
    checks.answer("identity 0 is stored", found, p6_store());
    checks.holds("identity 0 is bit 0", layout.get(FILES + 0x200) == 1);
    let found = run(&mut layout, &write, 64);
    checks.answer("identity 64 is stored", found, p6_store());
    checks.holds(
        "its doubleword is 16 bytes on",
        layout.get(FILES + 0x210) == 1,
    );
    checks.holds("enable bits stay", layout.get(FILES + 0x208) == 0);
    let high = plain(Access::Write, 0x8000_6000 | 1 << 41);
    let found = run(&mut layout, &high, 37);
    let name = "2^41 above a message page isn't recognised";
    checks.answer(name, found, fault(23, Stage::Second));
}

/// The ledger closes over a short list, and each of the wrong behaviours breaks it.
fn ledger_rules(checks: &mut Checks) {
    let write = Call::Request {
        mode: 2,
        root: START >> 12,
        request: plain(Access::Write, 0x8000_6000),
        data: 37,
    };
    let take_call = Call::Take {
        file: 0x4000_1200,
        identity: 37,
    };
    let layout = message_bench(P6_ENTRY);
    let mut stored = layout.clone();
    run(&mut stored, &plain(Access::Write, 0x8000_6000), 37);
    let close = |steps: &[(Call, Answer)], ending: &Memory| {
        let mut ledger = Ledger::new(&layout.memory);
        for (call, answer) in steps {
            ledger.feed(call, *answer)?;
        }
        ledger.close(ending)
    };
    let store = (write, p6_store());
    let taken = |pending| (take_call, Answer::Taken(pending));
    let (zero, one) = (&layout.memory, &stored.memory);
    checks.holds("ledger: an empty list", close(&[], zero).is_ok());
    checks.holds(
        "ledger: store, merged store",
        close(&[store, store], one).is_ok(),
    );
    let whole = [store, store, taken(true), taken(false)];
    checks.holds(
        "ledger: store, store, take 1, take 0",
        close(&whole, zero).is_ok(),
    );
    let lost = close(&[store], zero).is_err();
    checks.holds("ledger rejects a store that sets nothing", lost);
    let mut every = layout.memory.clone();
    every.first.bytes[0x1200..0x1400].fill(0xFF);
    let all_bits = close(&[store], &every).is_err();
    checks.holds("ledger rejects a store that sets every bit", all_bits);
    let always = close(&[taken(true)], zero).is_err();
    checks.holds(
        "ledger rejects a take answered 1 with nothing waiting",
        always,
    );
    let silent = close(&[store, taken(false)], one).is_err();
    checks.holds("ledger rejects a take answered 0 with one waiting", silent);
    let fault_answer = (write, fault(256, Stage::Directory));
    let hidden = close(&[fault_answer], one).is_err();
    checks.holds("ledger rejects a change under a fault", hidden);
}

#[cfg(test)]
mod tests {
    #[test]
    fn every_check_holds() {
        for check in super::all() {
            assert!(check.holds, "{}", check.name);
        }
    }
}
