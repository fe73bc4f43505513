//! Checks of the six schemes (02, Req 03): their limits, page sizes and roots, the modes of contexts,
//! and the widths of mask and pattern. The schemes stand here once more, by the papers' numbers.

use crate::check::{bench, fault, message_context, p6_store, plain, run, Checks};
use crate::check::{FIRST, MESSAGES, P6_ENTRY, PROCESSES, SECOND, START};
use crate::layout::{leaf, pointer, root_of, Layout, ALL_FLAGS};
use crate::message::alignment;
use crate::types::{Access, Answer, Request, Stage};

/// Name, mode, levels and address bits of a scheme.
type Row = (&'static str, u64, u32, u32);

const FIRST_ROWS: [Row; 3] = [("Sv39", 8, 3, 39), ("Sv48", 9, 4, 48), ("Sv57", 10, 5, 57)];

const SECOND_ROWS: [Row; 3] = [
    ("Sv39x4", 8, 3, 41),
    ("Sv48x4", 9, 4, 50),
    ("Sv57x4", 10, 5, 59),
];

/// The names of the page sizes, and the bits of their offsets.
const SIZES: [(&str, u32); 5] = [
    ("4 KiB", 12),
    ("2 MiB", 21),
    ("1 GiB", 30),
    ("512 GiB", 39),
    ("256 TiB", 48),
];

/// All checks of this file, in order.
pub fn all(checks: &mut Checks) {
    first_limits(checks);
    second_limits(checks);
    for row in FIRST_ROWS {
        page_sizes(checks, row, true);
    }
    for row in SECOND_ROWS {
        page_sizes(checks, row, false);
    }
    pairs(checks);
    modes(checks);
    roots(checks);
    inner_limits(checks);
    message_words(checks);
    message_places(checks);
    whole_mask(checks);
}

/// A context with a first stage of this mode, the second one Bare.
fn first_context(mode: u64) -> [u64; 8] {
    [1, 0, 0, root_of(mode, FIRST), 0, 0, 0, 0]
}

/// A context with a second stage of this mode, the first one Bare.
fn second_context(mode: u64) -> [u64; 8] {
    [1, root_of(mode, SECOND), 0, 0, 0, 0, 0, 0]
}

/// A context with a process directory of this mode, both stages Bare; DPE stands for process 0.
fn pdtp_context(mode: u64) -> [u64; 8] {
    [0x221, 0, 0, root_of(mode, PROCESSES), 0, 0, 0, 0]
}

/// A read of one byte.
fn byte(address: u64) -> Request {
    Request {
        length: 1,
        ..plain(Access::Read, address)
    }
}

/// One byte read at each address; then each access at the first address beyond the limit.
fn limits(
    checks: &mut Checks,
    name: &str,
    layout: &mut Layout,
    stage: Stage,
    rows: &[(String, u64, Answer)],
) {
    for (text, address, expected) in rows {
        let found = run(layout, &byte(*address), 0);
        checks.answer(&format!("{name} at {text}"), found, *expected);
    }
    let causes = match stage {
        Stage::First => [13, 15, 12],
        _ => [21, 23, 20],
    };
    // The second row is the limit itself.
    let (text, address, _) = &rows[1];
    for (access, cause) in Access::ALL.into_iter().zip(causes) {
        let found = run(layout, &plain(access, *address), 0);
        let name = format!("{name} at {text}, {}", access.name());
        checks.answer(&name, found, fault(cause, stage));
    }
}

/// The sign rule: 2^38 - 1 is legal for Sv39 and 2^38 isn't, and so on.
fn first_limits(checks: &mut Checks) {
    for (name, mode, _, bits) in FIRST_ROWS {
        let mut layout = bench(first_context(mode));
        let unit = 1u64 << (bits - 9);
        for (index, page) in [(255, 3), (256, 5), (511, 7)] {
            layout.put(FIRST + index * 8, leaf(page * unit, ALL_FLAGS));
        }
        let (sign, low) = (bits - 1, 1u64 << (bits - 1));
        let page_fault = fault(13, Stage::First);
        let passed = Answer::Translated;
        let rows = [
            (format!("2^{sign} - 1"), low - 1, passed(4 * unit - 1)),
            (format!("2^{sign}"), low, page_fault),
            (format!("2^64 - 2^{sign} - 1"), !low, page_fault),
            (format!("2^64 - 2^{sign}"), !low + 1, passed(5 * unit)),
            ("2^64 - 1".to_string(), u64::MAX, passed(8 * unit - 1)),
            (format!("2^{bits} + 2^{sign}"), low * 3, page_fault),
            ("2^63".to_string(), 1 << 63, page_fault),
        ];
        limits(checks, name, &mut layout, Stage::First, &rows);
    }
}

/// Guest 2^41 - 1 may pass under Sv39x4 and 2^41 is a guest page fault, and so on; the root index has
/// eleven bits.
fn second_limits(checks: &mut Checks) {
    for (name, mode, _, bits) in SECOND_ROWS {
        let mut layout = bench(second_context(mode));
        let unit = 1u64 << (bits - 11);
        layout.put(SECOND + 2_047 * 8, leaf(7 * unit, ALL_FLAGS));
        layout.put(SECOND + 512 * 8, leaf(9 * unit, ALL_FLAGS));
        let top = 1u64 << bits;
        let guest_fault = fault(21, Stage::Second);
        let passed = Answer::Translated;
        let ninth = format!("2^{}, root index 512", bits - 2);
        let rows = [
            (format!("2^{bits} - 1"), top - 1, passed(8 * unit - 1)),
            (format!("2^{bits}"), top, guest_fault),
            ("2^64 - 1".to_string(), u64::MAX, guest_fault),
            (ninth, top / 4, passed(9 * unit)),
            ("0, root index 0".to_string(), 0, guest_fault),
        ];
        limits(checks, name, &mut layout, Stage::Second, &rows);
    }
}

/// Puts a leaf of a level below a root, index 1 at every level; gives the address that it begins at.
fn chain(layout: &mut Layout, root: u64, levels: u32, level: u32, entry: u64) -> u64 {
    let (mut table, mut address) = (root, 0);
    for at in (level..levels).rev() {
        address += 1 << SIZES[at as usize].1;
        let next = START + 0x9000 + 0x1000 * u64::from(at);
        let value = if at == level { entry } else { pointer(next) };
        layout.put(table + 8, value);
        table = next;
    }
    address
}

/// Every page size of a scheme: the last bytes of a page, and a page off its alignment by its lowest
/// and by its highest bit.
fn page_sizes(checks: &mut Checks, (name, mode, levels, _): Row, first: bool) {
    let (context, root, page_fault) = match first {
        true => (first_context(mode), FIRST, fault(13, Stage::First)),
        false => (second_context(mode), SECOND, fault(21, Stage::Second)),
    };
    for level in 0..levels {
        let (size_name, width) = SIZES[level as usize];
        let (size, page) = (1u64 << width, 6 << 48);
        let mut ask = |text: &str, page: u64, expected: Answer| {
            let mut layout = bench(context);
            let address = chain(&mut layout, root, levels, level, leaf(page, ALL_FLAGS));
            let found = run(&mut layout, &plain(Access::Read, address + size - 8), 0);
            checks.answer(&format!("{name}, {size_name} page{text}"), found, expected);
        };
        ask("", page, Answer::Translated(page + size - 8));
        if level > 0 {
            ask(" misaligned by 4 KiB", page + 4_096, page_fault);
            ask(" misaligned by its half", page + size / 2, page_fault);
        }
    }
}

/// Every pair of schemes: the first stage's table is found by the guest's page 0, its largest page
/// leads to a guest page at the last address that both can reach.
fn pairs(checks: &mut Checks) {
    for (first, first_mode, levels, _) in FIRST_ROWS {
        for (second, second_mode, second_levels, bits) in SECOND_ROWS {
            let unit = 1u64 << SIZES[second_levels as usize - 1].1;
            let own = 1u64 << SIZES[levels as usize - 1].1;
            let mut layout = bench(second_context(second_mode));
            let tables = START % unit;
            layout.put(SECOND, leaf(START - tables, ALL_FLAGS));
            layout.put(START + 24, root_of(first_mode, FIRST - START + tables));
            // A first-stage page names 56 bits of guest address.
            let last = (1u64 << bits.min(56)) - 8;
            layout.put(SECOND + last / unit * 8, leaf(3 * unit, ALL_FLAGS));
            layout.put(FIRST + 8, leaf(last - last % own, ALL_FLAGS));
            let asked = plain(Access::Write, own + last % own);
            let found = run(&mut layout, &asked, 0);
            let expected = Answer::Translated(3 * unit + last % unit);
            checks.answer(&format!("{first} on {second}"), found, expected);
        }
    }
}

/// Each of the sixteen modes of each field that has one: 0, 8, 9 and 10 are legal, and 0 to 3 for a
/// process directory.
fn modes(checks: &mut Checks) {
    let passed = Answer::Translated(0x5000);
    let device = fault(259, Stage::Directory);
    for mode in 0..16 {
        let process = {
            let mut layout = bench(pdtp_context(1));
            layout.put(PROCESSES, 1);
            layout.put(PROCESSES + 8, root_of(mode, FIRST));
            layout
        };
        let first = fault(13, Stage::First);
        let second = fault(21, Stage::Second);
        let absent = fault(266, Stage::ProcessDirectory);
        let misconfigured = fault(267, Stage::ProcessDirectory);
        for (name, mut layout, legal, on, refused) in [
            ("fsc", bench(first_context(mode)), 8..=10, first, device),
            (
                "iohgatp",
                bench(second_context(mode)),
                8..=10,
                second,
                device,
            ),
            ("pdtp", bench(pdtp_context(mode)), 1..=3, absent, device),
            ("process fsc", process, 8..=10, first, misconfigured),
        ] {
            let expected = match mode {
                0 => passed,
                _ if legal.contains(&mode) => on,
                _ => refused,
            };
            let found = run(&mut layout, &plain(Access::Read, 0x5000), 0);
            checks.answer(&format!("{name} mode {mode}"), found, expected);
        }
    }
}

/// The root of each second-stage scheme stands on 16 KiB; that of a first stage on 4 KiB.
fn roots(checks: &mut Checks) {
    for quarter in 0..4 {
        for (name, mode, _, _) in SECOND_ROWS {
            let mut context = second_context(mode);
            context[1] += quarter;
            let found = run(&mut bench(context), &plain(Access::Read, 0), 0);
            let expected = match quarter {
                0 => fault(21, Stage::Second),
                _ => fault(259, Stage::Directory),
            };
            let name = format!("{name}, root {quarter} pages off 16 KiB");
            checks.answer(&name, found, expected);
        }
        for (name, mode, _, _) in FIRST_ROWS {
            let mut context = first_context(mode);
            context[3] = root_of(mode, SECOND + quarter * 4_096);
            let found = run(&mut bench(context), &plain(Access::Read, 0), 0);
            let name = format!("{name}, root {quarter} pages off 16 KiB");
            checks.answer(&name, found, fault(13, Stage::First));
        }
    }
}

/// Tables at guest addresses beyond the second stage's limit; 2^56 is beyond what a table's page
/// number names, so that Sv57x4 has no such case.
fn inner_limits(checks: &mut Checks) {
    for (name, mode, _, bits) in SECOND_ROWS {
        let unit = 1u64 << (bits - 11);
        let top = 1u64 << bits.min(56);
        for (text, tc, first, stage) in [
            ("first-stage root", 0x01, 10, Stage::First),
            ("process directory", 0x221, 1, Stage::ProcessDirectory),
        ] {
            let mut ask = |text: &str, page: u64, expected: Answer| {
                let mut context = second_context(mode);
                (context[0], context[3]) = (tc, root_of(first, page));
                let mut layout = bench(context);
                // The last of the guest's pages that a table's page number names; nothing is there.
                let last = (top - 1) / unit;
                layout.put(SECOND + last * 8, leaf(3 * unit, ALL_FLAGS));
                let found = run(&mut layout, &plain(Access::Write, 0), 0);
                checks.answer(&format!("{name}, {text}"), found, expected);
            };
            let outside = match stage {
                Stage::First => fault(7, Stage::First),
                _ => fault(265, Stage::ProcessDirectory),
            };
            ask(&format!("{text} on its last page"), top - 4_096, outside);
            if bits < 56 {
                ask(
                    &format!("{text} at its limit"),
                    top,
                    fault(23, Stage::Second),
                );
            }
        }
    }
}

/// Each bit of mask and pattern, under each mode of iohgatp, messages on and off: up to 46 usable,
/// reserved from 47 on.
fn message_words(checks: &mut Checks) {
    for (word, name) in [(5, "mask"), (6, "pattern")] {
        for mode in [0, 8, 9, 10] {
            for messages in [0, 1] {
                if mode == 0 && messages == 1 {
                    continue;
                }
                let right = (0..64).all(|bit| {
                    let mut context = second_context(mode);
                    context[4] = root_of(messages, MESSAGES);
                    context[word] = 1 << bit;
                    let found = run(&mut bench(context), &plain(Access::Read, 0), 0);
                    let refused = found == fault(259, Stage::Directory);
                    refused == (bit >= 47)
                });
                let text = format!("{name} under mode {mode}, messages {messages}: each bit");
                checks.holds(&text, right);
            }
        }
    }
}

/// A message's page at address bit 58, by the pattern and by the mask, under each scheme: step 18
/// comes before the second stage's limit. A bit above is never recognised.
fn message_places(checks: &mut Checks) {
    for (name, mode, _, _) in SECOND_ROWS {
        for (text, mask, pattern, number) in
            [("pattern", 3, 1 << 46 | 4, 2), ("mask", 1 << 46 | 1, 6, 2)]
        {
            let mut context = message_context();
            context[1] = root_of(mode, SECOND);
            (context[5], context[6]) = (mask, pattern);
            let mut layout = bench(context);
            layout.put(MESSAGES + 16 * number, P6_ENTRY[0]);
            layout.put(MESSAGES + 16 * number + 8, P6_ENTRY[1]);
            let guest = 1 << 58 | 6 << 12;
            let found = run(&mut layout, &plain(Access::Write, guest), 37);
            let text = format!("{name}, message at 2^58 by the {text}");
            checks.answer(&text, found, p6_store());
            let above = plain(Access::Write, guest | 1 << 59);
            let found = run(&mut layout, &above, 37);
            let text = format!("{text}, 2^59 above it");
            checks.answer(&text, found, fault(23, Stage::Second));
        }
    }
}

/// A mask of all 47 ones: its table begins at a multiple of 2^51, and the entry lies in the window.
fn whole_mask(checks: &mut Checks) {
    let mask = (1u64 << 47) - 1;
    checks.holds("table alignment at 47 ones", alignment(mask) == 1 << 51);
    let mut context = message_context();
    (context[1], context[5], context[6]) = (root_of(10, SECOND), mask, 0);
    context[4] = root_of(1, 0);
    let mut layout = bench(context);
    layout.put(MESSAGES + 32, P6_ENTRY[0]);
    layout.put(MESSAGES + 40, P6_ENTRY[1]);
    let number = (MESSAGES + 32) / 16;
    let found = run(&mut layout, &plain(Access::Write, number << 12), 37);
    checks.answer("mask of 47 ones", found, p6_store());
    layout.put(START + 32, root_of(1, 1 << 50));
    let found = run(&mut layout, &plain(Access::Write, number << 12), 37);
    let name = "mask of 47 ones, table off 2^51";
    checks.answer(name, found, fault(263, Stage::MessageTable));
}
