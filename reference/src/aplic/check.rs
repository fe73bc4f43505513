//! Checks of the domain: cases made by hand from the sentences of 002 and of 02, Req 07; what direct
//! delivery adds is in `direct_check`.

use crate::aplic::domain::{Call, Domain, Message};
use crate::aplic::source::Delivery;
use crate::check::Checks;

/// Offsets by the numbers of 002, Table 1.
pub const SETIP: u64 = 0x1C00;
pub const SETIPNUM: u64 = 0x1CDC;
pub const IN_CLRIP: u64 = 0x1D00;
pub const CLRIPNUM: u64 = 0x1DDC;
const SETIE: u64 = 0x1E00;
pub const SETIENUM: u64 = 0x1EDC;
const CLRIE: u64 = 0x1F00;
const CLRIENUM: u64 = 0x1FDC;
pub const SETIPNUM_LE: u64 = 0x2000;
pub const TARGET: u64 = 0x3000;

/// All checks of this file, in order.
pub fn all(checks: &mut Checks) {
    reset(checks);
    for (text, rows) in PENDING {
        pending(checks, Delivery::Message, text, rows);
    }
    targets(checks);
    made_inactive(checks);
    forwards(checks);
    forward_order(checks);
    still_asserted(checks);
    for delivery in Delivery::ALL {
        domaincfg(checks, delivery);
        sourcecfg(checks, delivery);
        rectified(checks, delivery);
        masks(checks, delivery);
        numbers(checks, delivery);
        enables(checks, delivery);
        wires(checks, delivery);
        undefined(checks, delivery);
    }
}

/// A domain with IE, and source 5 in this mode, enabled.
pub fn with_source(delivery: Delivery, mode: u32) -> Domain {
    let mut domain = Domain::new(delivery);
    domain.write(0, 0x100);
    domain.write(4 * 5, mode);
    domain.write(SETIENUM, 5);
    domain
}

/// 02, Req 07: "All state starts at zero save the delivery mode."
fn reset(checks: &mut Checks) {
    let mut domain = Domain::new(Delivery::Message);
    let zero = (1..0x1_0000).all(|offset| domain.read(offset) == 0);
    checks.holds("domain at reset: every register but domaincfg is 0", zero);
    let domaincfg = domain.read(0) == 0x8000_0004;
    checks.holds("domain at reset: domaincfg is 0x80000004", domaincfg);
    let none = domain.forward().is_none() && domain == Domain::new(Delivery::Message);
    checks.holds("domain at reset: a forward answers none", none);
}

/// 002, 4.1.5.1: DM is 1 in MSI delivery mode, 0 in direct delivery mode; 02, Req 08: "The mode is fixed".
fn domaincfg(checks: &mut Checks, delivery: Delivery) {
    let mut domain = Domain::new(delivery);
    let fixed = match delivery {
        Delivery::Message => 0x8000_0004,
        Delivery::Direct => 0x8000_0000,
    };
    for (written, enable) in [
        (0xFFFF_FFFF, 0x100),
        (0xFFFF_FEFF, 0),
        (0x0000_0100, 0x100),
        (0x0000_0000, 0),
        (0x0101_0101, 0x100),
        (0x0000_0004, 0),
        (0x0000_0104, 0x100),
    ] {
        domain.write(0, written);
        let read = fixed | enable;
        let mode = delivery.name();
        let name = format!("{mode}: domaincfg written {written:#x} reads {read:#x}");
        checks.holds(&name, domain.read(0) == read);
    }
}

/// 002, 4.1.5.2, Table 2 and bit 10; 02, Req 07: "a reserved source mode is kept as 0".
fn sourcecfg(checks: &mut Checks, delivery: Delivery) {
    for (sm, kept) in [0, 1, 0, 0, 4, 5, 6, 7].into_iter().enumerate() {
        let sm = sm as u32;
        let holds = [4, 4 * 63].into_iter().all(|offset| {
            let mut domain = Domain::new(delivery);
            let mut reads = |value: u32| {
                domain.write(offset, value);
                domain.read(offset)
            };
            let plain = reads(sm) == kept && reads(sm | 0xFFFF_FBF8) == kept;
            // Bit 10 in a leaf domain sets the entire register to zero, from any mode.
            plain && reads(sm | 0x400) == 0 && reads(sm | 0xFFFF_FFF8) == 0
        });
        let name = format!("{}: sourcecfg, SM {sm} is kept as {kept}", delivery.name());
        checks.holds(&name, holds);
    }
}

/// 002, 4.1.5.2: the rectified input of each mode, the wire low and high, as in_clrip reads it.
fn rectified(checks: &mut Checks, delivery: Delivery) {
    for (mode, low, high) in [
        (0, 0, 0),
        (1, 0, 0),
        (4, 0, 1),
        (5, 1, 0),
        (6, 0, 1),
        (7, 1, 0),
    ] {
        let read = |source: u64, level: bool| {
            let mut domain = Domain::new(delivery);
            domain.write(4 * source, mode);
            let _ = domain.wire(source, level);
            domain.read(IN_CLRIP + source / 32 * 4)
        };
        let holds = [1, 31, 32, 63].into_iter().all(|source| {
            let found = [read(source, false), read(source, true)];
            found == [low << (source % 32), high << (source % 32)]
        });
        let name = format!(
            "{}: mode {mode}: rectified input {low} under low, {high} under high",
            delivery.name()
        );
        checks.holds(&name, holds);
    }
}

/// What is done to source 5, step by step, and its pending bit then: l and h change its wire, a digit
/// is written to its sourcecfg, s to setip, n to setipnum, e to setipnum_le, c to in_clrip, m to
/// clripnum, f forwards, k claims for hart 0, r reads claimi of hart 0.
pub type Steps = (&'static str, u32);

/// Sentences of 002, 4.1.7 and 4.1.5.2, each with rows.
const PENDING: &[(&str, &[Steps])] = &[
    (
        "Inactive: pending is read-only zero",
        &[("hs", 0), ("hn", 0), ("he", 0), ("lh", 0), ("hl", 0)],
    ),
    (
        "Detached: set only by setip or setipnum",
        &[
            ("1s", 1),
            ("1n", 1),
            ("1e", 1),
            ("1hs", 1),
            ("1lh", 0),
            ("1hl", 0),
            ("h1", 0),
        ],
    ),
    (
        "Detached: cleared by a forward, in_clrip or clripnum, and by no wire",
        &[("1sf", 0), ("1sc", 0), ("1sm", 0), ("1slhl", 1)],
    ),
    (
        "Edge: set by a low-to-high transition of the rectified input",
        &[("4h", 1), ("4hch", 0), ("h4clh", 1), ("5ch", 0), ("h5l", 1)],
    ),
    (
        "Edge: set by setip or setipnum, whatever the input",
        &[
            ("4s", 1),
            ("4n", 1),
            ("4e", 1),
            ("h4cs", 1),
            ("h5s", 1),
            ("5cn", 1),
        ],
    ),
    (
        "Edge: cleared by a forward, in_clrip or clripnum, not by the wire",
        &[
            ("4hf", 0),
            ("4hc", 0),
            ("4hm", 0),
            ("4hl", 1),
            ("h5lh", 1),
            ("4slhl", 1),
        ],
    ),
    (
        "Level: set by a low-to-high transition of the rectified input",
        &[("6h", 1), ("h7l", 1), ("6hch", 0), ("6hclh", 1)],
    ),
    (
        "Level: set by setip or setipnum when the rectified input is high",
        &[
            ("6hcs", 1),
            ("6hcn", 1),
            ("6hce", 1),
            ("7cs", 1),
            ("7cn", 1),
        ],
    ),
    (
        "Level: not set by setip or setipnum when the rectified input is low",
        &[("6s", 0), ("6n", 0), ("6e", 0), ("h7s", 0), ("h7n", 0)],
    ),
    (
        "Level: cleared whenever the rectified input is low",
        &[("6hl", 0), ("h7lh", 0), ("6hcsl", 0)],
    ),
    (
        "Level: cleared by a forward, in_clrip or clripnum, the input still high",
        &[("6hf", 0), ("6hc", 0), ("6hm", 0), ("7f", 0), ("7c", 0)],
    ),
    (
        "sourcecfg: sets pending exactly when the new rectified input is high",
        &[
            ("h4", 1),
            ("h5", 0),
            ("h6", 1),
            ("h7", 0),
            ("l4", 0),
            ("l5", 1),
            ("l6", 0),
            ("l7", 1),
            ("h4c4", 1),
            ("h6c6", 1),
            ("h1", 0),
            ("h2", 0),
        ],
    ),
    (
        "sourcecfg: clears pending only where the source is made inactive",
        &[
            ("1s1", 1),
            ("1s4", 1),
            ("1sh5", 1),
            ("4s1", 1),
            ("4hl4", 1),
            ("6h1", 1),
            ("6h5", 1),
            ("4s0", 0),
            ("4s2", 0),
            ("1s3", 0),
            ("4s04", 0),
        ],
    ),
    (
        "sourcecfg: a level-sensitive source with a low input isn't pending",
        &[("1s6", 0), ("4s6", 0), ("h5s7", 0), ("6h7", 0), ("7h6", 1)],
    ),
];

pub fn pending(checks: &mut Checks, delivery: Delivery, text: &str, rows: &[Steps]) {
    for (steps, expected) in rows {
        let mut domain = with_source(delivery, 0);
        for step in steps.chars() {
            take_step(&mut domain, step);
        }
        let found = domain.read(SETIP);
        let mode = delivery.name();
        let name = format!("{mode}: {text}: {steps} gives {expected}");
        checks.holds(&name, found == expected << 5);
    }
}

fn take_step(domain: &mut Domain, step: char) {
    match step {
        'h' | 'l' => {
            let _ = domain.wire(5, step == 'h');
        }
        's' => domain.write(SETIP, 1 << 5),
        'n' => domain.write(SETIPNUM, 5),
        'e' => domain.write(SETIPNUM_LE, 5),
        'c' => domain.write(IN_CLRIP, 1 << 5),
        'm' => domain.write(CLRIPNUM, 5),
        'f' | 'k' | 'r' => {
            // Enabled only now: a source that is made active isn't.
            domain.write(SETIENUM, 5);
            domain.run(&match step {
                'f' => Call::Forward,
                'k' => Call::Claim { hart: 0 },
                _ => Call::Read { offset: 0x401C },
            });
        }
        digit => domain.write(4 * 5, u32::from(digit) - u32::from('0')),
    }
}

/// 002, 4.1.5.5, 7, 9 and 11: source i is bit i modulo 32 of register i / 32; zeros for no source.
fn masks(checks: &mut Checks, delivery: Delivery) {
    let mut domain = Domain::new(delivery);
    for source in 1..64 {
        domain.write(4 * source, 1);
    }
    for (set, clear) in [(SETIP, IN_CLRIP), (SETIE, CLRIE)] {
        let name = match set {
            SETIP => format!("{}: pending", delivery.name()),
            _ => format!("{}: enable", delivery.name()),
        };
        domain.write(set, 0xFFFF_FFFF);
        let low = (domain.read(set), domain.read(set + 4)) == (0xFFFF_FFFE, 0);
        checks.holds(&format!("{name} bits: bit 0 stands for no source"), low);
        domain.write(set + 4, 0x8000_0001);
        let high = domain.read(set + 4) == 0x8000_0001;
        checks.holds(&format!("{name} bits: sources 32 and 63"), high);
        domain.write(clear, 0x7FFF_FFFF);
        domain.write(clear + 4, 1);
        let cleared = (domain.read(set), domain.read(set + 4)) == (1 << 31, 1 << 31);
        checks.holds(
            &format!("{name} bits: cleared where a one is written"),
            cleared,
        );
        domain.write(set, 0);
        domain.write(clear, 0);
        let kept = domain.read(set) == 1 << 31;
        checks.holds(&format!("{name} bits: a zero changes nothing"), kept);
    }
    let zero = domain.read(CLRIE) == 0 && domain.read(CLRIE + 4) == 0;
    let name = format!("{}: a read of clrie is zero", delivery.name());
    checks.holds(&name, zero);
}

/// 002, 4.1.5.6, 8, 10, 12 and 13: a number that isn't an active source's is ignored; reads are zero.
fn numbers(checks: &mut Checks, delivery: Delivery) {
    let mut domain = Domain::new(delivery);
    for source in [1, 63] {
        domain.write(4 * source, 1);
    }
    for (set, clear, bits) in [
        (SETIPNUM, CLRIPNUM, SETIP),
        (SETIPNUM_LE, CLRIPNUM, SETIP),
        (SETIENUM, CLRIENUM, SETIE),
    ] {
        let before = domain.clone();
        for number in [0, 2, 62, 64, 65, 128 + 1, 0x100 + 63, 0x1_0001, 0xFFFF_FFFF] {
            domain.write(set, number);
        }
        let mode = delivery.name();
        let name = format!("{mode}: {set:#x}: no number but an active source's does anything");
        checks.holds(&name, domain == before);
        domain.write(set, 1);
        domain.write(set, 63);
        let both = (domain.read(bits), domain.read(bits + 4)) == (2, 1 << 31);
        checks.holds(&format!("{mode}: {set:#x}: numbers 1 and 63"), both);
        let zero = domain.read(set) == 0 && domain.read(clear) == 0;
        let name = format!("{mode}: {set:#x}, {clear:#x}: reads are zero");
        checks.holds(&name, zero);
        for number in [0, 2, 64, 64 + 1, 0x8000_003F] {
            domain.write(clear, number);
        }
        let kept = (domain.read(bits), domain.read(bits + 4)) == (2, 1 << 31);
        domain.write(clear, 1);
        domain.write(clear, 63);
        let name = format!("{mode}: {clear:#x}: clears an active source's bit alone");
        checks.holds(&name, kept && domain == before);
    }
}

/// 002, 4.1.5.9 to 4.1.5.12, under each mode.
fn enables(checks: &mut Checks, delivery: Delivery) {
    for mode in [0, 1, 4, 5, 6, 7] {
        let mut domain = Domain::new(delivery);
        domain.write(4 * 40, mode);
        let bit = u32::from(mode != 0) << 8;
        let mut after = |offset: u64, value: u32| {
            domain.write(offset, value);
            domain.read(SETIE + 4)
        };
        let found = [
            after(SETIE + 4, 1 << 8),
            after(CLRIE + 4, 1 << 8),
            after(SETIENUM, 40),
            after(CLRIENUM, 40),
        ];
        let name = format!(
            "{}: mode {mode}: the enable bit by mask and by number",
            delivery.name()
        );
        checks.holds(&name, found == [bit, 0, bit, 0]);
    }
}

/// 002, 4.1.5.16.2; 02, Req 07: "targets at full width".
fn targets(checks: &mut Checks) {
    for mode in [0, 1, 4, 5, 6, 7] {
        let mut domain = Domain::new(Delivery::Message);
        domain.write(4 * 63, mode);
        let mut reads = |value: u32| {
            domain.write(TARGET + 4 * 63, value);
            domain.read(TARGET + 4 * 63)
        };
        let found = [0xFFFF_FFFF, 0x0000_0800, 0xAAAA_AAAA, 0x5555_5555].map(&mut reads);
        let expected = match mode {
            0 => [0; 4],
            _ => [0xFFFF_F7FF, 0, 0xAAAA_A2AA, 0x5555_5555],
        };
        checks.holds(
            &format!("mode {mode}: all of a target but bit 11"),
            found == expected,
        );
    }
}

/// 002, 4.1.5.2: an inactive source has no pending bit, no enable bit, no target; made active again it
/// has none of the old ones. From one active mode to another they stay.
fn made_inactive(checks: &mut Checks) {
    for other in [0, 2, 3, 0x400, 0x404, 1, 4, 5, 6, 7] {
        let mut domain = with_source(Delivery::Message, 1);
        domain.write(TARGET + 4 * 5, 0x1234_5678);
        domain.write(SETIP, 1 << 5);
        domain.write(4 * 5, other);
        domain.write(4 * 5, 1);
        let found = [SETIP, SETIE, TARGET + 4 * 5].map(|offset| domain.read(offset));
        // Under Level1 the wire, which is low, clears the pending bit.
        let expected = match other {
            1 | 4 | 5 | 7 => [1 << 5, 1 << 5, 0x1234_5678 & !0x800],
            6 => [0, 1 << 5, 0x1234_5678 & !0x800],
            _ => [0; 3],
        };
        let name = format!("Detached, then {other:#x}, then Detached: what is left");
        checks.holds(&name, found == expected);
    }
}

/// 002, 4.1.9; 02, Req 07, the forward.
fn forwards(checks: &mut Checks) {
    let mut domain = with_source(Delivery::Message, 4);
    domain.write(TARGET + 4 * 5, 0xFFFF_FFFF);
    domain.write(SETIPNUM, 5);
    let ready = domain.clone();
    let message = Message {
        hart_index: 16_383,
        guest_index: 63,
        identity: 2_047,
    };
    let sent = domain.forward() == Some(message) && domain.read(SETIP) == 0;
    checks.holds("forward: target at full width, pending cleared", sent);
    let after = domain.clone();
    let once = domain.forward().is_none() && domain == after;
    checks.holds("forward: once for one interrupt", once);
    let blocks: [(&str, u64, u32); 3] = [
        ("IE = 0", 0, 0),
        ("not enabled", CLRIENUM, 5),
        ("not pending", CLRIPNUM, 5),
    ];
    for (name, offset, value) in blocks {
        let mut domain = ready.clone();
        domain.write(offset, value);
        let before = domain.clone();
        let none = domain.forward().is_none() && domain == before;
        checks.holds(&format!("forward: none where {name}"), none);
    }
}

/// The lowest-numbered source first, whatever was first pending.
fn forward_order(checks: &mut Checks) {
    let mut domain = Domain::new(Delivery::Message);
    domain.write(0, 0x100);
    for source in [63, 32, 31, 7, 1u32] {
        domain.write(4 * u64::from(source), 1);
        domain.write(
            TARGET + 4 * u64::from(source),
            source << 18 | (source % 64) << 12 | source,
        );
        domain.write(SETIENUM, source);
        domain.write(SETIPNUM, source);
    }
    domain.write(CLRIENUM, 7);
    let mut found = Vec::new();
    while let Some(message) = domain.forward() {
        found.push([message.hart_index, message.guest_index, message.identity]);
    }
    let expected = [1, 31, 32, 63].map(|source| [source; 3]);
    checks.holds(
        "forward: 1, 31, 32, 63, and not 7 without enable",
        found == expected,
    );
    checks.holds("forward: 7 stays pending", domain.read(SETIP) == 1 << 7);
}

/// 02, Req 07: "A wire number outside 1 to 63 is refused with 2014; nothing changes."
fn wires(checks: &mut Checks, delivery: Delivery) {
    let mut domain = Domain::new(delivery);
    for source in 1..64 {
        domain.write(4 * source, 4);
    }
    let before = domain.clone();
    for number in [0, 64, 65, 1_023, 1 << 32 | 5, 1 << 63 | 5, u64::MAX] {
        let refused = domain.wire(number, true) == Err(2014) && domain == before;
        let name = format!("{}: wire {number} is refused with 2014", delivery.name());
        checks.holds(&name, refused);
    }
    for number in [1, 31, 32, 63] {
        let accepted = domain.wire(number, true) == Ok(());
        let found = u64::from(domain.read(SETIP)) | u64::from(domain.read(SETIP + 4)) << 32;
        domain.write(CLRIPNUM, number as u32);
        let name = format!(
            "{}: wire {number} is accepted, and its source pending",
            delivery.name()
        );
        checks.holds(&name, accepted && found == 1 << number);
    }
}

/// Places that are no register of the domain.
const UNDEFINED: [(&str, &[u64]); 10] = [
    ("genmsi", &[0x3000]),
    ("setipnum_be", &[0x2004]),
    (
        "the address registers of machine level",
        &[0x1BC0, 0x1BC4, 0x1BC8, 0x1BCC],
    ),
    ("sourcecfg[64], sourcecfg[1023]", &[0x100, 0xFFC]),
    ("target[64], target[1023]", &[0x3100, 0x3FFC]),
    (
        "mask registers 2 and 31",
        &[0x1C08, 0x1C7C, 0x1D08, 0x1D7C, 0x1E08, 0x1F7C],
    ),
    (
        "gaps",
        &[
            0x1000, 0x1BBC, 0x1C80, 0x1CD8, 0x1CE0, 0x1FE0, 0x2008, 0x2FFC,
        ],
    ),
    (
        "misaligned",
        &[1, 2, 3, 5, 0x102, 0x1C01, 0x1CDD, 0x2002, 0x3005, 0x3007],
    ),
    (
        "structures of harts above 15, and beyond",
        &[
            0x4200, 0x4204, 0x4208, 0x4218, 0x421C, 0x4220, 0x4400, 0x8000, 0x1_0004,
        ],
    ),
    (
        "reserved in the structures of harts, or misaligned",
        &[0x400C, 0x4010, 0x4014, 0x41EC, 0x41F4, 0x4001, 0x401E],
    ),
];

/// 002, 4.1.5; 02, Req 07: "Undefined offsets, genmsi and setipnum_be read zero and ignore writes".
fn undefined(checks: &mut Checks, delivery: Delivery) {
    let mut domain = Domain::new(delivery);
    for source in 1..64 {
        domain.write(4 * source, 4);
        domain.write(TARGET + 4 * source, 0xFFFF_FFFF);
        domain.write(SETIPNUM, source as u32);
    }
    let before = domain.clone();
    for (name, offsets) in UNDEFINED {
        let holds = offsets.iter().all(|offset| {
            // The same place in other regions of 4 GiB, and the last one of all.
            [*offset, *offset | 1 << 40 | 4, u64::MAX - 3]
                .iter()
                .all(|offset| {
                    for value in [1, 5, 0x100, 0xFFFF_FFFF] {
                        domain.write(*offset, value);
                    }
                    domain.read(*offset) == 0 && domain == before
                })
        });
        let mode = delivery.name();
        checks.holds(
            &format!("{mode}: {name}: zero, and writes are ignored"),
            holds,
        );
    }
}

/// 002, 4.1.9.2: a level-sensitive source that was forwarded is ignored until its signal has been
/// de-asserted; setipnum brings it back only while the wire is asserted.
fn still_asserted(checks: &mut Checks) {
    let mut domain = with_source(Delivery::Message, 6);
    let _ = domain.wire(5, true);
    let first = domain.forward().is_some();
    let _ = domain.wire(5, true);
    checks.holds("level, forwarded, still high: not again", {
        first && domain.forward().is_none()
    });
    let read = domain.read(IN_CLRIP) == 1 << 5;
    domain.write(SETIPNUM, 5);
    let again = read && domain.forward().is_some();
    checks.holds("level, forwarded, still high: again by setipnum", again);
    let _ = domain.wire(5, false);
    domain.write(SETIPNUM, 5);
    let gone = domain.read(IN_CLRIP) == 0 && domain.forward().is_none();
    checks.holds("level, forwarded, then low: not by setipnum", gone);
    let _ = domain.wire(5, true);
    checks.holds("level, low, then high: again", domain.forward().is_some());
}
