//! Checks of direct delivery: cases made by hand from the sentences of 002, 4.1.5.16.1, 4.1.7 and 4.1.8,
//! and of 02, Req 08.

use crate::aplic::check::{pending, with_source, Steps};
use crate::aplic::check::{CLRIPNUM, IN_CLRIP, SETIENUM, SETIP, SETIPNUM, TARGET};
use crate::aplic::domain::Domain;
use crate::aplic::source::Delivery;
use crate::check::Checks;

/// Offsets in a hart's structure, by the numbers of 002, 4.1.8.1.
const IDELIVERY: u64 = 0x4000;
const IFORCE: u64 = 0x4004;
const ITHRESHOLD: u64 = 0x4008;
const TOPI: u64 = 0x4018;
const CLAIMI: u64 = 0x401C;

/// All checks of this file, in order.
pub fn all(checks: &mut Checks) {
    reset(checks);
    for (text, rows) in PENDING {
        pending(checks, Delivery::Direct, text, rows);
    }
    targets(checks);
    activated(checks);
    registers(checks);
    top_format(checks);
    thresholds(checks);
    order(checks);
    not_shown(checks);
    far(checks);
    claims(checks);
    claimed_level(checks);
    force(checks);
    signals(checks);
    unaffected(checks);
    harts(checks);
    no_forward(checks);
    message_mode(checks);
    handler(checks);
}

/// A domain in direct delivery mode with IE, and source 5 Detached, enabled, pending, for hart 2 with
/// priority 7.
fn ready() -> Domain {
    let mut domain = with_source(Delivery::Direct, 1);
    domain.write(TARGET + 4 * 5, 2 << 18 | 7);
    domain.write(SETIPNUM, 5);
    domain
}

/// Adds a source that waits.
fn add(domain: &mut Domain, source: u32, hart: u32, priority: u32) {
    domain.write(4 * u64::from(source), 1);
    domain.write(TARGET + 4 * u64::from(source), hart << 18 | priority);
    domain.write(SETIENUM, source);
    domain.write(SETIPNUM, source);
}

/// 02, Req 07: "All state starts at zero save the delivery mode."
fn reset(checks: &mut Checks) {
    let start = Domain::new(Delivery::Direct);
    let mut domain = start.clone();
    let zero = (1..0x1_0000).all(|offset| domain.read(offset) == 0);
    checks.holds(
        "direct, at reset: every register but domaincfg is 0",
        zero && domain == start,
    );
    let quiet = (0..16).all(|hart| domain.signal(hart) == Ok(false) && domain.claim(hart) == Ok(0));
    checks.holds(
        "direct, at reset: no hart is signalled, claims are 0",
        quiet && domain == start,
    );
}

/// Sentences of 002, 4.1.7 and 4.1.5.2, each with rows.
const PENDING: &[(&str, &[Steps])] = &[
    (
        "Inactive: pending is read-only zero",
        &[("hs", 0), ("hn", 0), ("lh", 0), ("hl", 0), ("sk", 0)],
    ),
    (
        "Detached: set only by setip or setipnum",
        &[("1s", 1), ("1n", 1), ("1e", 1), ("1lh", 0), ("h1", 0)],
    ),
    (
        "Detached: cleared by a claim, in_clrip or clripnum, and by no wire",
        &[("1sk", 0), ("1sr", 0), ("1sc", 0), ("1sm", 0), ("1slhl", 1)],
    ),
    (
        "Edge: set by a low-to-high transition, by setip or setipnum",
        &[
            ("4h", 1),
            ("4hkh", 0),
            ("4hklh", 1),
            ("h5l", 1),
            ("5kh", 0),
            ("4s", 1),
            ("h5n", 1),
            ("h4ce", 1),
        ],
    ),
    (
        "Edge: cleared by a claim, in_clrip or clripnum, not by the wire",
        &[
            ("4hk", 0),
            ("4hr", 0),
            ("5k", 0),
            ("4hc", 0),
            ("4hm", 0),
            ("4hl", 1),
            ("h5lh", 1),
        ],
    ),
    (
        "Level: set whenever the rectified input is high",
        &[
            ("6h", 1),
            ("h6", 1),
            ("7", 1),
            ("h7l", 1),
            ("6hch", 1),
            ("6hh", 1),
        ],
    ),
    (
        "Level: cleared whenever the rectified input is low",
        &[
            ("6", 0),
            ("6hl", 0),
            ("h7", 0),
            ("h7lh", 0),
            ("1s6", 0),
            ("h4s7", 0),
        ],
    ),
    (
        "Level: not set by setip or setipnum",
        &[("6s", 0), ("6n", 0), ("6e", 0), ("h7s", 0), ("h7n", 0)],
    ),
    (
        "Level: not cleared by a claim, in_clrip or clripnum",
        &[
            ("6hk", 1),
            ("6hr", 1),
            ("6hc", 1),
            ("6hm", 1),
            ("7k", 1),
            ("7cm", 1),
            ("6hckl", 0),
        ],
    ),
    (
        "not cleared by a forward, which answers none",
        &[("1sf", 1), ("4hf", 1), ("6hf", 1)],
    ),
    (
        "sourcecfg: clears pending only where the source is made inactive",
        &[
            ("6h1", 1),
            ("6h5", 1),
            ("6h6", 1),
            ("h6l1", 0),
            ("6h0", 0),
            ("6h06", 1),
            ("4s2", 0),
        ],
    ),
    (
        "sourcecfg: sets pending exactly when the new rectified input is high",
        &[
            ("h4", 1),
            ("h4k4", 1),
            ("h5", 0),
            ("l5", 1),
            ("l7", 1),
            ("6h7", 0),
            ("7h6", 1),
        ],
    ),
];

/// 002, 4.1.5.16.1; 02, Req 08: "Writes keep bits 7:0 of priorities", "a priority 0, written .., is kept
/// as 1".
fn targets(checks: &mut Checks) {
    for mode in [0, 1, 4, 5, 6, 7] {
        let mut domain = Domain::new(Delivery::Direct);
        domain.write(4 * 63, mode);
        for (written, kept) in [
            (0xFFFF_FFFF, 0xFFFC_00FF),
            (0x0003_FF00, 0x0000_0001),
            (0x0000_0000, 0x0000_0001),
            (0xFFFC_0100, 0xFFFC_0001),
            (0x0040_0080, 0x0040_0080),
            (0x1234_5678, 0x1234_0078),
        ] {
            domain.write(TARGET + 4 * 63, written);
            let expected = if mode == 0 { 0 } else { kept };
            let name = format!("direct, mode {mode}: target {written:#x} is kept as {expected:#x}");
            checks.holds(&name, domain.read(TARGET + 4 * 63) == expected);
        }
    }
}

/// 02, Req 07 and Req 08: a source made active starts with target 0, its priority kept as 1.
fn activated(checks: &mut Checks) {
    for mode in [1, 4, 5, 6, 7] {
        let mut domain = Domain::new(Delivery::Direct);
        let mut target_under = |mode: u32| {
            domain.write(4 * 9, mode);
            domain.read(TARGET + 4 * 9)
        };
        let first = [target_under(mode), target_under(0), target_under(mode)];
        checks.holds(
            &format!("direct: made active, mode {mode}: target 1"),
            first == [1, 0, 1],
        );
        domain.write(TARGET + 4 * 9, 3 << 18 | 9);
        for other in [1, 4, 5, 6, 7, mode] {
            domain.write(4 * 9, other);
        }
        let kept = domain.read(TARGET + 4 * 9) == 3 << 18 | 9;
        checks.holds(
            &format!("direct: mode {mode}, other modes: target kept"),
            kept,
        );
    }
}

/// 02, Req 08: "Writes keep bits 7:0 of .. thresholds, bit 0 of delivery and force"; 002, 4.1.8.1.4 and
/// 4.1.8.1.5: writes to topi and claimi are ignored.
fn registers(checks: &mut Checks) {
    for (register, kept) in [(IDELIVERY, 1), (IFORCE, 1), (ITHRESHOLD, 0xFF)] {
        let holds = (0..16).all(|hart| {
            let mut domain = Domain::new(Delivery::Direct);
            let offset = register + 32 * hart;
            let mut reads = |value: u32| {
                domain.write(offset, value);
                domain.read(offset)
            };
            let found = [0xFFFF_FFFF, 0xFFFF_FF00, 0x55, 0xAA, 0].map(&mut reads);
            found == [kept, 0, 0x55 & kept, 0xAA & kept, 0]
        });
        let name = format!("direct: {register:#x} of each hart keeps {kept:#x}");
        checks.holds(&name, holds);
    }
    let mut domain = ready();
    let before = domain.clone();
    for offset in [TOPI, CLAIMI].map(|offset| offset + 32 * 2) {
        domain.write(offset, 0xFFFF_FFFF);
        domain.write(offset, 0);
        let name = format!("direct: a write to {offset:#x} is ignored");
        checks.holds(&name, domain == before);
    }
    let others = (0..16).all(|hart| {
        let mut domain = Domain::new(Delivery::Direct);
        for offset in [IDELIVERY, IFORCE, ITHRESHOLD] {
            domain.write(offset + 32 * hart, 1);
        }
        (0..16).filter(|other| *other != hart).all(|other| {
            let offsets = [IDELIVERY, IFORCE, ITHRESHOLD].map(|offset| offset + 32 * other);
            offsets.iter().all(|offset| domain.read(*offset) == 0)
        })
    });
    checks.holds("direct: a hart's registers aren't another hart's", others);
}

/// 002, 4.1.8.1.4: identity in bits 25:16, priority in bits 7:0; "claimi has the same value as topi".
fn top_format(checks: &mut Checks) {
    for (source, hart, priority) in [(1, 0, 1), (5, 2, 7), (32, 8, 0x80), (63, 15, 255)] {
        let mut domain = Domain::new(Delivery::Direct);
        add(&mut domain, source, hart, priority);
        let offsets = [TOPI, TOPI, CLAIMI].map(|offset| offset + 32 * u64::from(hart));
        let found = offsets.map(|offset| domain.read(offset));
        let name = format!("direct: source {source}, priority {priority}: topi and claimi");
        checks.holds(&name, found == [source << 16 | priority; 3]);
    }
}

/// 002, 4.1.8.1.3: a nonzero threshold bars its own number and higher ones.
fn thresholds(checks: &mut Checks) {
    for (threshold, shown) in [
        (0, true),
        (1, false),
        (6, false),
        (7, false),
        (8, true),
        (255, true),
        (0x100, true),
        (0x107, false),
    ] {
        let mut domain = ready();
        domain.write(ITHRESHOLD + 32 * 2, threshold);
        let found = domain.read(TOPI + 32 * 2);
        let expected = if shown { 5 << 16 | 7 } else { 0 };
        let name = format!("direct: priority 7 under threshold {threshold:#x}: topi {expected:#x}");
        checks.holds(&name, found == expected);
    }
    // Priority 255 has no threshold above it but 0.
    let mut domain = Domain::new(Delivery::Direct);
    add(&mut domain, 3, 0, 255);
    domain.write(ITHRESHOLD, 255);
    let barred = domain.read(TOPI) == 0;
    domain.write(ITHRESHOLD, 0);
    let shown = domain.read(TOPI) == 3 << 16 | 255;
    checks.holds(
        "direct: priority 255 under thresholds 255 and 0",
        barred && shown,
    );
}

/// 002, 4.1.5.16.1: smaller numbers first, and of equal ones the lowest identity.
fn order(checks: &mut Checks) {
    let mut domain = Domain::new(Delivery::Direct);
    for (source, priority) in [(9, 3), (40, 1), (7, 3), (63, 2), (8, 255), (31, 2), (32, 2)] {
        add(&mut domain, source, 3, priority);
    }
    let mut found = Vec::new();
    loop {
        let top = domain.read(TOPI + 32 * 3);
        if top == 0 || domain.read(CLAIMI + 32 * 3) != top {
            break;
        }
        found.push((top >> 16, top & 0xFF));
    }
    let expected = [(40, 1), (31, 2), (32, 2), (63, 2), (7, 3), (9, 3), (8, 255)];
    checks.holds(
        "direct: lower priority numbers first, then lower sources",
        found == expected,
    );
    checks.holds(
        "direct: all are claimed",
        domain.read(SETIP) == 0 && domain.read(SETIP + 4) == 0,
    );
}

/// 002, 4.1.8.1.4: topi shows what is pending, enabled and targeted to the hart.
fn not_shown(checks: &mut Checks) {
    let blocks: [(&str, u64, u32); 4] = [
        ("not enabled", 0x1FDC, 5),
        ("not pending", CLRIPNUM, 5),
        ("of another hart", TARGET + 4 * 5, 3 << 18 | 7),
        ("inactive", 4 * 5, 0),
    ];
    for (name, offset, value) in blocks {
        let mut domain = ready();
        add(&mut domain, 60, 2, 200);
        domain.write(offset, value);
        let next = domain.read(TOPI + 32 * 2) == 60 << 16 | 200;
        checks.holds(&format!("direct: {name}: the next is shown"), next);
    }
}

/// 02, Req 08: "a target's hart index above 15 is kept but reaches no hart".
fn far(checks: &mut Checks) {
    for index in [16, 17, 18, 2 + 32, 2 + 1024, 16_383] {
        let mut domain = ready();
        for hart in 0..16 {
            domain.write(IDELIVERY + 32 * hart, 1);
        }
        domain.write(TARGET + 4 * 5, index << 18 | 7);
        let before = domain.clone();
        let kept = domain.read(TARGET + 4 * 5) == index << 18 | 7;
        let nowhere = (0..16).all(|hart| {
            let zero = domain.read(TOPI + 32 * hart) == 0 && domain.claim(hart) == Ok(0);
            zero && domain.signal(hart) == Ok(false)
        });
        let beyond = TOPI + 32 * u64::from(index);
        let zero = domain.read(beyond) == 0 && domain == before;
        let name = format!("direct: hart index {index} is kept and reaches no hart");
        checks.holds(&name, kept && nowhere && zero);
    }
}

/// 002, 4.1.8.1.5: a claim clears the pending bit of what it reports, and of nothing else.
fn claims(checks: &mut Checks) {
    for by_call in [false, true] {
        let mut domain = ready();
        add(&mut domain, 6, 2, 7);
        add(&mut domain, 4, 3, 1);
        let mut claim = |hart: u64| match by_call {
            true => domain.claim(hart),
            false => Ok(domain.read(CLAIMI + 32 * hart)),
        };
        let found = [claim(2), claim(1), claim(2), claim(2), claim(3)];
        let expected = [5 << 16 | 7, 0, 6 << 16 | 7, 0, 4 << 16 | 1].map(Ok);
        let name = format!("direct: claims one after the other, by call {by_call}");
        checks.holds(&name, found == expected && domain.read(SETIP) == 0);
    }
    let mut domain = ready();
    let _ = domain.claim(2);
    domain.write(SETIPNUM, 5);
    checks.holds(
        "direct: the same source is claimed again, ready as before",
        domain == ready(),
    );
}

/// 02, Req 08: "A claim of a level-sensitive source doesn't clear it."
fn claimed_level(checks: &mut Checks) {
    for (mode, asserted) in [(6, true), (7, false)] {
        let mut domain = with_source(Delivery::Direct, mode);
        domain.write(SETIENUM, 5);
        let _ = domain.wire(5, asserted);
        let before = domain.clone();
        let again = [domain.claim(0), domain.claim(0)] == [Ok(5 << 16 | 1); 2];
        let same = again && domain == before && domain.read(IN_CLRIP) == 1 << 5;
        checks.holds(
            &format!("direct, mode {mode}: claimed and still there"),
            same,
        );
        let _ = domain.wire(5, !asserted);
        let gone = domain.claim(0) == Ok(0);
        checks.holds(&format!("direct, mode {mode}: gone with its wire"), gone);
    }
}

/// 002, 4.1.8.1.2 and 4.1.8.1.5: iforce is cleared by a claim that gives zero, and by no other.
fn force(checks: &mut Checks) {
    for by_call in [false, true] {
        let mut domain = ready();
        for hart in [2, 3] {
            domain.write(IFORCE + 32 * hart, 1);
        }
        let claim = |domain: &mut Domain| match by_call {
            true => domain.claim(2),
            false => Ok(domain.read(CLAIMI + 32 * 2)),
        };
        let something = claim(&mut domain) == Ok(5 << 16 | 7);
        let kept = something && domain.read(IFORCE + 32 * 2) == 1;
        checks.holds("direct: iforce stays under a claim of something", kept);
        let shown = domain.read(TOPI + 32 * 2) == 0 && domain.read(IFORCE + 32 * 2) == 1;
        checks.holds("direct: iforce stays under a read of topi", shown);
        let nothing = claim(&mut domain) == Ok(0);
        let cleared = nothing && domain.read(IFORCE + 32 * 2) == 0;
        checks.holds("direct: iforce is cleared by a claim of nothing", cleared);
        let other = domain.read(IFORCE + 32 * 3) == 1;
        checks.holds("direct: another hart's iforce stays", other);
    }
    let mut domain = ready();
    domain.write(IFORCE + 32 * 2, 1);
    domain.write(ITHRESHOLD + 32 * 2, 7);
    let barred = domain.claim(2) == Ok(0) && domain.read(IFORCE + 32 * 2) == 0;
    let waits = domain.read(SETIP) == 1 << 5;
    checks.holds(
        "direct: a claim of nothing under a threshold",
        barred && waits,
    );
}

/// 002, 4.1.8.2: each of IE, idelivery, iforce and topi.
fn signals(checks: &mut Checks) {
    for place in 0..16 {
        let [enable, delivery, force, top] = [3, 2, 1, 0].map(|bit| place >> bit & 1);
        let mut domain = ready();
        domain.write(0, enable << 8);
        domain.write(IDELIVERY + 32 * 2, delivery);
        domain.write(IFORCE + 32 * 2, force);
        domain.write(ITHRESHOLD + 32 * 2, if top == 1 { 8 } else { 7 });
        let before = domain.clone();
        let asked = force == 1 || top == 1;
        let expected = enable == 1 && delivery == 1 && asked;
        let others = (0..16).filter(|hart| *hart != 2);
        let quiet = others
            .map(|hart| domain.signal(hart))
            .all(|one| one == Ok(false));
        let name = format!(
            "direct: IE {enable}, idelivery {delivery}, iforce {force}, topi {top}: {expected}"
        );
        let found = domain.signal(2) == Ok(expected);
        checks.holds(&name, found && quiet && domain == before);
    }
}

/// 002, 4.1.8.1.4: "The value of topi is not affected by domaincfg.IE or by idelivery."
fn unaffected(checks: &mut Checks) {
    for (enable, delivery) in [(0, 0), (0, 1), (1, 0), (1, 1)] {
        let mut domain = ready();
        domain.write(0, enable << 8);
        domain.write(IDELIVERY + 32 * 2, delivery);
        let found = [TOPI, CLAIMI, CLAIMI].map(|offset| domain.read(offset + 32 * 2));
        let name = format!("direct: topi and claimi under IE {enable}, idelivery {delivery}");
        checks.holds(&name, found == [5 << 16 | 7, 5 << 16 | 7, 0]);
    }
}

/// 02, Req 08: "a call given such a hart number is refused with 2014 likewise".
fn harts(checks: &mut Checks) {
    for delivery in Delivery::ALL {
        let mut domain = Domain::new(delivery);
        domain.write(0, 0x100);
        add(&mut domain, 5, 0, 1);
        let before = domain.clone();
        for number in [16, 17, 32, 16_383, 16_384, 1 << 32, 1 << 63 | 2, u64::MAX] {
            let refused = domain.claim(number) == Err(2014) && domain.signal(number) == Err(2014);
            let name = format!("{}: hart {number} is refused with 2014", delivery.name());
            checks.holds(&name, refused && domain == before);
        }
        let accepted =
            (0..16).all(|hart| domain.claim(hart).is_ok() && domain.signal(hart).is_ok());
        let name = format!("{}: harts 0 to 15 are accepted", delivery.name());
        checks.holds(&name, accepted);
    }
}

/// 02, Req 08: "forwarding in direct mode answers none".
fn no_forward(checks: &mut Checks) {
    let mut domain = ready();
    let before = domain.clone();
    let none = domain.forward().is_none() && domain == before;
    checks.holds("direct: a forward answers none and changes nothing", none);
}

/// 02, Req 08: "in message mode hart registers read zero and ignore writes".
fn message_mode(checks: &mut Checks) {
    let mut domain = with_source(Delivery::Message, 1);
    domain.write(TARGET + 4 * 5, 2 << 18 | 7);
    domain.write(SETIPNUM, 5);
    let before = domain.clone();
    for (name, register) in [
        ("idelivery", IDELIVERY),
        ("iforce", IFORCE),
        ("ithreshold", ITHRESHOLD),
        ("topi", TOPI),
        ("claimi", CLAIMI),
    ] {
        let holds = (0..16).all(|hart| {
            let offset = register + 32 * hart;
            domain.write(offset, 0xFFFF_FFFF);
            domain.read(offset) == 0 && domain == before
        });
        checks.holds(
            &format!("message: {name} reads zero, writes are ignored"),
            holds,
        );
    }
    let quiet = (0..16).all(|hart| domain.claim(hart) == Ok(0) && domain.signal(hart) == Ok(false));
    checks.holds(
        "message: claims give 0, no hart is signalled",
        quiet && domain == before,
    );
}

/// 002, 4.1.8.2: a trap handler claims until nothing is left; the level is quieted by its handler.
fn handler(checks: &mut Checks) {
    let mut domain = Domain::new(Delivery::Direct);
    domain.write(0, 0x100);
    domain.write(IDELIVERY, 1);
    for (source, mode, priority) in [(10, 6, 2), (11, 4, 5), (12, 4, 5), (13, 4, 9)] {
        domain.write(4 * u64::from(source), mode);
        domain.write(TARGET + 4 * u64::from(source), priority);
        domain.write(SETIENUM, source);
        let _ = domain.wire(u64::from(source), true);
    }
    domain.write(ITHRESHOLD, 9);
    let mut handled = Vec::new();
    while domain.signal(0) == Ok(true) {
        let Ok(claimed) = domain.claim(0) else {
            break;
        };
        handled.push(claimed >> 16);
        if claimed >> 16 == 10 && handled.len() == 2 {
            let _ = domain.wire(10, false);
        }
    }
    checks.holds(
        "direct: the level until it is quiet, then the edges, not what is barred",
        handled == [10, 10, 11, 12],
    );
}
