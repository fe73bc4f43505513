//! The wired domain with direct delivery: harts, their registers, claims, signals and refusals.

use yasmurekh::aplic::{register, Delivery, DirectTarget, Domain, Interrupt, SourceMode};
use yasmurekh::Refusal;

/// A domain at reset, as it is told apart, and what its domaincfg reads.
const STARTS: [(Domain, Delivery, u32); 2] = [
    (Domain::new(), Delivery::Message, 0x8000_0004),
    (Domain::direct(), Delivery::Direct, 0x8000_0000),
];

/// Adds a detached source, enabled and pending, with this hart and priority.
fn add_waiting(domain: &mut Domain, source: u64, hart_index: u64, priority: u64) {
    let target = DirectTarget {
        hart_index,
        priority,
    };
    domain.write(register::sourcecfg(source), SourceMode::DETACHED.0);
    domain.write(register::target(source), target.value());
    domain.write(register::SETIENUM, source as u32);
    domain.write(register::SETIPNUM, source as u32);
}

/// A domain with IE and every hart's delivery on.
fn delivering() -> Domain {
    let mut domain = Domain::direct();
    domain.write(register::DOMAINCFG, register::DOMAINCFG_IE);
    for hart in 0..Domain::HARTS {
        domain.write(register::idelivery(hart), 1);
    }
    domain
}

#[test]
fn the_two_starts() {
    for (mut domain, delivery, domaincfg) in STARTS {
        let start = domain.clone();
        assert_eq!(domain.delivery(), delivery);
        assert_eq!(domain.read(register::DOMAINCFG), domaincfg);
        assert!((1..0x8000).all(|offset| domain.read(offset) == 0));
        assert_eq!(domain.forward(), None);
        for hart in 0..Domain::HARTS {
            assert_eq!(domain.claim(hart), Ok(None));
            assert_eq!(domain.signalled(hart), Ok(false));
        }
        assert_eq!(domain, start);
        // The mode can't be written.
        for value in [0xFFFF_FEFF, 0, 4] {
            domain.write(register::DOMAINCFG, value);
            assert_eq!(domain.read(register::DOMAINCFG), domaincfg);
        }
        assert_eq!(domain, start);
    }
    assert_eq!(Domain::default().delivery(), Delivery::Message);
    assert_eq!(Domain::direct().words()[7], 1);
}

#[test]
fn registers_of_harts() {
    let mut domain = Domain::direct();
    for hart in 0..Domain::HARTS {
        for (offset, kept) in [
            (register::idelivery(hart), 1),
            (register::iforce(hart), 1),
            (register::ithreshold(hart), 0xFF),
        ] {
            domain.write(offset, 0xFFFF_FFFF);
            assert_eq!(domain.read(offset), kept);
            domain.write(offset, !kept);
            assert_eq!(domain.read(offset), 0);
        }
        let before = domain.clone();
        for offset in [register::topi(hart), register::claimi(hart)] {
            domain.write(offset, 0xFFFF_FFFF);
            assert_eq!(domain.read(offset), 0);
        }
        assert_eq!(domain, before);
    }
    assert_eq!(domain, Domain::direct());
}

#[test]
fn no_harts_in_message_delivery() {
    let mut domain = Domain::new();
    add_waiting(&mut domain, 5, 0, 1);
    domain.write(register::DOMAINCFG, register::DOMAINCFG_IE);
    let before = domain.clone();
    for hart in 0..Domain::HARTS {
        for offset in (0x4000..0x4020).map(|offset| offset + 32 * hart) {
            domain.write(offset, 0xFFFF_FFFF);
            assert_eq!(domain.read(offset), 0, "{offset:x}");
        }
        assert_eq!(domain.claim(hart), Ok(None));
        assert_eq!(domain.signalled(hart), Ok(false));
    }
    assert_eq!(domain, before);
    assert!(domain.forward().is_some());
}

#[test]
fn nothing_is_forwarded_in_direct_delivery() {
    let mut domain = delivering();
    add_waiting(&mut domain, 5, 0, 1);
    let before = domain.clone();
    assert_eq!(domain.forward(), None);
    assert_eq!(domain, before);
}

#[test]
fn harts_that_are_none() {
    for (mut domain, ..) in STARTS {
        let before = domain.clone();
        for hart in [16, 17, 31, 1 << 32, 1 << 63 | 3, u64::MAX] {
            assert_eq!(domain.claim(hart), Err(Refusal::Hart));
            assert_eq!(domain.signalled(hart), Err(Refusal::Hart));
        }
        for hart in [16, 17, 31, 16_383, 1 << 32] {
            for offset in [register::idelivery(hart), register::claimi(hart)] {
                domain.write(offset, 1);
                assert_eq!(domain.read(offset), 0);
            }
        }
        assert_eq!(domain, before);
    }
    assert_eq!(Refusal::Hart.number(), Refusal::Source.number());
    assert_eq!(
        Refusal::Hart.to_string(),
        "refused (2014): no hart of the domain has that number"
    );
}

#[test]
fn each_source_at_each_hart() {
    for source in 1..=Domain::SOURCES {
        for hart in 0..Domain::HARTS {
            let mut domain = delivering();
            let priority = source + hart;
            add_waiting(&mut domain, source, hart, priority);
            let expected = Interrupt { source, priority };
            assert_eq!(domain.signalled(hart), Ok(true));
            assert_eq!(domain.signalled(hart ^ 1), Ok(false));
            let shown = domain.read(register::topi(hart));
            assert_eq!(Interrupt::from_topi(shown), Some(expected));
            assert_eq!(domain.claim(hart ^ 1), Ok(None));
            let mut other = domain.clone();
            assert_eq!(domain.claim(hart), Ok(Some(expected)));
            assert_eq!(other.read(register::claimi(hart)), shown);
            assert_eq!(other, domain);
            assert_eq!(domain.claim(hart), Ok(None));
            assert_eq!(domain.signalled(hart), Ok(false));
        }
    }
}

#[test]
fn the_lowest_priority_number_then_the_lowest_source() {
    let mut domain = delivering();
    for (source, priority) in [(9, 3), (40, 1), (7, 3), (63, 2), (8, 255), (1, 0x1FF)] {
        add_waiting(&mut domain, source, 3, priority);
    }
    // An index above 15 is kept and reaches no hart.
    add_waiting(&mut domain, 2, 16 + 3, 1);
    assert_eq!(domain.read(register::target(2)), 19 << 18 | 1);
    let mut claimed = Vec::new();
    while let Some(interrupt) = domain.claim(3).expect("a hart") {
        claimed.push((interrupt.source, interrupt.priority));
    }
    assert_eq!(
        claimed,
        [(40, 1), (63, 2), (7, 3), (9, 3), (1, 255), (8, 255)]
    );
}

#[test]
fn thresholds() {
    for (threshold, shown) in [(0, true), (1, false), (5, false), (6, true), (255, true)] {
        let mut domain = delivering();
        add_waiting(&mut domain, 33, 15, 5);
        domain.write(register::ithreshold(15), threshold);
        assert_eq!(domain.signalled(15), Ok(shown), "{threshold}");
        let claimed = domain.claim(15).expect("a hart");
        assert_eq!(claimed.is_some(), shown, "{threshold}");
    }
}

#[test]
fn a_priority_is_never_0() {
    let mut domain = Domain::direct();
    domain.write(register::sourcecfg(6), SourceMode::EDGE1.0);
    assert_eq!(domain.read(register::target(6)), 1);
    for (value, kept) in [
        (0xFFFF_FFFF, 0xFFFC_00FF),
        (0xFFFF_FF00, 0xFFFC_0001),
        (0x0004_0000, 0x0004_0001),
        (0, 1),
    ] {
        domain.write(register::target(6), value);
        assert_eq!(domain.read(register::target(6)), kept);
    }
    domain.write(register::sourcecfg(6), SourceMode::INACTIVE.0);
    assert_eq!(domain.read(register::target(6)), 0);
}

#[test]
fn a_level_stays_until_its_wire_falls() {
    let mut domain = delivering();
    domain.write(register::sourcecfg(4), SourceMode::LEVEL0.0);
    domain.write(register::SETIENUM, 4);
    let level = Interrupt {
        source: 4,
        priority: 1,
    };
    for _ in 0..3 {
        assert_eq!(domain.claim(0), Ok(Some(level)));
        domain.write(register::CLRIPNUM, 4);
        domain.write(register::in_clrip(0), 1 << 4);
    }
    domain.wire(4, true).expect("a source");
    domain.write(register::SETIPNUM, 4);
    domain.write(register::setip(0), 1 << 4);
    assert_eq!(domain.claim(0), Ok(None));
}

#[test]
fn force_makes_a_spurious_interrupt() {
    let mut domain = delivering();
    domain.write(register::iforce(2), 1);
    assert_eq!(domain.signalled(2), Ok(true));
    assert_eq!(domain.signalled(1), Ok(false));
    // A claim of something leaves it, a claim of nothing clears it.
    add_waiting(&mut domain, 50, 2, 9);
    assert!(domain.claim(2).expect("a hart").is_some());
    assert_eq!(domain.read(register::iforce(2)), 1);
    assert_eq!(domain.claim(2), Ok(None));
    assert_eq!(domain.read(register::iforce(2)), 0);
    assert_eq!(domain.signalled(2), Ok(false));
}

#[test]
fn a_signal_needs_ie_and_delivery_and_the_top_neither() {
    let mut domain = delivering();
    add_waiting(&mut domain, 12, 4, 77);
    domain.write(register::iforce(4), 1);
    let top = 12 << 16 | 77;
    for (offset, value) in [(register::DOMAINCFG, 0x100), (register::idelivery(4), 1)] {
        domain.write(offset, 0);
        assert_eq!(domain.signalled(4), Ok(false));
        assert_eq!(domain.read(register::topi(4)), top);
        domain.write(offset, value);
        assert_eq!(domain.signalled(4), Ok(true));
    }
    domain.write(register::DOMAINCFG, 0);
    domain.write(register::idelivery(4), 0);
    assert_eq!(domain.read(register::claimi(4)), top);
    assert_eq!(domain.read(register::claimi(4)), 0);
}

#[test]
fn values_and_words() {
    let target = DirectTarget::from(0xFFFF_FFFF);
    assert_eq!((target.hart_index, target.priority), (16_383, 255));
    assert_eq!(target.value(), 0xFFFC_00FF);
    assert_eq!(target.to_string(), "priority 255 at hart 16383");
    let wide = DirectTarget {
        hart_index: 1 << 14 | 2,
        priority: 0x103,
    };
    assert_eq!(wide.value(), 2 << 18 | 3);
    let interrupt = Interrupt::from_topi(63 << 16 | 9).expect("an identity");
    assert_eq!(interrupt.to_string(), "source 63, priority 9");
    assert_eq!(Interrupt::from_topi(0), None);
    assert_eq!(register::idelivery(15), 0x41E0);
    assert_eq!(register::claimi(1), 0x403C);
    // An index that is too large is no reason to panic.
    assert_eq!(register::topi(u64::MAX), 0x3FF8);
}
