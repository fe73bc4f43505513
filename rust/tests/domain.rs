//! The wired domain: its registers, its pending rules by example, forwards and refusals.

use yasmurekh::aplic::{register, Domain, SourceMode, Target};
use yasmurekh::Refusal;

const TARGET: Target = Target {
    hart_index: 16_383,
    guest_index: 63,
    identity: 2_047,
};

/// A domain with IE, and a source in this mode, enabled and with a target.
fn with_source(source: u64, mode: SourceMode) -> Domain {
    let mut domain = Domain::new();
    domain.write(register::DOMAINCFG, register::DOMAINCFG_IE);
    domain.write(register::sourcecfg(source), mode.0);
    domain.write(register::target(source), TARGET.value());
    domain.write(register::SETIENUM, source as u32);
    domain
}

/// The pending bits of all sources.
fn pending(domain: &mut Domain) -> u64 {
    let [low, high] = [0, 1].map(|half| u64::from(domain.read(register::setip(half))));
    high << 32 | low
}

#[test]
fn a_domain_at_reset() {
    let mut domain = Domain::default();
    assert_eq!(domain, Domain::new());
    assert_eq!(domain.words(), &[0; Domain::WORDS]);
    assert_eq!(domain.read(register::DOMAINCFG), 0x8000_0004);
    assert!((1..0x8000).all(|offset| domain.read(offset) == 0));
    assert_eq!(domain.forward(), None);
    assert_eq!(domain, Domain::new());
}

#[test]
fn the_end_of_a_wire() {
    for source in 1..=Domain::SOURCES {
        let mut domain = with_source(source, SourceMode::EDGE1);
        assert_eq!(domain.forward(), None);
        assert_eq!(domain.wire(source, true), Ok(()));
        assert_eq!(pending(&mut domain), 1 << source);
        assert_eq!(domain.forward(), Some(TARGET));
        assert_eq!(pending(&mut domain), 0);
        assert_eq!(domain.forward(), None);
    }
}

#[test]
fn levels_come_back_only_while_asserted() {
    for (mode, asserted) in [(SourceMode::LEVEL1, true), (SourceMode::LEVEL0, false)] {
        let mut domain = with_source(40, mode);
        domain.wire(40, asserted).expect("a source");
        assert_eq!(domain.read(register::in_clrip(1)), 1 << 8);
        assert_eq!(domain.forward(), Some(TARGET));
        domain.write(register::SETIPNUM_LE, 40);
        assert_eq!(pending(&mut domain), 1 << 40);
        domain.wire(40, !asserted).expect("a source");
        assert_eq!(pending(&mut domain), 0);
        domain.write(register::setip(1), 1 << 8);
        assert_eq!(pending(&mut domain), 0);
    }
}

#[test]
fn a_write_of_sourcecfg() {
    let mut domain = with_source(9, SourceMode::EDGE1);
    domain.wire(9, true).expect("a source");
    domain.write(register::in_clrip(0), 1 << 9);
    assert_eq!(pending(&mut domain), 0);
    // The same mode once more, and the input is high.
    domain.write(register::sourcecfg(9), SourceMode::EDGE1.0);
    assert_eq!(pending(&mut domain), 1 << 9);
    // An active mode keeps enable bit and target.
    domain.write(register::sourcecfg(9), SourceMode::DETACHED.0);
    assert_eq!(domain.forward(), Some(TARGET));
    // Reserved modes and bit 10 make it inactive.
    for value in [0, 2, 3, 0x400, 0x404, 0xFFFF_FFFF] {
        domain.write(register::sourcecfg(9), SourceMode::EDGE1.0);
        domain.write(register::sourcecfg(9), value);
        assert_eq!(domain.read(register::sourcecfg(9)), 0, "{value:x}");
        assert_eq!(pending(&mut domain), 0);
        assert_eq!(domain.read(register::setie(0)), 0);
        assert_eq!(domain.read(register::target(9)), 0);
    }
}

#[test]
fn the_lowest_number_first() {
    let mut domain = Domain::new();
    for source in [63, 5, 32, 17] {
        domain.write(register::sourcecfg(source), SourceMode::DETACHED.0);
        domain.write(register::target(source), source as u32);
        domain.write(register::SETIPNUM, source as u32);
        domain.write(register::SETIENUM, source as u32);
    }
    let waiting = domain.clone();
    assert_eq!(domain.forward(), None);
    assert_eq!(domain, waiting);
    domain.write(register::DOMAINCFG, register::DOMAINCFG_IE);
    let mut forwarded = Vec::new();
    while let Some(message) = domain.forward() {
        forwarded.push(message.identity);
    }
    assert_eq!(forwarded, [5, 17, 32, 63]);
}

#[test]
fn wires_without_a_source() {
    let mut domain = with_source(1, SourceMode::LEVEL1);
    let before = domain.clone();
    for source in [0, 64, 65, 1 << 32 | 1, u64::MAX] {
        assert_eq!(domain.wire(source, true), Err(Refusal::Source));
        assert_eq!(domain, before);
    }
    assert_eq!(
        Refusal::Source.to_string(),
        "refused (2014): no source of the domain has that number"
    );
}

#[test]
fn places_without_a_register() {
    let mut domain = with_source(1, SourceMode::EDGE0);
    let before = domain.clone();
    for offset in [
        0x2004,
        0x3000,
        0x1BC0,
        0x100,
        0x3100,
        0x1C08,
        1,
        6,
        0x1CDE,
        0x4000,
        0x401C,
        1 << 32,
        u64::MAX,
        register::sourcecfg(u64::MAX),
    ] {
        domain.write(offset, 0xFFFF_FFFF);
        domain.write(offset, 1);
        assert_eq!(domain.read(offset), 0, "{offset:x}");
        assert_eq!(domain, before, "{offset:x}");
    }
}

#[test]
fn words_and_targets() {
    let mut domain = with_source(33, SourceMode::LEVEL0);
    let mut again = Domain::from_words(*domain.words());
    assert_eq!(again, domain);
    assert_eq!(again.forward(), domain.forward());

    assert_eq!(TARGET.value(), 0xFFFF_F7FF);
    assert_eq!(Target::from(0xFFFF_FFFF), TARGET);
    assert_eq!(
        TARGET.to_string(),
        "identity 2047 to hart 16383, guest file 63"
    );
    let wide = Target {
        hart_index: 1 << 14 | 3,
        guest_index: 1 << 6,
        identity: 1 << 11 | 9,
    };
    assert_eq!(wide.value(), 3 << 18 | 9);
    assert_eq!(
        Target::from(wide.value()).to_string(),
        "identity 9 to hart 3"
    );
}
