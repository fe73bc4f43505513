//! The rows of the wired domain: a domain that is set up, and calls over it.

use super::program::Forwarded;
use yasmurekh_reference::aplic::{Delivery, HartRegister, Mask, Number, Register};
use yasmurekh_reference::random::Random;

/// What a call is.
#[derive(Clone, Copy, Debug, PartialEq, Eq)]
pub enum Kind {
    Wire,
    Read,
    Write,
    Forward,
    Claim,
    Signal,
}

/// One call: a wire's number and level, an offset and a value, or a hart.
#[derive(Clone, Copy, Debug)]
pub struct Call {
    pub kind: Kind,
    pub number: u32,
    pub value: u32,
}

impl Call {
    pub fn wire(source: u32, high: bool) -> Call {
        Call {
            kind: Kind::Wire,
            number: source,
            value: u32::from(high),
        }
    }

    pub fn read(offset: u32) -> Call {
        Call {
            kind: Kind::Read,
            number: offset,
            value: 0,
        }
    }

    pub fn write(register: Register, value: u32) -> Call {
        Call {
            kind: Kind::Write,
            number: register.offset() as u32,
            value,
        }
    }

    /// A claim or a signal.
    fn of_hart(kind: Kind, hart: u64) -> Call {
        Call {
            kind,
            number: hart as u32,
            value: 0,
        }
    }

    pub const FORWARD: Call = Call {
        kind: Kind::Forward,
        number: 0,
        value: 0,
    };
}

pub struct Row {
    pub name: &'static str,
    pub delivery: Delivery,
    /// The kind of the row's calls, where it is one for all.
    pub kind: Option<Kind>,
    pub set_up: Vec<Call>,
    pub calls: Vec<Call>,
    /// Whether an answer is one that the row is named after.
    pub expected: fn(&Call, Forwarded) -> bool,
}

/// Calls of a row; in random order, so that no branch predictor learns it by heart.
const CALLS: usize = 8_192;
/// Calls of the mix.
const MIX: usize = 262_144;

const MODES: [u32; 5] = [1, 4, 5, 6, 7];

/// A domain with IE, and all sources active, in all modes, with targets; half of them enabled.
fn set_up() -> Vec<Call> {
    let mut random = Random::new(12, 0);
    let mut calls = vec![Call::write(Register::Domaincfg, 0x100)];
    for source in 1..64 {
        let mode = MODES[source as usize % MODES.len()];
        calls.push(Call::write(Register::Sourcecfg(source), mode));
        calls.push(Call::write(
            Register::Target(source),
            random.number() as u32,
        ));
        if random.chance(50) {
            let setienum = Register::Number(Number::Setienum);
            calls.push(Call::write(setienum, source as u32));
        }
    }
    calls
}

/// The same domain with all sources detached, enabled and not pending, so that a pending bit comes and
/// stays by writes and forwards alone.
fn set_up_detached() -> Vec<Call> {
    let mut calls = set_up();
    let detached = (1..64).map(|source| Call::write(Register::Sourcecfg(source), 1));
    calls.extend(detached);
    for mask in [Mask::Setie, Mask::InClrip] {
        calls.extend([0, 1].map(|half| mask_write(mask, half, u32::MAX)));
    }
    calls
}

fn mask_write(mask: Mask, half: u64, value: u32) -> Call {
    Call::write(Register::Mask(mask, half), value)
}

fn row(name: &'static str, kind: Kind, call: fn(&mut Random) -> Call) -> Row {
    let mut random = Random::new(13, 0);
    Row {
        name,
        delivery: Delivery::Message,
        kind: Some(kind),
        set_up: set_up(),
        calls: (0..CALLS).map(|_| call(&mut random)).collect(),
        expected: |_, _| true,
    }
}

fn source(random: &mut Random) -> u64 {
    random.between(1, 63)
}

fn wire_change(random: &mut Random) -> Call {
    Call::wire(source(random) as u32, random.chance(50))
}

/// A write of some ones to one of two mask registers.
fn some_mask(random: &mut Random, masks: [Mask; 2]) -> Call {
    let mask = random.pick(&masks);
    let ones = random.number() & random.number();
    mask_write(mask, random.below(2), ones as u32)
}

fn by_number(random: &mut Random) -> Call {
    let number = Register::Number(random.pick(&Number::ALL));
    Call::write(number, source(random) as u32)
}

fn sourcecfg(random: &mut Random) -> Call {
    Call::write(Register::Sourcecfg(source(random)), random.below(8) as u32)
}

fn target(random: &mut Random) -> Call {
    Call::write(Register::Target(source(random)), random.number() as u32)
}

fn mask_read(random: &mut Random) -> Call {
    let mask = random.pick(&[Mask::Setip, Mask::InClrip, Mask::Setie]);
    Call::read(Register::Mask(mask, random.below(2)).offset() as u32)
}

fn source_read(random: &mut Random, register: fn(u64) -> Register) -> Call {
    Call::read(register(source(random)).offset() as u32)
}

/// An offset of the region without a register.
fn no_register(random: &mut Random) -> Call {
    let offset = random.pick(&[
        0x100, 0x1000, 0x1BC0, 0x1C08, 0x2004, 0x3000, 0x3100, 0x4000,
    ]);
    Call {
        kind: Kind::Write,
        number: offset + random.below(4) as u32,
        value: random.number() as u32,
    }
}

fn refused() -> Row {
    let mut row = row("wire refused (2014)", Kind::Wire, |random| {
        Call::wire(64 + random.below(1_000) as u32, true)
    });
    row.expected = |_, answer| answer[0] == 2014;
    row
}

/// Sixty-three forwards or claims of detached sources, and two mask writes that make all pending again.
fn drained(name: &'static str, call: Call, set_up: Vec<Call>) -> Row {
    let mut calls = Vec::new();
    while calls.len() < CALLS {
        calls.extend([0, 1].map(|half| mask_write(Mask::Setip, half, u32::MAX)));
        calls.extend([call; 63]);
    }
    Row {
        name,
        delivery: Delivery::Message,
        kind: None,
        set_up,
        calls,
        expected: |call, answer| call.kind == Kind::Write || answer[0] != 0,
    }
}

fn forwards() -> Row {
    let name = "forward, some waiting (of 65 calls 2 are mask writes)";
    drained(name, Call::FORWARD, set_up_detached())
}

fn no_forwards() -> Row {
    let mut row = row("forward, none waiting", Kind::Forward, |_| Call::FORWARD);
    row.set_up = set_up_detached();
    row.expected = |_, answer| answer == [0; 4];
    row
}

/// Calls of all kinds, as a controller at work has them.
fn mixed(name: &'static str, seed: u64, set_up: Vec<Call>, call: fn(&mut Random) -> Call) -> Row {
    let mut random = Random::new(seed, 0);
    Row {
        name,
        delivery: Delivery::Message,
        kind: None,
        set_up,
        calls: (0..MIX).map(|_| call(&mut random)).collect(),
        expected: |_, _| true,
    }
}

fn mix() -> Row {
    let name = "mix: 40 % wires, 30 % forwards, 30 % reads and writes";
    mixed(name, 14, set_up(), |random| match random.below(100) {
        0..=39 => wire_change(random),
        40..=69 => Call::FORWARD,
        70..=79 => mask_read(random),
        80..=89 => by_number(random),
        90..=94 => some_mask(random, [Mask::Setip, Mask::InClrip]),
        95..=97 => target(random),
        _ => sourcecfg(random),
    })
}

/// The rows of message delivery, then those of direct delivery.
pub fn rows() -> Vec<Row> {
    let mut rows = message_rows();
    rows.extend(direct_rows());
    rows
}

fn message_rows() -> Vec<Row> {
    let pending = |random: &mut Random| some_mask(random, [Mask::Setip, Mask::InClrip]);
    let enable = |random: &mut Random| some_mask(random, [Mask::Setie, Mask::Clrie]);
    let sourcecfg_read = |random: &mut Random| source_read(random, Register::Sourcecfg);
    let target_read = |random: &mut Random| source_read(random, Register::Target);
    vec![
        mix(),
        row("wire change", Kind::Wire, wire_change),
        refused(),
        row("mask write, setip and in_clrip", Kind::Write, pending),
        row("mask write, setie and clrie", Kind::Write, enable),
        row(
            "write by number, all five registers",
            Kind::Write,
            by_number,
        ),
        row("sourcecfg write", Kind::Write, sourcecfg),
        row("target write", Kind::Write, target),
        row("write where no register is", Kind::Write, no_register),
        row("mask read", Kind::Read, mask_read),
        row("sourcecfg read", Kind::Read, sourcecfg_read),
        row("target read", Kind::Read, target_read),
        forwards(),
        no_forwards(),
    ]
}

/// Harts of a domain in direct delivery.
const HARTS: u64 = 16;

fn hart(random: &mut Random) -> u64 {
    random.below(HARTS)
}

/// A target of some hart with some priority.
fn direct_target(random: &mut Random) -> Call {
    let value = hart(random) << 18 | random.between(1, 255);
    Call::write(Register::Target(source(random)), value as u32)
}

/// The domain of message delivery, with targets that name harts, and harts with their delivery on.
fn set_up_direct() -> Vec<Call> {
    let mut random = Random::new(15, 0);
    let mut calls = set_up();
    for source in 1..64 {
        let value = hart(&mut random) << 18 | random.between(1, 255);
        calls.push(Call::write(Register::Target(source), value as u32));
    }
    for hart in 0..HARTS {
        calls.push(Call::write(
            Register::Hart(hart, HartRegister::Idelivery),
            1,
        ));
    }
    calls
}

/// So many sources in this mode wait at hart 0, in no order of their priorities.
fn set_up_waiting(sources: u64, mode: u32) -> Vec<Call> {
    let mut random = Random::new(16, 0);
    let mut calls = vec![Call::write(Register::Domaincfg, 0x100)];
    calls.push(Call::write(Register::Hart(0, HartRegister::Idelivery), 1));
    for source in 1..=sources {
        calls.push(Call::wire(source as u32, true));
        calls.push(Call::write(Register::Sourcecfg(source), mode));
        let priority = random.between(1, 255) as u32;
        calls.push(Call::write(Register::Target(source), priority));
        let number = source as u32;
        for register in [Number::Setienum, Number::Setipnum] {
            calls.push(Call::write(Register::Number(register), number));
        }
    }
    calls
}

const LEVEL1: u32 = 6;
const DETACHED: u32 = 1;

fn direct_row(name: &'static str, kind: Kind, call: fn(&mut Random) -> Call) -> Row {
    let mut row = row(name, kind, call);
    row.delivery = Delivery::Direct;
    row.set_up = set_up_direct();
    row
}

/// Hart 0 asked over and over, with so many levels waiting, which no claim clears.
fn asked_row(name: &'static str, kind: Kind, levels: u64) -> Row {
    let call = match kind {
        Kind::Claim => |_: &mut Random| Call::of_hart(Kind::Claim, 0),
        _ => |_: &mut Random| Call::of_hart(Kind::Signal, 0),
    };
    let mut row = direct_row(name, kind, call);
    row.set_up = set_up_waiting(levels, LEVEL1);
    row.expected = match levels {
        0 => |_, answer| answer[0] == 0,
        _ => |_, answer| answer[0] != 0,
    };
    row
}

fn claims() -> Row {
    let name = "direct: claim, 63 to 1 detached waiting (of 65 calls 2 are mask writes)";
    let claim = Call::of_hart(Kind::Claim, 0);
    Row {
        delivery: Delivery::Direct,
        ..drained(name, claim, set_up_waiting(63, DETACHED))
    }
}

fn hart_write(random: &mut Random) -> Call {
    let registers = [
        HartRegister::Idelivery,
        HartRegister::Iforce,
        HartRegister::Ithreshold,
    ];
    let register = Register::Hart(hart(random), random.pick(&registers));
    Call::write(register, random.number() as u32)
}

fn topi_read(random: &mut Random) -> Call {
    let register = Register::Hart(hart(random), HartRegister::Topi);
    Call::read(register.offset() as u32)
}

fn direct_mix() -> Row {
    let name = "direct mix: 40 % wires, 15 % signals, 15 % claims, 30 % reads and writes";
    let call = |random: &mut Random| match random.below(100) {
        0..=39 => wire_change(random),
        40..=54 => Call::of_hart(Kind::Signal, hart(random)),
        55..=69 => Call::of_hart(Kind::Claim, hart(random)),
        70..=79 => mask_read(random),
        80..=89 => by_number(random),
        90..=94 => hart_write(random),
        95..=97 => direct_target(random),
        _ => sourcecfg(random),
    };
    Row {
        delivery: Delivery::Direct,
        ..mixed(name, 17, set_up_direct(), call)
    }
}

fn refused_claim() -> Row {
    let mut row = direct_row("direct: claim refused (2014)", Kind::Claim, |random| {
        Call::of_hart(Kind::Claim, HARTS + random.below(1_000))
    });
    row.expected = |_, answer| answer[0] == 2014;
    row
}

fn direct_rows() -> Vec<Row> {
    let some_signal = |random: &mut Random| Call::of_hart(Kind::Signal, hart(random));
    vec![
        direct_mix(),
        asked_row("direct: claim, one level waiting", Kind::Claim, 1),
        asked_row("direct: claim, 8 levels waiting", Kind::Claim, 8),
        asked_row("direct: claim, 63 levels waiting", Kind::Claim, 63),
        claims(),
        asked_row("direct: claim of nothing", Kind::Claim, 0),
        refused_claim(),
        direct_row(
            "direct: signal, 63 sources at 16 harts",
            Kind::Signal,
            some_signal,
        ),
        asked_row("direct: signal, 63 levels waiting", Kind::Signal, 63),
        asked_row("direct: signal, nothing waiting", Kind::Signal, 0),
        direct_row("direct: hart register write", Kind::Write, hart_write),
        direct_row(
            "direct: topi read, 63 sources at 16 harts",
            Kind::Read,
            topi_read,
        ),
        direct_row("direct: target write", Kind::Write, direct_target),
        direct_row("direct: wire change", Kind::Wire, wire_change),
    ]
}
