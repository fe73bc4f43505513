//! Domains that are wrong on purpose: each is found, made small, printed, and found again from the
//! printed text.

mod direct;

use yasmurekh_compare::aplic::{Comparison, Difference, Library, Side};
use yasmurekh_compare::{run, Found, Options};
use yasmurekh_reference::aplic::text::read_lists;
use yasmurekh_reference::aplic::{
    Answer, Call, Delivery, Domain, List, Mask, Message, Mode, Number, Register, Source,
};

/// Room for what a wrong domain keeps and a right one doesn't.
type Scratch = [u32; 64];

/// A call with the domain before it and the right answer.
struct Step<'a> {
    before: &'a Domain,
    call: Call,
    answer: Answer,
}

impl Step<'_> {
    /// The register that is written, and the value.
    fn written(&self) -> Option<(Register, u32)> {
        match self.call {
            Call::Write { offset, value } => Some((Register::at(offset)?, value)),
            _ => None,
        }
    }

    /// The register that is read, and the value.
    fn read(&self) -> Option<(Register, u32)> {
        match (self.call, self.answer) {
            (Call::Read { offset }, Answer::Value(value)) => Some((Register::at(offset)?, value)),
            _ => None,
        }
    }

    fn was(&self, number: u64) -> Source {
        self.before.source(number).copied().unwrap_or_default()
    }

    /// Another call in the place of this one.
    fn instead(&self, after: &mut Domain, call: Call) -> Answer {
        *after = self.before.clone();
        after.run(&call)
    }

    /// The same call at another offset.
    fn at(&self, after: &mut Domain, offset: u64) -> Answer {
        let call = match self.call {
            Call::Read { .. } => Call::Read { offset },
            Call::Write { value, .. } => Call::Write { offset, value },
            other => other,
        };
        self.instead(after, call)
    }

    fn offset(&self) -> Option<u64> {
        match self.call {
            Call::Read { offset } | Call::Write { offset, .. } => Some(offset),
            _ => None,
        }
    }
}

/// What a wrong domain does after a call; it gives its answer.
type Rule = fn(&Step, &mut Domain, &mut Scratch) -> Answer;

#[derive(Clone)]
struct Mutant {
    domain: Domain,
    scratch: Scratch,
    rule: Rule,
}

impl PartialEq for Mutant {
    fn eq(&self, other: &Mutant) -> bool {
        (&self.domain, &self.scratch) == (&other.domain, &other.scratch)
    }
}

impl Side for Mutant {
    fn reset(&self, delivery: Delivery) -> Mutant {
        Mutant {
            domain: Domain::new(delivery),
            scratch: [0; 64],
            rule: self.rule,
        }
    }

    fn call(&mut self, call: &Call) -> Answer {
        let before = self.domain.clone();
        let answer = self.domain.run(call);
        let step = Step {
            before: &before,
            call: *call,
            answer,
        };
        (self.rule)(&step, &mut self.domain, &mut self.scratch)
    }
}

const OPTIONS: Options = Options {
    seed: 3,
    from: 0,
    count: 300_000,
};

/// Runs a wrong domain until it differs, and sees that the printed text differs in the same way.
fn find(rule: Rule) -> Found<List, Difference> {
    let mutant = Mutant {
        domain: Domain::new(Delivery::Message),
        scratch: [0; 64],
        rule,
    };
    let mut comparison = Comparison::new(mutant, None);
    let outcome = run(&mut comparison, &OPTIONS, &mut std::io::sink());
    let found = outcome.found.expect("a difference");
    println!("{}", found.text);
    let mut lists = Vec::new();
    read_lists(&found.text, |written| lists.push(written.list)).expect("readable");
    assert_eq!(lists, std::slice::from_ref(&found.smallest));
    let again = comparison.list(&lists[0]);
    assert_eq!(again, Err(found.smallest_difference.clone()));
    found
}

/// Finds each wrong domain, in a few calls.
fn find_each(rules: &[(&str, Rule)]) {
    for (name, rule) in rules {
        println!("# {name}");
        let calls = find(*rule).smallest.calls.len();
        assert!(calls < 10, "{name}: {calls} calls");
    }
}

/// Every source of a domain.
fn each(domain: &mut Domain, mut change: impl FnMut(u64, &mut Source)) {
    for number in 1..=63 {
        if let Some(source) = domain.source_mut(number) {
            change(number, source);
        }
    }
}

/// The source of a wire change.
fn wired(step: &Step) -> Option<u64> {
    match (step.call, step.answer) {
        (Call::Wire { source, .. }, Answer::Done) => Some(source),
        _ => None,
    }
}

/// The source whose sourcecfg is written, and the value.
fn configured(step: &Step) -> Option<(u64, u32)> {
    match step.written()? {
        (Register::Sourcecfg(number), value) => Some((number, value)),
        _ => None,
    }
}

/// The sources that a mask register or a register by number asks for, as bits.
fn asked(step: &Step, mask: Mask, numbers: &[Number]) -> u64 {
    match step.written() {
        Some((Register::Mask(written, half), value)) if written == mask => {
            u64::from(value) << (32 * half)
        }
        Some((Register::Number(number), value @ 1..=63)) if numbers.contains(&number) => 1 << value,
        _ => 0,
    }
}

const SETS: [Number; 2] = [Number::Setipnum, Number::SetipnumLe];

#[test]
fn no_difference_without_a_mutation() {
    let mut comparison = Comparison::new(Library::default(), None);
    let outcome = run(&mut comparison, &OPTIONS, &mut std::io::sink());
    assert_eq!(outcome.found.map(|found| found.text), None);
    assert_eq!(outcome.calls, OPTIONS.count);
    assert!(outcome.reports > OPTIONS.count);
}

const WIRES: &[(&str, Rule)] = &[
    (
        "a level's pending kept when its input falls",
        |step, after, _| {
            if let Some(number) = wired(step) {
                let was = step.was(number);
                each(after, |other, source| {
                    source.pending |= other == number && source.mode.is_level() && was.pending;
                });
            }
            step.answer
        },
    ),
    ("an edge source set by a level", |step, after, _| {
        if let Some(number) = wired(step) {
            each(after, |other, source| {
                source.pending |= other == number && source.rectified();
            });
        }
        step.answer
    }),
    ("an edge source set by either edge", |step, after, _| {
        if let Some(number) = wired(step) {
            let was = step.was(number);
            each(after, |other, source| {
                let edge = matches!(source.mode, Mode::Edge1 | Mode::Edge0);
                source.pending |= other == number && edge && was.wire != source.wire;
            });
        }
        step.answer
    }),
    (
        "an edge's pending cleared when its input falls",
        |step, after, _| {
            if let Some(number) = wired(step) {
                each(after, |other, source| {
                    let edge = matches!(source.mode, Mode::Edge1 | Mode::Edge0);
                    source.pending &= !(other == number && edge && !source.rectified());
                });
            }
            step.answer
        },
    ),
    ("a detached source set by its wire", |step, after, _| {
        if let Some(number) = wired(step) {
            each(after, |other, source| {
                let detached = other == number && source.mode == Mode::Detached;
                source.pending |= detached && source.wire;
            });
        }
        step.answer
    }),
    (
        "the wire of an inactive source forgotten",
        |step, after, _| {
            each(after, |_, source| source.wire &= source.mode.is_active());
            step.answer
        },
    ),
    (
        "the wire of an inactive source ignored",
        |step, after, _| {
            match wired(step) {
                Some(number) if !step.was(number).mode.is_active() => {
                    *after = step.before.clone();
                }
                _ => {}
            }
            step.answer
        },
    ),
    ("wires the wrong way round", |step, after, _| {
        match step.call {
            Call::Wire { source, high } => {
                let high = !high;
                step.instead(after, Call::Wire { source, high })
            }
            _ => step.answer,
        }
    }),
];

#[test]
fn wires_read_wrongly() {
    find_each(WIRES);
}

const WIRE_NUMBERS: &[(&str, Rule)] = &[
    ("0 accepted", |step, _, _| match step.call {
        Call::Wire { source: 0, .. } => Answer::Done,
        _ => step.answer,
    }),
    ("64 accepted", |step, _, _| match step.call {
        Call::Wire { source: 64, .. } => Answer::Done,
        _ => step.answer,
    }),
    ("63 refused", |step, after, _| match step.call {
        Call::Wire { source: 63, .. } => {
            *after = step.before.clone();
            Answer::Refused(2014)
        }
        _ => step.answer,
    }),
    ("modulo 64", |step, after, _| match step.call {
        Call::Wire { source, high } => {
            let source = source % 64;
            step.instead(after, Call::Wire { source, high })
        }
        _ => step.answer,
    }),
    ("another refusal", |step, _, _| match step.answer {
        Answer::Refused(_) => Answer::Refused(2009),
        answer => answer,
    }),
    ("something kept of what is refused", |step, _, scratch| {
        if matches!(step.answer, Answer::Refused(_)) {
            scratch[0] += 1;
        }
        step.answer
    }),
];

#[test]
fn wire_numbers() {
    find_each(WIRE_NUMBERS);
}

const PENDING: &[(&str, Rule)] = &[
    (
        "setip on a level whose input is low sets it",
        |step, after, _| {
            let bits = asked(step, Mask::Setip, &SETS);
            each(after, |number, source| {
                source.pending |= source.mode.is_level() && bits >> number & 1 == 1;
            });
            step.answer
        },
    ),
    ("setipnum alone does so", |step, after, _| {
        if let Some((Register::Number(Number::Setipnum), value)) = step.written() {
            each(after, |number, source| {
                source.pending |= source.mode.is_level() && number == u64::from(value);
            });
        }
        step.answer
    }),
    (
        "a level isn't set by setip, as in direct delivery",
        |step, after, _| {
            if asked(step, Mask::Setip, &SETS) != 0 {
                each(after, |number, source| {
                    source.pending &= !source.mode.is_level() || step.was(number).pending;
                });
            }
            step.answer
        },
    ),
    (
        "a level isn't cleared by in_clrip, as in direct delivery",
        |step, after, _| {
            if asked(step, Mask::InClrip, &[Number::Clripnum]) != 0 {
                each(after, |number, source| {
                    source.pending |= source.mode.is_level() && step.was(number).pending;
                });
            }
            step.answer
        },
    ),
    ("an inactive source set by setip", |step, after, _| {
        let bits = asked(step, Mask::Setip, &SETS);
        each(after, |number, source| {
            source.pending |= !source.mode.is_active() && bits >> number & 1 == 1;
        });
        step.answer
    }),
    (
        "setip writes the bits that it doesn't set",
        |step, after, _| {
            if let Some((Register::Mask(Mask::Setip, half), value)) = step.written() {
                each(after, |number, source| {
                    let zero = number / 32 == half && value >> (number % 32) & 1 == 0;
                    source.pending &= !zero;
                });
            }
            step.answer
        },
    ),
    ("bit 0 of setip kept", |step, _, scratch| {
        let zero = Register::Mask(Mask::Setip, 0);
        match (step.written(), step.read()) {
            (Some((register, value)), _) if register == zero => scratch[0] |= value & 1,
            (_, Some((register, value))) if register == zero => {
                return Answer::Value(value | scratch[0]);
            }
            _ => {}
        }
        step.answer
    }),
    ("the halves exchanged", |step, after, _| {
        match step.offset() {
            Some(offset @ (0x1C00 | 0x1C04 | 0x1D00 | 0x1D04)) => step.at(after, offset ^ 4),
            _ => step.answer,
        }
    }),
    ("in_clrip reads pending bits", |step, after, _| {
        match step.read() {
            Some((Register::Mask(Mask::InClrip, half), _)) => {
                step.at(after, Register::Mask(Mask::Setip, half).offset())
            }
            _ => step.answer,
        }
    }),
];

#[test]
fn pending_bits_written() {
    find_each(PENDING);
}

const NUMBERS: &[(&str, Rule)] = &[
    ("modulo 64", |step, after, _| {
        match (step.written(), step.offset()) {
            (Some((Register::Number(_), value)), Some(offset)) => {
                let value = value % 64;
                step.instead(after, Call::Write { offset, value })
            }
            _ => step.answer,
        }
    }),
    ("of 8 bits", |step, after, _| {
        match (step.written(), step.offset()) {
            (Some((Register::Number(_), value)), Some(offset)) => {
                let value = value & 0xFF;
                step.instead(after, Call::Write { offset, value })
            }
            _ => step.answer,
        }
    }),
    ("63 left out", |step, after, _| {
        if let Some((Register::Number(_), 63)) = step.written() {
            *after = step.before.clone();
        }
        step.answer
    }),
    ("setipnum_le does nothing", |step, after, _| {
        if let Some((Register::Number(Number::SetipnumLe), _)) = step.written() {
            *after = step.before.clone();
        }
        step.answer
    }),
    (
        "setipnum_be does what setipnum does, bytes reversed",
        |step, after, _| match step.call {
            Call::Write {
                offset: 0x2004,
                value,
            } => {
                let value = value.swap_bytes();
                step.instead(
                    after,
                    Call::Write {
                        offset: 0x2000,
                        value,
                    },
                )
            }
            _ => step.answer,
        },
    ),
    (
        "setipnum_be does what setipnum does",
        |step, after, _| match step.offset() {
            Some(0x2004) => step.at(after, 0x2000),
            _ => step.answer,
        },
    ),
    ("the last number can be read", |step, _, scratch| {
        match (step.written(), step.read()) {
            (Some((Register::Number(Number::Setienum), value)), _) => scratch[0] = value,
            (_, Some((Register::Number(Number::Setienum), _))) => {
                return Answer::Value(scratch[0]);
            }
            _ => {}
        }
        step.answer
    }),
];

#[test]
fn numbers_written() {
    find_each(NUMBERS);
}

const ENABLES: &[(&str, Rule)] = &[
    ("set for an inactive source", |step, after, _| {
        let bits = asked(step, Mask::Setie, &[Number::Setienum]);
        each(after, |number, source| {
            source.enable |= bits >> number & 1 == 1
        });
        step.answer
    }),
    ("kept by a source made inactive", |step, after, _| {
        if let Some((number, _)) = configured(step) {
            let enable = step.was(number).enable;
            each(after, |other, source| {
                source.enable |= other == number && enable
            });
        }
        step.answer
    }),
    ("cleared by every write to sourcecfg", |step, after, _| {
        if let Some((number, _)) = configured(step) {
            each(after, |other, source| source.enable &= other != number);
        }
        step.answer
    }),
    (
        "clrie reads what setie reads",
        |step, after, _| match step.read() {
            Some((Register::Mask(Mask::Clrie, half), _)) => {
                step.at(after, Register::Mask(Mask::Setie, half).offset())
            }
            _ => step.answer,
        },
    ),
    ("clrienum clears pending too", |step, after, _| {
        if let Some((Register::Number(Number::Clrienum), value)) = step.written() {
            each(after, |number, source| {
                source.pending &= number != u64::from(value);
            });
        }
        step.answer
    }),
];

#[test]
fn enable_bits() {
    find_each(ENABLES);
}

const MODES: &[(&str, Rule)] = &[
    ("bit 10 and the mode kept", |step, after, _| {
        match (configured(step), step.offset()) {
            (Some((_, value)), Some(offset)) => {
                let value = value & !0x400;
                step.instead(after, Call::Write { offset, value })
            }
            _ => step.answer,
        }
    }),
    ("bit 10 kept, the source inactive", |step, _, scratch| {
        if let Some((number, value)) = configured(step) {
            scratch[number as usize] = value & 0x400;
        }
        match step.read() {
            Some((Register::Sourcecfg(number), value)) => {
                Answer::Value(value | scratch[number as usize])
            }
            _ => step.answer,
        }
    }),
    ("bit 10 ignored, the mode as it was", |step, after, _| {
        if configured(step).is_some_and(|(_, value)| value & 0x400 != 0) {
            *after = step.before.clone();
        }
        step.answer
    }),
    ("a reserved mode read back", |step, _, scratch| {
        if let Some((number, value)) = configured(step) {
            scratch[number as usize] = value & 0x407;
        }
        match step.read() {
            Some((Register::Sourcecfg(number), value)) => match scratch[number as usize] {
                reserved @ (2 | 3) => Answer::Value(reserved),
                _ => Answer::Value(value),
            },
            _ => step.answer,
        }
    }),
    ("a reserved mode leaves the mode", |step, after, _| {
        if configured(step).is_some_and(|(_, value)| matches!(value & 0x407, 2 | 3)) {
            *after = step.before.clone();
        }
        step.answer
    }),
    ("a reserved mode is Detached", |step, after, _| {
        match (configured(step), step.offset()) {
            (Some((_, value)), Some(offset)) if matches!(value & 0x407, 2 | 3) => {
                step.instead(after, Call::Write { offset, value: 1 })
            }
            _ => step.answer,
        }
    }),
    (
        "other reserved bits make it inactive",
        |step, after, _| match (configured(step), step.offset()) {
            (Some((_, value)), Some(offset)) if value > 7 => {
                step.instead(after, Call::Write { offset, value: 0 })
            }
            _ => step.answer,
        },
    ),
];

#[test]
fn modes_written() {
    find_each(MODES);
}

const CONFIGURED: &[(&str, Rule)] = &[
    ("never set", |step, after, _| {
        if let Some((number, _)) = configured(step) {
            let pending = step.was(number).pending;
            each(after, |other, source| {
                source.pending &= other != number || pending
            });
        }
        step.answer
    }),
    ("not set where the mode stays", |step, after, _| {
        if let Some((number, value)) = configured(step) {
            let was = step.was(number);
            if was.mode == Mode::written(value) {
                each(after, |other, source| {
                    source.pending &= other != number || was.pending;
                });
            }
        }
        step.answer
    }),
    ("set only for a source made active", |step, after, _| {
        if let Some((number, _)) = configured(step) {
            let was = step.was(number);
            if was.mode.is_active() {
                each(after, |other, source| {
                    source.pending &= other != number || was.pending;
                });
            }
        }
        step.answer
    }),
    ("set for levels alone", |step, after, _| {
        if let Some((number, _)) = configured(step) {
            let pending = step.was(number).pending;
            each(after, |other, source| {
                source.pending &= other != number || source.mode.is_level() || pending;
            });
        }
        step.answer
    }),
    ("cleared where the new input is low", |step, after, _| {
        if let Some((number, _)) = configured(step) {
            each(after, |other, source| {
                source.pending &= other != number || source.rectified();
            });
        }
        step.answer
    }),
    ("kept under a level whose input is low", |step, after, _| {
        if let Some((number, _)) = configured(step) {
            let pending = step.was(number).pending;
            each(after, |other, source| {
                source.pending |= other == number && source.mode.is_active() && pending;
            });
        }
        step.answer
    }),
    ("kept by a source made inactive", |step, after, scratch| {
        if let Some((number, _)) = configured(step) {
            let was = step.was(number);
            scratch[number as usize] |= u32::from(was.pending);
            each(after, |other, source| {
                let back = !was.mode.is_active() && source.mode == Mode::Detached;
                source.pending |= other == number && back && scratch[number as usize] == 1;
            });
        }
        step.answer
    }),
];

#[test]
fn pending_bits_under_sourcecfg() {
    find_each(CONFIGURED);
}

/// A target with the fields that a wrong domain keeps.
fn target(step: &Step, after: &mut Domain, wrong: fn(u32, &mut Source)) -> Answer {
    if let Some((Register::Target(number), value)) = step.written() {
        each(after, |other, source| {
            if other == number && source.mode.is_active() {
                wrong(value, source);
            }
        });
    }
    step.answer
}

const TARGETS: &[(&str, Rule)] = &[
    ("bit 11 kept", |step, after, _| {
        target(step, after, |value, source| {
            source.target.identity |= value & 0x800
        })
    }),
    ("an identity of 10 bits", |step, after, _| {
        target(step, after, |_, source| source.target.identity &= 0x3FF)
    }),
    ("no guest index", |step, after, _| {
        target(step, after, |_, source| source.target.guest_index = 0)
    }),
    ("a hart index of 13 bits", |step, after, _| {
        target(step, after, |_, source| source.target.hart_index &= 0x1FFF)
    }),
    ("written to an inactive source", |step, after, _| {
        if let Some((Register::Target(number), value)) = step.written() {
            each(after, |other, source| {
                source.target.identity |= if other == number { value & 0x7FF } else { 0 };
            });
        }
        step.answer
    }),
    ("kept by a source made inactive", |step, after, scratch| {
        if let Some((Register::Target(number), _)) = step.written() {
            let kept = after.source(number).copied().unwrap_or_default();
            scratch[number as usize] = kept.target.identity;
        }
        if let Some((number, _)) = configured(step) {
            let back = !step.was(number).mode.is_active();
            each(after, |other, source| {
                if other == number && back && source.mode.is_active() {
                    source.target.identity = scratch[number as usize];
                }
            });
        }
        step.answer
    }),
    ("lost by any write to sourcecfg", |step, after, _| {
        if let Some((number, _)) = configured(step) {
            each(after, |other, source| {
                if other == number {
                    source.target = Default::default();
                }
            });
        }
        step.answer
    }),
    ("read from a forward's own copy", |step, _, scratch| {
        if let Some((Register::Number(Number::Setipnum), value @ 1..=63)) = step.written() {
            scratch[value as usize] = step.was(u64::from(value)).target.identity + 1;
        }
        match step.answer {
            Answer::Forwarded(Some(mut message)) => {
                let old = scratch.iter().find(|old| **old != 0).copied();
                message.identity = old.map_or(message.identity, |old| old - 1);
                scratch.fill(0);
                Answer::Forwarded(Some(message))
            }
            answer => answer,
        }
    }),
];

#[test]
fn targets() {
    find_each(TARGETS);
}

/// The message of a source.
fn sent(source: &Source) -> Message {
    Message {
        hart_index: source.target.hart_index,
        guest_index: source.target.guest_index,
        identity: source.target.identity,
    }
}

/// The source that a forward took, if any.
fn taken(step: &Step, after: &Domain) -> Option<u64> {
    let changed = |(number, source): &(u64, &Source)| after.source(*number) != Some(*source);
    match step.call {
        Call::Forward => step
            .before
            .sources()
            .find(changed)
            .map(|(number, _)| number),
        _ => None,
    }
}

const FORWARDS: &[(&str, Rule)] = &[
    ("pending left set", |step, after, _| {
        if let Some(taken) = taken(step, after) {
            each(after, |number, source| source.pending |= number == taken);
        }
        step.answer
    }),
    (
        "a level left set while its input is high",
        |step, after, _| {
            if let Some(taken) = taken(step, after) {
                each(after, |number, source| {
                    let high = source.mode.is_level() && source.rectified();
                    source.pending |= number == taken && high;
                });
            }
            step.answer
        },
    ),
    ("the highest-numbered source", |step, after, _| {
        let waiting = step
            .before
            .sources()
            .filter(|(_, source)| source.is_waiting());
        match (step.answer, waiting.last()) {
            (Answer::Forwarded(Some(_)), Some((last, _))) => {
                *after = step.before.clone();
                let mut message = None;
                each(after, |number, source| {
                    if number == last {
                        source.pending = false;
                        message = Some(sent(source));
                    }
                });
                Answer::Forwarded(message)
            }
            _ => step.answer,
        }
    }),
    ("without IE", |step, after, _| match step.call {
        Call::Forward => {
            after.enable = true;
            let answer = after.run(&Call::Forward);
            after.enable = step.before.enable;
            if step.before.enable {
                step.answer
            } else {
                answer
            }
        }
        _ => step.answer,
    }),
    ("enable cleared too", |step, after, _| {
        if let Some(taken) = taken(step, after) {
            each(after, |number, source| source.enable &= number != taken);
        }
        step.answer
    }),
    ("enable not asked for", |step, after, _| match step.call {
        Call::Forward if step.before.enable => {
            *after = step.before.clone();
            let pending = step.before.sources().find(|(_, source)| source.pending);
            let message = pending.map(|(number, source)| {
                each(after, |other, source| source.pending &= other != number);
                sent(source)
            });
            Answer::Forwarded(message)
        }
        _ => step.answer,
    }),
    ("all that wait are cleared", |step, after, _| {
        if taken(step, after).is_some() {
            each(after, |_, source| source.pending &= !source.enable);
        }
        step.answer
    }),
    (
        "something kept of a forward of nothing",
        |step, _, scratch| {
            if step.answer == Answer::Forwarded(None) {
                scratch[0] += 1;
            }
            step.answer
        },
    ),
];

#[test]
fn forwards() {
    find_each(FORWARDS);
}

const DOMAINCFG: &[(&str, Rule)] = &[
    ("delivery mode written", |step, _, scratch| {
        match (step.written(), step.read()) {
            (Some((Register::Domaincfg, value)), _) => {
                scratch[0] = !value & 4;
                step.answer
            }
            (_, Some((Register::Domaincfg, value))) => Answer::Value(value & !scratch[0]),
            _ => step.answer,
        }
    }),
    ("byte order written", |step, _, scratch| {
        match (step.written(), step.read()) {
            (Some((Register::Domaincfg, value)), _) => {
                scratch[0] = value & 1;
                step.answer
            }
            (_, Some((Register::Domaincfg, value))) => Answer::Value(value | scratch[0]),
            _ => step.answer,
        }
    }),
    ("no 0x80 on top", |step, _, _| match step.read() {
        Some((Register::Domaincfg, value)) => Answer::Value(value & !0x8000_0000),
        _ => step.answer,
    }),
    ("IE set and never cleared", |step, after, _| {
        after.enable |= step.before.enable;
        step.answer
    }),
];

#[test]
fn domaincfg() {
    find_each(DOMAINCFG);
}

const PLACES: &[(&str, Rule)] = &[
    ("genmsi can be read back", |step, _, scratch| {
        match step.call {
            Call::Write {
                offset: 0x3000,
                value,
            } => {
                scratch[0] = value;
                step.answer
            }
            Call::Read { offset: 0x3000 } => Answer::Value(scratch[0]),
            _ => step.answer,
        }
    }),
    (
        "misaligned offsets rounded down",
        |step, after, _| match step.offset() {
            Some(offset) => step.at(after, offset & !3),
            None => step.answer,
        },
    ),
    ("offsets of 32 bits", |step, after, _| match step.offset() {
        Some(offset) => step.at(after, offset % (1 << 32)),
        None => step.answer,
    }),
    ("offsets of 16 bits", |step, after, _| match step.offset() {
        Some(offset) => step.at(after, offset % (1 << 16)),
        None => step.answer,
    }),
    (
        "sources modulo 64 in sourcecfg",
        |step, after, _| match step.offset() {
            Some(offset @ 0x100..0x1000) => step.at(after, offset % 0x100),
            _ => step.answer,
        },
    ),
    ("mask registers modulo 2", |step, after, _| {
        match step.offset() {
            Some(offset @ 0x1E08..0x1E80) => step.at(after, 0x1E00 + offset % 8),
            _ => step.answer,
        }
    }),
    (
        "an address register of machine level",
        |step, _, _| match step.call {
            Call::Read { offset: 0x1BC4 } => Answer::Value(0x8000_0000),
            _ => step.answer,
        },
    ),
    ("target[63] left out", |step, after, _| {
        if let Some((Register::Target(63), _)) = step.written() {
            *after = step.before.clone();
        }
        step.answer
    }),
    (
        "something kept of a write where no register is",
        |step, _, scratch| {
            if let (Call::Write { .. }, None) = (step.call, step.written()) {
                scratch[0] += 1;
            }
            step.answer
        },
    ),
    ("something kept of a read", |step, _, scratch| {
        if let Call::Read { offset: 0x1D00 } = step.call {
            scratch[0] += 1;
        }
        step.answer
    }),
];

#[test]
fn places() {
    find_each(PLACES);
}
