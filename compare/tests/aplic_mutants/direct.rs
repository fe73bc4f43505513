//! Domains that are wrong in direct delivery, or about harts.

use yasmurekh_reference::aplic::{
    Answer, Call, Delivery, Domain, Hart, HartRegister, Mask, Mode, Number, Register, Source,
};

use crate::{asked, configured, each, find_each, sent, target, Rule, Step, SETS};

fn is_direct(step: &Step) -> bool {
    step.before.delivery() == Delivery::Direct
}

/// How a hart is asked for its top interrupt.
#[derive(Clone, Copy, PartialEq)]
enum Way {
    Topi,
    Claimi,
    Claim,
    Signal,
}

/// The hart that is asked, where the domain has it.
fn hart_asked(step: &Step) -> Option<(u64, Way)> {
    let (hart, way) = match step.call {
        Call::Claim { hart } => (hart, Way::Claim),
        Call::Signal { hart } => (hart, Way::Signal),
        Call::Read { offset } => match Register::at(offset)? {
            Register::Hart(hart, HartRegister::Topi) => (hart, Way::Topi),
            Register::Hart(hart, HartRegister::Claimi) => (hart, Way::Claimi),
            _ => return None,
        },
        _ => return None,
    };
    (hart < 16).then_some((hart, way))
}

/// The hart that a claim is made for, by a call or a read, and the value that it gives.
fn claimed(step: &Step) -> Option<(u64, u32)> {
    match (hart_asked(step)?, step.answer) {
        ((hart, Way::Claim | Way::Claimi), Answer::Value(value)) if is_direct(step) => {
            Some((hart, value))
        }
        _ => None,
    }
}

/// A choice of a hart's top interrupt.
struct Choice {
    /// Whether a source may be shown to the hart of a number.
    shown: fn(&Domain, (u64, Hart), &Source) -> bool,
    /// The source with the smallest of these is.
    key: fn(u64, &Source) -> (u32, u64),
}

const RIGHT: Choice = Choice {
    shown: |_, (number, hart), source| {
        targets(number, source) && source.is_waiting() && hart.passes(source.target.priority)
    },
    key: |number, source| (source.target.priority, number),
};

fn targets(number: u64, source: &Source) -> bool {
    u64::from(source.target.hart_index) == number
}

/// Answers and acts as a domain with this choice does.
fn by(choice: &Choice, step: &Step, after: &mut Domain) -> Answer {
    let (Some((number, way)), true) = (hart_asked(step), is_direct(step)) else {
        return step.answer;
    };
    let before = step.before;
    let hart = before.hart(number).copied().unwrap_or_default();
    let shown = before
        .sources()
        .filter(|(_, source)| (choice.shown)(before, (number, hart), source));
    let top = shown.min_by_key(|(number, source)| (choice.key)(*number, source));
    let value = top.map_or(0, |(number, source)| {
        (number as u32) << 16 | source.target.priority
    });
    match way {
        Way::Topi => Answer::Value(value),
        Way::Signal => {
            Answer::Signalled(before.enable && hart.delivery && (hart.force || value != 0))
        }
        Way::Claim | Way::Claimi => {
            *after = before.clone();
            match top {
                Some((number, _)) => each(after, |other, source| {
                    source.pending &= other != number || source.mode.is_level();
                }),
                None => force(after, number, false),
            }
            Answer::Value(value)
        }
    }
}

/// Writes iforce of a hart.
fn force(domain: &mut Domain, hart: u64, force: bool) {
    if let Some(hart) = domain.hart_mut(hart) {
        hart.force = force;
    }
}

const PENDING: &[(&str, Rule)] = &[
    ("a level set by setip while low", |step, after, _| {
        let bits = asked(step, Mask::Setip, &SETS);
        each(after, |number, source| {
            let level = is_direct(step) && source.mode.is_level();
            source.pending |= level && bits >> number & 1 == 1;
        });
        step.answer
    }),
    (
        "a level cleared by in_clrip, as in message delivery",
        |step, after, _| {
            let bits = asked(step, Mask::InClrip, &[]);
            each(after, |number, source| {
                source.pending &= !is_direct(step) || bits >> number & 1 == 0;
            });
            step.answer
        },
    ),
    (
        "a level cleared by clripnum, as in message delivery",
        |step, after, _| {
            if let Some((Register::Number(Number::Clripnum), value)) = step.written() {
                each(after, |number, source| {
                    source.pending &= !is_direct(step) || number != u64::from(value);
                });
            }
            step.answer
        },
    ),
    ("a level cleared by a claim", |step, after, _| {
        if let Some((_, value)) = claimed(step) {
            each(after, |number, source| {
                source.pending &= number != u64::from(value >> 16);
            });
        }
        step.answer
    }),
    ("an edge left set by a claim", |step, after, _| {
        if let Some((_, value)) = claimed(step) {
            each(after, |number, source| {
                let edge = matches!(source.mode, Mode::Edge1 | Mode::Edge0);
                source.pending |= edge && number == u64::from(value >> 16);
            });
        }
        step.answer
    }),
    ("a detached source left set by a claim", |step, after, _| {
        if let Some((_, value)) = claimed(step) {
            each(after, |number, source| {
                let detached = source.mode == Mode::Detached;
                source.pending |= detached && number == u64::from(value >> 16);
            });
        }
        step.answer
    }),
    ("nothing cleared by a read of claimi", |step, after, _| {
        if matches!(hart_asked(step), Some((_, Way::Claimi))) {
            *after = step.before.clone();
        }
        step.answer
    }),
    ("nothing cleared by a claim as a call", |step, after, _| {
        if matches!(hart_asked(step), Some((_, Way::Claim))) {
            *after = step.before.clone();
        }
        step.answer
    }),
    ("topi claims", |step, after, _| match hart_asked(step) {
        Some((hart, Way::Topi)) => step.instead(after, Call::Claim { hart }),
        _ => step.answer,
    }),
    ("all that wait at the hart are claimed", |step, after, _| {
        if let Some((hart, 1..)) = claimed(step) {
            each(after, |_, source| {
                let waits = source.enable && targets(hart, source);
                source.pending &= !waits || source.mode.is_level();
            });
        }
        step.answer
    }),
    ("a claim clears the enable bit too", |step, after, _| {
        if let Some((_, value)) = claimed(step) {
            each(after, |number, source| {
                source.enable &= number != u64::from(value >> 16);
            });
        }
        step.answer
    }),
    (
        "a level's pending cleared when it is detached",
        |step, after, _| {
            if let (Some((number, _)), true) = (configured(step), is_direct(step)) {
                let level = step.was(number).mode.is_level();
                each(after, |other, source| {
                    let detached = source.mode == Mode::Detached;
                    source.pending &= !(other == number && level && detached);
                });
            }
            step.answer
        },
    ),
    ("forwards as in message delivery", |step, after, _| {
        let mut waiting = step.before.sources();
        let first = waiting.find(|(_, source)| source.is_waiting());
        match (step.call, first) {
            (Call::Forward, Some((number, source))) if step.before.enable && is_direct(step) => {
                each(after, |other, source| source.pending &= other != number);
                Answer::Forwarded(Some(sent(source)))
            }
            _ => step.answer,
        }
    }),
];

#[test]
fn pending_bits() {
    find_each(PENDING);
}

const TOPS: &[(&str, Rule)] = &[
    ("the highest priority number", |step, after, _| {
        let key = |number, source: &Source| (!source.target.priority, number);
        by(&Choice { key, ..RIGHT }, step, after)
    }),
    ("of equal ones the highest source", |step, after, _| {
        let key = |number: u64, source: &Source| (source.target.priority, !number);
        by(&Choice { key, ..RIGHT }, step, after)
    }),
    (
        "the lowest source, whatever its priority",
        |step, after, _| {
            let key = |number, _: &Source| (0, number);
            by(&Choice { key, ..RIGHT }, step, after)
        },
    ),
    ("priorities of 7 bits", |step, after, _| {
        let key = |number, source: &Source| (source.target.priority & 0x7F, number);
        by(&Choice { key, ..RIGHT }, step, after)
    }),
    ("the threshold itself passes", |step, after, _| {
        let shown = |_: &Domain, (number, hart): (u64, Hart), source: &Source| {
            let passes = hart.threshold == 0 || source.target.priority <= hart.threshold;
            targets(number, source) && source.is_waiting() && passes
        };
        by(&Choice { shown, ..RIGHT }, step, after)
    }),
    ("threshold 0 bars all", |step, after, _| {
        let shown = |_: &Domain, (number, hart): (u64, Hart), source: &Source| {
            let passes = source.target.priority < hart.threshold;
            targets(number, source) && source.is_waiting() && passes
        };
        by(&Choice { shown, ..RIGHT }, step, after)
    }),
    ("no threshold", |step, after, _| {
        let shown = |_: &Domain, (number, _): (u64, Hart), source: &Source| {
            targets(number, source) && source.is_waiting()
        };
        by(&Choice { shown, ..RIGHT }, step, after)
    }),
    ("enable not asked for", |step, after, _| {
        let shown = |_: &Domain, (number, hart): (u64, Hart), source: &Source| {
            targets(number, source) && source.pending && hart.passes(source.target.priority)
        };
        by(&Choice { shown, ..RIGHT }, step, after)
    }),
    ("pending not asked for", |step, after, _| {
        let shown = |_: &Domain, (number, hart): (u64, Hart), source: &Source| {
            targets(number, source) && source.enable && hart.passes(source.target.priority)
        };
        by(&Choice { shown, ..RIGHT }, step, after)
    }),
    ("of every hart", |step, after, _| {
        let shown = |_: &Domain, (_, hart): (u64, Hart), source: &Source| {
            source.is_waiting() && hart.passes(source.target.priority)
        };
        by(&Choice { shown, ..RIGHT }, step, after)
    }),
    ("hart indices modulo 16", |step, after, _| {
        let shown = |_: &Domain, (number, hart): (u64, Hart), source: &Source| {
            let targeted = u64::from(source.target.hart_index) % 16 == number;
            targeted && source.is_waiting() && hart.passes(source.target.priority)
        };
        by(&Choice { shown, ..RIGHT }, step, after)
    }),
    ("hart index 16383 is hart 15", |step, after, _| {
        let shown = |_: &Domain, (number, hart): (u64, Hart), source: &Source| {
            let far = number == 15 && source.target.hart_index == 16_383;
            let passes = hart.passes(source.target.priority);
            (far || targets(number, source)) && source.is_waiting() && passes
        };
        by(&Choice { shown, ..RIGHT }, step, after)
    }),
    ("only with IE", |step, after, _| {
        let shown = |domain: &Domain, hart: (u64, Hart), source: &Source| {
            domain.enable && (RIGHT.shown)(domain, hart, source)
        };
        by(&Choice { shown, ..RIGHT }, step, after)
    }),
    ("only with idelivery", |step, after, _| {
        let shown = |domain: &Domain, hart: (u64, Hart), source: &Source| {
            hart.1.delivery && (RIGHT.shown)(domain, hart, source)
        };
        by(&Choice { shown, ..RIGHT }, step, after)
    }),
    ("the identity alone", |step, _, _| match step.answer {
        Answer::Value(value) if hart_asked(step).is_some() => Answer::Value(value >> 16 << 16),
        answer => answer,
    }),
];

#[test]
fn top_interrupts() {
    find_each(TOPS);
}

/// The right choice differs from no domain.
#[test]
fn the_right_choice() {
    use yasmurekh_compare::aplic::Comparison;
    let rule: Rule = |step, after, _| by(&RIGHT, step, after);
    let mutant = crate::Mutant {
        domain: Domain::new(Delivery::Direct),
        scratch: [0; 64],
        rule,
    };
    let mut comparison = Comparison::new(mutant, None);
    let outcome = crate::run(&mut comparison, &crate::OPTIONS, &mut std::io::sink());
    assert_eq!(outcome.found.map(|found| found.text), None);
}

const TARGETS: &[(&str, Rule)] = &[
    ("a priority 0 kept as it is written", |step, after, _| {
        if !is_direct(step) {
            return step.answer;
        }
        target(step, after, |value, source| {
            source.target.priority = value & 0xFF
        })
    }),
    ("priority 0 at activation", |step, after, _| {
        if let (Some((number, _)), true) = (configured(step), is_direct(step)) {
            let active = step.was(number).mode.is_active();
            each(after, |other, source| {
                if other == number && !active {
                    source.target.priority = 0;
                }
            });
        }
        step.answer
    }),
    ("bits 17:8 kept", |step, after, _| {
        if !is_direct(step) {
            return step.answer;
        }
        target(step, after, |value, source| {
            source.target.priority |= value & 0x0003_FF00
        })
    }),
    ("a hart index of 4 bits", |step, after, _| {
        if !is_direct(step) {
            return step.answer;
        }
        target(step, after, |_, source| source.target.hart_index &= 15)
    }),
    ("a hart index above 15 ignored", |step, after, _| {
        if let Some((Register::Target(_), 0x0040_0000..)) = step.written() {
            if is_direct(step) {
                *after = step.before.clone();
            }
        }
        step.answer
    }),
    (
        "priority 1 kept by a source made inactive",
        |step, after, _| {
            if let (Some((number, _)), true) = (configured(step), is_direct(step)) {
                each(after, |other, source| {
                    if other == number && !source.mode.is_active() {
                        source.target.priority = 1;
                    }
                });
            }
            step.answer
        },
    ),
];

#[test]
fn targets_written() {
    find_each(TARGETS);
}

const FORCE: &[(&str, Rule)] = &[
    ("left by a claim of nothing", |step, after, _| {
        if let Some((hart, 0)) = claimed(step) {
            let before = step.before.hart(hart).is_some_and(|hart| hart.force);
            force(after, hart, before);
        }
        step.answer
    }),
    ("left by a call that claims nothing", |step, after, _| {
        if let (Call::Claim { hart }, true) = (step.call, is_direct(step)) {
            let before = step.before.hart(hart).is_some_and(|hart| hart.force);
            force(after, hart, before);
        }
        step.answer
    }),
    ("cleared by a claim of something", |step, after, _| {
        if let Some((hart, _)) = claimed(step) {
            force(after, hart, false);
        }
        step.answer
    }),
    ("cleared for all harts", |step, after, _| {
        if let Some((_, 0)) = claimed(step) {
            (0..16).for_each(|hart| force(after, hart, false));
        }
        step.answer
    }),
    ("cleared by topi", |step, after, _| {
        if let (Some((hart, Way::Topi)), Answer::Value(0)) = (hart_asked(step), step.answer) {
            force(after, hart, false);
        }
        step.answer
    }),
    ("cleared by a signal", |step, after, _| {
        if let Some((hart, Way::Signal)) = hart_asked(step) {
            force(after, hart, false);
        }
        step.answer
    }),
];

#[test]
fn forced() {
    find_each(FORCE);
}

/// The hart of a signal in direct delivery, and whether its topi isn't zero.
fn signalled(step: &Step) -> Option<(Hart, bool)> {
    match (step.call, is_direct(step)) {
        (Call::Signal { hart }, true) => {
            let top = step.before.top(hart).is_some();
            step.before.hart(hart).map(|hart| (*hart, top))
        }
        _ => None,
    }
}

const SIGNALS: &[(&str, Rule)] = &[
    ("without IE", |step, _, _| match signalled(step) {
        Some((hart, top)) => Answer::Signalled(hart.delivery && (hart.force || top)),
        None => step.answer,
    }),
    ("without idelivery", |step, _, _| match signalled(step) {
        Some((hart, top)) => Answer::Signalled(step.before.enable && (hart.force || top)),
        None => step.answer,
    }),
    ("force without IE and idelivery", |step, _, _| {
        match (signalled(step), step.answer) {
            (Some((hart, _)), Answer::Signalled(found)) => Answer::Signalled(found || hart.force),
            _ => step.answer,
        }
    }),
    ("no force", |step, _, _| match signalled(step) {
        Some((hart, top)) => Answer::Signalled(step.before.enable && hart.delivery && top),
        None => step.answer,
    }),
    ("force needs an interrupt", |step, _, _| {
        match signalled(step) {
            Some((hart, top)) => {
                Answer::Signalled(step.before.enable && hart.delivery && hart.force && top)
            }
            None => step.answer,
        }
    }),
    ("by what the threshold bars", |step, _, _| {
        let (Some((hart, _)), Call::Signal { hart: number }) = (signalled(step), step.call) else {
            return step.answer;
        };
        let mut sources = step.before.sources();
        let waits = sources.any(|(_, source)| source.is_waiting() && targets(number, source));
        Answer::Signalled(step.before.enable && hart.delivery && (hart.force || waits))
    }),
    ("in message delivery", |step, _, _| match step.call {
        Call::Signal { hart } if !is_direct(step) && hart < 16 => {
            let mut sources = step.before.sources();
            Answer::Signalled(sources.any(|(_, source)| source.is_waiting()))
        }
        _ => step.answer,
    }),
    ("something kept of it", |step, _, scratch| {
        if let Call::Signal { .. } = step.call {
            scratch[0] += 1;
        }
        step.answer
    }),
];

#[test]
fn signals() {
    find_each(SIGNALS);
}

/// The hart and the register that are written in direct delivery, and the value.
fn hart_written(step: &Step) -> Option<(u64, HartRegister, u32)> {
    match step.written()? {
        (Register::Hart(hart, register), value) if is_direct(step) => Some((hart, register, value)),
        _ => None,
    }
}

/// Changes the hart whose register of this kind is written.
fn hart(
    step: &Step,
    after: &mut Domain,
    wanted: HartRegister,
    wrong: fn(u32, &mut Hart),
) -> Answer {
    match hart_written(step) {
        Some((number, register, value)) if register == wanted => {
            if let Some(hart) = after.hart_mut(number) {
                wrong(value, hart);
            }
        }
        _ => {}
    }
    step.answer
}

const REGISTERS: &[(&str, Rule)] = &[
    ("any idelivery but 0 is 1", |step, after, _| {
        let wrong = |value, hart: &mut Hart| hart.delivery = value != 0;
        hart(step, after, HartRegister::Idelivery, wrong)
    }),
    ("any iforce but 0 is 1", |step, after, _| {
        let wrong = |value, hart: &mut Hart| hart.force = value != 0;
        hart(step, after, HartRegister::Iforce, wrong)
    }),
    ("idelivery only set", |step, after, _| {
        let wrong = |_, hart: &mut Hart| hart.delivery = true;
        hart(step, after, HartRegister::Idelivery, wrong)
    }),
    ("a threshold of 7 bits", |step, after, _| {
        let wrong = |value, hart: &mut Hart| hart.threshold = value & 0x7F;
        hart(step, after, HartRegister::Ithreshold, wrong)
    }),
    ("a threshold of 9 bits", |step, after, _| {
        let wrong = |value, hart: &mut Hart| hart.threshold = value & 0x1FF;
        hart(step, after, HartRegister::Ithreshold, wrong)
    }),
    ("a threshold 0 kept as 1", |step, after, _| {
        let wrong = |_, hart: &mut Hart| hart.threshold = hart.threshold.max(1);
        hart(step, after, HartRegister::Ithreshold, wrong)
    }),
    ("a write to claimi claims", |step, after, _| {
        if let Some((hart, HartRegister::Claimi, _)) = hart_written(step) {
            let _ = after.claim(hart);
        }
        step.answer
    }),
    ("iforce of hart 15 left out", |step, after, _| {
        if let Some((15, HartRegister::Iforce, _)) = hart_written(step) {
            *after = step.before.clone();
        }
        step.answer
    }),
    ("hart 16 is hart 0", |step, after, _| match step.offset() {
        Some(offset @ 0x4200..0x4220) => step.at(after, offset - 0x200),
        _ => step.answer,
    }),
    ("harts modulo 16", |step, after, _| match step.offset() {
        Some(offset @ 0x4200..) => step.at(after, 0x4000 + offset % 0x200),
        _ => step.answer,
    }),
    (
        "reserved bytes as those before",
        |step, after, _| match step.offset() {
            Some(offset @ 0x4000..0x4200) if offset % 32 == 16 => step.at(after, offset - 16),
            _ => step.answer,
        },
    ),
    ("iforce kept in message delivery", |step, after, _| {
        if let (Some((Register::Hart(hart, HartRegister::Iforce), value)), false) =
            (step.written(), is_direct(step))
        {
            force(after, hart, value & 1 == 1);
        }
        match (step.read(), is_direct(step)) {
            (Some((Register::Hart(hart, HartRegister::Iforce), _)), false) => {
                let force = after.hart(hart).is_some_and(|hart| hart.force);
                Answer::Value(u32::from(force))
            }
            _ => step.answer,
        }
    }),
    ("topi in message delivery", |step, _, _| {
        let Some((hart, Way::Topi)) = hart_asked(step) else {
            return step.answer;
        };
        let mut sources = step.before.sources();
        let waits = sources.find(|(_, source)| source.is_waiting() && targets(hart, source));
        match (waits, is_direct(step)) {
            (Some((number, _)), false) => Answer::Value((number as u32) << 16),
            _ => step.answer,
        }
    }),
    ("claims in message delivery clear", |step, after, _| {
        if let (Some((hart, Way::Claim)), false) = (hart_asked(step), is_direct(step)) {
            each(after, |_, source| {
                source.pending &= !(source.enable && targets(hart, source));
            });
        }
        step.answer
    }),
    ("DM is 1", |step, _, _| match step.read() {
        Some((Register::Domaincfg, value)) => Answer::Value(value | 4),
        _ => step.answer,
    }),
];

#[test]
fn registers() {
    find_each(REGISTERS);
}

/// Another hart's number in a claim or a signal.
fn renumbered(step: &Step, after: &mut Domain, number: fn(u64) -> u64) -> Answer {
    match step.call {
        Call::Claim { hart } => step.instead(after, Call::Claim { hart: number(hart) }),
        Call::Signal { hart } => step.instead(after, Call::Signal { hart: number(hart) }),
        _ => step.answer,
    }
}

const HART_NUMBERS: &[(&str, Rule)] = &[
    ("modulo 16", |step, after, _| {
        renumbered(step, after, |hart| hart % 16)
    }),
    ("of 32 bits", |step, after, _| {
        renumbered(step, after, |hart| hart % (1 << 32))
    }),
    ("all above are 15", |step, after, _| {
        renumbered(step, after, |hart| hart.min(15))
    }),
    ("15 refused", |step, after, _| match step.call {
        Call::Claim { hart: 15 } | Call::Signal { hart: 15 } => {
            *after = step.before.clone();
            Answer::Refused(2014)
        }
        _ => step.answer,
    }),
    ("a claim for hart 16 gives 0", |step, _, _| {
        match step.call {
            Call::Claim { hart: 16 } => Answer::Value(0),
            _ => step.answer,
        }
    }),
    ("a signal of hart 16 is no", |step, _, _| match step.call {
        Call::Signal { hart: 16 } => Answer::Signalled(false),
        _ => step.answer,
    }),
    ("not refused in message delivery", |step, _, _| {
        match (step.call, is_direct(step)) {
            (Call::Claim { .. }, false) => Answer::Value(0),
            _ => step.answer,
        }
    }),
    ("refused in message delivery", |step, _, _| {
        match (step.call, is_direct(step)) {
            (Call::Claim { .. }, false) => Answer::Refused(2014),
            _ => step.answer,
        }
    }),
    ("another refusal", |step, _, _| {
        match (step.call, step.answer) {
            (Call::Claim { .. }, Answer::Refused(_)) => Answer::Refused(2009),
            (_, answer) => answer,
        }
    }),
    ("something kept of a refused claim", |step, _, scratch| {
        if let (Call::Claim { .. }, Answer::Refused(_)) = (step.call, step.answer) {
            scratch[0] += 1;
        }
        step.answer
    }),
];

#[test]
fn hart_numbers() {
    find_each(HART_NUMBERS);
}
