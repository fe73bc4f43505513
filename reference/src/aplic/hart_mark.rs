//! Marks of harts: what a claim, a signal or an access of a hart's registers met.

use crate::aplic::domain::{Answer, Domain, HARTS, SOURCES};
use crate::aplic::hart::{Hart, HartRegister, Top};
use crate::aplic::source::{Delivery, Source};
use crate::mark::named;

named!(
    /// How a hart is asked.
    Way {
        Topi = "topi read",
        Claimi = "claimi read",
        Claim = "claim",
        Signal = "signal",
    }
);

impl Way {
    /// Those that hand out the top interrupt.
    const SHOWING: [Way; 3] = [Way::Topi, Way::Claimi, Way::Claim];
    pub const CLAIMING: [Way; 2] = [Way::Claimi, Way::Claim];
    /// Those that are given a hart's number.
    const CALLS: [Way; 2] = [Way::Claim, Way::Signal];
}

named!(
    /// A hart's number that is given with a call.
    Given {
        First = "0",
        Middle = "1 to 14",
        Last = "15",
        Next = "16",
        Near = "17 to 31",
        Above = "above",
        Ones = "all ones",
    }
);

impl Given {
    fn of(number: u64) -> Given {
        match number {
            0 => Given::First,
            1..=14 => Given::Middle,
            15 => Given::Last,
            16 => Given::Next,
            17..=31 => Given::Near,
            u64::MAX => Given::Ones,
            _ => Given::Above,
        }
    }

    fn is_hart(self) -> bool {
        matches!(self, Given::First | Given::Middle | Given::Last)
    }
}

named!(
    /// A priority against a threshold.
    Limit {
        Off = "threshold 0",
        Below = "below the threshold",
        Equal = "equal to the threshold",
        Above = "above the threshold",
    }
);

impl Limit {
    fn of(threshold: u32, priority: u32) -> Limit {
        match threshold {
            0 => Limit::Off,
            _ if priority < threshold => Limit::Below,
            _ if priority == threshold => Limit::Equal,
            _ => Limit::Above,
        }
    }
}

named!(
    /// What the winner of several has before the others.
    Choice {
        Tie = "equal priorities, the lowest source",
        Both = "lowest priority number and lowest source",
        Number = "lowest priority number, not the lowest source",
    }
);

named!(
    /// A source that would go before the one that is shown, and doesn't.
    Passed {
        NotEnabled = "pending, not enabled",
        NotPending = "enabled, not pending",
        Elsewhere = "of another hart",
        Far = "of a hart index above 15 with the same four bits",
    }
);

named!(
    /// Why the top interrupt is zero.
    Zero {
        Idle = "none pending, none enabled",
        NotEnabled = "some pending, none enabled",
        NotPending = "some enabled, none pending",
        Apart = "some pending and others enabled",
        Barred = "some wait, none below the threshold",
    }
);

named!(
    /// A hart index that reaches no hart and ends in the same four bits as the hart asked.
    Far {
        Next = "hart index 16 to 31",
        Middle = "hart index 32 to 16382",
        Ones = "hart index 16383",
    }
);

named!(
    /// The low byte of a target.
    Low {
        Zero = "0",
        One = "1",
        Between = "2 to 254",
        Ones = "255",
    }
);

impl Low {
    fn of(value: u32) -> Low {
        match value & 0xFF {
            0 => Low::Zero,
            1 => Low::One,
            255 => Low::Ones,
            _ => Low::Between,
        }
    }

    /// 002, 4.1.5.16.1.
    fn kept(self) -> Low {
        match self {
            Low::Zero => Low::One,
            other => other,
        }
    }
}

/// One mark; the last part of many is the outcome.
#[derive(Clone, Copy, Debug, PartialEq, Eq, PartialOrd, Ord)]
pub enum HartMark {
    /// A number given with a claim or a signal, and whether it is refused.
    Given(Delivery, Way, Given, bool),
    /// A hart asked.
    Of(Delivery, Way, u64),
    /// A one written to a bit of a register, and whether the bit is then one.
    Bit(Delivery, HartRegister, u32, bool),
    /// The low byte written to an active source's target, and the one kept.
    Priority(Low, Low),
    /// One source waits at the hart; whether it is shown.
    Alone(Way, Limit, bool),
    /// Several may be shown; whether the right one is.
    Chosen(Way, Choice, bool),
    /// Sources that are passed over.
    Passed(Way, Passed),
    /// Nothing is shown.
    Zero(Way, Zero),
    /// IE and idelivery while a source may be shown; whether one is.
    Under(Way, [bool; 2], bool),
    /// Only a source waits whose hart index is above 15; whether the answer is nothing.
    Far(Way, Far, bool),
    /// A claim: whether it gives an interrupt, iforce before, iforce after.
    Force(Way, bool, bool, bool),
    /// A source claimed.
    Claimed(Way, u64),
    /// IE, idelivery, iforce and whether topi isn't zero; whether the hart is signalled.
    Signal([bool; 4], bool),
    /// MSI delivery mode: IE, and whether a source waits; whether the answer is nothing.
    None(Way, bool, bool, bool),
}

/// The observer that is told of each mark.
pub type See<'a> = &'a mut dyn FnMut(HartMark);

/// A hart that is asked, with the answer and the domain before and after it.
pub struct Asked<'a> {
    pub way: Way,
    pub number: u64,
    pub answer: Answer,
    pub before: &'a Domain,
    pub after: &'a Domain,
}

/// A claim or a signal.
pub fn observe_call(asked: &Asked, see: See) {
    let refused = matches!(asked.answer, Answer::Refused(_));
    let delivery = asked.before.delivery();
    let given = Given::of(asked.number);
    see(HartMark::Given(delivery, asked.way, given, refused));
    observe(asked, see);
}

/// A read of topi or claimi, a claim or a signal.
pub fn observe(asked: &Asked, see: See) {
    let (before, number, way) = (asked.before, asked.number, asked.way);
    let Some(hart) = before.hart(number) else {
        return;
    };
    see(HartMark::Of(before.delivery(), way, number));
    if before.delivery() == Delivery::Message {
        let waits = before.sources().any(|(_, source)| source.is_waiting());
        let nothing = matches!(asked.answer, Answer::Value(0) | Answer::Signalled(false));
        see(HartMark::None(way, before.enable, waits, nothing));
        return;
    }
    observe_far(asked, hart, see);
    match asked.answer {
        Answer::Signalled(signalled) => {
            let top = before.top(number).is_some();
            let reasons = [before.enable, hart.delivery, hart.force, top];
            see(HartMark::Signal(reasons, signalled));
        }
        Answer::Value(value) => observe_top(asked, hart, value, see),
        _ => {}
    }
}

/// The sources that wait and have this hart index.
fn waiting(domain: &Domain, index: u64) -> Vec<Top> {
    let waiting = domain
        .sources()
        .filter(|(_, source)| source.is_waiting() && u64::from(source.target.hart_index) == index);
    let tops = waiting.map(|(number, source)| Top {
        source: number,
        priority: source.target.priority,
    });
    tops.collect()
}

fn observe_top(asked: &Asked, hart: &Hart, value: u32, see: See) {
    let way = asked.way;
    let waiting = waiting(asked.before, asked.number);
    if let [alone] = waiting[..] {
        let limit = Limit::of(hart.threshold, alone.priority);
        see(HartMark::Alone(way, limit, value == alone.value()));
    }
    let passing = waiting.iter().filter(|top| {
        let limit = Limit::of(hart.threshold, top.priority);
        matches!(limit, Limit::Off | Limit::Below)
    });
    let passing: Vec<Top> = passing.copied().collect();
    if passing.is_empty() {
        see(HartMark::Zero(way, zero(asked, &waiting)));
    } else {
        let under = [asked.before.enable, hart.delivery];
        see(HartMark::Under(way, under, value != 0));
        observe_choice(way, &passing, value, see);
        observe_passed(asked, value, see);
    }
    if way != Way::Topi {
        observe_claim(asked, hart, value, see);
    }
}

fn zero(asked: &Asked, waiting: &[Top]) -> Zero {
    let here = |source: &Source| u64::from(source.target.hart_index) == asked.number;
    let any = |has: fn(&Source) -> bool| {
        let mut sources = asked.before.sources();
        sources.any(|(_, source)| here(source) && has(source))
    };
    match (any(|source| source.pending), any(|source| source.enable)) {
        _ if !waiting.is_empty() => Zero::Barred,
        (false, false) => Zero::Idle,
        (true, false) => Zero::NotEnabled,
        (false, true) => Zero::NotPending,
        (true, true) => Zero::Apart,
    }
}

/// 002, 4.1.5.16.1, by pairs: the winner goes before each other.
fn observe_choice(way: Way, passing: &[Top], value: u32, see: See) {
    let winner = passing.iter().find(|top| top.value() == value);
    let Some(winner) = winner.filter(|_| passing.len() > 1) else {
        let right = winner.is_some();
        // One alone that isn't shown has a mark of its own.
        if !right && passing.len() > 1 {
            see(HartMark::Chosen(way, Choice::Tie, false));
        }
        return;
    };
    let others = || passing.iter().filter(|top| top.source != winner.source);
    let right = others().all(|other| {
        let tie = other.priority == winner.priority && winner.source < other.source;
        winner.priority < other.priority || tie
    });
    let choice = if others().any(|other| other.priority == winner.priority) {
        Choice::Tie
    } else if others().all(|other| winner.source < other.source) {
        Choice::Both
    } else {
        Choice::Number
    };
    see(HartMark::Chosen(way, choice, right));
}

fn observe_passed(asked: &Asked, value: u32, see: See) {
    let shown = (value & 0xFF, u64::from(value >> 16));
    for (number, source) in asked.before.sources() {
        if (source.target.priority, number) >= shown {
            continue;
        }
        let index = u64::from(source.target.hart_index);
        let passed = match (index == asked.number, source.pending, source.enable) {
            (true, true, false) => Passed::NotEnabled,
            (true, false, true) => Passed::NotPending,
            (false, true, true) if index < HARTS => Passed::Elsewhere,
            (false, true, true) if index % HARTS == asked.number => Passed::Far,
            _ => continue,
        };
        see(HartMark::Passed(asked.way, passed));
    }
}

/// A hart that nothing is for but what waits at an index above 15.
fn observe_far(asked: &Asked, hart: &Hart, see: See) {
    let able = asked.before.enable && hart.delivery && !hart.force;
    if !waiting(asked.before, asked.number).is_empty() || asked.way == Way::Signal && !able {
        return;
    }
    let nothing = matches!(asked.answer, Answer::Value(0) | Answer::Signalled(false));
    for (_, source) in asked.before.sources() {
        let index = u64::from(source.target.hart_index);
        if !source.is_waiting() || index < HARTS || index % HARTS != asked.number {
            continue;
        }
        let far = match index {
            16..=31 => Far::Next,
            16_383 => Far::Ones,
            _ => Far::Middle,
        };
        see(HartMark::Far(asked.way, far, nothing));
    }
}

fn observe_claim(asked: &Asked, hart: &Hart, value: u32, see: See) {
    let force = asked.after.hart(asked.number).map(|hart| hart.force);
    let after = force.unwrap_or_default();
    let way = asked.way;
    see(HartMark::Force(way, value != 0, hart.force, after));
    if value != 0 {
        see(HartMark::Claimed(way, u64::from(value >> 16)));
    }
}

/// A write to a hart's register.
pub fn observe_write(after: &Domain, hart: u64, register: HartRegister, value: u32, see: See) {
    let Some(hart) = after.hart(hart) else {
        return;
    };
    let kept = match register {
        HartRegister::Idelivery => u32::from(hart.delivery),
        HartRegister::Iforce => u32::from(hart.force),
        HartRegister::Ithreshold => hart.threshold,
        HartRegister::Topi | HartRegister::Claimi => return,
    };
    for bit in (0..32).filter(|bit| value >> bit & 1 == 1) {
        let one = kept >> bit & 1 == 1;
        see(HartMark::Bit(after.delivery(), register, bit, one));
    }
}

/// A write to an active source's target in direct delivery mode.
pub fn observe_priority(source: &Source, value: u32, see: See) {
    let kept = Low::of(source.target.priority);
    see(HartMark::Priority(Low::of(value), kept));
}

impl HartMark {
    /// Everything that can be met, each with the one outcome that it must have.
    pub fn all() -> Vec<HartMark> {
        let mut all = asked_marks();
        all.extend(bit_marks());
        let lows = Low::ALL.iter();
        all.extend(lows.map(|low| HartMark::Priority(*low, low.kept())));
        for way in Way::SHOWING {
            all.extend(shown_marks(way));
        }
        for way in Way::CLAIMING {
            for (some, before) in PAIRS {
                all.push(HartMark::Force(way, some, before, some && before));
            }
            all.extend((1..=SOURCES).map(|source| HartMark::Claimed(way, source)));
        }
        for &way in Way::ALL {
            all.extend(Far::ALL.iter().map(|far| HartMark::Far(way, *far, true)));
            all.extend(PAIRS.map(|(enable, waits)| HartMark::None(way, enable, waits, true)));
        }
        for place in 0..16 {
            // 002, 4.1.8.2.
            let [enable, delivery, force, top] = [3, 2, 1, 0].map(|bit| place >> bit & 1 == 1);
            let signalled = enable && delivery && (force || top);
            all.push(HartMark::Signal([enable, delivery, force, top], signalled));
        }
        all
    }

    pub fn group(self) -> &'static str {
        match self {
            HartMark::Given(..) => "numbers of harts",
            HartMark::Of(..) => "harts asked",
            HartMark::Bit(..) => "ones written to registers of harts",
            HartMark::Priority(..) => "priorities written",
            HartMark::Alone(..) | HartMark::Zero(..) => "top interrupt: one source, or none",
            HartMark::Chosen(..) | HartMark::Passed(..) => "top interrupt: of several sources",
            HartMark::Under(..) => "top interrupt under IE and idelivery",
            HartMark::Far(..) => "hart indices above 15 reach no hart",
            HartMark::Force(..) | HartMark::Claimed(..) => "claims",
            HartMark::Signal(..) => "signals",
            HartMark::None(..) => "harts in MSI delivery mode",
        }
    }

    pub fn name(self) -> String {
        let bit = u8::from;
        match self {
            HartMark::Given(delivery, way, given, refused) => {
                let word = if refused { "refused" } else { "accepted" };
                let (way, given) = (way.name(), given.name());
                format!("{}, {way} {given}: {word}", delivery.name())
            }
            HartMark::Of(delivery, way, hart) => {
                format!("{}, {} of hart {hart}", delivery.name(), way.name())
            }
            HartMark::Bit(delivery, register, place, one) => {
                let (delivery, register) = (delivery.name(), register.name());
                format!("{delivery}, {register}: bit {place} is then {}", bit(one))
            }
            HartMark::Priority(low, kept) => format!("{}: {} kept", low.name(), kept.name()),
            HartMark::Alone(way, limit, shown) => {
                let word = if shown { "shown" } else { "not shown" };
                format!("{}: one waits, {}: {word}", way.name(), limit.name())
            }
            HartMark::Zero(way, why) => format!("{}: zero, {}", way.name(), why.name()),
            HartMark::Passed(way, passed) => {
                format!("{}: passed over, {}", way.name(), passed.name())
            }
            _ => self.other_name(),
        }
    }

    fn other_name(self) -> String {
        let bit = u8::from;
        match self {
            HartMark::Chosen(way, choice, right) => {
                let word = if right { "" } else { ", WRONG" };
                format!("{}: {}{word}", way.name(), choice.name())
            }
            HartMark::Under(way, [enable, delivery], shown) => {
                let [enable, delivery, shown] = [enable, delivery, shown].map(bit);
                let way = way.name();
                format!("{way}: IE {enable}, idelivery {delivery}: shown {shown}")
            }
            HartMark::Far(way, far, nothing) => {
                let word = if nothing { "nothing" } else { "something" };
                format!("{}: {}: {word}", way.name(), far.name())
            }
            HartMark::Force(way, some, before, after) => {
                let word = if some { "something" } else { "nothing" };
                let [before, after] = [before, after].map(bit);
                format!("{} of {word}, iforce {before}: {after}", way.name())
            }
            HartMark::Claimed(way, source) => format!("{}: source {source}", way.name()),
            HartMark::Signal([enable, delivery, force, top], signalled) => {
                let top = if top { "not 0" } else { "0" };
                let [enable, delivery, force] = [enable, delivery, force].map(bit);
                let word = if signalled { "yes" } else { "no" };
                format!("IE {enable}, idelivery {delivery}, iforce {force}, topi {top}: {word}")
            }
            HartMark::None(way, enable, waits, nothing) => {
                let word = if nothing { "nothing" } else { "something" };
                let waits = if waits {
                    "a source waits"
                } else {
                    "none waits"
                };
                format!("{}: IE {}, {waits}: {word}", way.name(), bit(enable))
            }
            _ => String::new(),
        }
    }
}

const PAIRS: [(bool, bool); 4] = [(false, false), (false, true), (true, false), (true, true)];

/// Numbers given, and harts asked.
fn asked_marks() -> Vec<HartMark> {
    let mut marks = Vec::new();
    for delivery in Delivery::ALL {
        for way in Way::CALLS {
            let given = Given::ALL.iter();
            marks.extend(given.map(|given| {
                let refused = !given.is_hart();
                HartMark::Given(delivery, way, *given, refused)
            }));
        }
        for &way in Way::ALL {
            marks.extend((0..HARTS).map(|hart| HartMark::Of(delivery, way, hart)));
        }
    }
    marks
}

/// 02, Req 08: bit 0 of idelivery and iforce, bits 7:0 of ithreshold; none in MSI delivery mode.
fn bit_marks() -> Vec<HartMark> {
    let mut marks = Vec::new();
    for delivery in Delivery::ALL {
        for (register, kept) in [
            (HartRegister::Idelivery, 1),
            (HartRegister::Iforce, 1),
            (HartRegister::Ithreshold, 8),
        ] {
            let one = |bit| delivery == Delivery::Direct && bit < kept;
            marks.extend((0..32).map(|bit| HartMark::Bit(delivery, register, bit, one(bit))));
        }
    }
    marks
}

fn shown_marks(way: Way) -> Vec<HartMark> {
    let mut marks = Vec::new();
    for &limit in Limit::ALL {
        let shown = matches!(limit, Limit::Off | Limit::Below);
        marks.push(HartMark::Alone(way, limit, shown));
    }
    let choices = Choice::ALL.iter();
    marks.extend(choices.map(|choice| HartMark::Chosen(way, *choice, true)));
    let passed = Passed::ALL.iter();
    marks.extend(passed.map(|passed| HartMark::Passed(way, *passed)));
    marks.extend(Zero::ALL.iter().map(|zero| HartMark::Zero(way, *zero)));
    let under = PAIRS.map(|(enable, delivery)| [enable, delivery]);
    marks.extend(under.map(|under| HartMark::Under(way, under, true)));
    marks
}
