//! Marks of a domain: what a call met, told from the domain before and after it, and the table of all
//! that can be met, each with the outcome that the documents give it.

use crate::aplic::domain::{Answer, Call, Domain, Message, SOURCES};
use crate::aplic::hart::HartRegister;
use crate::aplic::hart_mark::{self, Asked, HartMark, Way};
use crate::aplic::hole::Hole;
use crate::aplic::register::{Mask, Number, Register};
use crate::aplic::source::{Act, Delivery, Mode, Source};
use crate::mark::named;

named!(
    /// How a call reaches a place.
    Access {
        Read = "read",
        Write = "written",
    }
);

/// A source as the rules of its pending bit see it.
#[derive(Clone, Copy, Debug, PartialEq, Eq, PartialOrd, Ord)]
pub struct State {
    pub mode: Mode,
    pub wire: bool,
    pub pending: bool,
}

impl State {
    fn of(source: &Source) -> State {
        State {
            mode: source.mode,
            wire: source.wire,
            pending: source.pending,
        }
    }

    /// Those that can stand. 002, 4.1.7: "When an interrupt domain is in direct delivery mode, the
    /// pending bit for a level-sensitive source is always just a copy of the rectified input value. Even
    /// in MSI delivery mode, the pending bit for a level-sensitive source is never set (= 1) when the
    /// rectified input value is low"; an inactive source's is zero (4.1.5.2).
    fn all(delivery: Delivery) -> Vec<State> {
        let mut all = Vec::new();
        for mode in Mode::ALL {
            for (wire, pending) in [(false, false), (false, true), (true, false), (true, true)] {
                let high = mode.rectified(wire);
                let stands = match (mode, delivery) {
                    (Mode::Inactive, _) => !pending,
                    (Mode::Level1 | Mode::Level0, Delivery::Direct) => pending == high,
                    (Mode::Level1 | Mode::Level0, Delivery::Message) => !pending || high,
                    _ => true,
                };
                if !stands {
                    continue;
                }
                all.push(State {
                    mode,
                    wire,
                    pending,
                });
            }
        }
        all
    }

    fn name(self) -> String {
        let wire = if self.wire { "high" } else { "low" };
        let pending = if self.pending { ", pending" } else { "" };
        format!("{}, wire {wire}{pending}", self.mode.name())
    }
}

/// A value written to sourcecfg: SM, and bit 10.
#[derive(Clone, Copy, Debug, PartialEq, Eq, PartialOrd, Ord)]
pub struct Configured {
    pub sm: u32,
    pub delegate: bool,
}

impl Configured {
    fn of(value: u32) -> Configured {
        Configured {
            sm: value & 7,
            delegate: value >> 10 & 1 == 1,
        }
    }

    fn all() -> Vec<Configured> {
        let values = (0..8).chain(0x400..0x408);
        values.map(Configured::of).collect()
    }

    /// 002, 4.1.5.2, Table 2 and bit 10 in a leaf domain; 02, Req 07, reserved modes.
    fn mode(self) -> Mode {
        const TABLE: [Mode; 8] = [
            Mode::Inactive,
            Mode::Detached,
            Mode::Inactive,
            Mode::Inactive,
            Mode::Edge1,
            Mode::Edge0,
            Mode::Level1,
            Mode::Level0,
        ];
        match self.delegate {
            true => Mode::Inactive,
            false => TABLE[self.sm as usize],
        }
    }

    fn name(self) -> String {
        let delegate = if self.delegate { ", bit 10" } else { "" };
        format!("SM {}{delegate}", self.sm)
    }
}

/// What may change a pending bit.
#[derive(Clone, Copy, Debug, PartialEq, Eq, PartialOrd, Ord)]
pub enum Event {
    Wire(bool),
    Mask(Mask),
    Number(Number),
    Configured(Configured),
    Forward,
    /// By a read of claimi or by a call.
    Claim(Way),
}

/// What a rule does to a pending bit.
#[derive(Clone, Copy, Debug, PartialEq, Eq)]
enum Effect {
    Kept,
    Set,
    Cleared,
}

impl Event {
    fn all() -> Vec<Event> {
        let mut all = vec![Event::Wire(false), Event::Wire(true), Event::Forward];
        all.extend([Mask::Setip, Mask::InClrip].map(Event::Mask));
        let numbers = [Number::Setipnum, Number::SetipnumLe, Number::Clripnum];
        all.extend(numbers.map(Event::Number));
        all.extend(Configured::all().into_iter().map(Event::Configured));
        all.extend(Way::CLAIMING.map(Event::Claim));
        all
    }

    /// The rules of 4.1.7 once more, as rows of mode, input and effect; none where the event can't be.
    fn effect(self, delivery: Delivery, state: State) -> Option<Effect> {
        let mode = state.mode;
        let effect = match self {
            Event::Wire(high) => {
                wire_effect(mode, mode.rectified(state.wire), mode.rectified(high))
            }
            Event::Mask(Mask::Setip) | Event::Number(Number::Setipnum | Number::SetipnumLe) => {
                set_effect(delivery, mode, mode.rectified(state.wire))
            }
            Event::Configured(value) => {
                let mode = value.mode();
                configured_effect(mode, mode.rectified(state.wire))
            }
            // Only a pending source is forwarded or claimed, each in its delivery mode.
            Event::Forward if delivery == Delivery::Direct => return None,
            Event::Claim(_) if delivery == Delivery::Message => return None,
            Event::Forward | Event::Claim(_) if !state.pending => return None,
            Event::Forward => Effect::Cleared,
            Event::Claim(_) | Event::Mask(_) | Event::Number(_) => clear_effect(delivery, mode),
        };
        Some(effect)
    }

    fn name(self) -> String {
        match self {
            Event::Wire(true) => "wire to high".to_string(),
            Event::Wire(false) => "wire to low".to_string(),
            Event::Mask(mask) => mask.name().to_string(),
            Event::Number(number) => number.name().to_string(),
            Event::Configured(value) => format!("sourcecfg, {}", value.name()),
            Event::Forward => "forward".to_string(),
            Event::Claim(way) => way.name().to_string(),
        }
    }
}

/// By the rectified input before and after a wire change.
fn wire_effect(mode: Mode, before: bool, after: bool) -> Effect {
    match (mode, before, after) {
        (Mode::Inactive | Mode::Detached, _, _) => Effect::Kept,
        (_, false, true) => Effect::Set,
        (Mode::Level1 | Mode::Level0, _, false) => Effect::Cleared,
        _ => Effect::Kept,
    }
}

/// By the rectified input when setip or setipnum is written.
fn set_effect(delivery: Delivery, mode: Mode, rectified: bool) -> Effect {
    match (mode, delivery, rectified) {
        (Mode::Inactive, _, _) => Effect::Kept,
        (Mode::Level1 | Mode::Level0, Delivery::Direct, _) => Effect::Kept,
        (Mode::Level1 | Mode::Level0, Delivery::Message, false) => Effect::Kept,
        _ => Effect::Set,
    }
}

/// When in_clrip or clripnum is written, or the interrupt is claimed.
fn clear_effect(delivery: Delivery, mode: Mode) -> Effect {
    match (mode, delivery) {
        (Mode::Level1 | Mode::Level0, Delivery::Direct) => Effect::Kept,
        _ => Effect::Cleared,
    }
}

/// By the new mode and the rectified input under it.
fn configured_effect(mode: Mode, rectified: bool) -> Effect {
    match (mode, rectified) {
        (Mode::Inactive, _) | (Mode::Level1 | Mode::Level0, false) => Effect::Cleared,
        (_, true) => Effect::Set,
        _ => Effect::Kept,
    }
}

named!(
    /// A number that is written to a register by number, or given with a wire.
    Given {
        Zero = "0",
        First = "1",
        Middle = "2 to 62",
        Last = "63",
        Next = "64",
        Absent = "65 to 1023",
        Alias = "above, modulo 64 a source",
        Above = "above, modulo 64 zero",
        Ones = "all ones",
    }
);

impl Given {
    fn of(number: u64, ones: u64) -> Given {
        match number {
            0 => Given::Zero,
            1 => Given::First,
            2..=62 => Given::Middle,
            63 => Given::Last,
            64 => Given::Next,
            65..=1023 => Given::Absent,
            _ if number == ones => Given::Ones,
            _ if number.is_multiple_of(64) => Given::Above,
            _ => Given::Alias,
        }
    }

    fn is_source(self) -> bool {
        matches!(self, Given::First | Given::Middle | Given::Last)
    }
}

named!(
    /// Why a forward answers none.
    Nothing {
        OffWaiting = "IE = 0, a source waits",
        OffIdle = "IE = 0, none waits",
        Idle = "IE = 1, none pending, none enabled",
        NotEnabled = "IE = 1, some pending, none enabled",
        NotPending = "IE = 1, some enabled, none pending",
        Apart = "IE = 1, some pending and others enabled",
        DirectWaiting = "direct delivery, IE = 1, a source waits",
        DirectOff = "direct delivery, IE = 0, a source waits",
        DirectIdle = "direct delivery, none waits",
    }
);

named!(
    /// How many sources waited when one was forwarded.
    Waiting {
        One = "alone",
        Two = "the lower of two",
        More = "the lowest of more",
    }
);

named!(
    /// A field of a forwarded message.
    Field {
        HartIndex = "hart index",
        GuestIndex = "guest index",
        Identity = "identity",
    }
);

named!(
    /// The value of a field.
    Size {
        Zero = "zero",
        Between = "between",
        Ones = "all ones",
    }
);

named!(
    /// The value of a target register.
    Held {
        Zero = "target 0",
        Least = "target 1",
        Other = "a target",
    }
);

impl Held {
    fn of(delivery: Delivery, source: &Source) -> Held {
        match (source.target.value(delivery), delivery) {
            (0, _) => Held::Zero,
            (1, Delivery::Direct) => Held::Least,
            _ => Held::Other,
        }
    }

    /// Those that an active source can have: 02, Req 08, no priority is 0.
    fn active(delivery: Delivery) -> [Held; 2] {
        match delivery {
            Delivery::Message => [Held::Zero, Held::Other],
            Delivery::Direct => [Held::Least, Held::Other],
        }
    }
}

/// The enable bit of a source, and its target.
#[derive(Clone, Copy, Debug, PartialEq, Eq, PartialOrd, Ord)]
pub struct Kept {
    pub enable: bool,
    pub target: Held,
}

impl Kept {
    fn of(delivery: Delivery, source: &Source) -> Kept {
        Kept {
            enable: source.enable,
            target: Held::of(delivery, source),
        }
    }

    fn name(self) -> String {
        format!("enable {}, {}", u8::from(self.enable), self.target.name())
    }
}

/// One mark; the last part of many is the outcome.
#[derive(Clone, Copy, Debug, PartialEq, Eq, PartialOrd, Ord)]
pub enum Mark {
    /// A register.
    Register(Delivery, Access, Register),
    /// A place that isn't one, and what is read there.
    Hole(Delivery, Access, Hole),
    /// A one at the bit of a source, which may be 0.
    Bit(Access, Mask, u64),
    /// A mode read.
    ModeRead(Mode),
    /// domaincfg written: IE before, bits IE, DM and BE of the value, any other bit of it; IE after.
    Domaincfg(Delivery, bool, [bool; 4], bool),
    /// domaincfg read, with this IE, and its DM.
    DomaincfgRead(Delivery, bool, bool),
    /// A bit of a value written to sourcecfg that is one.
    SourcecfgBit(u32),
    /// The mode before a write to sourcecfg, what is written, the mode after it.
    Mode(Mode, Configured, Mode),
    /// Modes, enable bit and target before and after a write to sourcecfg.
    Kept(Delivery, Mode, Mode, Kept, Kept),
    /// A source before an event, and its pending bit after it.
    Pending(Delivery, Event, State, bool),
    /// A register that changes enable bits, a source's mode and enable bit, the bit after.
    Enable(Event, Mode, bool, bool),
    /// A number written to a register by number.
    Given(Number, Given),
    /// A source by its number, written to a register by number.
    ByNumber(Number, u64),
    /// A one written to a bit of a target, the source's mode, and whether the bit is then one.
    TargetBit(Delivery, Mode, u32, bool),
    /// A wire's number, and whether it is refused.
    Wire(Given, bool),
    /// A source's wire, to low or high.
    WireOf(u64, bool),
    /// A forward of nothing.
    Nothing(Nothing),
    /// A source forwarded.
    Forwarded(u64),
    /// How many waited.
    Waiting(Waiting),
    /// A field of a message.
    Field(Field, Size),
    /// Something of a hart.
    Hart(HartMark),
}

/// The observer that is told of each mark.
pub type See<'a> = &'a mut dyn FnMut(Mark);

/// Tells the marks of a call from its answer and the domain before and after it.
pub fn observe(before: &Domain, call: &Call, answer: Answer, after: &Domain, see: See) {
    match *call {
        Call::Wire { source, high } => {
            let given = Given::of(source, u64::MAX);
            see(Mark::Wire(given, matches!(answer, Answer::Refused(_))));
            if given.is_source() {
                see(Mark::WireOf(source, high));
            }
            observe_pending(before, after, source, Event::Wire(high), see);
        }
        Call::Read { offset } => observe_read(before, offset, answer, after, see),
        Call::Write { offset, value } => observe_write(before, offset, value, after, see),
        Call::Forward => observe_forward(before, answer, after, see),
        Call::Claim { hart } => observe_hart(before, (Way::Claim, hart), answer, after, see),
        Call::Signal { hart } => observe_hart(before, (Way::Signal, hart), answer, after, see),
    }
}

/// A hart that is asked, by a call or by a read.
fn observe_hart(
    before: &Domain,
    (way, number): (Way, u64),
    answer: Answer,
    after: &Domain,
    see: See,
) {
    let asked = Asked {
        way,
        number,
        answer,
        before,
        after,
    };
    let mut see_hart = |mark| see(Mark::Hart(mark));
    match way {
        Way::Claim | Way::Signal => hart_mark::observe_call(&asked, &mut see_hart),
        Way::Claimi | Way::Topi => hart_mark::observe(&asked, &mut see_hart),
    }
    if let (Way::Claim | Way::Claimi, Answer::Value(value)) = (way, answer) {
        let source = u64::from(value >> 16);
        observe_pending(before, after, source, Event::Claim(way), see);
    }
}

/// A source's pending bit, where there is such a source.
fn observe_pending(before: &Domain, after: &Domain, number: u64, event: Event, see: See) {
    let delivery = before.delivery();
    if let (Some(source), Some(after)) = (before.source(number), after.source(number)) {
        let state = State::of(source);
        see(Mark::Pending(delivery, event, state, after.pending));
    }
}

fn observe_read(before: &Domain, offset: u64, answer: Answer, after: &Domain, see: See) {
    let delivery = before.delivery();
    let Some(register) = Register::at(offset) else {
        see(Mark::Hole(delivery, Access::Read, Hole::at(offset)));
        return;
    };
    see(Mark::Register(delivery, Access::Read, register));
    match (register, answer) {
        (Register::Domaincfg, Answer::Value(value)) => {
            let dm = value >> 2 & 1 == 1;
            see(Mark::DomaincfgRead(delivery, before.enable, dm));
        }
        (Register::Sourcecfg(number), _) => {
            if let Some(source) = before.source(number) {
                see(Mark::ModeRead(source.mode));
            }
        }
        (Register::Hart(hart, HartRegister::Topi), _) => {
            observe_hart(before, (Way::Topi, hart), answer, after, see);
        }
        (Register::Hart(hart, HartRegister::Claimi), _) => {
            observe_hart(before, (Way::Claimi, hart), answer, after, see);
        }
        (Register::Mask(mask, half), Answer::Value(value)) => {
            for place in ones(value) {
                see(Mark::Bit(Access::Read, mask, 32 * half + place));
            }
        }
        _ => {}
    }
}

/// The places of the ones of a value.
fn ones(value: u32) -> impl Iterator<Item = u64> {
    (0..32).filter(move |place| value >> place & 1 == 1)
}

fn observe_write(before: &Domain, offset: u64, value: u32, after: &Domain, see: See) {
    let delivery = before.delivery();
    let Some(register) = Register::at(offset) else {
        see(Mark::Hole(delivery, Access::Write, Hole::at(offset)));
        return;
    };
    see(Mark::Register(delivery, Access::Write, register));
    match register {
        Register::Domaincfg => {
            let [ie, dm, be] = [8, 2, 0].map(|place| value >> place & 1 == 1);
            let written = [ie, dm, be, value & !0x105 != 0];
            let mark = Mark::Domaincfg(delivery, before.enable, written, after.enable);
            see(mark);
        }
        Register::Sourcecfg(number) => observe_sourcecfg(before, number, value, after, see),
        Register::Target(number) => observe_target(number, value, after, see),
        Register::Mask(mask, half) => {
            for place in ones(value) {
                let number = 32 * half + place;
                see(Mark::Bit(Access::Write, mask, number));
                observe_act(before, number, (Event::Mask(mask), mask.act()), after, see);
            }
        }
        Register::Number(register) => {
            let number = u64::from(value);
            let given = Given::of(number, u64::from(u32::MAX));
            see(Mark::Given(register, given));
            if given.is_source() {
                see(Mark::ByNumber(register, number));
            }
            let event = (Event::Number(register), register.act());
            observe_act(before, number, event, after, see);
        }
        Register::Hart(hart, register) => {
            let mut see_hart = |mark| see(Mark::Hart(mark));
            hart_mark::observe_write(after, hart, register, value, &mut see_hart);
        }
    }
}

/// A source's pending bit or enable bit under a write that asks for it.
fn observe_act(before: &Domain, number: u64, event: (Event, Act), after: &Domain, see: See) {
    let (event, act) = event;
    if matches!(act, Act::SetPending | Act::ClearPending) {
        observe_pending(before, after, number, event, see);
        return;
    }
    if let (Some(before), Some(after)) = (before.source(number), after.source(number)) {
        see(Mark::Enable(
            event,
            before.mode,
            before.enable,
            after.enable,
        ));
    }
}

fn observe_sourcecfg(before: &Domain, number: u64, value: u32, after: &Domain, see: See) {
    for place in ones(value) {
        see(Mark::SourcecfgBit(place as u32));
    }
    let configured = Configured::of(value);
    let event = Event::Configured(configured);
    observe_pending(before, after, number, event, see);
    let delivery = before.delivery();
    if let (Some(before), Some(after)) = (before.source(number), after.source(number)) {
        see(Mark::Mode(before.mode, configured, after.mode));
        let [was, is] = [before, after].map(|source| Kept::of(delivery, source));
        see(Mark::Kept(delivery, before.mode, after.mode, was, is));
    }
}

fn observe_target(number: u64, value: u32, after: &Domain, see: See) {
    let Some(source) = after.source(number) else {
        return;
    };
    let delivery = after.delivery();
    let kept = source.target.value(delivery);
    for place in ones(value) {
        let one = kept >> place & 1 == 1;
        see(Mark::TargetBit(delivery, source.mode, place as u32, one));
    }
    if delivery == Delivery::Direct && source.mode.is_active() {
        let mut see_hart = |mark| see(Mark::Hart(mark));
        hart_mark::observe_priority(source, value, &mut see_hart);
    }
}

fn observe_forward(before: &Domain, answer: Answer, after: &Domain, see: See) {
    let Answer::Forwarded(Some(message)) = answer else {
        see(Mark::Nothing(nothing(before)));
        return;
    };
    let waiting = before.sources().filter(|(_, source)| source.is_waiting());
    see(Mark::Waiting(match waiting.count() {
        0 | 1 => Waiting::One,
        2 => Waiting::Two,
        _ => Waiting::More,
    }));
    for (number, source) in before.sources() {
        if after.source(number) != Some(source) {
            see(Mark::Forwarded(number));
            observe_pending(before, after, number, Event::Forward, see);
        }
    }
    for (field, size) in sizes(message) {
        see(Mark::Field(field, size));
    }
}

/// 002, 4.1.5.16.2: the fields' widths are 14, 6 and 11 bits.
fn sizes(message: Message) -> [(Field, Size); 3] {
    let of = |value: u32, bits: u32| match value {
        0 => Size::Zero,
        _ if value == (1 << bits) - 1 => Size::Ones,
        _ => Size::Between,
    };
    [
        (Field::HartIndex, of(message.hart_index, 14)),
        (Field::GuestIndex, of(message.guest_index, 6)),
        (Field::Identity, of(message.identity, 11)),
    ]
}

fn nothing(domain: &Domain) -> Nothing {
    let waits = domain.sources().any(|(_, source)| source.is_waiting());
    let pending = domain.sources().any(|(_, source)| source.pending);
    let enabled = domain.sources().any(|(_, source)| source.enable);
    if domain.delivery() == Delivery::Direct {
        return match (waits, domain.enable) {
            (true, true) => Nothing::DirectWaiting,
            (true, false) => Nothing::DirectOff,
            (false, _) => Nothing::DirectIdle,
        };
    }
    match (domain.enable, waits, pending, enabled) {
        (false, true, _, _) => Nothing::OffWaiting,
        (false, false, _, _) => Nothing::OffIdle,
        (true, _, false, false) => Nothing::Idle,
        (true, _, true, false) => Nothing::NotEnabled,
        (true, _, false, true) => Nothing::NotPending,
        (true, _, true, true) => Nothing::Apart,
    }
}

impl Mark {
    /// Everything that can be met, each with the one outcome that it must have.
    pub fn all() -> Vec<Mark> {
        let mut all = place_marks();
        all.extend(domaincfg_marks());
        all.extend(source_marks());
        all.extend(pending_marks());
        all.extend(enable_marks());
        all.extend(number_marks());
        all.extend(target_marks());
        all.extend(Nothing::ALL.iter().copied().map(Mark::Nothing));
        all.extend((1..=SOURCES).map(Mark::Forwarded));
        all.extend(Waiting::ALL.iter().copied().map(Mark::Waiting));
        for &field in Field::ALL {
            all.extend(Size::ALL.iter().map(|size| Mark::Field(field, *size)));
        }
        all.extend(HartMark::all().into_iter().map(Mark::Hart));
        all
    }

    pub fn group(self) -> &'static str {
        match self {
            Mark::Register(..) => "registers",
            Mark::Hole(..) => "places without a register: read as zero, writes ignored",
            Mark::Bit(..) => "ones in mask registers",
            Mark::Domaincfg(..) | Mark::DomaincfgRead(..) => "domaincfg",
            Mark::SourcecfgBit(_) | Mark::ModeRead(_) => "sourcecfg",
            Mark::Mode(..) => "mode before, value written to sourcecfg, mode after",
            Mark::Kept(..) => "enable bit and target under a write to sourcecfg",
            Mark::Pending(..) => "pending bits (4.1.7)",
            Mark::Enable(..) => "enable bits",
            Mark::Given(..) | Mark::ByNumber(..) => "registers by number",
            Mark::TargetBit(..) => "ones written to targets",
            Mark::Wire(..) | Mark::WireOf(..) => "wires",
            Mark::Nothing(_) => "forwards of nothing",
            Mark::Forwarded(_) | Mark::Waiting(_) | Mark::Field(..) => "forwards",
            Mark::Hart(mark) => mark.group(),
        }
    }

    pub fn name(self) -> String {
        match self {
            Mark::Register(delivery, access, register) => {
                let (register, access) = (register.name(), access.name());
                format!("{}, {register} {access}", delivery.name())
            }
            Mark::Hole(delivery, access, hole) => {
                format!("{}, {}: {}", delivery.name(), hole.name(), access.name())
            }
            Mark::Bit(access, mask, number) => {
                format!("{}, source {number}: {}", mask.name(), access.name())
            }
            Mark::ModeRead(mode) => format!("{} read", mode.name()),
            Mark::Domaincfg(delivery, before, [ie, dm, be, other], after) => {
                let [before, ie, dm, be, other, after] =
                    [before, ie, dm, be, other, after].map(u8::from);
                let written = format!("written IE {ie} DM {dm} BE {be} others {other}");
                format!("{}, IE {before}, {written}: IE {after}", delivery.name())
            }
            Mark::DomaincfgRead(delivery, enable, dm) => {
                let [enable, dm] = [enable, dm].map(u8::from);
                format!("{}, read with IE {enable}: DM {dm}", delivery.name())
            }
            Mark::SourcecfgBit(bit) => format!("bit {bit} written as one"),
            Mark::Mode(before, value, after) => {
                format!("{}, {}: {}", before.name(), value.name(), after.name())
            }
            Mark::Kept(delivery, from, to, before, after) => format!(
                "{}, {} to {}, {}: {}",
                delivery.name(),
                from.name(),
                to.name(),
                before.name(),
                after.name()
            ),
            _ => self.other_name(),
        }
    }

    fn other_name(self) -> String {
        let bit = u8::from;
        match self {
            Mark::Pending(delivery, event, state, after) => {
                let (delivery, event) = (delivery.name(), event.name());
                let (state, after) = (state.name(), bit(after));
                format!("{delivery}, {event}: {state}: pending {after}")
            }
            Mark::Enable(event, mode, before, after) => {
                let [before, after] = [before, after].map(bit);
                let (event, mode) = (event.name(), mode.name());
                format!("{event}: {mode}, enable {before}: enable {after}")
            }
            Mark::Given(number, given) => format!("{}: {}", number.name(), given.name()),
            Mark::ByNumber(number, source) => format!("{}: source {source}", number.name()),
            Mark::TargetBit(delivery, mode, place, one) => {
                let (delivery, mode) = (delivery.name(), mode.name());
                format!("{delivery}, {mode}: bit {place} is then {}", bit(one))
            }
            Mark::Wire(given, refused) => {
                let word = if refused { "refused" } else { "accepted" };
                format!("number {}: {word}", given.name())
            }
            Mark::WireOf(number, high) => {
                format!("source {number} {}", if high { "high" } else { "low" })
            }
            Mark::Nothing(why) => why.name().to_string(),
            Mark::Forwarded(number) => format!("source {number}"),
            Mark::Waiting(waiting) => waiting.name().to_string(),
            Mark::Field(field, size) => format!("{}: {}", field.name(), size.name()),
            Mark::Hart(mark) => mark.name(),
            _ => String::new(),
        }
    }
}

/// Registers, places without one, and the ones of mask registers.
fn place_marks() -> Vec<Mark> {
    let mut marks = Vec::new();
    let ways =
        Delivery::ALL.map(|delivery| [Access::Read, Access::Write].map(|way| (delivery, way)));
    for (delivery, access) in ways.into_iter().flatten() {
        let registers = Register::all().into_iter();
        marks.extend(registers.map(|register| Mark::Register(delivery, access, register)));
    }
    for (delivery, access) in ways.into_iter().flatten() {
        let holes = Hole::all().into_iter();
        marks.extend(holes.map(|hole| Mark::Hole(delivery, access, hole)));
    }
    for mask in Mask::ALL {
        marks.extend((0..=SOURCES).map(|number| Mark::Bit(Access::Write, mask, number)));
        // A read of clrie is zero, and there is no source 0.
        if mask != Mask::Clrie {
            marks.extend((1..=SOURCES).map(|number| Mark::Bit(Access::Read, mask, number)));
        }
    }
    marks
}

fn domaincfg_marks() -> Vec<Mark> {
    let mut marks = Vec::new();
    for delivery in Delivery::ALL {
        // 002, 4.1.5.1: DM is 1 in MSI delivery mode.
        let dm = delivery == Delivery::Message;
        marks.extend([false, true].map(|enable| Mark::DomaincfgRead(delivery, enable, dm)));
        for (before, value) in [false, true]
            .into_iter()
            .flat_map(|before| (0..16).map(move |value| (before, value)))
        {
            let [ie, dm, be, other] = [3, 2, 1, 0].map(|place| value >> place & 1 == 1);
            marks.push(Mark::Domaincfg(delivery, before, [ie, dm, be, other], ie));
        }
    }
    marks
}

/// sourcecfg: its bits, its modes, and what it does to enable bits and targets.
fn source_marks() -> Vec<Mark> {
    let mut marks: Vec<Mark> = (0..32).map(Mark::SourcecfgBit).collect();
    marks.extend(Mode::ALL.map(Mark::ModeRead));
    for before in Mode::ALL {
        let values = Configured::all().into_iter();
        marks.extend(values.map(|value| Mark::Mode(before, value, value.mode())));
    }
    for delivery in Delivery::ALL {
        for from in Mode::ALL {
            for to in Mode::ALL {
                marks.extend(kept_marks(delivery, from, to));
            }
        }
    }
    marks
}

/// 002, 4.1.5.2: an inactive source has neither an enable bit nor a target; 02, Req 07 and Req 08: one
/// made active starts with target 0, in direct delivery mode with priority 1.
fn kept_marks(delivery: Delivery, from: Mode, to: Mode) -> Vec<Mark> {
    let none = Kept {
        enable: false,
        target: Held::Zero,
    };
    let [start, _] = Held::active(delivery);
    let befores = match from {
        Mode::Inactive => vec![none],
        _ => [false, true]
            .into_iter()
            .flat_map(|enable| Held::active(delivery).map(|target| Kept { enable, target }))
            .collect(),
    };
    let after = |before: Kept| match (from, to) {
        (_, Mode::Inactive) => none,
        (Mode::Inactive, _) => Kept {
            enable: false,
            target: start,
        },
        _ => before,
    };
    befores
        .into_iter()
        .map(|before| Mark::Kept(delivery, from, to, before, after(before)))
        .collect()
}

fn pending_marks() -> Vec<Mark> {
    let mut marks = Vec::new();
    for delivery in Delivery::ALL {
        for event in Event::all() {
            for state in State::all(delivery) {
                let after = match event.effect(delivery, state) {
                    None => continue,
                    Some(Effect::Kept) => state.pending,
                    Some(Effect::Set) => true,
                    Some(Effect::Cleared) => false,
                };
                marks.push(Mark::Pending(delivery, event, state, after));
            }
        }
    }
    marks
}

/// An inactive source's target is read-only zero. 002, 4.1.5.16: in MSI delivery mode bit 11 is
/// reserved, in direct delivery mode bits 17:8 are.
fn target_marks() -> Vec<Mark> {
    let mut marks = Vec::new();
    for delivery in Delivery::ALL {
        for mode in Mode::ALL {
            let kept = |bit: u32| {
                let reserved = match delivery {
                    Delivery::Message => bit == 11,
                    Delivery::Direct => (8..=17).contains(&bit),
                };
                mode != Mode::Inactive && !reserved
            };
            let bits = 0..32;
            marks.extend(bits.map(|bit| Mark::TargetBit(delivery, mode, bit, kept(bit))));
        }
    }
    marks
}

fn enable_marks() -> Vec<Mark> {
    let ways = [
        (Event::Mask(Mask::Setie), true),
        (Event::Number(Number::Setienum), true),
        (Event::Mask(Mask::Clrie), false),
        (Event::Number(Number::Clrienum), false),
    ];
    let mut marks = Vec::new();
    for (event, sets) in ways {
        marks.push(Mark::Enable(event, Mode::Inactive, false, false));
        for mode in Mode::ALL.into_iter().filter(|mode| mode.is_active()) {
            marks.extend([false, true].map(|before| Mark::Enable(event, mode, before, sets)));
        }
    }
    marks
}

/// Numbers written, and numbers of wires.
fn number_marks() -> Vec<Mark> {
    let mut marks = Vec::new();
    for number in Number::ALL {
        marks.extend(Given::ALL.iter().map(|given| Mark::Given(number, *given)));
        marks.extend((1..=SOURCES).map(|source| Mark::ByNumber(number, source)));
    }
    let wires = Given::ALL.iter();
    marks.extend(wires.map(|given| Mark::Wire(*given, !given.is_source())));
    for source in 1..=SOURCES {
        marks.extend([false, true].map(|high| Mark::WireOf(source, high)));
    }
    marks
}
