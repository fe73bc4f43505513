//! The domain: its enable bit, its table of sources and its table of harts; wire changes, reads, writes,
//! forwards, claims and signals.

use crate::aplic::hart::{Hart, HartRegister, Top};
use crate::aplic::register::{Mask, Register};
use crate::aplic::source::{Delivery, Source};
use crate::types::bit;

/// 02, Req 07: sources 1 to 63, all delegated to the domain.
pub const SOURCES: u64 = 63;

/// 02, Req 08: "direct delivery for harts 0 to 15".
pub const HARTS: u64 = 16;

/// 02, Req 07 and Req 08: the refusal of a wire number outside 1 to 63, and of a hart number above 15.
pub const REFUSED: u64 = 2014;

/// One call of a domain.
#[derive(Clone, Copy, Debug, PartialEq, Eq)]
pub enum Call {
    Wire { source: u64, high: bool },
    Read { offset: u64 },
    Write { offset: u64, value: u32 },
    Forward,
    Claim { hart: u64 },
    Signal { hart: u64 },
}

/// What a forward hands out: where the message goes, and its data.
#[derive(Clone, Copy, Debug, PartialEq, Eq)]
pub struct Message {
    pub hart_index: u32,
    pub guest_index: u32,
    pub identity: u32,
}

#[derive(Clone, Copy, Debug, PartialEq, Eq)]
pub enum Answer {
    /// A wire change that isn't refused, and every write.
    Done,
    Refused(u64),
    /// What was read, or claimed.
    Value(u32),
    Forwarded(Option<Message>),
    Signalled(bool),
}

/// A domain. 02, Req 07: "All state starts at zero save the delivery mode"; Req 08: "The mode is fixed
/// when the domain is made".
#[derive(Clone, Debug, PartialEq, Eq)]
pub struct Domain {
    delivery: Delivery,
    /// IE of domaincfg.
    pub enable: bool,
    sources: [Source; SOURCES as usize],
    harts: [Hart; HARTS as usize],
}

impl Domain {
    /// A domain at reset.
    pub fn new(delivery: Delivery) -> Domain {
        Domain {
            delivery,
            enable: false,
            sources: [Source::default(); SOURCES as usize],
            harts: [Hart::default(); HARTS as usize],
        }
    }

    pub fn delivery(&self) -> Delivery {
        self.delivery
    }

    /// 002, 4.1.1: "The number zero is not a valid interrupt identity number".
    pub fn source(&self, number: u64) -> Option<&Source> {
        let place = usize::try_from(number.checked_sub(1)?).ok()?;
        self.sources.get(place)
    }

    pub fn source_mut(&mut self, number: u64) -> Option<&mut Source> {
        let place = usize::try_from(number.checked_sub(1)?).ok()?;
        self.sources.get_mut(place)
    }

    /// The sources with their numbers.
    pub fn sources(&self) -> impl Iterator<Item = (u64, &Source)> {
        (1..).zip(&self.sources)
    }

    /// The hart of a number, where the domain has it.
    pub fn hart(&self, number: u64) -> Option<&Hart> {
        self.harts.get(usize::try_from(number).ok()?)
    }

    pub fn hart_mut(&mut self, number: u64) -> Option<&mut Hart> {
        self.harts.get_mut(usize::try_from(number).ok()?)
    }

    pub fn run(&mut self, call: &Call) -> Answer {
        match *call {
            Call::Wire { source, high } => {
                let wired = self.wire(source, high);
                wired.map_or_else(Answer::Refused, |()| Answer::Done)
            }
            Call::Read { offset } => Answer::Value(self.read(offset)),
            Call::Write { offset, value } => {
                self.write(offset, value);
                Answer::Done
            }
            Call::Forward => Answer::Forwarded(self.forward()),
            Call::Claim { hart } => {
                let claimed = self.claim(hart);
                claimed.map_or_else(Answer::Refused, Answer::Value)
            }
            Call::Signal { hart } => {
                let signalled = self.signal(hart);
                signalled.map_or_else(Answer::Refused, Answer::Signalled)
            }
        }
    }

    /// 02, Req 07: "A wire number outside 1 to 63 is refused with 2014; nothing changes."
    pub fn wire(&mut self, source: u64, high: bool) -> Result<(), u64> {
        let delivery = self.delivery;
        let source = self.source_mut(source).ok_or(REFUSED)?;
        source.change_wire(delivery, high);
        Ok(())
    }

    /// A read of the 32 bits at an offset; only one of claimi changes anything.
    pub fn read(&mut self, offset: u64) -> u32 {
        match Register::at(offset) {
            None => 0,
            Some(Register::Domaincfg) => self.domaincfg(),
            Some(Register::Sourcecfg(number)) => self.of(number, |source| source.mode.number()),
            Some(Register::Target(number)) => {
                self.of(number, |source| source.target.value(self.delivery))
            }
            Some(Register::Mask(mask, half)) => self.mask(mask, half),
            // 4.1.5.6, 8, 10, 12 and 13: "A read .. always returns zero."
            Some(Register::Number(_)) => 0,
            Some(Register::Hart(hart, register)) => self.read_hart(hart, register),
        }
    }

    /// 4.1.8.1. 02, Req 08: "in message mode hart registers read zero and ignore writes", as those of
    /// harts that aren't there do.
    fn read_hart(&mut self, number: u64, register: HartRegister) -> u32 {
        let Some(hart) = self.delivering(number) else {
            return 0;
        };
        match register {
            HartRegister::Idelivery => u32::from(hart.delivery),
            HartRegister::Iforce => u32::from(hart.force),
            HartRegister::Ithreshold => hart.threshold,
            HartRegister::Topi => self.top(number).map_or(0, Top::value),
            HartRegister::Claimi => self.claim_top(number).map_or(0, Top::value),
        }
    }

    /// The hart of a number, where the domain delivers to it directly.
    fn delivering(&self, number: u64) -> Option<&Hart> {
        match self.delivery {
            Delivery::Message => None,
            Delivery::Direct => self.hart(number),
        }
    }

    /// A hart's top interrupt. 4.1.8.1.4: "not affected by domaincfg.IE or by idelivery".
    pub fn top(&self, number: u64) -> Option<Top> {
        self.delivering(number)?.top(number, self.sources())
    }

    /// What a read of claimi does. 4.1.8.1.5: it clears the pending bit of the top interrupt "if
    /// possible"; "A read from claimi that returns a value of zero has the simultaneous side effect of
    /// setting the iforce register to zero."
    fn claim_top(&mut self, number: u64) -> Option<Top> {
        let delivery = self.delivery;
        let top = self.top(number);
        match top {
            Some(top) => self.change(top.source, |source| source.clear_pending(delivery)),
            None => {
                if let Some(hart) = self.hart_mut(number) {
                    hart.force = false;
                }
            }
        }
        top
    }

    /// 02, Req 08: "a call given such a hart number is refused with 2014"; otherwise what a read of the
    /// hart's claimi gives and does.
    pub fn claim(&mut self, hart: u64) -> Result<u32, u64> {
        self.hart(hart).ok_or(REFUSED)?;
        Ok(self.read_hart(hart, HartRegister::Claimi))
    }

    /// Whether a hart is signalled. 4.1.8.2: with domaincfg.IE = 1 and idelivery = 1, "whenever either
    /// register iforce or topi is not zero"; otherwise the signal "is held de-asserted". In MSI delivery
    /// mode the domain has no such signal.
    pub fn signal(&self, number: u64) -> Result<bool, u64> {
        self.hart(number).ok_or(REFUSED)?;
        let Some(hart) = self.delivering(number) else {
            return Ok(false);
        };
        let asked = hart.force || self.top(number).is_some();
        Ok(self.enable && hart.delivery && asked)
    }

    /// 4.1.5.1: 0x80 in bits 31:24; IE in bit 8; DM, which is fixed, in bit 2; BE, always 0, in bit 0.
    fn domaincfg(&self) -> u32 {
        let dm = match self.delivery {
            Delivery::Direct => 0,
            Delivery::Message => 1,
        };
        0x8000_0000 | u32::from(self.enable) << 8 | dm << 2
    }

    fn of(&self, number: u64, value: impl Fn(&Source) -> u32) -> u32 {
        self.source(number).map_or(0, value)
    }

    /// 4.1.5.5, 7, 9 and 11: pending bits, rectified inputs, enable bits, and zeros; source i is bit
    /// i modulo 32, and bits that stand for no source are zeros.
    fn mask(&self, mask: Mask, half: u64) -> u32 {
        let bit_of = |source: &Source| match mask {
            Mask::Setip => source.pending,
            Mask::InClrip => source.rectified(),
            Mask::Setie => source.enable,
            Mask::Clrie => false,
        };
        (0..32).fold(0, |value, place| {
            let one = self.source(32 * half + place).is_some_and(bit_of);
            value | u32::from(one) << place
        })
    }

    /// A write of 32 bits at an offset.
    pub fn write(&mut self, offset: u64, value: u32) {
        let delivery = self.delivery;
        match Register::at(offset) {
            // 4.1.5: "Writes to read-only bytes are ignored."
            None => {}
            // 4.1.5.1: IE is the one bit that can be written; DM and BE allow one value each.
            Some(Register::Domaincfg) => self.enable = bit(u64::from(value), 8),
            Some(Register::Sourcecfg(number)) => {
                self.change(number, |source| source.configure(delivery, value));
            }
            Some(Register::Target(number)) => {
                self.change(number, |source| source.write_target(delivery, value));
            }
            // 4.1.5.5, 7, 9 and 11: "for each bit that is one in the 32-bit value written".
            Some(Register::Mask(mask, half)) => {
                for place in (0..32).filter(|place| value >> place & 1 == 1) {
                    self.change(32 * half + place, |source| source.act(delivery, mask.act()));
                }
            }
            // 4.1.5.6, 8, 10, 12 and 13: ignored if it "is not an active interrupt source number".
            Some(Register::Number(number)) => {
                self.change(u64::from(value), |source| {
                    source.act(delivery, number.act());
                });
            }
            Some(Register::Hart(hart, register)) => self.write_hart(hart, register, value),
        }
    }

    /// Ignored in MSI delivery mode.
    fn write_hart(&mut self, number: u64, register: HartRegister, value: u32) {
        if let (Delivery::Direct, Some(hart)) = (self.delivery, self.hart_mut(number)) {
            hart.write(register, value);
        }
    }

    /// Changes a source, where there is one of the number.
    fn change(&mut self, number: u64, change: impl FnOnce(&mut Source)) {
        if let Some(source) = self.source_mut(number) {
            change(source);
        }
    }

    /// 02, Req 07: "the lowest-numbered source that is pending and enabled while the domain's enable
    /// is set"; 002, 4.1.9: "If and when an MSI is sent, the source's interrupt pending bit is cleared."
    /// Req 08: "forwarding in direct mode answers none".
    pub fn forward(&mut self) -> Option<Message> {
        if !self.enable || self.delivery == Delivery::Direct {
            return None;
        }
        let source = self.sources.iter_mut().find(|source| source.is_waiting())?;
        source.clear_pending(self.delivery);
        Some(Message {
            hart_index: source.target.hart_index,
            guest_index: source.target.guest_index,
            identity: source.target.identity,
        })
    }
}
