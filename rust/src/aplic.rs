//! One supervisor leaf domain of an APLIC: wired interrupts in; messages, or signals to harts, out.
//!
//! A device that signals by a wire has no message to write. A [`Domain`] is the interrupt controller
//! between the two: it has 63 sources, each the end of a wire, and the registers of the Advanced
//! Interrupt Architecture by which software says how a wire is read and where its interrupt goes. It
//! is little-endian. Its [`Delivery`] is fixed when it is made: by messages to the interrupt files of
//! harts ([`Domain::new`]), or directly to harts 0 to 15 that have none ([`Domain::direct`]).
//!
//! | Call | What it does | What may change |
//! |---|---|---|
//! | [`Domain::wire`] | gives a source's wire a level | that source |
//! | [`Domain::write`] | writes a register | what the register holds |
//! | [`Domain::read`] | reads a register | nothing, but by a read of claimi as by a claim |
//! | [`Domain::forward`] | message delivery: hands out the message of one waiting source | that source's pending bit |
//! | [`Domain::signalled`] | direct delivery: whether a hart is signalled | nothing |
//! | [`Domain::claim`] | direct delivery: hands out a hart's top interrupt | its source's pending bit, or the hart's iforce |
//!
//! # Message delivery
//!
//! A fan holds its wire high as long as it is stuck. Source 7 is made sensitive to that level.
//!
//! ```
//! use yasmurekh::aplic::{register, Domain, Message, SourceMode, Target};
//!
//! let mut domain = Domain::new();
//! domain.write(register::DOMAINCFG, register::DOMAINCFG_IE);
//! domain.write(register::sourcecfg(7), SourceMode::LEVEL1.0);
//! let target = Target { hart_index: 2, guest_index: 0, identity: 37 };
//! domain.write(register::target(7), target.value());
//! domain.write(register::SETIENUM, 7);
//! assert_eq!(domain.forward(), None);
//!
//! domain.wire(7, true)?;
//! assert_eq!(domain.read(register::setip(0)), 1 << 7);
//! // The caller now writes 37 to the interrupt file of hart 2.
//! assert_eq!(domain.forward(), Some(target));
//! assert_eq!(domain.forward(), None);
//!
//! // The handler asks whether the fan is still stuck, and if so for another message.
//! assert_eq!(domain.read(register::in_clrip(0)), 1 << 7);
//! domain.write(register::SETIPNUM, 7);
//! assert!(domain.forward().is_some());
//! # Ok::<(), yasmurekh::Refusal>(())
//! ```
//!
//! # Direct delivery
//!
//! The same fan at a controller without message files, beside a button that gives a pulse. Hart 0 is
//! signalled, and claims until nothing is left.
//!
//! ```
//! use yasmurekh::aplic::{register, DirectTarget, Domain, Interrupt, SourceMode};
//!
//! let mut domain = Domain::direct();
//! domain.write(register::DOMAINCFG, register::DOMAINCFG_IE);
//! for (source, mode, priority) in [(7, SourceMode::LEVEL1, 2), (9, SourceMode::EDGE1, 5)] {
//!     domain.write(register::sourcecfg(source), mode.0);
//!     let target = DirectTarget { hart_index: 0, priority };
//!     domain.write(register::target(source), target.value());
//!     domain.write(register::SETIENUM, source as u32);
//! }
//! domain.write(register::idelivery(0), 1);
//! assert!(!domain.signalled(0)?);
//!
//! domain.wire(9, true)?;
//! domain.wire(7, true)?;
//! assert!(domain.signalled(0)?);
//! let mut handled = Vec::new();
//! while let Some(interrupt) = domain.claim(0)? {
//!     handled.push(interrupt);
//!     // A claim leaves a level-sensitive source pending: the handler frees the fan.
//!     if interrupt.source == 7 {
//!         domain.wire(7, false)?;
//!     }
//! }
//! let [fan, button] = [(7, 2), (9, 5)].map(|(source, priority)| Interrupt { source, priority });
//! assert_eq!(handled, [fan, button]);
//! assert!(!domain.signalled(0)?);
//! # Ok::<(), yasmurekh::Refusal>(())
//! ```

use core::fmt;

use crate::answer::another_version;
use crate::{face, Refusal};

/// How a domain delivers interrupts.
#[derive(Clone, Copy, Debug, PartialEq, Eq, Hash)]
pub enum Delivery {
    /// By messages, which [`Domain::forward`] hands out.
    Message,
    /// Directly to harts 0 to 15, which are signalled and claim.
    Direct,
}

/// A domain: 87 words, as the library lays them out.
///
/// A new one is a domain at reset: all zero but for the delivery mode. Any words are a legal state,
/// and every call answers; only those that began with [`Domain::new`] or [`Domain::direct`] and went
/// through the calls here stand for a domain that the architecture describes.
#[derive(Clone, Debug, PartialEq, Eq, Hash)]
pub struct Domain {
    words: [u64; Domain::WORDS],
}

impl Domain {
    /// How many words a domain has.
    pub const WORDS: usize = face::DOMAIN_WORDS;

    /// How many sources a domain has: they are numbered from 1 to this.
    pub const SOURCES: u64 = 63;

    /// How many harts a domain has in direct delivery: they are numbered from 0.
    pub const HARTS: u64 = 16;

    /// A domain at reset, with message delivery.
    pub const fn new() -> Domain {
        Domain {
            words: [0; Domain::WORDS],
        }
    }

    /// A domain at reset, with direct delivery.
    pub const fn direct() -> Domain {
        let mut words = [0; Domain::WORDS];
        words[face::DELIVERY_WORD] = 1;
        Domain { words }
    }

    /// How the domain delivers. No call changes it.
    pub const fn delivery(&self) -> Delivery {
        match self.words[face::DELIVERY_WORD] & 1 {
            0 => Delivery::Message,
            _ => Delivery::Direct,
        }
    }

    /// The domain that [`Domain::words`] gave these words for.
    pub const fn from_words(words: [u64; Domain::WORDS]) -> Domain {
        Domain { words }
    }

    /// The words, to be kept and given to [`Domain::from_words`] or to the functions for C.
    pub const fn words(&self) -> &[u64; Domain::WORDS] {
        &self.words
    }

    /// Gives the wire of a source a level. Only that source changes.
    ///
    /// # Errors
    ///
    /// [`Refusal::Source`] where the number isn't from 1 to 63. Nothing changes then.
    pub fn wire(&mut self, source: u64, high: bool) -> Result<(), Refusal> {
        face::aplic_wire(&mut self.words, source, high)
    }

    /// Writes 32 bits to the register at an offset of the control region.
    ///
    /// Nothing changes where no register is: an offset that isn't a multiple of 4, one without a
    /// register, genmsi, setipnum_be, what belongs to sources above 63 or harts above 15, and whatever
    /// is beyond; nor at topi and claimi, nor, in message delivery, at any register of a hart.
    pub fn write(&mut self, offset: u64, value: u32) {
        face::aplic_write(&mut self.words, offset, value);
    }

    /// Reads the 32 bits of the register at an offset of the control region; 0 where no register is.
    ///
    /// A read of a hart's claimi, in direct delivery, is a claim, as by [`Domain::claim`]. Any other
    /// read changes nothing.
    pub fn read(&mut self, offset: u64) -> u32 {
        face::aplic_read(&mut self.words, offset)
    }

    /// Takes the lowest-numbered source that is pending and enabled, clears its pending bit, and hands
    /// out where its message goes. None, with nothing changed, where no source waits, IE of domaincfg
    /// is 0, or delivery is direct.
    pub fn forward(&mut self) -> Option<Message> {
        forwarded(face::aplic_forward(&mut self.words))
    }

    /// Claims the top interrupt of a hart, as a read of its claimi does: of the sources that are
    /// pending, enabled, targeted to the hart and below its threshold, if that isn't 0, the one with the
    /// lowest priority number, then the lowest source number. Its pending bit is cleared, unless it is
    /// level-sensitive: such a source is pending as long as its wire is asserted.
    ///
    /// None is a spurious interrupt, which a handler ignores; iforce of the hart is then cleared. In
    /// message delivery there is none, and nothing changes.
    ///
    /// # Errors
    ///
    /// [`Refusal::Hart`] where the number is above 15. Nothing changes then.
    pub fn claim(&mut self, hart: u64) -> Result<Option<Interrupt>, Refusal> {
        let value = face::aplic_claim(&mut self.words, hart)?;
        Ok(Interrupt::from_topi(value))
    }

    /// Whether a hart is signalled: IE of domaincfg and idelivery of the hart are 1, and its iforce or
    /// its topi isn't 0. Never in message delivery. Nothing changes.
    ///
    /// # Errors
    ///
    /// [`Refusal::Hart`] where the number is above 15.
    pub fn signalled(&mut self, hart: u64) -> Result<bool, Refusal> {
        face::aplic_signal(&mut self.words, hart)
    }
}

impl Default for Domain {
    fn default() -> Domain {
        Domain::new()
    }
}

/// A hart's top interrupt, as its topi and claimi have it.
#[derive(Clone, Copy, Debug, PartialEq, Eq, Hash)]
pub struct Interrupt {
    /// The source's number, 1 to 63: the interrupt's identity at the hart.
    pub source: u64,
    /// Its priority, 1 to 255; a lower number goes first.
    pub priority: u64,
}

impl Interrupt {
    /// The interrupt that a value read from topi or claimi names; none where its identity is 0.
    pub const fn from_topi(value: u32) -> Option<Interrupt> {
        let interrupt = Interrupt {
            source: (value >> 16 & 0x3FF) as u64,
            priority: (value & 0xFF) as u64,
        };
        match interrupt.source {
            0 => None,
            _ => Some(interrupt),
        }
    }
}

impl fmt::Display for Interrupt {
    fn fmt(&self, f: &mut fmt::Formatter<'_>) -> fmt::Result {
        write!(f, "source {}, priority {}", self.source, self.priority)
    }
}

/// What a forward hands out: the caller writes `identity`, as 32 bits, to the interrupt file that the
/// two indices name.
pub type Message = Target;

/// A target register in message delivery, by its fields.
#[derive(Clone, Copy, Debug, Default, PartialEq, Eq, Hash)]
pub struct Target {
    /// The hart's index, of 14 bits.
    pub hart_index: u64,
    /// The hart's guest interrupt file, of 6 bits; 0 for the hart's own.
    pub guest_index: u64,
    /// The interrupt identity, of 11 bits: the data of the message.
    pub identity: u64,
}

impl Target {
    /// The value of the register. What is too wide is cut.
    pub const fn value(self) -> u32 {
        let hart_index = (self.hart_index & 0x3FFF) << 18;
        let guest_index = (self.guest_index & 0x3F) << 12;
        (hart_index | guest_index | self.identity & 0x7FF) as u32
    }
}

impl From<u32> for Target {
    fn from(value: u32) -> Target {
        let value = u64::from(value);
        Target {
            hart_index: value >> 18,
            guest_index: value >> 12 & 0x3F,
            identity: value & 0x7FF,
        }
    }
}

/// A forward's words: 1, hart index, guest index, identity; all 0 where nothing is forwarded.
fn forwarded(words: [u64; 4]) -> Option<Message> {
    let [sent, hart_index, guest_index, identity] = words;
    let message = Target {
        hart_index,
        guest_index,
        identity,
    };
    match sent {
        0 if message == Target::default() => None,
        // A field that is too wide would be cut.
        1 if message == Target::from(message.value()) => Some(message),
        _ => another_version("forward", sent),
    }
}

impl fmt::Display for Target {
    fn fmt(&self, f: &mut fmt::Formatter<'_>) -> fmt::Result {
        write!(f, "identity {} to hart {}", self.identity, self.hart_index)?;
        match self.guest_index {
            0 => Ok(()),
            guest => write!(f, ", guest file {guest}"),
        }
    }
}

/// A target register in direct delivery, by its fields.
#[derive(Clone, Copy, Debug, PartialEq, Eq, Hash)]
pub struct DirectTarget {
    /// The hart's index, of 14 bits; one above 15 is kept and reaches no hart.
    pub hart_index: u64,
    /// The priority, of 8 bits; a lower number goes first, and 0 is kept as 1.
    pub priority: u64,
}

impl DirectTarget {
    /// The value of the register. What is too wide is cut.
    pub const fn value(self) -> u32 {
        ((self.hart_index & 0x3FFF) << 18 | self.priority & 0xFF) as u32
    }
}

impl From<u32> for DirectTarget {
    fn from(value: u32) -> DirectTarget {
        let value = u64::from(value);
        DirectTarget {
            hart_index: value >> 18,
            priority: value & 0xFF,
        }
    }
}

impl fmt::Display for DirectTarget {
    fn fmt(&self, f: &mut fmt::Formatter<'_>) -> fmt::Result {
        write!(f, "priority {} at hart {}", self.priority, self.hart_index)
    }
}

/// A source mode as sourcecfg holds it: any number, with the names of those that are defined.
///
/// The reserved ones, 2 and 3, are kept as 0.
#[derive(Clone, Copy, Debug, PartialEq, Eq, PartialOrd, Ord, Hash)]
pub struct SourceMode(pub u32);

impl SourceMode {
    /// No interrupts; pending bit, enable bit and target are zero.
    pub const INACTIVE: SourceMode = SourceMode(0);
    /// The wire is ignored; pending by writes alone.
    pub const DETACHED: SourceMode = SourceMode(1);
    /// An interrupt at each rising edge.
    pub const EDGE1: SourceMode = SourceMode(4);
    /// An interrupt at each falling edge.
    pub const EDGE0: SourceMode = SourceMode(5);
    /// An interrupt while the wire is high.
    pub const LEVEL1: SourceMode = SourceMode(6);
    /// An interrupt while the wire is low.
    pub const LEVEL0: SourceMode = SourceMode(7);
}

/// The offsets of a domain's registers. An index that is too large leads to another offset, never to
/// a panic.
pub mod register {
    /// The domain's configuration: its enable bit [`DOMAINCFG_IE`], delivery mode and byte order.
    pub const DOMAINCFG: u64 = 0x0000;
    /// IE of domaincfg: forwards are made, and harts signalled, only where it is 1.
    pub const DOMAINCFG_IE: u32 = 1 << 8;
    /// Sets the pending bit of the source whose number is written.
    pub const SETIPNUM: u64 = 0x1CDC;
    /// Clears the pending bit of the source whose number is written.
    pub const CLRIPNUM: u64 = 0x1DDC;
    /// Sets the enable bit of the source whose number is written.
    pub const SETIENUM: u64 = 0x1EDC;
    /// Clears the enable bit of the source whose number is written.
    pub const CLRIENUM: u64 = 0x1FDC;
    /// Acts as [`SETIPNUM`].
    pub const SETIPNUM_LE: u64 = 0x2000;

    const fn indexed(base: u64, index: u64) -> u64 {
        base.wrapping_add(index.wrapping_mul(4))
    }

    const fn of_hart(base: u64, hart: u64) -> u64 {
        base.wrapping_add(hart.wrapping_mul(32))
    }

    /// The mode of a source, 1 to 63.
    pub const fn sourcecfg(source: u64) -> u64 {
        indexed(0, source)
    }

    /// Pending bits of sources 0 to 31 or 32 to 63; a one that is written sets its bit.
    pub const fn setip(half: u64) -> u64 {
        indexed(0x1C00, half)
    }

    /// Rectified inputs of sources 0 to 31 or 32 to 63; a one that is written clears a pending bit.
    pub const fn in_clrip(half: u64) -> u64 {
        indexed(0x1D00, half)
    }

    /// Enable bits of sources 0 to 31 or 32 to 63; a one that is written sets its bit.
    pub const fn setie(half: u64) -> u64 {
        indexed(0x1E00, half)
    }

    /// Reads as zero; a one that is written clears an enable bit of sources 0 to 31 or 32 to 63.
    pub const fn clrie(half: u64) -> u64 {
        indexed(0x1F00, half)
    }

    /// The target of a source, 1 to 63.
    pub const fn target(source: u64) -> u64 {
        indexed(0x3000, source)
    }

    /// Whether a hart, 0 to 15, may be signalled: 1 or 0.
    pub const fn idelivery(hart: u64) -> u64 {
        of_hart(0x4000, hart)
    }

    /// Whether a hart, 0 to 15, is signalled without a source, for tests: 1 or 0.
    pub const fn iforce(hart: u64) -> u64 {
        of_hart(0x4004, hart)
    }

    /// The threshold of a hart, 0 to 15: sources with this priority number or a higher one wait; 0 lets
    /// all pass.
    pub const fn ithreshold(hart: u64) -> u64 {
        of_hart(0x4008, hart)
    }

    /// The top interrupt of a hart, 0 to 15; see [`Interrupt::from_topi`](super::Interrupt::from_topi).
    pub const fn topi(hart: u64) -> u64 {
        of_hart(0x4018, hart)
    }

    /// As [`topi`], and a read claims that interrupt.
    pub const fn claimi(hart: u64) -> u64 {
        of_hart(0x401C, hart)
    }
}

#[cfg(test)]
mod tests {
    extern crate std;

    use super::{forwarded, Target};
    use crate::answer::UNWRITTEN;

    #[test]
    fn unknown_words_of_a_forward() {
        let widest = Target {
            hart_index: 0x3FFF,
            guest_index: 0x3F,
            identity: 0x7FF,
        };
        assert_eq!(forwarded([0; 4]), None);
        assert_eq!(forwarded([1, 0x3FFF, 0x3F, 0x7FF]), Some(widest));
        for words in [
            [UNWRITTEN; 4],
            [2, 0, 0, 0],
            [0, 0, 0, 1],
            [0, UNWRITTEN, UNWRITTEN, UNWRITTEN],
            [1, 0x4000, 0, 0],
            [1, 0, 0x40, 0],
            [1, 0, 0, 0x800],
            [1, 0, 0, UNWRITTEN],
        ] {
            let called = std::panic::catch_unwind(|| forwarded(words));
            assert!(called.is_err(), "{words:?}");
        }
    }
}
