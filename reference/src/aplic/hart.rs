//! One hart of a domain in direct delivery mode: the writable registers of its IDC structure, and which
//! of the interrupts targeted to it is the top one.

use crate::aplic::source::Source;
use crate::types::{bit, bits};

/// 002, 4.1.8.1: the registers of an IDC structure.
#[derive(Clone, Copy, Debug, PartialEq, Eq, PartialOrd, Ord)]
pub enum HartRegister {
    Idelivery,
    Iforce,
    Ithreshold,
    Topi,
    Claimi,
}

impl HartRegister {
    pub const ALL: [HartRegister; 5] = [
        HartRegister::Idelivery,
        HartRegister::Iforce,
        HartRegister::Ithreshold,
        HartRegister::Topi,
        HartRegister::Claimi,
    ];

    pub fn name(self) -> &'static str {
        match self {
            HartRegister::Idelivery => "idelivery",
            HartRegister::Iforce => "iforce",
            HartRegister::Ithreshold => "ithreshold",
            HartRegister::Topi => "topi",
            HartRegister::Claimi => "claimi",
        }
    }

    /// Its place in the structure.
    pub fn offset(self) -> u64 {
        match self {
            HartRegister::Idelivery => 0x00,
            HartRegister::Iforce => 0x04,
            HartRegister::Ithreshold => 0x08,
            HartRegister::Topi => 0x18,
            HartRegister::Claimi => 0x1C,
        }
    }
}

/// 4.1.8.1.1 to 4.1.8.1.3: idelivery, iforce and ithreshold.
#[derive(Clone, Copy, Debug, Default, PartialEq, Eq)]
pub struct Hart {
    pub delivery: bool,
    pub force: bool,
    pub threshold: u32,
}

/// An interrupt as topi shows it.
#[derive(Clone, Copy, Debug, PartialEq, Eq)]
pub struct Top {
    pub source: u64,
    pub priority: u32,
}

impl Top {
    /// 4.1.8.1.4: the identity in bits 25:16, the priority in bits 7:0.
    pub fn value(self) -> u32 {
        (self.source as u32) << 16 | self.priority
    }
}

impl Hart {
    /// 02, Req 08: "Writes keep bits 7:0 of .. thresholds, bit 0 of delivery and force"; 4.1.8.1.4 and
    /// 4.1.8.1.5: writes to topi and claimi are ignored.
    pub fn write(&mut self, register: HartRegister, value: u32) {
        let value = u64::from(value);
        match register {
            HartRegister::Idelivery => self.delivery = bit(value, 0),
            HartRegister::Iforce => self.force = bit(value, 0),
            HartRegister::Ithreshold => self.threshold = bits(value, 7, 0) as u32,
            HartRegister::Topi | HartRegister::Claimi => {}
        }
    }

    /// 4.1.8.1.3: under a nonzero threshold P, "interrupt sources with priority numbers P and higher do
    /// not contribute"; under zero all do.
    pub fn passes(&self, priority: u32) -> bool {
        self.threshold == 0 || priority < self.threshold
    }

    /// 4.1.8.1.4: of the sources targeted to the hart of this number that are pending and enabled and
    /// pass the threshold, the one with the highest priority. 4.1.5.16.1: that is the smallest number,
    /// and of equal ones the lowest identity.
    pub fn top<'a>(
        &self,
        number: u64,
        sources: impl Iterator<Item = (u64, &'a Source)>,
    ) -> Option<Top> {
        let mut top: Option<Top> = None;
        // From the lowest identity on, so that a later source needs a smaller priority number.
        for (source, state) in sources {
            let priority = state.target.priority;
            let targeted = u64::from(state.target.hart_index) == number;
            if !targeted || !state.is_waiting() || !self.passes(priority) {
                continue;
            }
            if top.is_none_or(|top| priority < top.priority) {
                top = Some(Top { source, priority });
            }
        }
        top
    }
}
