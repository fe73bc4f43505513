//! The page-table schemes as data (003, Tables 1 and 3; 02, Req 03; Priv, Sv39, Sv48 and Sv57, and
//! their x4 forms).

use crate::types::bits;

/// A page-table scheme: its number, its level count, its root's index width and its address width.
#[derive(Debug, PartialEq, Eq)]
pub struct Scheme {
    pub name: &'static str,
    /// Its number in the mode of iohgatp, or of an fsc that holds an iosatp.
    pub mode: u64,
    pub levels: u64,
    pub root_index_bits: u32,
    pub address_bits: u32,
    /// The bits above the address width repeat its highest bit; else they are zero.
    pub signed: bool,
}

/// The width of the index at every level but the root.
const INDEX_BITS: u32 = 9;

/// A scheme of the first stage: addresses carry a sign.
const fn first(name: &'static str, mode: u64, levels: u64, address_bits: u32) -> Scheme {
    Scheme {
        name,
        mode,
        levels,
        root_index_bits: INDEX_BITS,
        address_bits,
        signed: true,
    }
}

/// A scheme of the second stage. 02, Req 03: a guest root still has two extra index bits.
const fn second(name: &'static str, mode: u64, levels: u64, address_bits: u32) -> Scheme {
    Scheme {
        name,
        mode,
        levels,
        root_index_bits: INDEX_BITS + 2,
        address_bits,
        signed: false,
    }
}

/// The schemes of the first stage.
pub static FIRST: [Scheme; 3] = [
    first("Sv39", 8, 3, 39),
    first("Sv48", 9, 4, 48),
    first("Sv57", 10, 5, 57),
];

/// The schemes of the second stage.
pub static SECOND: [Scheme; 3] = [
    second("Sv39x4", 8, 3, 41),
    second("Sv48x4", 9, 4, 50),
    second("Sv57x4", 10, 5, 59),
];

/// The scheme of a mode; none for Bare and for every mode that no scheme has.
pub fn of_mode(schemes: &'static [Scheme; 3], mode: u64) -> Option<&'static Scheme> {
    schemes.iter().find(|scheme| scheme.mode == mode)
}

/// 003, Tables 1 and 3: a mode is Bare or that of a scheme. The numbers designated for custom use
/// are none of these capabilities (01, Ground: all else is absent).
pub fn is_mode(schemes: &'static [Scheme; 3], mode: u64) -> bool {
    mode == 0 || of_mode(schemes, mode).is_some()
}

/// The width of the offset within a page of a level: 12, 21, 30, 39, 48.
pub fn page_bits(level: u64) -> u32 {
    12 + INDEX_BITS * level as u32
}

/// The size of a page of a level.
pub fn size(level: u64) -> u64 {
    1 << page_bits(level)
}

impl Scheme {
    /// 01, The two walks; 02, Req 03: the sign rule of the first stage, the limit of the second.
    pub fn covers(&self, address: u64) -> bool {
        if !self.signed {
            return address >> self.address_bits == 0;
        }
        let above = address >> (self.address_bits - 1);
        above == 0 || above == u64::MAX >> (self.address_bits - 1)
    }

    /// The index of an address at a level; the root's may be wider.
    pub fn index(&self, address: u64, level: u64) -> u64 {
        let width = if level == self.levels - 1 {
            self.root_index_bits
        } else {
            INDEX_BITS
        };
        let low = page_bits(level);
        bits(address, low + width - 1, low)
    }

    /// The first address above those that begin at 0: half of a signed range, all of another one.
    pub fn limit(&self) -> u64 {
        1 << (self.address_bits - u32::from(self.signed))
    }
}
