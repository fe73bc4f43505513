//! Windows under construction: doublewords are put at addresses.

use crate::memory::{Memory, Window};

#[derive(Clone, Debug)]
pub struct Layout {
    pub memory: Memory,
}

impl Layout {
    /// A first window of zero bytes; the second is empty, at 0.
    pub fn new(start: u64, pages: u64) -> Layout {
        Layout::of_two([(start, pages), (0, 0)])
    }

    /// Two windows of zero bytes, each with its start and pages.
    pub fn of_two(places: [(u64, u64); 2]) -> Layout {
        let [first, second] = places.map(|(start, pages)| Window {
            start,
            bytes: vec![0; pages as usize * 4_096],
        });
        Layout {
            memory: Memory { first, second },
        }
    }

    /// Puts a doubleword; one outside both windows is dropped.
    pub fn put(&mut self, address: u64, value: u64) {
        let Some(side) = self.memory.holder(address, 8) else {
            return;
        };
        if let Some(bytes) = self.memory.window_mut(side).part_mut(address, 8) {
            bytes.copy_from_slice(&value.to_le_bytes());
        }
    }

    /// The doubleword at an address; zero outside both windows.
    pub fn get(&self, address: u64) -> u64 {
        self.memory.load(address).unwrap_or(0)
    }
}

/// A valid non-leaf entry, or page-table pointer, to a page.
pub fn pointer(page: u64) -> u64 {
    (page >> 12) << 10 | 1
}

/// iohgatp, fsc or msiptp: a mode and a page.
pub fn root_of(mode: u64, page: u64) -> u64 {
    mode << 60 | page >> 12
}

/// A leaf page-table entry with these low eight bits.
pub fn leaf(page: u64, flags: u64) -> u64 {
    (page >> 12) << 10 | flags
}

/// V, R, W, X, U, A, D.
pub const ALL_FLAGS: u64 = 0xDF;
