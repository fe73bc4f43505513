//! The two lent windows (02, Req 05). A load outside both counts as an access violation (01, after the
//! refusals).

use crate::mark::named;

named!(
    /// One of the two windows.
    Side {
        First = "first",
        Second = "second",
    }
);

/// A lent window: the address of its first byte, and its bytes.
#[derive(Clone, Debug, Default, PartialEq, Eq)]
pub struct Window {
    pub start: u64,
    pub bytes: Vec<u8>,
}

/// The two windows that a call is lent.
#[derive(Clone, Debug, Default, PartialEq, Eq)]
pub struct Memory {
    pub first: Window,
    pub second: Window,
}

impl Window {
    /// The address behind the last byte; no sum wraps (D10).
    pub fn end(&self) -> u128 {
        u128::from(self.start) + self.bytes.len() as u128
    }

    /// Whether `length` bytes from `address` on all lie in the window.
    pub fn holds(&self, address: u64, length: u64) -> bool {
        address >= self.start && u128::from(address) + u128::from(length) <= self.end()
    }

    /// The bytes from `address` on, where the window holds so many of them.
    pub fn part(&self, address: u64, length: u64) -> Option<&[u8]> {
        if !self.holds(address, length) {
            return None;
        }
        let offset = (address - self.start) as usize;
        Some(&self.bytes[offset..offset + length as usize])
    }

    /// The same bytes, to be changed.
    pub fn part_mut(&mut self, address: u64, length: u64) -> Option<&mut [u8]> {
        if !self.holds(address, length) {
            return None;
        }
        let offset = (address - self.start) as usize;
        Some(&mut self.bytes[offset..offset + length as usize])
    }
}

impl Memory {
    pub fn window(&self, side: Side) -> &Window {
        match side {
            Side::First => &self.first,
            Side::Second => &self.second,
        }
    }

    pub fn window_mut(&mut self, side: Side) -> &mut Window {
        match side {
            Side::First => &mut self.first,
            Side::Second => &mut self.second,
        }
    }

    /// 02, Req 05: whichever window holds so many bytes from an address on; none where neither does.
    pub fn holder(&self, address: u64, length: u64) -> Option<Side> {
        let holds = |side: &Side| self.window(*side).holds(address, length);
        Side::ALL.iter().copied().find(holds)
    }

    /// One little-endian doubleword, or none where the load is an access violation.
    pub fn load(&self, address: u64) -> Option<u64> {
        let side = self.holder(address, 8)?;
        self.window(side).part(address, 8).map(crate::file::read)
    }

    /// 02, Req 05: some byte's address is in both windows. An empty window overlaps nothing.
    pub fn overlap(&self) -> bool {
        let (first, second) = (&self.first, &self.second);
        let begin = first.start.max(second.start);
        let end = first.end().min(second.end());
        u128::from(begin) < end
    }
}
