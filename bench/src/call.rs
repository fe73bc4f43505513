//! One call of a row, small enough that a million of them stream through the caches.

use crate::plain::Access;

/// Kind, three values, stage.
pub type Numbers = [u64; 5];

/// A window: the address of its first byte, and its bytes.
#[derive(Clone, Debug, Default, PartialEq, Eq)]
pub struct Window {
    pub start: u64,
    pub bytes: Vec<u8>,
}

/// Both windows.
#[derive(Clone, Debug, Default, PartialEq, Eq)]
pub struct Memory {
    pub first: Window,
    pub second: Window,
}

/// The device directory.
#[derive(Clone, Copy, Debug, Default)]
pub struct Settings {
    pub mode: u64,
    pub root: u64,
}

pub const PROCESS_GIVEN: u8 = 1;
pub const SUPERVISOR: u8 = 2;

/// A request; or a take, which uses the address as its file and the value as its identity; or a take of many,
/// whose file is the address, its doubleword the value, and its mask device and process.
#[derive(Clone, Copy, Debug)]
pub struct Call {
    pub address: u64,
    pub device: u32,
    pub process: u32,
    pub value: u32,
    pub length: u16,
    pub access: Access,
    pub flags: u8,
}

impl Call {
    pub fn read(device: u32, address: u64) -> Call {
        Call {
            address,
            device,
            process: 0,
            value: 0,
            length: 4,
            access: Access::Read,
            flags: 0,
        }
    }

    pub fn take_many(file: u64, doubleword: u32, mask: u64) -> Call {
        Call {
            process: mask as u32,
            value: doubleword,
            ..Call::read((mask >> 32) as u32, file)
        }
    }

    /// The mask of a take of many.
    #[inline]
    pub fn mask(&self) -> u64 {
        u64::from(self.device) << 32 | u64::from(self.process)
    }

    pub fn write(device: u32, address: u64, value: u32) -> Call {
        Call {
            value,
            access: Access::Write,
            ..Call::read(device, address)
        }
    }
}
