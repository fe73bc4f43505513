//! What a call is given.

use core::fmt;

/// Where the device directory is.
///
/// Every value is legal to give; [`Refusal::Directory`](crate::Refusal::Directory) says what is
/// refused.
#[derive(Clone, Copy, Debug, PartialEq, Eq, Hash)]
pub struct Settings {
    /// The device directory's mode.
    pub mode: Mode,
    /// The page number of the device directory's root.
    pub root: u64,
}

/// The mode of the device directory: any number, with the names of the five that are defined.
///
/// A mode above 4 is refused with [`Refusal::Directory`](crate::Refusal::Directory).
#[derive(Clone, Copy, Debug, PartialEq, Eq, PartialOrd, Ord, Hash)]
pub struct Mode(pub u64);

impl Mode {
    /// Every request faults with cause 256.
    pub const OFF: Mode = Mode(0);
    /// Every address stays as it is; no directory, no messages.
    pub const BARE: Mode = Mode(1);
    /// A directory of one level: device_ids of 6 bits.
    pub const ONE_LEVEL: Mode = Mode(2);
    /// A directory of two levels: device_ids of 15 bits.
    pub const TWO_LEVEL: Mode = Mode(3);
    /// A directory of three levels: device_ids of 24 bits.
    pub const THREE_LEVEL: Mode = Mode(4);
}

impl From<u64> for Mode {
    fn from(number: u64) -> Mode {
        Mode(number)
    }
}

impl fmt::Display for Mode {
    fn fmt(&self, f: &mut fmt::Formatter<'_>) -> fmt::Result {
        match *self {
            Mode::OFF => f.write_str("off"),
            Mode::BARE => f.write_str("bare"),
            Mode::ONE_LEVEL => f.write_str("one level"),
            Mode::TWO_LEVEL => f.write_str("two levels"),
            Mode::THREE_LEVEL => f.write_str("three levels"),
            Mode(other) => write!(f, "mode {other}"),
        }
    }
}

/// What a device does at an address.
#[derive(Clone, Copy, Debug, PartialEq, Eq, PartialOrd, Ord, Hash)]
pub enum Access {
    /// A read.
    Read,
    /// A write.
    Write,
    /// A read for execute.
    ReadForExecute,
}

impl Access {
    /// All accesses.
    pub const ALL: [Access; 3] = [Access::Read, Access::Write, Access::ReadForExecute];
}

impl fmt::Display for Access {
    fn fmt(&self, f: &mut fmt::Formatter<'_>) -> fmt::Result {
        f.write_str(match self {
            Access::Read => "read",
            Access::Write => "write",
            Access::ReadForExecute => "read-for-execute",
        })
    }
}

/// The privilege that a request asks with.
#[derive(Clone, Copy, Debug, PartialEq, Eq, PartialOrd, Ord, Hash)]
pub enum Privilege {
    /// User: first-stage pages with U = 1.
    User,
    /// Supervisor: legal only with a process_id. First-stage pages with U = 0; where SUM is 1 in the
    /// process context, reads and writes of those with U = 1 too.
    Supervisor,
}

impl fmt::Display for Privilege {
    fn fmt(&self, f: &mut fmt::Formatter<'_>) -> fmt::Result {
        f.write_str(match self {
            Privilege::User => "user",
            Privilege::Supervisor => "supervisor",
        })
    }
}

/// One device request.
///
/// The numbers are as wide as a caller may have them. None has to be cut to its legal width first:
/// what is too wide is refused.
///
/// ```
/// use yasmurekh::{Access, Privilege, Request};
///
/// let request = Request::read(7, 0x1000, 64).with_process(3).as_supervisor();
/// assert_eq!(request.access, Access::Read);
/// assert_eq!(request.process_id, Some(3));
/// assert_eq!(request.privilege, Privilege::Supervisor);
/// ```
#[derive(Clone, Copy, Debug, PartialEq, Eq, Hash)]
pub struct Request {
    /// The device's number, of 24 bits.
    pub device_id: u64,
    /// The process's number, of 20 bits, where the device gives one.
    pub process_id: Option<u64>,
    /// User or supervisor.
    pub privilege: Privilege,
    /// Read, write, or read for execute.
    pub access: Access,
    /// The address that the device uses.
    pub address: u64,
    /// How many bytes: at least 1, and none beyond the address's 4 KiB page.
    pub length: u64,
    /// The four bytes of a 4-byte write, read little-endian; no other access looks at it.
    pub data: u32,
}

impl Request {
    /// A user's access without a process_id.
    const fn plain(device_id: u64, access: Access, address: u64, length: u64, data: u32) -> Self {
        Request {
            device_id,
            process_id: None,
            privilege: Privilege::User,
            access,
            address,
            length,
            data,
        }
    }

    /// A user's read, without a process_id.
    pub const fn read(device_id: u64, address: u64, length: u64) -> Self {
        Request::plain(device_id, Access::Read, address, length, 0)
    }

    /// A user's write, without a process_id. Its bytes matter only to a 4-byte write of a message,
    /// for which there is [`Request::message`].
    pub const fn write(device_id: u64, address: u64, length: u64) -> Self {
        Request::plain(device_id, Access::Write, address, length, 0)
    }

    /// A user's read for execute, without a process_id.
    pub const fn execute(device_id: u64, address: u64, length: u64) -> Self {
        Request::plain(device_id, Access::ReadForExecute, address, length, 0)
    }

    /// A user's 4-byte write of `data`, without a process_id: what a message-signalled interrupt is.
    pub const fn message(device_id: u64, address: u64, data: u32) -> Self {
        Request::plain(device_id, Access::Write, address, 4, data)
    }

    /// The same request with a process_id.
    #[must_use]
    pub const fn with_process(self, process_id: u64) -> Self {
        Request {
            process_id: Some(process_id),
            ..self
        }
    }

    /// The same request asked as supervisor.
    #[must_use]
    pub const fn as_supervisor(self) -> Self {
        Request {
            privilege: Privilege::Supervisor,
            ..self
        }
    }
}
