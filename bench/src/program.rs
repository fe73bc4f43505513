//! The programs under measurement, each called in the same way.

use crate::call::{Call, Memory, Numbers, Settings, PROCESS_GIVEN, SUPERVISOR};
use crate::plain;
use crate::proved::{now, Raw};

pub trait Program {
    fn request(memory: &mut Memory, settings: &Settings, call: &Call) -> Numbers;
    fn take(memory: &mut Memory, file: u64, identity: u64) -> Numbers;
    fn take_many(memory: &mut Memory, file: u64, doubleword: u64, mask: u64) -> Numbers;
}

/// The proved library of this tree.
pub struct Proved;

/// The plain program.
pub struct Plain;

/// The proved library of an earlier commit.
#[cfg(before)]
pub struct Before;

fn raw(call: &Call) -> Raw {
    Raw {
        device: u64::from(call.device),
        process: u64::from(call.process),
        flags: u64::from(call.flags),
        access: call.access as u64,
        address: call.address,
        length: u64::from(call.length),
        value: call.value,
    }
}

impl Program for Proved {
    #[inline]
    fn request(memory: &mut Memory, settings: &Settings, call: &Call) -> Numbers {
        now::request(memory, settings, &raw(call))
    }

    #[inline]
    fn take(memory: &mut Memory, file: u64, identity: u64) -> Numbers {
        now::take(memory, file, identity)
    }

    #[inline]
    fn take_many(memory: &mut Memory, file: u64, doubleword: u64, mask: u64) -> Numbers {
        now::take_many(memory, file, doubleword, mask)
    }
}

#[cfg(before)]
impl Program for Before {
    #[inline]
    fn request(memory: &mut Memory, settings: &Settings, call: &Call) -> Numbers {
        crate::proved::before::request(memory, settings, &raw(call))
    }

    #[inline]
    fn take(memory: &mut Memory, file: u64, identity: u64) -> Numbers {
        crate::proved::before::take(memory, file, identity)
    }

    #[cfg(before_take_many)]
    #[inline]
    fn take_many(memory: &mut Memory, file: u64, doubleword: u64, mask: u64) -> Numbers {
        crate::proved::before::take_many(memory, file, doubleword, mask)
    }

    #[cfg(not(before_take_many))]
    fn take_many(_: &mut Memory, _: u64, _: u64, _: u64) -> Numbers {
        unreachable!("measure::unknown leaves these rows out")
    }
}

impl Program for Plain {
    #[inline]
    fn request(memory: &mut Memory, settings: &Settings, call: &Call) -> Numbers {
        let request = plain::Request {
            device: u64::from(call.device),
            process: (call.flags & PROCESS_GIVEN != 0).then_some(u64::from(call.process)),
            supervisor: call.flags & SUPERVISOR != 0,
            access: call.access,
            address: call.address,
            length: u64::from(call.length),
            value: call.value,
        };
        plain::request(memory, settings.mode, settings.root, &request).numbers()
    }

    #[inline]
    fn take(memory: &mut Memory, file: u64, identity: u64) -> Numbers {
        plain::take(memory, file, identity).numbers()
    }

    #[inline]
    fn take_many(memory: &mut Memory, file: u64, doubleword: u64, mask: u64) -> Numbers {
        match plain::take_many(memory, file, doubleword, mask) {
            Ok(bits) => [6, bits, 0, 0, 0],
            Err(number) => [5, number, 0, 0, 0],
        }
    }
}
