//! The face for C, called: all of this crate's `unsafe` is here.
#![allow(unsafe_code)]

use crate::answer::{self, UNWRITTEN};
use crate::{Access, Memory, Privilege, Refusal, Request, Settings};

mod c {
    extern "C" {
        pub fn yasmurekh_request(
            first_start: u64,
            first: *mut u8,
            first_length: usize,
            second_start: u64,
            second: *mut u8,
            second_length: usize,
            mode: u64,
            root: u64,
            device: u64,
            process: u64,
            flags: u64,
            access: u64,
            address: u64,
            length: u64,
            value: u32,
            out: *mut u64,
            out_length: usize,
        ) -> u64;

        pub fn yasmurekh_take(
            first_start: u64,
            first: *mut u8,
            first_length: usize,
            second_start: u64,
            second: *mut u8,
            second_length: usize,
            file: u64,
            identity: u64,
            out: *mut u64,
            out_length: usize,
        ) -> u64;

        pub fn yasmurekh_take_many(
            first_start: u64,
            first: *mut u8,
            first_length: usize,
            second_start: u64,
            second: *mut u8,
            second_length: usize,
            file: u64,
            doubleword: u64,
            mask: u64,
            out: *mut u64,
            out_length: usize,
        ) -> u64;

        pub fn yasmurekh_report(
            first_start: u64,
            first: *const u8,
            first_length: usize,
            second_start: u64,
            second: *const u8,
            second_length: usize,
            file: u64,
            out: *mut u64,
            out_length: usize,
        ) -> u64;

        pub fn yasmurekh_aplic_wire(
            state: *mut u64,
            state_length: usize,
            source: u64,
            level: u64,
        ) -> u64;

        pub fn yasmurekh_aplic_write(
            state: *mut u64,
            state_length: usize,
            offset: u64,
            value: u32,
        ) -> u64;

        pub fn yasmurekh_aplic_read(
            state: *mut u64,
            state_length: usize,
            offset: u64,
            out: *mut u64,
            out_length: usize,
        ) -> u64;

        pub fn yasmurekh_aplic_forward(
            state: *mut u64,
            state_length: usize,
            out: *mut u64,
            out_length: usize,
        ) -> u64;

        pub fn yasmurekh_aplic_claim(
            state: *mut u64,
            state_length: usize,
            hart: u64,
            out: *mut u64,
            out_length: usize,
        ) -> u64;

        pub fn yasmurekh_aplic_signal(
            state: *mut u64,
            state_length: usize,
            hart: u64,
            out: *mut u64,
            out_length: usize,
        ) -> u64;
    }
}

/// Words of a domain's state.
pub const DOMAIN_WORDS: usize = 87;

/// The place of the word whose lowest bit is the delivery mode: 0 message, 1 direct.
pub const DELIVERY_WORD: usize = 7;

/// Flag of a request: a process_id is given.
const PROCESS: u64 = 1;
/// Flag of a request: supervisor.
const SUPERVISOR: u64 = 2;

const fn access_number(access: Access) -> u64 {
    match access {
        Access::Read => 0,
        Access::Write => 1,
        Access::ReadForExecute => 2,
    }
}

/// A request's process and flags; without a process_id the process counts for nothing.
fn process_and_flags(request: &Request) -> (u64, u64) {
    let (process, given) = match request.process_id {
        Some(process) => (process, PROCESS),
        None => (0, 0),
    };
    let supervisor = match request.privilege {
        Privilege::User => 0,
        Privilege::Supervisor => SUPERVISOR,
    };
    (process, given | supervisor)
}

/// A request's words: kind, three values, stage.
pub fn request(memory: &mut Memory, settings: &Settings, request: &Request) -> [u64; 5] {
    let Memory { first, second } = memory;
    let (process, flags) = process_and_flags(request);
    let mut out = [UNWRITTEN; 5];
    // SAFETY: each pointer is that of a mutable slice, passed with that slice's length and borrowed
    // until the call is over. The windows' slices are two mutable borrows and `out` is a local, so no
    // two of the three share a byte. The routine is proved to touch nothing else, and to end, for
    // every value of the numbers.
    let status = unsafe {
        c::yasmurekh_request(
            first.start,
            first.bytes.as_mut_ptr(),
            first.bytes.len(),
            second.start,
            second.bytes.as_mut_ptr(),
            second.bytes.len(),
            settings.mode.0,
            settings.root,
            request.device_id,
            process,
            flags,
            access_number(request.access),
            request.address,
            request.length,
            request.data,
            out.as_mut_ptr(),
            out.len(),
        )
    };
    answer::done(status);
    out
}

/// A take's words, as a request's.
pub fn take(memory: &mut Memory, file: u64, identity: u64) -> [u64; 5] {
    let Memory { first, second } = memory;
    let mut out = [UNWRITTEN; 5];
    // SAFETY: as in `request`.
    let status = unsafe {
        c::yasmurekh_take(
            first.start,
            first.bytes.as_mut_ptr(),
            first.bytes.len(),
            second.start,
            second.bytes.as_mut_ptr(),
            second.bytes.len(),
            file,
            identity,
            out.as_mut_ptr(),
            out.len(),
        )
    };
    answer::done(status);
    out
}

/// A take of many's words, as a request's.
pub fn take_many(memory: &mut Memory, file: u64, doubleword: u64, mask: u64) -> [u64; 5] {
    let Memory { first, second } = memory;
    let mut out = [UNWRITTEN; 5];
    // All ones may be the answer, so these bits are none of the mask's. Under a mask of all ones they
    // are 0: left unwritten, it hands nothing out.
    out[1] = !mask;
    // SAFETY: as in `request`.
    let status = unsafe {
        c::yasmurekh_take_many(
            first.start,
            first.bytes.as_mut_ptr(),
            first.bytes.len(),
            second.start,
            second.bytes.as_mut_ptr(),
            second.bytes.len(),
            file,
            doubleword,
            mask,
            out.as_mut_ptr(),
            out.len(),
        )
    };
    answer::done(status);
    out
}

/// A report's words: refusal, count, then 32 pairs of pending and enable.
pub fn report(memory: &Memory, file: u64) -> [u64; 66] {
    let Memory { first, second } = memory;
    let mut out = [UNWRITTEN; 66];
    // SAFETY: as in `request`; the windows are passed to be read alone, and the routine is proved to
    // write nothing but `out`.
    let status = unsafe {
        c::yasmurekh_report(
            first.start,
            first.bytes.as_ptr(),
            first.bytes.len(),
            second.start,
            second.bytes.as_ptr(),
            second.bytes.len(),
            file,
            out.as_mut_ptr(),
            out.len(),
        )
    };
    answer::done(status);
    out
}

/// A wire change: done, or the refusal.
pub fn aplic_wire(state: &mut [u64; DOMAIN_WORDS], source: u64, high: bool) -> Result<(), Refusal> {
    // SAFETY: the pointer is that of a mutable array, passed with its length and borrowed until the
    // call is over. The routine is proved to touch nothing else, and to end, for every value of the
    // words and the numbers.
    let status = unsafe {
        c::yasmurekh_aplic_wire(state.as_mut_ptr(), state.len(), source, u64::from(high))
    };
    answer::wired(status)
}

/// A write of a register.
pub fn aplic_write(state: &mut [u64; DOMAIN_WORDS], offset: u64, value: u32) {
    // SAFETY: as in `aplic_wire`.
    let status =
        unsafe { c::yasmurekh_aplic_write(state.as_mut_ptr(), state.len(), offset, value) };
    answer::done(status);
}

/// A routine of the face that is given one number and hands out one word.
type Asked = unsafe extern "C" fn(*mut u64, usize, u64, *mut u64, usize) -> u64;

/// Such a routine's status and word.
fn ask(asked: Asked, state: &mut [u64; DOMAIN_WORDS], number: u64) -> (u64, u64) {
    let mut out = [UNWRITTEN; 1];
    // SAFETY: as in `aplic_wire`, for each of the three that this is called with; `out` is a local, so
    // the two share no byte.
    let status = unsafe {
        asked(
            state.as_mut_ptr(),
            state.len(),
            number,
            out.as_mut_ptr(),
            out.len(),
        )
    };
    (status, out[0])
}

/// A read of a register: its 32 bits.
pub fn aplic_read(state: &mut [u64; DOMAIN_WORDS], offset: u64) -> u32 {
    let (status, value) = ask(c::yasmurekh_aplic_read, state, offset);
    answer::done(status);
    answer::register(value)
}

/// A claim of a hart: the value of its claimi, or the refusal.
pub fn aplic_claim(state: &mut [u64; DOMAIN_WORDS], hart: u64) -> Result<u32, Refusal> {
    let (status, value) = ask(c::yasmurekh_aplic_claim, state, hart);
    answer::of_hart(status)?;
    Ok(answer::register(value))
}

/// Whether a hart is signalled, or the refusal.
pub fn aplic_signal(state: &mut [u64; DOMAIN_WORDS], hart: u64) -> Result<bool, Refusal> {
    let (status, value) = ask(c::yasmurekh_aplic_signal, state, hart);
    answer::of_hart(status)?;
    Ok(answer::bit(value))
}

/// A forward's words: 1 or 0, hart index, guest index, identity.
pub fn aplic_forward(state: &mut [u64; DOMAIN_WORDS]) -> [u64; 4] {
    let mut out = [UNWRITTEN; 4];
    // SAFETY: as in `ask`.
    let status = unsafe {
        c::yasmurekh_aplic_forward(state.as_mut_ptr(), state.len(), out.as_mut_ptr(), out.len())
    };
    answer::done(status);
    out
}

#[cfg(test)]
mod tests {
    use super::{c, DELIVERY_WORD, DOMAIN_WORDS};

    /// Two windows of a page, one after the other, full of ones.
    type Pages = [[u8; 4096]; 2];
    const FULL: Pages = [[0xFF; 4096]; 2];

    /// A request of 4 bytes in mode Off with these flags and access.
    fn raw_request(flags: u64, access: u64, out: &mut [u64]) -> (u64, Pages) {
        let mut pages = FULL;
        let [first, second] = &mut pages;
        // SAFETY: as in `super::request`.
        let status = unsafe {
            c::yasmurekh_request(
                0,
                first.as_mut_ptr(),
                first.len(),
                4096,
                second.as_mut_ptr(),
                second.len(),
                0,
                0,
                0,
                0,
                flags,
                access,
                0,
                4,
                0,
                out.as_mut_ptr(),
                out.len(),
            )
        };
        (status, pages)
    }

    /// A take of identity 0 of the file at an address.
    fn raw_take(file: u64, out: &mut [u64]) -> (u64, Pages) {
        let mut pages = FULL;
        let [first, second] = &mut pages;
        // SAFETY: as in `super::take`.
        let status = unsafe {
            c::yasmurekh_take(
                0,
                first.as_mut_ptr(),
                first.len(),
                4096,
                second.as_mut_ptr(),
                second.len(),
                file,
                0,
                out.as_mut_ptr(),
                out.len(),
            )
        };
        (status, pages)
    }

    /// A take of many of all of the file's first doubleword.
    fn raw_take_many(file: u64, out: &mut [u64]) -> (u64, Pages) {
        let mut pages = FULL;
        let [first, second] = &mut pages;
        // SAFETY: as in `super::take_many`.
        let status = unsafe {
            c::yasmurekh_take_many(
                0,
                first.as_mut_ptr(),
                first.len(),
                4096,
                second.as_mut_ptr(),
                second.len(),
                file,
                0,
                u64::MAX,
                out.as_mut_ptr(),
                out.len(),
            )
        };
        (status, pages)
    }

    /// A report of the file at an address.
    fn raw_report(file: u64, out: &mut [u64]) -> u64 {
        let [first, second] = &FULL;
        // SAFETY: as in `super::report`.
        unsafe {
            c::yasmurekh_report(
                0,
                first.as_ptr(),
                first.len(),
                4096,
                second.as_ptr(),
                second.len(),
                file,
                out.as_mut_ptr(),
                out.len(),
            )
        }
    }

    #[test]
    fn short_output_changes_nothing() {
        for length in 0..5 {
            let mut out = [7; 4];
            let short = &mut out[..length.min(4)];
            assert_eq!(raw_request(0, 0, short), (1, FULL));
            for file in [0, 4096] {
                assert_eq!(raw_take(file, short), (1, FULL));
                assert_eq!(raw_take_many(file, short), (1, FULL));
            }
            assert_eq!(out, [7; 4]);
        }
        let mut out = [7; 65];
        for length in [0, 5, 65] {
            for file in [0, 4096] {
                assert_eq!(raw_report(file, &mut out[..length]), 1);
            }
        }
        assert_eq!(out, [7; 65]);
    }

    #[test]
    fn a_pointer_to_no_bytes_is_not_looked_at() {
        let nothing = core::ptr::null_mut();
        let mut out = [7; 5];
        let mut page = FULL[0];
        let mut make = |file| {
            // SAFETY: as in `super::take`; nothing is read or written through the other pointer.
            let status = unsafe {
                let (lent, room) = (page.as_mut_ptr(), out.as_mut_ptr());
                match file {
                    0 => c::yasmurekh_take(0, lent, 4096, 512, nothing, 0, file, 0, room, 5),
                    _ => c::yasmurekh_take(0, nothing, 0, file, lent, 4096, file, 1, room, 5),
                }
            };
            (status, out)
        };
        assert_eq!(make(0), (0, [5, 2001, 0, 0, 0])); // the empty one starts in a page
        assert_eq!(make(4096), (0, [6, 1, 0, 0, 0]));
        assert_eq!(page[0], 0b1111_1101);
        let mut out = [7; 5];
        let (lent, room) = (page.as_mut_ptr(), out.as_mut_ptr());
        // SAFETY: as in `super::take_many`; nothing is read or written through the other pointer.
        let status = unsafe {
            c::yasmurekh_take_many(0, nothing, 0, 4096, lent, 4096, 4096, 0, 0x83, room, 5)
        };
        assert_eq!((status, out), (0, [6, 0x81, 0, 0, 0]));
        assert_eq!(page[0], 0b0111_1100);
    }

    #[test]
    fn long_output_keeps_its_end() {
        let mut out = [7; 7];
        assert_eq!(raw_request(0, 0, &mut out), (0, FULL));
        assert_eq!(out, [4, 256, 0, 0, 0, 7, 7]);
        let (status, pages) = raw_take(4096, &mut out);
        assert_eq!((status, out), (0, [6, 1, 0, 0, 0, 7, 7]));
        assert_eq!((pages[0], pages[1][0]), (FULL[0], 0xFE));
        assert_eq!(pages[1][1..], FULL[1][1..]);
        let (status, pages) = raw_take_many(4096, &mut out);
        assert_eq!((status, out), (0, [6, u64::MAX, 0, 0, 0, 7, 7]));
        assert_eq!((pages[0], &pages[1][..8]), (FULL[0], &[0; 8][..]));
        assert_eq!(pages[1][8..], FULL[1][8..]);
        let mut out = [7; 68];
        assert_eq!(raw_report(4096, &mut out), 0);
        assert_eq!(out[..2], [0, 2048]);
        assert_eq!(out[65..], [u64::MAX, 7, 7]);
    }

    #[test]
    fn unknown_access_or_flag_is_2010() {
        for (flags, access) in [(0, 3), (0, u64::MAX), (4, 0), (7, 1), (u64::MAX, 2), (8, 9)] {
            let mut out = [7; 5];
            assert_eq!(raw_request(flags, access, &mut out), (0, FULL));
            assert_eq!(out, [5, 2010, 0, 0, 0]);
        }
    }

    /// Words that are no domain that the architecture describes, and numbers to give with them.
    struct Numbers(u64);

    impl Numbers {
        fn next(&mut self) -> u64 {
            self.0 = self.0.wrapping_add(0x9E37_79B9_7F4A_7C15);
            let mixed = (self.0 ^ (self.0 >> 31)).wrapping_mul(0xBF58_476D_1CE4_E5B9);
            mixed ^ (mixed >> 29)
        }

        /// A number of any size.
        fn any(&mut self) -> u64 {
            self.next() >> (self.next() % 64)
        }
    }

    /// The six calls over a state of any length and any words, with these numbers; the statuses.
    fn six_calls(state: &mut [u64], numbers: [u64; 2], out: &mut [u64]) -> [u64; 6] {
        let [first, second] = numbers;
        let (words, length) = (state.as_mut_ptr(), state.len());
        let (given, room) = (out.as_mut_ptr(), out.len());
        // SAFETY: as in `super::ask`, with a slice's own length.
        unsafe {
            [
                c::yasmurekh_aplic_wire(words, length, first, second),
                c::yasmurekh_aplic_write(words, length, first, second as u32),
                c::yasmurekh_aplic_read(words, length, first, given, room),
                c::yasmurekh_aplic_claim(words, length, first, given, room),
                c::yasmurekh_aplic_signal(words, length, first, given, room),
                c::yasmurekh_aplic_forward(words, length, given, room),
            ]
        }
    }

    #[test]
    fn short_state_changes_nothing() {
        // Source 0 and hart 64 would be refused: the length is looked at first.
        for number in [0, 5, 64] {
            for length in [0, 1, DOMAIN_WORDS - 1] {
                let mut state = [u64::MAX; DOMAIN_WORDS];
                let mut out = [7; 4];
                let found = six_calls(&mut state[..length], [number, 1], &mut out);
                assert_eq!((found, out), ([1; 6], [7; 4]));
                assert_eq!(state, [u64::MAX; DOMAIN_WORDS]);
            }
        }
    }

    #[test]
    fn short_output_of_a_domain_changes_nothing() {
        let mut state = [u64::MAX; DOMAIN_WORDS];
        for length in 0..4 {
            let mut out = [7; 4];
            // SAFETY: as in `super::aplic_forward`.
            let status = unsafe {
                c::yasmurekh_aplic_forward(
                    state.as_mut_ptr(),
                    state.len(),
                    out.as_mut_ptr(),
                    length,
                )
            };
            assert_eq!((status, out), (1, [7; 4]));
            assert_eq!(state, [u64::MAX; DOMAIN_WORDS]);
        }
        let (words, length) = (state.as_mut_ptr(), state.len());
        // Hart 16 would be refused: the length is looked at first.
        for number in [0, 16] {
            let nothing = core::ptr::null_mut();
            // SAFETY: as in `super::ask`; nothing is read or written through the last pointer.
            let found = unsafe {
                [
                    c::yasmurekh_aplic_read(words, length, number, nothing, 0),
                    c::yasmurekh_aplic_claim(words, length, number, nothing, 0),
                    c::yasmurekh_aplic_signal(words, length, number, nothing, 0),
                ]
            };
            assert_eq!(found, [1; 3]);
        }
        assert_eq!(state, [u64::MAX; DOMAIN_WORDS]);
    }

    #[test]
    fn any_level_but_0_is_high() {
        for level in [1, 2, 1 << 32, u64::MAX] {
            let mut state = [0; DOMAIN_WORDS];
            super::aplic_write(&mut state, 4 * 63, 6);
            // SAFETY: as in `super::aplic_wire`.
            let status =
                unsafe { c::yasmurekh_aplic_wire(state.as_mut_ptr(), state.len(), 63, level) };
            assert_eq!(status, 0);
            assert_eq!(super::aplic_read(&mut state, 0x1D04), 1 << 31);
            // SAFETY: as in `super::aplic_wire`.
            let status = unsafe { c::yasmurekh_aplic_wire(state.as_mut_ptr(), state.len(), 63, 0) };
            assert_eq!(status, 0);
            assert_eq!(super::aplic_read(&mut state, 0x1D04), 0);
        }
    }

    #[test]
    fn any_words_are_answered_and_the_end_is_kept() {
        let mut numbers = Numbers(1);
        for round in 0..20_000 {
            let mut state = [0; DOMAIN_WORDS + 5];
            for word in &mut state {
                *word = match round % 3 {
                    0 => numbers.next(),
                    1 => numbers.any(),
                    _ => u64::MAX,
                };
            }
            let end = [0, 1, 2, 3, 4].map(|place| state[DOMAIN_WORDS + place]);
            let mut out = [7; 6];
            let mut number = numbers.any() % 0x4300;
            if round % 4 == 0 {
                number = numbers.any();
            }
            let mode = state[DELIVERY_WORD];
            let found = six_calls(&mut state, [number, numbers.any()], &mut out);
            let wire = if (1..64).contains(&number) { 0 } else { 2014 };
            let hart = if number < 16 { 0 } else { 2014 };
            assert_eq!(found, [wire, 0, 0, hart, hart, 0]);
            assert_eq!(state[DOMAIN_WORDS..], end);
            assert_eq!(state[DELIVERY_WORD], mode);
            assert_eq!(out[4..], [7, 7]);
            assert!(out[0] <= 1 && out[0] == 1 || out[..4] == [0; 4]);
        }
    }
}
