//! The two programs, each called in the same way.

use super::plain;

use yasmurekh_reference::aplic::Delivery;

/// Words of a domain's state in the archive.
const WORDS: usize = 87;
/// The place of the word that is 1 where delivery is direct.
const DELIVERY: usize = 7;

/// The status of a refused wire, claim or signal.
const REFUSED: u64 = 2014;

/// A domain at reset for each program.
#[derive(Clone, Debug)]
pub struct State {
    words: [u64; WORDS],
    plain: plain::Domain,
}

impl State {
    pub fn new(delivery: Delivery) -> State {
        let direct = delivery == Delivery::Direct;
        let mut words = [0; WORDS];
        words[DELIVERY] = u64::from(direct);
        State {
            words,
            plain: plain::Domain::new(direct),
        }
    }
}

/// A forward's words: 1 or 0, hart index, guest index, identity.
pub type Forwarded = [u64; 4];

pub trait Program {
    fn wire(state: &mut State, source: u64, high: bool) -> u64;
    fn write(state: &mut State, offset: u64, value: u32);
    fn read(state: &mut State, offset: u64) -> u64;
    fn forward(state: &mut State) -> Forwarded;
    /// The value, or the refusal, which is no value.
    fn claim(state: &mut State, hart: u64) -> u64;
    /// 1, 0 or the refusal.
    fn signal(state: &mut State, hart: u64) -> u64;
}

/// The proved library, through its archive.
pub struct Proved;

/// The plain program.
pub struct Plain;

extern "C" {
    fn yasmurekh_aplic_wire(state: *mut u64, state_len: usize, source: u64, level: u64) -> u64;

    fn yasmurekh_aplic_write(state: *mut u64, state_len: usize, offset: u64, value: u32) -> u64;

    fn yasmurekh_aplic_read(
        state: *mut u64,
        state_len: usize,
        offset: u64,
        out: *mut u64,
        out_len: usize,
    ) -> u64;

    fn yasmurekh_aplic_forward(
        state: *mut u64,
        state_len: usize,
        out: *mut u64,
        out_len: usize,
    ) -> u64;

    fn yasmurekh_aplic_claim(
        state: *mut u64,
        state_len: usize,
        hart: u64,
        out: *mut u64,
        out_len: usize,
    ) -> u64;

    fn yasmurekh_aplic_signal(
        state: *mut u64,
        state_len: usize,
        hart: u64,
        out: *mut u64,
        out_len: usize,
    ) -> u64;
}

/// A routine of the archive that is given one number and hands out one word.
type Asked = unsafe extern "C" fn(*mut u64, usize, u64, *mut u64, usize) -> u64;

/// Such a routine's word, or its status where that isn't 0.
#[inline(always)]
fn ask(asked: Asked, state: &mut State, number: u64) -> u64 {
    let words = &mut state.words;
    let mut out = [0; 1];
    // Sound: the words and `out`, a local, are lent whole, each with its length.
    let status = unsafe {
        asked(
            words.as_mut_ptr(),
            WORDS,
            number,
            out.as_mut_ptr(),
            out.len(),
        )
    };
    status | out[0]
}

impl Program for Proved {
    #[inline]
    fn wire(state: &mut State, source: u64, high: bool) -> u64 {
        let words = &mut state.words;
        // Sound: the words are lent whole, with their number.
        unsafe { yasmurekh_aplic_wire(words.as_mut_ptr(), WORDS, source, u64::from(high)) }
    }

    #[inline]
    fn write(state: &mut State, offset: u64, value: u32) {
        let words = &mut state.words;
        // Sound: as above.
        unsafe { yasmurekh_aplic_write(words.as_mut_ptr(), WORDS, offset, value) };
    }

    #[inline]
    fn read(state: &mut State, offset: u64) -> u64 {
        ask(yasmurekh_aplic_read, state, offset)
    }

    #[inline]
    fn claim(state: &mut State, hart: u64) -> u64 {
        ask(yasmurekh_aplic_claim, state, hart)
    }

    #[inline]
    fn signal(state: &mut State, hart: u64) -> u64 {
        ask(yasmurekh_aplic_signal, state, hart)
    }

    #[inline]
    fn forward(state: &mut State) -> Forwarded {
        let words = &mut state.words;
        let mut out = [0; 4];
        // Sound: as above.
        unsafe { yasmurekh_aplic_forward(words.as_mut_ptr(), WORDS, out.as_mut_ptr(), out.len()) };
        out
    }
}

impl Program for Plain {
    #[inline]
    fn wire(state: &mut State, source: u64, high: bool) -> u64 {
        match state.plain.wire(source, high) {
            Ok(()) => 0,
            Err(plain::NoSource) => REFUSED,
        }
    }

    #[inline]
    fn write(state: &mut State, offset: u64, value: u32) {
        state.plain.write(offset, value);
    }

    #[inline]
    fn read(state: &mut State, offset: u64) -> u64 {
        u64::from(state.plain.read(offset))
    }

    #[inline]
    fn claim(state: &mut State, hart: u64) -> u64 {
        match state.plain.claim(hart) {
            Ok(value) => u64::from(value),
            Err(plain::NoHart) => REFUSED,
        }
    }

    #[inline]
    fn signal(state: &mut State, hart: u64) -> u64 {
        match state.plain.signal(hart) {
            Ok(signalled) => u64::from(signalled),
            Err(plain::NoHart) => REFUSED,
        }
    }

    #[inline]
    fn forward(state: &mut State) -> Forwarded {
        match state.plain.forward() {
            None => [0; 4],
            Some(message) => [
                1,
                u64::from(message.hart_index),
                u64::from(message.guest_index),
                u64::from(message.identity),
            ],
        }
    }
}
