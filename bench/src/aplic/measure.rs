//! The two programs over a row: compared call by call, and run over it.

use super::program::{Forwarded, Plain, Program, Proved, State};
use super::rows::{Call, Kind, Row};
use crate::timing::Measured;
use yasmurekh_reference::aplic::Register;

/// A program, by its one call and by its loop over a row's calls.
#[derive(Clone, Copy)]
pub struct Side {
    pub name: &'static str,
    pub once: fn(&mut State, &Call) -> Forwarded,
    run: fn(&Row, &mut State) -> u64,
}

const fn side<P: Program>(name: &'static str) -> Side {
    Side {
        name,
        once: once::<P>,
        run: run::<P>,
    }
}

/// The proved library, then the plain program.
pub const BOTH: [Side; 2] = [side::<Proved>("proved"), side::<Plain>("plain")];

/// The one number that a call of this kind answers; a forward has four.
#[inline(always)]
fn number<P: Program>(kind: Kind, state: &mut State, call: &Call) -> u64 {
    let number = u64::from(call.number);
    match kind {
        Kind::Wire => P::wire(state, number, call.value != 0),
        Kind::Read => P::read(state, number),
        Kind::Write => {
            P::write(state, number, call.value);
            0
        }
        Kind::Claim => P::claim(state, number),
        Kind::Signal => P::signal(state, number),
        Kind::Forward => 0,
    }
}

fn once<P: Program>(state: &mut State, call: &Call) -> Forwarded {
    match call.kind {
        Kind::Forward => P::forward(state),
        kind => [number::<P>(kind, state, call), 0, 0, 0],
    }
}

/// The sum with a call's answer. All numbers of an answer count, so that none is left uncomputed.
#[inline(always)]
fn summed<P: Program>(kind: Kind, state: &mut State, sum: u64, call: &Call) -> u64 {
    let answer = match kind {
        Kind::Forward => {
            let [first, second, third, fourth] = P::forward(state);
            first ^ second.rotate_left(8) ^ third.rotate_left(16) ^ fourth.rotate_left(24)
        }
        kind => number::<P>(kind, state, call),
    };
    sum.wrapping_add(answer)
}

/// All calls of a row on one side. One loop for each kind where the row has one alone, so that a call
/// costs no look at its kind.
#[inline(never)]
fn run<P: Program>(row: &Row, state: &mut State) -> u64 {
    let calls = row.calls.iter();
    match row.kind {
        Some(Kind::Wire) => calls.fold(0, |sum, call| summed::<P>(Kind::Wire, state, sum, call)),
        Some(Kind::Read) => calls.fold(0, |sum, call| summed::<P>(Kind::Read, state, sum, call)),
        Some(Kind::Write) => calls.fold(0, |sum, call| summed::<P>(Kind::Write, state, sum, call)),
        Some(Kind::Forward) => {
            calls.fold(0, |sum, call| summed::<P>(Kind::Forward, state, sum, call))
        }
        Some(Kind::Claim) => calls.fold(0, |sum, call| summed::<P>(Kind::Claim, state, sum, call)),
        Some(Kind::Signal) => {
            calls.fold(0, |sum, call| summed::<P>(Kind::Signal, state, sum, call))
        }
        None => calls.fold(0, |sum, call| summed::<P>(call.kind, state, sum, call)),
    }
}

impl Measured for Row {
    type Side = Side;
    type State = State;

    fn calls(&self) -> usize {
        self.calls.len()
    }

    fn start(&self) -> State {
        let mut state = State::new(self.delivery);
        for call in &self.set_up {
            for side in BOTH {
                (side.once)(&mut state, call);
            }
        }
        state
    }

    fn run(&self, side: Side, state: &mut State) -> u64 {
        (side.run)(self, state)
    }
}

/// Each call of a row on both sides, with the same answer, one that the row is named after, and the
/// same registers after them.
pub fn compare(row: &Row) -> Result<(), String> {
    let [proved, plain] = BOTH;
    let mut state = row.start();
    for call in &row.calls {
        let answer = (proved.once)(&mut state, call);
        let other = (plain.once)(&mut state, call);
        if answer != other || !(row.expected)(call, answer) {
            return Err(format!("{}: {call:x?}: {answer:?}, {other:?}", row.name));
        }
    }
    for register in Register::all() {
        let call = Call::read(register.offset() as u32);
        if (proved.once)(&mut state, &call) != (plain.once)(&mut state, &call) {
            return Err(format!("{}: {} differs", row.name, register.name()));
        }
    }
    Ok(())
}
