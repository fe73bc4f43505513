//! The plain program and the proved library against the reference program, over generated lists.

use super::program::{Forwarded, Plain, Program, Proved, State};
use yasmurekh_reference::aplic::{list, Answer, Call, Domain};

/// The words of the reference's answer.
fn numbers(answer: Answer) -> Forwarded {
    match answer {
        Answer::Done | Answer::Forwarded(None) => [0; 4],
        Answer::Refused(number) => [number, 0, 0, 0],
        Answer::Value(value) => [u64::from(value), 0, 0, 0],
        Answer::Signalled(signalled) => [u64::from(signalled), 0, 0, 0],
        Answer::Forwarded(Some(message)) => [
            1,
            u64::from(message.hart_index),
            u64::from(message.guest_index),
            u64::from(message.identity),
        ],
    }
}

fn answer<P: Program>(state: &mut State, call: &Call) -> Forwarded {
    match *call {
        Call::Wire { source, high } => [P::wire(state, source, high), 0, 0, 0],
        Call::Read { offset } => [P::read(state, offset), 0, 0, 0],
        Call::Write { offset, value } => {
            P::write(state, offset, value);
            [0; 4]
        }
        Call::Forward => P::forward(state),
        Call::Claim { hart } => [P::claim(state, hart), 0, 0, 0],
        Call::Signal { hart } => [P::signal(state, hart), 0, 0, 0],
    }
}

/// So many lists; gives the number of calls.
pub fn check(seed: u64, lists: u64) -> Result<usize, String> {
    let mut calls = 0;
    for index in 0..lists {
        let list = list(seed, index);
        let mut reference = Domain::new(list.delivery);
        let mut state = State::new(list.delivery);
        for call in list.calls {
            let expected = numbers(reference.run(&call));
            let proved = answer::<Proved>(&mut state, &call);
            let plain = answer::<Plain>(&mut state, &call);
            if proved != expected || plain != expected {
                return Err(format!(
                    "seed {seed}, list {index}: {call:x?}: reference {expected:?}, proved {proved:?}, plain {plain:?}"
                ));
            }
            calls += 1;
        }
    }
    Ok(calls)
}
