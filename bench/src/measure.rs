//! Programs over a row: compared call by call, and run over it.

use crate::call::{Call, Memory, Numbers, Settings};
use crate::program::Program;
use crate::rows::{Kind, Row};
use crate::timing::Measured;
use std::hint::black_box;

/// A program, by its one call and by its loop over a row's calls.
#[derive(Clone, Copy)]
pub struct Side {
    pub name: &'static str,
    once: fn(Kind, &mut Memory, &Settings, &Call) -> Numbers,
    run: fn(&Row, &mut Memory) -> u64,
}

pub const fn side<P: Program>(name: &'static str) -> Side {
    Side {
        name,
        once: once::<P>,
        run: run::<P>,
    }
}

#[inline]
fn once<P: Program>(kind: Kind, memory: &mut Memory, settings: &Settings, call: &Call) -> Numbers {
    match kind {
        Kind::Requests => P::request(memory, settings, call),
        Kind::Takes => P::take(memory, call.address, u64::from(call.value)),
        Kind::TakesOfMany { fresh } => at_once::<P>(memory, call, fresh),
        Kind::SingleTakes { fresh } => singly::<P>(memory, call, fresh),
    }
}

/// Makes bits of a call's doubleword pending, as messages before the call would: in one way for all
/// sides, by the whole doubleword, so that no side's load waits for a narrower store.
#[inline(always)]
fn refill(memory: &mut Memory, call: &Call, fresh: u64) {
    let Memory { first, second } = memory;
    let in_first = call.address.wrapping_sub(first.start) < first.bytes.len() as u64;
    let window = if in_first { first } else { second };
    let place = (call.address - window.start) as usize + 16 * call.value as usize;
    let word = window.bytes[place..].first_chunk_mut();
    let word = word.expect("a file of a window");
    *word = (u64::from_le_bytes(*word) | fresh).to_le_bytes();
}

/// A take of many, after the bits came in.
#[inline(always)]
fn at_once<P: Program>(memory: &mut Memory, call: &Call, fresh: u64) -> Numbers {
    refill(memory, call, fresh);
    P::take_many(memory, call.address, u64::from(call.value), call.mask())
}

/// The same by a take for each bit of the mask.
#[inline(always)]
fn singly<P: Program>(memory: &mut Memory, call: &Call, fresh: u64) -> Numbers {
    refill(memory, call, fresh);
    let first = 64 * u64::from(call.value);
    let (mut taken, mut rest) = (0, call.mask());
    while rest != 0 {
        let bit = rest.trailing_zeros();
        let answer = P::take(memory, call.address, first + u64::from(bit));
        if answer[0] != 6 {
            return answer;
        }
        taken |= answer[1] << bit;
        rest &= rest - 1;
    }
    [6, taken, 0, 0, 0]
}

/// All numbers of an answer count, so that none is left uncomputed.
#[inline]
fn summed(sum: u64, numbers: Numbers) -> u64 {
    let [kind, first, second, third, stage] = numbers;
    let answer = kind ^ first ^ second.rotate_left(8) ^ third.rotate_left(16) ^ stage;
    sum.wrapping_add(answer)
}

/// All calls of a row on one side; gives the sum of the answers. One loop for each kind, so that
/// the compiler may do with each program what it can.
#[inline(never)]
fn run<P: Program>(row: &Row, memory: &mut Memory) -> u64 {
    let settings = black_box(row.world.settings);
    let calls = row.calls.iter();
    match row.kind {
        Kind::Requests => calls.fold(0, |sum, call| {
            summed(sum, once::<P>(Kind::Requests, memory, &settings, call))
        }),
        Kind::Takes => calls.fold(0, |sum, call| {
            summed(sum, once::<P>(Kind::Takes, memory, &settings, call))
        }),
        Kind::TakesOfMany { fresh } => run_at_once::<P>(&row.calls, memory, fresh),
        Kind::SingleTakes { fresh } => run_singly::<P>(&row.calls, memory, fresh),
    }
}

/// Takes of many; a function of its own, so that the other loops keep their registers.
#[inline(never)]
fn run_at_once<P: Program>(calls: &[Call], memory: &mut Memory, fresh: u64) -> u64 {
    calls.iter().fold(0, |sum, call| {
        summed(sum, at_once::<P>(memory, call, fresh))
    })
}

/// Single takes for the bits of a mask.
#[inline(never)]
fn run_singly<P: Program>(calls: &[Call], memory: &mut Memory, fresh: u64) -> u64 {
    calls
        .iter()
        .fold(0, |sum, call| summed(sum, singly::<P>(memory, call, fresh)))
}

/// Each call on two sides, with the same answer, of the row's kind, and the same bytes after them.
fn compare_two(row: &Row, ours: Side, theirs: Side) -> Result<(), String> {
    let settings = row.world.settings;
    let mut memories = [row.world.memory(), row.world.memory()];
    let mut seen = vec![false; row.answers.len()];
    for call in &row.calls {
        let answer = (ours.once)(row.kind, &mut memories[0], &settings, call);
        let other = (theirs.once)(row.kind, &mut memories[1], &settings, call);
        if answer != other {
            return Err(format!("{}: {call:x?}: {answer:?}, {other:?}", row.name));
        }
        let Some(place) = row.answers.iter().position(|kind| *kind == answer[0]) else {
            return Err(format!("{}: {call:x?}: answered {answer:?}", row.name));
        };
        seen[place] = true;
        if row.number.is_some_and(|number| number != answer[1]) {
            return Err(format!("{}: {call:x?}: number {}", row.name, answer[1]));
        }
    }
    if memories[0] != memories[1] {
        return Err(format!("{}: the windows differ", row.name));
    }
    if seen.contains(&false) {
        return Err(format!("{}: an answer that never came", row.name));
    }
    Ok(())
}

/// Why an earlier library can't run a row, if it can't: it has one window and the row two; or it has no
/// take of many; or it takes the row's contexts for misconfigured (259), since a mode or a mask came after
/// it, a fault that no row asks for; or it stores where the row asks for refusal 2012.
pub fn unknown(row: &Row, side: Side) -> Option<&'static str> {
    let mut memory = row.world.memory();
    if cfg!(before_windows = "one") && !memory.second.bytes.is_empty() {
        return Some("one window only");
    }
    if !cfg!(before_take_many) && matches!(row.kind, Kind::TakesOfMany { .. }) {
        return Some("no take of many");
    }
    let first = (side.once)(row.kind, &mut memory, &row.world.settings, &row.calls[0]);
    if first[0] == 2 && row.number == Some(2012) {
        return Some("stored: no refusal 2012");
    }
    (first[..2] == [4, 259]).then_some("not served: fault 259")
}

/// The first side against each of the others.
pub fn compare(row: &Row, sides: &[Side]) -> Result<(), String> {
    sides[1..]
        .iter()
        .try_for_each(|other| compare_two(row, sides[0], *other))
}

impl Measured for Row {
    type Side = Side;
    type State = Memory;

    fn calls(&self) -> usize {
        self.calls.len()
    }

    fn start(&self) -> Memory {
        self.world.memory()
    }

    fn run(&self, side: Side, memory: &mut Memory) -> u64 {
        (side.run)(self, memory)
    }
}
