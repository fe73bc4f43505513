//! One list of a domain's calls through both sides.

use std::fmt;

use yasmurekh_reference::aplic::text::{write_answer, write_call, write_list};
use yasmurekh_reference::aplic::{
    list, Answer, Call, Coverage, Delivery, Domain, HartRegister, List, Mask, Mode, Register,
};

use crate::aplic::shrink::shrink;
use crate::aplic::side::Side;
use crate::run::Subject;

/// The first difference of a list; calls are counted from 0.
#[derive(Clone, Debug, PartialEq, Eq)]
pub enum Difference {
    /// A call's answers differ.
    Answer {
        call: usize,
        library: Answer,
        reference: Answer,
    },
    /// The library's state isn't what it was, and the call may change nothing.
    Changed { call: usize },
    /// The library's state isn't what it was before it was read out after so many calls.
    ReadOutChanged { calls: usize },
    /// All registers and signals read out after so many calls: a value differs.
    ReadOut {
        calls: usize,
        call: Call,
        library: Answer,
        reference: Answer,
    },
    /// After the list, each source made Level1 so that its wire shows: a call's answers differ.
    Wires {
        call: Call,
        library: Answer,
        reference: Answer,
    },
}

impl fmt::Display for Difference {
    fn fmt(&self, f: &mut fmt::Formatter<'_>) -> fmt::Result {
        let (library, reference) = match self {
            Difference::Changed { call } => {
                return write!(f, "call {call}: the library's state changed");
            }
            Difference::ReadOutChanged { calls } => {
                let what = "reading all registers changed the library's state";
                return write!(f, "after {calls} calls, {what}");
            }
            Difference::Answer {
                call,
                library,
                reference,
            } => {
                write!(f, "call {call}: ")?;
                (library, reference)
            }
            Difference::ReadOut {
                calls,
                call,
                library,
                reference,
            } => {
                write!(f, "after {calls} calls, {}: ", name(call))?;
                (library, reference)
            }
            Difference::Wires {
                call,
                library,
                reference,
            } => {
                let call = write_call(call);
                write!(f, "after the list, with all sources Level1, {call}: ")?;
                (library, reference)
            }
        };
        let [library, reference] = [library, reference].map(|answer| write_answer(*answer));
        write!(f, "library {library}, reference {reference}")
    }
}

/// A register's name where it is read, else the call.
fn name(call: &Call) -> String {
    let register = match call {
        Call::Read { offset } => Register::at(*offset),
        _ => None,
    };
    register.map_or_else(|| write_call(call), Register::name)
}

/// How many calls are made between two times that all registers are read out.
const INTERVAL: usize = 8;

/// Both sides: the library's domain, and the reference with what its calls meet, if asked.
#[derive(Clone, Debug)]
pub struct Comparison<L> {
    side: L,
    pub coverage: Option<Coverage>,
    /// What is read out: every register but claimi, whose read changes something, and every signal.
    shown: Vec<Call>,
}

/// The two domains of a list that runs.
struct Pair<L> {
    library: L,
    reference: Domain,
}

impl<L: Side> Pair<L> {
    /// The two answers, where they differ.
    fn differ(&mut self, call: &Call) -> Option<[Answer; 2]> {
        let answers = [self.library.call(call), self.reference.run(call)];
        (answers[0] != answers[1]).then_some(answers)
    }
}

impl<L: Side> Comparison<L> {
    pub fn new(side: L, coverage: Option<Coverage>) -> Self {
        let registers = Register::all().into_iter();
        let shown = registers
            .filter(|register| !matches!(register, Register::Hart(_, HartRegister::Claimi)));
        let reads = shown.map(|register| Call::Read {
            offset: register.offset(),
        });
        let signals = (0..16).map(|hart| Call::Signal { hart });
        Comparison {
            side,
            coverage,
            shown: reads.chain(signals).collect(),
        }
    }

    /// Runs a list through both sides; gives the number of registers and signals read out.
    ///
    /// After each call the answers are compared, and the library's state with that before the call
    /// where nothing may change. At intervals and at the end all registers and signals are read out of
    /// both; then the wires, which no register shows of an inactive or detached source.
    pub fn list(&mut self, list: &List) -> Result<u64, Difference> {
        let mut pair = Pair {
            library: self.side.reset(list.delivery),
            reference: Domain::new(list.delivery),
        };
        let calls = &list.calls;
        let mut times = 1;
        for (number, call) in calls.iter().enumerate() {
            self.call(&mut pair, number, call)?;
            if number % INTERVAL == INTERVAL - 1 {
                self.read_out(&mut pair, number + 1)?;
                times += 1;
            }
        }
        self.read_out(&mut pair, calls.len())?;
        wires(&mut pair)?;
        Ok(times * self.shown.len() as u64)
    }

    fn call(&mut self, pair: &mut Pair<L>, number: usize, call: &Call) -> Result<(), Difference> {
        let before = pair.library.clone();
        let was = is_claim(call).then(|| pair.reference.clone());
        let library = pair.library.call(call);
        let reference = match &mut self.coverage {
            None => pair.reference.run(call),
            Some(coverage) => coverage.call(&mut pair.reference, call),
        };
        if library != reference {
            return Err(Difference::Answer {
                call: number,
                library,
                reference,
            });
        }
        let delivery = pair.reference.delivery();
        let nothing_changes = match was {
            Some(was) => was == pair.reference,
            None => changes_nothing(call, reference, delivery),
        };
        if nothing_changes && before != pair.library {
            return Err(Difference::Changed { call: number });
        }
        Ok(())
    }

    /// Every register of both sides, and every signal; none of it changes the library's state.
    fn read_out(&self, pair: &mut Pair<L>, calls: usize) -> Result<(), Difference> {
        let before = pair.library.clone();
        for call in &self.shown {
            if let Some([library, reference]) = pair.differ(call) {
                return Err(Difference::ReadOut {
                    calls,
                    call: *call,
                    library,
                    reference,
                });
            }
        }
        match before == pair.library {
            true => Ok(()),
            false => Err(Difference::ReadOutChanged { calls }),
        }
    }
}

/// Claims, and reads of claimi; whether one changes anything is seen from the reference.
fn is_claim(call: &Call) -> bool {
    match call {
        Call::Claim { .. } => true,
        Call::Read { offset } => matches!(
            Register::at(*offset),
            Some(Register::Hart(_, HartRegister::Claimi))
        ),
        _ => false,
    }
}

/// Signals, reads, refusals, forwards of nothing, and writes where nothing can be written.
fn changes_nothing(call: &Call, answer: Answer, delivery: Delivery) -> bool {
    match (call, answer) {
        (_, Answer::Refused(_) | Answer::Forwarded(None) | Answer::Signalled(_)) => true,
        (Call::Read { .. }, _) => true,
        (Call::Write { offset, .. }, _) => match Register::at(*offset) {
            None => true,
            Some(Register::Hart(_, HartRegister::Topi | HartRegister::Claimi)) => true,
            Some(Register::Hart(..)) => delivery == Delivery::Message,
            Some(_) => false,
        },
        _ => false,
    }
}

/// Makes each source sensitive to a high level, and reads the rectified inputs, which are its wires.
fn wires<L: Side>(pair: &mut Pair<L>) -> Result<(), Difference> {
    let sources = (1..=63).map(|source| Call::Write {
        offset: Register::Sourcecfg(source).offset(),
        value: Mode::Level1.number(),
    });
    let inputs = [0, 1].map(|half| Call::Read {
        offset: Register::Mask(Mask::InClrip, half).offset(),
    });
    for call in sources.chain(inputs) {
        if let Some([library, reference]) = pair.differ(&call) {
            return Err(Difference::Wires {
                call,
                library,
                reference,
            });
        }
    }
    Ok(())
}

impl<L: Side> Subject for Comparison<L> {
    type List = List;
    type Difference = Difference;

    fn list(seed: u64, index: u64, calls: usize) -> List {
        let mut list = list(seed, index);
        list.calls.truncate(calls);
        list
    }

    fn calls(list: &List) -> usize {
        list.calls.len()
    }

    fn compare(&mut self, list: &List) -> Result<u64, Difference> {
        self.list(list)
    }

    fn shrink(list: List, holds: impl FnMut(&List) -> bool) -> List {
        shrink(list, holds)
    }

    fn text(index: u64, list: &List) -> String {
        write_list(index, list)
    }
}
