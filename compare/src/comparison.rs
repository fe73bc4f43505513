//! One list through both sides.

use std::fmt;

use yasmurekh_reference::generate::{self, Call, List};
use yasmurekh_reference::ledger::Ledger;
use yasmurekh_reference::memory::{Memory, Side as Which};
use yasmurekh_reference::text::{write_answer, write_list};
use yasmurekh_reference::{Answer, Report};

use crate::run::Subject;
use crate::shrink::shrink;
use crate::side::Side;

/// The first difference of a list; calls are counted from 0.
#[derive(Clone, Debug, PartialEq, Eq)]
pub enum Difference {
    /// A call's answers differ.
    Answer {
        call: usize,
        library: Answer,
        reference: Answer,
    },
    /// The answers are the same, and a byte of a window isn't.
    Byte { call: usize, byte: Byte },
    /// The ledger of the library's answers breaks a rule at a call.
    Ledger { call: usize, reason: String },
    /// The ledger of the library's answers doesn't close after the list.
    Close { reason: String },
    /// After the list, the reports of a file differ.
    Report {
        file: u64,
        library: Box<Report>,
        reference: Box<Report>,
    },
    /// After the list, the reported count of a file isn't the ledger's number of waiting marks.
    Count { file: u64, count: u64, ledger: u64 },
    /// After the list, a report of a file changed a byte.
    Reported { file: u64, byte: Byte },
}

/// A byte in which the two sides' windows differ.
#[derive(Clone, Copy, Debug, PartialEq, Eq)]
pub struct Byte {
    pub window: Which,
    pub offset: usize,
    pub library: u8,
    pub reference: u8,
}

impl Byte {
    /// The first byte in which they differ; both have the same windows.
    fn first(library: &Memory, reference: &Memory) -> Option<Byte> {
        Which::ALL.iter().copied().find_map(|window| {
            let [ours, theirs] = [library, reference].map(|memory| &memory.window(window).bytes);
            let offset = ours
                .iter()
                .zip(theirs)
                .position(|(left, right)| left != right)?;
            Some(Byte {
                window,
                offset,
                library: ours[offset],
                reference: theirs[offset],
            })
        })
    }
}

impl fmt::Display for Byte {
    fn fmt(&self, f: &mut fmt::Formatter<'_>) -> fmt::Result {
        write!(
            f,
            "byte {:#x} of the {} window: library {:#04x}, reference {:#04x}",
            self.offset,
            self.window.name(),
            self.library,
            self.reference
        )
    }
}

impl Difference {
    /// The call that shows the difference; none where it shows after the list.
    pub fn call(&self) -> Option<usize> {
        match self {
            Difference::Answer { call, .. }
            | Difference::Byte { call, .. }
            | Difference::Ledger { call, .. } => Some(*call),
            _ => None,
        }
    }
}

impl fmt::Display for Difference {
    fn fmt(&self, f: &mut fmt::Formatter<'_>) -> fmt::Result {
        match self {
            Difference::Answer {
                call,
                library,
                reference,
            } => {
                let library = write_answer(*library);
                let reference = write_answer(*reference);
                write!(f, "call {call}: library {library}, reference {reference}")
            }
            Difference::Byte { call, byte } => write!(f, "call {call}: {byte}"),
            Difference::Ledger { call, reason } => write!(f, "call {call}: ledger: {reason}"),
            Difference::Close { reason } => write!(f, "after the list: ledger: {reason}"),
            Difference::Report {
                file,
                library,
                reference,
            } => {
                write!(f, "after the list: report of {file}: ")?;
                write_report_difference(f, library, reference)
            }
            Difference::Count {
                file,
                count,
                ledger,
            } => write!(
                f,
                "after the list: report of {file}: count {count}, ledger {ledger}"
            ),
            Difference::Reported { file, byte } => {
                write!(f, "after the list: report of {file}: {byte}")
            }
        }
    }
}

/// The first word in which two reports differ.
fn write_report_difference(
    f: &mut fmt::Formatter<'_>,
    library: &Report,
    reference: &Report,
) -> fmt::Result {
    if (library.refusal, library.count) != (reference.refusal, reference.count) {
        return write!(
            f,
            "library refusal {} count {}, reference refusal {} count {}",
            library.refusal, library.count, reference.refusal, reference.count
        );
    }
    let pairs = library.pairs.iter().zip(&reference.pairs);
    let Some((place, (left, right))) = pairs.enumerate().find(|(_, (l, r))| l != r) else {
        return write!(f, "the same");
    };
    write!(
        f,
        "pair {place}: library {:x} {:x}, reference {:x} {:x}",
        left.pending, left.enable, right.pending, right.enable
    )
}

/// Both sides, with room for their windows.
#[derive(Clone, Debug, Default)]
pub struct Comparison<L, R> {
    pub library: L,
    pub reference: R,
    library_memory: Memory,
    reference_memory: Memory,
    files: Vec<u64>,
}

impl<L: Side, R: Side> Comparison<L, R> {
    pub fn new(library: L, reference: R) -> Self {
        Comparison {
            library,
            reference,
            library_memory: Memory::default(),
            reference_memory: Memory::default(),
            files: Vec::new(),
        }
    }

    /// Runs a list through both sides; gives the number of reports compared.
    ///
    /// After each call the answers and all bytes of both windows are compared and the ledger is fed
    /// with the library's answer. After the list the ledger is closed on the library's windows, and
    /// each file that a take of either kind or a store named is reported by both sides.
    pub fn list(&mut self, list: &List) -> Result<u64, Difference> {
        copy(&mut self.library_memory, &list.memory);
        copy(&mut self.reference_memory, &list.memory);
        self.files.clear();
        let mut ledger = Ledger::new(&list.memory);
        for (number, call) in list.calls.iter().enumerate() {
            self.call(number, call, &mut ledger)?;
        }
        ledger
            .close(&self.library_memory)
            .map_err(|reason| Difference::Close { reason })?;
        self.files.sort_unstable();
        self.files.dedup();
        for place in 0..self.files.len() {
            self.report(self.files[place], &ledger)?;
        }
        Ok(self.files.len() as u64)
    }

    fn call(&mut self, number: usize, call: &Call, ledger: &mut Ledger) -> Result<(), Difference> {
        let library = self.library.call(&mut self.library_memory, call);
        let reference = self.reference.call(&mut self.reference_memory, call);
        if library != reference {
            return Err(Difference::Answer {
                call: number,
                library,
                reference,
            });
        }
        if let Some(byte) = self.byte() {
            return Err(Difference::Byte { call: number, byte });
        }
        match (call, library) {
            (_, Answer::Stored { file, .. }) => self.files.push(file),
            (Call::Take { file, .. } | Call::TakeMany { file, .. }, _) => self.files.push(*file),
            _ => {}
        }
        let fed = ledger.feed(call, library);
        fed.map_err(|reason| Difference::Ledger {
            call: number,
            reason,
        })
    }

    /// The first byte in which the windows differ.
    fn byte(&self) -> Option<Byte> {
        if self.library_memory == self.reference_memory {
            return None;
        }
        Byte::first(&self.library_memory, &self.reference_memory)
    }

    fn report(&mut self, file: u64, ledger: &Ledger) -> Result<(), Difference> {
        let library = self.library.report(&mut self.library_memory, file);
        let reference = self.reference.report(&mut self.reference_memory, file);
        if library != reference {
            return Err(Difference::Report {
                file,
                library: Box::new(library),
                reference: Box::new(reference),
            });
        }
        if let Some(byte) = self.byte() {
            return Err(Difference::Reported { file, byte });
        }
        if library.refusal == 0 && library.count != ledger.waiting(file) {
            return Err(Difference::Count {
                file,
                count: library.count,
                ledger: ledger.waiting(file),
            });
        }
        Ok(())
    }
}

/// A copy in the room that is there.
fn copy(to: &mut Memory, from: &Memory) {
    for &window in Which::ALL {
        let (to, from) = (to.window_mut(window), from.window(window));
        to.start = from.start;
        to.bytes.clone_from(&from.bytes);
    }
}

impl<L: Side, R: Side> Subject for Comparison<L, R> {
    type List = List;
    type Difference = Difference;

    fn list(seed: u64, index: u64, calls: usize) -> List {
        let mut list = generate::list(seed, index);
        list.calls.truncate(calls);
        list
    }

    fn calls(list: &List) -> usize {
        list.calls.len()
    }

    fn compare(&mut self, list: &List) -> Result<u64, Difference> {
        self.list(list)
    }

    fn shrink(list: List, holds: impl FnMut(&List) -> bool) -> List {
        shrink(list, holds)
    }

    fn text(index: u64, list: &List) -> String {
        write_list(index, list)
    }
}
