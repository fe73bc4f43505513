//! The two sides of a comparison, in the types of the reference program.

use yasmurekh_reference::coverage::{run_call, Coverage};
use yasmurekh_reference::generate::Call;
use yasmurekh_reference::iommu::report_observed;
use yasmurekh_reference::mark::Mark;
use yasmurekh_reference::memory::{Memory, Window};
use yasmurekh_reference::{Access, Answer, Pair, Report, Request, Stage};

/// Something that answers calls over two windows.
pub trait Side {
    fn call(&mut self, memory: &mut Memory, call: &Call) -> Answer;

    /// May change nothing; the memory is lent so that it could.
    fn report(&mut self, memory: &mut Memory, file: u64) -> Report;
}

/// The proved library, through the Rust crate.
#[derive(Clone, Copy, Debug, Default)]
pub struct Library;

impl Side for Library {
    fn call(&mut self, memory: &mut Memory, call: &Call) -> Answer {
        let mut memory = lent(memory);
        match call {
            Call::Request {
                mode,
                root,
                request,
                data,
            } => {
                let settings = settings_for_library(*mode, *root);
                let request = request_for_library(request, *data);
                answer_of_library(yasmurekh::request(&mut memory, &settings, &request))
            }
            Call::Take { file, identity } => match yasmurekh::take(&mut memory, *file, *identity) {
                Ok(pending) => Answer::Taken(pending),
                Err(refusal) => Answer::Refused(refusal.number()),
            },
            Call::TakeMany {
                file,
                doubleword,
                mask,
            } => match yasmurekh::take_many(&mut memory, *file, *doubleword, *mask) {
                Ok(bits) => Answer::TakenMany(bits),
                Err(refusal) => Answer::Refused(refusal.number()),
            },
        }
    }

    fn report(&mut self, memory: &mut Memory, file: u64) -> Report {
        match yasmurekh::report(&lent(memory), file) {
            Ok(report) => Report {
                refusal: 0,
                count: report.count,
                pairs: report.pairs.map(|pair| Pair {
                    pending: pair.pending,
                    enable: pair.enable,
                }),
            },
            Err(refusal) => Report {
                refusal: refusal.number(),
                count: 0,
                pairs: [Pair::default(); 32],
            },
        }
    }
}

fn lent(memory: &mut Memory) -> yasmurekh::Memory<'_> {
    fn window(window: &mut Window) -> yasmurekh::Window<'_> {
        yasmurekh::Window::new(window.start, &mut window.bytes)
    }
    yasmurekh::Memory {
        first: window(&mut memory.first),
        second: window(&mut memory.second),
    }
}

fn settings_for_library(mode: u64, root: u64) -> yasmurekh::Settings {
    yasmurekh::Settings {
        mode: yasmurekh::Mode(mode),
        root,
    }
}

fn request_for_library(request: &Request, data: u32) -> yasmurekh::Request {
    yasmurekh::Request {
        device_id: request.device_id,
        process_id: request.process_id,
        privilege: match request.supervisor {
            true => yasmurekh::Privilege::Supervisor,
            false => yasmurekh::Privilege::User,
        },
        access: match request.access {
            Access::Read => yasmurekh::Access::Read,
            Access::Write => yasmurekh::Access::Write,
            Access::ReadForExecute => yasmurekh::Access::ReadForExecute,
        },
        address: request.address,
        length: request.length,
        data,
    }
}

fn answer_of_library(answer: yasmurekh::Answer) -> Answer {
    match answer {
        yasmurekh::Answer::Translated(address) => Answer::Translated(address),
        yasmurekh::Answer::Redirected(address) => Answer::Redirected(address),
        yasmurekh::Answer::Stored { file, notice } => Answer::Stored {
            file,
            notice_address: notice.address,
            notice_number: notice.number,
        },
        yasmurekh::Answer::Discarded => Answer::Discarded,
        yasmurekh::Answer::Fault(fault) => Answer::Fault {
            cause: fault.cause,
            stage: match fault.stage {
                yasmurekh::Stage::Directory => Stage::Directory,
                yasmurekh::Stage::ProcessDirectory => Stage::ProcessDirectory,
                yasmurekh::Stage::First => Stage::First,
                yasmurekh::Stage::Second => Stage::Second,
                yasmurekh::Stage::MessageTable => Stage::MessageTable,
            },
        },
        yasmurekh::Answer::Refused(refusal) => Answer::Refused(refusal.number()),
    }
}

/// The reference program; with a coverage, it counts what its calls meet.
#[derive(Clone, Debug, Default)]
pub struct Reference {
    pub coverage: Option<Coverage>,
}

impl Reference {
    /// Runs something with an observer that counts marks.
    fn observed<T>(&mut self, run: impl FnOnce(&mut dyn FnMut(Mark)) -> T) -> T {
        match &mut self.coverage {
            None => run(&mut |_| {}),
            Some(coverage) => {
                let marks = &mut coverage.marks;
                run(&mut |mark| *marks.entry(mark).or_insert(0) += 1)
            }
        }
    }
}

impl Side for Reference {
    fn call(&mut self, memory: &mut Memory, call: &Call) -> Answer {
        let answer = self.observed(|see| run_call(memory, call, see));
        if let Some(coverage) = &mut self.coverage {
            coverage.calls += 1;
            coverage.answers[answer.numbers()[0] as usize] += 1;
        }
        answer
    }

    fn report(&mut self, memory: &mut Memory, file: u64) -> Report {
        self.observed(|see| report_observed(memory, file, see))
    }
}
