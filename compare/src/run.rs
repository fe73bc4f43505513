//! Many generated lists, one after the other.

use std::fmt::Display;
use std::io::Write;
use std::time::{Duration, Instant};

use yasmurekh_reference::generate::List;

use crate::comparison::Difference;

/// What is compared: lists of calls, each run through two sides.
pub trait Subject {
    type List: Clone;
    type Difference: Clone + Display;

    /// The list of this index under this seed, of at most so many calls.
    fn list(seed: u64, index: u64, calls: usize) -> Self::List;

    fn calls(list: &Self::List) -> usize;

    /// Runs a list through both sides; gives how much was read out of them beside the calls.
    fn compare(&mut self, list: &Self::List) -> Result<u64, Self::Difference>;

    /// The smallest list found for which `holds` is true, as it must be of the list given.
    fn shrink(list: Self::List, holds: impl FnMut(&Self::List) -> bool) -> Self::List;

    /// A list as a text that can be run again.
    fn text(index: u64, list: &Self::List) -> String;
}

/// Which lists to run: those of a seed, from an index on, until so many calls are made.
#[derive(Clone, Copy, Debug, PartialEq, Eq)]
pub struct Options {
    pub seed: u64,
    pub from: u64,
    pub count: u64,
}

/// What a run gives; `next` is the index to go on from.
#[derive(Clone, Debug)]
pub struct Outcome<L = List, D = Difference> {
    pub next: u64,
    pub calls: u64,
    /// What was read out beside the calls: reports of files, or registers.
    pub reports: u64,
    pub time: Duration,
    pub found: Option<Found<L, D>>,
}

impl<L, D> Outcome<L, D> {
    pub fn calls_per_second(&self) -> u64 {
        (self.calls as f64 / self.time.as_secs_f64().max(1e-9)) as u64
    }
}

/// A difference, with the list that showed it and the smallest list found that shows one.
#[derive(Clone, Debug, PartialEq, Eq)]
pub struct Found<L = List, D = Difference> {
    pub index: u64,
    pub list: L,
    pub difference: D,
    pub smallest: L,
    pub smallest_difference: D,
    /// The smallest case as a text that can be run again; the answers are the reference's.
    pub text: String,
}

/// How often a long run tells where it is.
const PROGRESS: Duration = Duration::from_secs(5);

/// Runs lists until enough calls are made or a difference is found; progress goes to `log`.
pub fn run<S: Subject>(
    subject: &mut S,
    options: &Options,
    log: &mut dyn Write,
) -> Outcome<S::List, S::Difference> {
    let began = Instant::now();
    let mut told = began;
    let mut outcome = Outcome {
        next: options.from,
        calls: 0,
        reports: 0,
        time: Duration::ZERO,
        found: None,
    };
    while outcome.calls < options.count {
        let left = options.count - outcome.calls;
        let left = usize::try_from(left).unwrap_or(usize::MAX);
        let list = S::list(options.seed, outcome.next, left);
        let calls = S::calls(&list);
        match subject.compare(&list) {
            Ok(reports) => outcome.reports += reports,
            Err(difference) => {
                outcome.found = Some(smallest(subject, outcome.next, list, difference));
                break;
            }
        }
        outcome.calls += calls as u64;
        outcome.next += 1;
        if outcome.next.is_multiple_of(64) && told.elapsed() >= PROGRESS {
            told = Instant::now();
            outcome.time = began.elapsed();
            tell(&outcome, options, log);
        }
    }
    outcome.time = began.elapsed();
    outcome
}

fn tell<L, D>(outcome: &Outcome<L, D>, options: &Options, log: &mut dyn Write) {
    // A log that can't be written to is no reason to end the run.
    let _ = writeln!(
        log,
        "{} of {} calls, next list {}, {} calls a second",
        outcome.calls,
        options.count,
        outcome.next,
        outcome.calls_per_second()
    );
}

/// Shrinks a list that differs.
pub fn smallest<S: Subject>(
    subject: &mut S,
    index: u64,
    list: S::List,
    difference: S::Difference,
) -> Found<S::List, S::Difference> {
    let mut smallest_difference = difference.clone();
    let smallest = S::shrink(list.clone(), |smaller| match subject.compare(smaller) {
        Ok(_) => false,
        Err(found) => {
            smallest_difference = found;
            true
        }
    });
    let text = format!(
        "# list {index} differs, {difference}\n\
         # the smallest case found differs, {smallest_difference}\n{}",
        S::text(index, &smallest)
    );
    Found {
        index,
        list,
        difference,
        smallest,
        smallest_difference,
        text,
    }
}
