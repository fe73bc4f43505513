//! The command `compare`.

use std::process::ExitCode;

use yasmurekh_compare::run::smallest;
use yasmurekh_compare::{aplic, run, Comparison, Library, Options, Reference, Subject};
use yasmurekh_reference::aplic::text::read_lists as read_domains;
use yasmurekh_reference::aplic::Coverage as DomainCoverage;
use yasmurekh_reference::coverage::Coverage;
use yasmurekh_reference::mark::Mark;
use yasmurekh_reference::text::read_lists;

const USAGE: &str = "usage:
  compare [--aplic] [--seed S] [--count N] [--from INDEX] [--coverage]
      compares N calls (1000000) of the lists of seed S (1) from list INDEX (0) on;
      --coverage prints what the calls met
  compare [--aplic] --replay FILE
      compares the lists of a text file, such as a difference that was printed
  --aplic compares calls of the wired domain, not of the IOMMU
exit status: 0 no difference, 1 a difference, 2 something else";

/// The words of the command line.
#[derive(Default)]
struct Words {
    aplic: bool,
    coverage: bool,
    replay: Option<String>,
    help: bool,
}

fn main() -> ExitCode {
    let words = std::env::args().skip(1);
    let done = match read_words(words) {
        Ok((words, _)) if words.help => {
            println!("{USAGE}");
            Ok(true)
        }
        Ok((words, options)) => match (&words.replay, words.aplic) {
            (Some(path), aplic) => replay(path, aplic),
            (None, true) => Ok(run_domains(&options, words.coverage)),
            (None, false) => Ok(run_requests(&options, words.coverage)),
        },
        Err(text) => Err(text),
    };
    match done {
        Ok(true) => ExitCode::SUCCESS,
        Ok(false) => ExitCode::FAILURE,
        Err(text) => {
            eprintln!("{text}");
            ExitCode::from(2)
        }
    }
}

fn read_words(mut given: impl Iterator<Item = String>) -> Result<(Words, Options), String> {
    let mut options = Options {
        seed: 1,
        from: 0,
        count: 1_000_000,
    };
    let mut words = Words::default();
    while let Some(word) = given.next() {
        let mut number = || -> Result<u64, String> {
            let value = given.next().and_then(|text| text.parse().ok());
            value.ok_or_else(|| format!("{word} needs a number\n{USAGE}"))
        };
        match word.as_str() {
            "--seed" => options.seed = number()?,
            "--count" => options.count = number()?,
            "--from" => options.from = number()?,
            "--coverage" => words.coverage = true,
            "--aplic" => words.aplic = true,
            "--help" => words.help = true,
            "--replay" => {
                let path = given.next();
                words.replay = Some(path.ok_or_else(|| format!("--replay needs a file\n{USAGE}"))?);
            }
            _ => return Err(format!("unknown option {word}\n{USAGE}")),
        }
    }
    Ok((words, options))
}

/// Compares generated lists; says what was compared, or prints the difference.
fn run_lists<S: Subject>(subject: &mut S, options: &Options) -> Option<String> {
    let outcome = run(subject, options, &mut std::io::stderr());
    eprintln!(
        "{:.1} s, {} calls a second",
        outcome.time.as_secs_f64(),
        outcome.calls_per_second()
    );
    if let Some(found) = &outcome.found {
        println!("# seed {}", options.seed);
        print!("{}", found.text);
        return None;
    }
    Some(format!(
        "seed {}, lists {} to {}: {} calls and {}",
        options.seed, options.from, outcome.next, outcome.calls, outcome.reports
    ))
}

/// The IOMMU; says whether there was no difference.
fn run_requests(options: &Options, coverage: bool) -> bool {
    let reference = Reference {
        coverage: coverage.then(Coverage::default),
    };
    let mut comparison = Comparison::new(Library, reference);
    let Some(compared) = run_lists(&mut comparison, options) else {
        return false;
    };
    if let Some(coverage) = &comparison.reference.coverage {
        print_coverage(coverage);
    }
    println!("{compared} reports compared, 0 differences");
    true
}

/// The wired domain; says whether there was no difference.
fn run_domains(options: &Options, coverage: bool) -> bool {
    let coverage = coverage.then(DomainCoverage::default);
    let mut comparison = aplic::Comparison::new(aplic::Library::default(), coverage);
    let Some(compared) = run_lists(&mut comparison, options) else {
        return false;
    };
    if let Some(coverage) = &comparison.coverage {
        coverage.print();
        println!();
        coverage.print_rest();
    }
    println!("{compared} registers and signals of the wired domain compared, 0 differences");
    true
}

fn print_coverage(coverage: &Coverage) {
    coverage.print();
    println!();
    for mark in coverage.unexpected() {
        println!("not in the table: {}: {}", mark.group(), mark.name());
    }
    let zero = coverage.at_zero();
    for mark in &zero {
        println!("at zero: {}: {}", mark.group(), mark.name());
    }
    let all = Mark::all().len();
    println!("{} of {all} marks met", all - zero.len());
}

/// Compares the lists of a text; says whether there was no difference.
fn replay(path: &str, aplic: bool) -> Result<bool, String> {
    let text = std::fs::read_to_string(path).map_err(|error| format!("{path}: {error}"))?;
    let mut count = Count::default();
    if aplic {
        let mut comparison = aplic::Comparison::new(aplic::Library::default(), None);
        read_domains(&text, |written| {
            count.compare(&mut comparison, written.index, written.list);
        })?;
    } else {
        let mut comparison = Comparison::new(Library, Reference::default());
        read_lists(&text, |written| {
            count.compare(&mut comparison, written.index, written.list);
        })?;
    }
    let Count {
        lists,
        calls,
        different,
    } = count;
    println!("# {lists} lists, {calls} calls, {different} different");
    Ok(different == 0)
}

/// What was compared of a text.
#[derive(Default)]
struct Count {
    lists: usize,
    calls: usize,
    different: usize,
}

impl Count {
    /// One list more; prints the smallest case where it differs.
    fn compare<S: Subject>(&mut self, subject: &mut S, index: u64, list: S::List) {
        self.lists += 1;
        self.calls += S::calls(&list);
        if let Err(difference) = subject.compare(&list) {
            self.different += 1;
            print!("{}", smallest(subject, index, list, difference).text);
        }
    }
}
