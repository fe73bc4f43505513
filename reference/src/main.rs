//! The command `reference`.

use std::io::{Read, Write};
use std::process::ExitCode;

use yasmurekh_reference::aplic;
use yasmurekh_reference::check;
use yasmurekh_reference::clauses;
use yasmurekh_reference::coverage::Coverage;
use yasmurekh_reference::generate::list;
use yasmurekh_reference::text::{rerun, write_list, Rerun};

const USAGE: &str = "usage:
  reference check                                  run the program's own checks
  reference coverage [--seed S] [--count N]        run N generated calls (1000000), print coverage
  reference lists --seed S --from A --count N      print generated lists with their answers
  reference rerun                                  run lists from standard input again, compare
  reference clauses                                answer rows of clauses from standard input
  reference aplic coverage|lists|rerun ..          the same for the wired domain";

fn main() -> ExitCode {
    let words: Vec<String> = std::env::args().skip(1).collect();
    let done = match words.first().map(String::as_str) {
        None => {
            println!("{USAGE}");
            Ok(true)
        }
        Some("check") if words.len() == 1 => Ok(run_checks()),
        Some("clauses") if words.len() == 1 => answer_clauses(),
        Some("aplic") => run_command(&words[1..], &APLIC),
        _ => run_command(&words, &IOMMU),
    };
    match done {
        Ok(true) => ExitCode::SUCCESS,
        Ok(false) => ExitCode::FAILURE,
        Err(text) => {
            println!("{text}");
            ExitCode::FAILURE
        }
    }
}

/// The value of an option, or its default.
fn option(options: &[String], name: &str, default: Option<u64>) -> Result<u64, String> {
    for pair in options.chunks(2) {
        if pair[0] == name {
            let value = pair.get(1).and_then(|text| text.parse().ok());
            return value.ok_or_else(|| format!("{name} needs a number\n{USAGE}"));
        }
    }
    default.ok_or_else(|| format!("{name} is missing\n{USAGE}"))
}

/// Only the options named may stand there.
fn only(options: &[String], names: &[&str]) -> Result<(), String> {
    for pair in options.chunks(2) {
        if !names.contains(&pair[0].as_str()) {
            return Err(format!("unknown option {}\n{USAGE}", pair[0]));
        }
    }
    Ok(())
}

fn run_checks() -> bool {
    let checks = check::all();
    for check in &checks {
        match check.holds {
            true => println!("{}", check.name),
            false => println!("FAILED {}", check.name),
        }
    }
    let failed = checks.iter().filter(|check| !check.holds).count();
    println!("{} checks, {failed} failed", checks.len());
    failed == 0
}

/// What the commands do for one of the two programs.
struct Program {
    /// Runs so many calls of a seed, prints what they met, and says whether it holds.
    coverage: fn(u64, u64) -> bool,
    /// The text of a seed's list of an index.
    list: fn(u64, u64) -> String,
    rerun: fn(&str) -> Result<Rerun, String>,
}

const IOMMU: Program = Program {
    coverage: iommu_coverage,
    list: |seed, index| write_list(index, &list(seed, index)),
    rerun,
};

const APLIC: Program = Program {
    coverage: aplic_coverage,
    list: |seed, index| aplic::text::write_list(index, &aplic::list(seed, index)),
    rerun: aplic::text::rerun,
};

fn run_command(words: &[String], program: &Program) -> Result<bool, String> {
    let options = words.get(1..).unwrap_or(&[]);
    match words.first().map(String::as_str) {
        Some("coverage") => {
            only(options, &["--seed", "--count"])?;
            let seed = option(options, "--seed", Some(1))?;
            let count = option(options, "--count", Some(1_000_000))?;
            Ok((program.coverage)(seed, count))
        }
        Some("lists") => print_lists(options, program),
        Some("rerun") if options.is_empty() => run_again(program),
        _ => Err(USAGE.to_string()),
    }
}

fn iommu_coverage(seed: u64, count: u64) -> bool {
    let coverage = Coverage::run(seed, count);
    coverage.print();
    println!();
    for failure in &coverage.failures {
        println!("failed: {failure}");
    }
    for mark in coverage.unexpected() {
        println!("not in the table: {}: {}", mark.group(), mark.name());
    }
    println!(
        "seed {seed}: {} lists, {} calls, {} failed",
        coverage.lists,
        coverage.calls,
        coverage.failures.len()
    );
    let zero = coverage.at_zero();
    for mark in &zero {
        println!("at zero: {}: {}", mark.group(), mark.name());
    }
    if zero.is_empty() {
        println!("nothing left at zero");
    }
    coverage.holds()
}

fn aplic_coverage(seed: u64, count: u64) -> bool {
    let coverage = aplic::Coverage::run(seed, count);
    coverage.print();
    println!();
    for failure in &coverage.failures {
        println!("failed: {failure}");
    }
    println!(
        "seed {seed}: {} lists, {} calls, {} failed",
        coverage.lists,
        coverage.calls,
        coverage.failures.len()
    );
    coverage.print_rest();
    coverage.holds()
}

fn print_lists(options: &[String], program: &Program) -> Result<bool, String> {
    only(options, &["--seed", "--from", "--count"])?;
    let seed = option(options, "--seed", None)?;
    let from = option(options, "--from", None)?;
    let count = option(options, "--count", None)?;
    let mut out = std::io::stdout().lock();
    for index in from..from.saturating_add(count) {
        let text = (program.list)(seed, index);
        if out.write_all(text.as_bytes()).is_err() {
            return Ok(false);
        }
    }
    Ok(true)
}

/// Standard input as text.
fn input() -> Result<String, String> {
    let mut text = String::new();
    match std::io::stdin().read_to_string(&mut text) {
        Ok(_) => Ok(text),
        Err(_) => Err("standard input can't be read as text".to_string()),
    }
}

/// Answers rows of clauses; what breaks their format is told on standard error.
fn answer_clauses() -> Result<bool, String> {
    let answered = clauses::run(&input()?, &mut std::io::stdout().lock());
    if let Err(text) = &answered {
        eprintln!("{text}");
    }
    Ok(answered.is_ok())
}

fn run_again(program: &Program) -> Result<bool, String> {
    let result = (program.rerun)(&input()?)?;
    for line in &result.different {
        println!("different: {line}");
    }
    println!(
        "{} lists, {} calls, {} different",
        result.lists,
        result.calls,
        result.different.len()
    );
    Ok(result.different.is_empty())
}
