//! The proved library against a plain Rust program of the same job, in one run.
//!
//!     bench [--quick]                  compare, measure, print the tables
//!     bench aplic [--quick]            those of the wired domain alone
//!     bench before [--quick] TEXT      rows with that text in their names, on the archive of an
//!                                      earlier commit too; made by `bench/before`
//!     bench alone ROW SIDE N           run one row N times on one side (proved, plain, before), for
//!                                      instruction counts

mod aplic;
mod call;
mod check;
mod clock;
mod measure;
mod plain;
mod program;
mod proved;
mod rows;
mod tables;
mod timing;

use measure::{side, Side};
use program::{Plain, Proved};
use rows::Row;
use std::env;
use std::iter;
use std::process::ExitCode;
use std::slice;
use timing::{Measured, Times};

const PROVED: Side = side::<Proved>("proved");
const PLAIN: Side = side::<Plain>("plain");
const BOTH: [Side; 2] = [PROVED, PLAIN];
const ALL: &[Side] = &[
    PROVED,
    PLAIN,
    #[cfg(before)]
    side::<program::Before>("before"),
];

const USAGE: &str = "usage: bench [--quick] | bench aplic [--quick] | \
                     bench before [--quick] TEXT | bench alone ROW SIDE N";

/// How much is measured.
struct Effort {
    rounds: usize,
    /// Of one side in one round.
    nanoseconds: f64,
    lists: u64,
}

const FULL: Effort = Effort {
    rounds: 41,
    nanoseconds: 10e6,
    lists: 60_000,
};

const QUICK: Effort = Effort {
    rounds: 15,
    nanoseconds: 2e6,
    lists: 4_000,
};

fn main() -> ExitCode {
    let words: Vec<String> = env::args().skip(1).collect();
    let words: Vec<&str> = words.iter().map(String::as_str).collect();
    let done = match words[..] {
        [] => measure_all(&FULL),
        ["--quick"] => measure_all(&QUICK),
        ["aplic"] => measure_domain(&FULL),
        ["aplic", "--quick"] => measure_domain(&QUICK),
        ["before", text] => measure_before(&FULL, text),
        ["before", "--quick", text] => measure_before(&QUICK, text),
        ["alone", row, side, times] => alone(row, side, times),
        _ => Err(USAGE.to_string()),
    };
    match done {
        Ok(()) => ExitCode::SUCCESS,
        Err(text) => {
            eprintln!("{text}");
            ExitCode::FAILURE
        }
    }
}

fn measure_all(effort: &Effort) -> Result<(), String> {
    let calls = check::check(1, effort.lists)?;
    println!(
        "Answers and windows compared over {calls} generated calls: proved = plain = reference.\n"
    );
    println!("| Row | proved, ns | plain, ns | ratio | least to greatest |");
    println!("|---|---|---|---|---|");
    for row in rows::main_rows() {
        measure::compare(&row, &BOTH)?;
        println!(
            "| {} | {} |",
            row.name,
            columns(&time_one(&row, &BOTH, effort))
        );
    }
    println!("\nRows that name no scheme use Sv39 and Sv39x4.");
    println!(
        "\nThe same tables in windows of several sizes (both stages, 4 KiB / 4 KiB, one device):\n"
    );
    together(&[rows::window_rows()], effort)?;
    println!("\nDirectories of one, two and three levels (both stages, 4 KiB / 4 KiB):\n");
    together(&[rows::depth_rows()], effort)?;
    println!("\nA doubleword of 64 pending bits, all taken:\n");
    together(&[rows::doubleword_rows()], effort)?;
    println!("\nTables and files in either window:\n");
    together(&rows::place_rows(), effort)?;
    println!(
        "\nRatio: proved rate / plain rate, median of {} rounds; above 1 the proved library is faster.",
        effort.rounds
    );
    println!(
        "Growth: the proved library's cost over its cost in the first row of its kind, in the same round."
    );
    println!("\nThe wired domain:\n");
    measure_domain(effort)
}

/// The rows of the wired domain.
fn measure_domain(effort: &Effort) -> Result<(), String> {
    // A list of a domain has about ten times the calls of one of the IOMMU.
    let calls = aplic::check(1, effort.lists / 10)?;
    println!("Answers compared over {calls} generated calls: proved = plain = reference.\n");
    println!("| Row | proved, ns | plain, ns | ratio | least to greatest |");
    println!("|---|---|---|---|---|");
    for row in aplic::rows() {
        aplic::compare(&row)?;
        let times = time_one(&row, &aplic::BOTH, effort);
        println!("| {} | {} |", row.name, columns(&times));
    }
    Ok(())
}

/// A row by itself.
fn time_one<R: Measured>(row: &R, sides: &[R::Side], effort: &Effort) -> Times {
    let rows = slice::from_ref(row);
    let mut times = timing::time(rows, sides, effort.rounds, effort.nanoseconds);
    times.remove(0)
}

/// A ratio and its spread.
fn ratio([middle, least, greatest]: [f64; 3]) -> String {
    format!("{middle:.2} | {least:.2} to {greatest:.2}")
}

/// Proved, plain, ratio and its spread.
fn columns(times: &Times) -> String {
    let [proved, plain] = [0, 1].map(|side| times.of(side)[0]);
    format!("{proved:.1} | {plain:.1} | {}", ratio(times.rate(0, 1)))
}

/// Groups of rows that are measured against the first of each.
fn together(groups: &[Vec<Row>], effort: &Effort) -> Result<(), String> {
    println!(
        "| Row | proved, ns | plain, ns | ratio | least to greatest | growth | least to greatest |"
    );
    println!("|---|---|---|---|---|---|---|");
    for rows in groups {
        for row in rows {
            measure::compare(row, &BOTH)?;
        }
        let all = timing::time(rows, &BOTH, effort.rounds, effort.nanoseconds);
        for (row, times) in rows.iter().zip(&all) {
            let growth = ratio(times.growth(&all[0]));
            println!("| {} | {} | {growth} |", row.name, columns(times));
        }
    }
    Ok(())
}

fn measure_before(effort: &Effort, text: &str) -> Result<(), String> {
    if ALL.len() == BOTH.len() {
        return Err("built without an earlier archive: use bench/before".to_string());
    }
    println!(
        "| Row | before, ns | now, ns | plain, ns | now / before | least to greatest | before / plain | now / plain |"
    );
    println!("|---|---|---|---|---|---|---|---|");
    for row in named_rows().filter(|row| row.name.contains(text)) {
        println!("| {} | {} |", row.name, before_columns(&row, effort)?);
    }
    println!("\nRatios of rates, medians of {} rounds.", effort.rounds);
    println!("Not served: the earlier library takes the row's contexts for misconfigured.");
    println!("No take of many, no refusal 2012: the earlier library has none.");
    Ok(())
}

/// Of a row that the earlier library can't run, the other two alone.
fn before_columns(row: &Row, effort: &Effort) -> Result<String, String> {
    let unknown = measure::unknown(row, ALL[2]);
    let sides = if unknown.is_some() { &BOTH } else { ALL };
    measure::compare(row, sides)?;
    let times = time_one(row, sides, effort);
    let [now, plain] = [0, 1].map(|side| times.of(side)[0]);
    let is = times.rate(0, 1)[0];
    if let Some(why) = unknown {
        return Ok(format!("{why} | {now:.1} | {plain:.1} | | | | {is:.2}"));
    }
    let (before, was) = (times.of(2)[0], times.rate(2, 1)[0]);
    let change = ratio(times.rate(0, 2));
    Ok(format!(
        "{before:.1} | {now:.1} | {plain:.1} | {change} | {was:.2} | {is:.2}"
    ))
}

/// All rows of the IOMMU, each once; those of the main table are made first.
fn named_rows() -> impl Iterator<Item = Row> {
    // The first of a group is in the main table.
    let placed = iter::once_with(rows::place_rows).flatten();
    let placed = placed.flat_map(|group| group.into_iter().skip(1));
    let sized = iter::once_with(rows::window_rows).flatten();
    let deep = iter::once_with(rows::depth_rows).flatten();
    let doublewords = iter::once_with(rows::doubleword_rows).flatten();
    rows::main_rows()
        .into_iter()
        .chain(sized)
        .chain(deep)
        .chain(doublewords)
        .chain(placed)
}

fn alone(name: &str, side: &str, times: &str) -> Result<(), String> {
    let times = times.parse().map_err(|_| format!("no number: {times}"))?;
    let unknown = || format!("no side {side}");
    let (row, calls, sum) = match named_rows().find(|row| row.name.starts_with(name)) {
        Some(row) => {
            let side = ALL.iter().find(|known| known.name == side);
            let side = *side.ok_or_else(unknown)?;
            let why = measure::unknown(&row, side).filter(|_| side.name == "before");
            if let Some(why) = why {
                return Err(format!("{} of an earlier library: {why}", row.name));
            }
            let sum = timing::alone(side, &row, times);
            (row.name.clone(), row.calls(), sum)
        }
        None => {
            let rows = aplic::rows();
            let row = rows.iter().find(|row| row.name.starts_with(name));
            let row = row.ok_or(format!("no row {name}"))?;
            let side = aplic::BOTH.into_iter().find(|known| known.name == side);
            let sum = timing::alone(side.ok_or_else(unknown)?, row, times);
            (row.name.to_string(), row.calls(), sum)
        }
    };
    println!("{row}, {calls} calls, sum {sum:x}");
    Ok(())
}
