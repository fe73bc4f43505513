//! The command `compare` itself.

use std::process::{Command, Output};

use yasmurekh_reference::aplic;
use yasmurekh_reference::generate::list;
use yasmurekh_reference::text::write_list;

fn compare(words: &[&str]) -> Output {
    Command::new(env!("CARGO_BIN_EXE_compare"))
        .args(words)
        .output()
        .expect("the command runs")
}

fn last_line(output: &Output) -> String {
    let text = String::from_utf8_lossy(&output.stdout);
    text.lines().last().unwrap_or("").to_string()
}

#[test]
fn a_run_in_two_parts_is_the_run() {
    let whole = compare(&["--seed", "5", "--count", "3000"]);
    assert_eq!(whole.status.code(), Some(0));
    let line = last_line(&whole);
    assert!(line.starts_with("seed 5, lists 0 to "), "{line}");
    assert!(line.ends_with(" compared, 0 differences"), "{line}");

    let rest = compare(&["--seed", "5", "--from", "100", "--count", "1500"]);
    assert_eq!(rest.status.code(), Some(0));
    assert!(last_line(&rest).starts_with("seed 5, lists 100 to "));
}

#[test]
fn coverage_is_printed() {
    let output = compare(&["--count", "3000", "--coverage"]);
    assert_eq!(output.status.code(), Some(0));
    let text = String::from_utf8_lossy(&output.stdout);
    assert!(text.contains("cause by stage"));
    assert!(text.contains(" marks met\n"));
}

#[test]
fn lists_are_replayed() {
    let path = std::path::Path::new(env!("CARGO_TARGET_TMPDIR")).join("lists.txt");
    let text: String = (0..20)
        .map(|index| write_list(index, &list(9, index)))
        .collect();
    std::fs::write(&path, text).expect("written");
    let output = compare(&["--replay", path.to_str().expect("a path of text")]);
    assert_eq!(output.status.code(), Some(0));
    assert!(last_line(&output).starts_with("# 20 lists, "));
    assert!(last_line(&output).ends_with(" 0 different"));
}

#[test]
fn the_wired_domain() {
    let run = compare(&["--aplic", "--seed", "5", "--count", "3000", "--coverage"]);
    assert_eq!(run.status.code(), Some(0));
    let text = String::from_utf8_lossy(&run.stdout);
    assert!(text.contains("pending bits (4.1.7)") && text.contains(" marks met\n"));
    let line = last_line(&run);
    assert!(line.starts_with("seed 5, lists 0 to "), "{line}");
    let end = " registers and signals of the wired domain compared, 0 differences";
    assert!(line.ends_with(end), "{line}");

    let path = std::path::Path::new(env!("CARGO_TARGET_TMPDIR")).join("domains.txt");
    let text: String = (0..20)
        .map(|index| aplic::text::write_list(index, &aplic::list(9, index)))
        .collect();
    std::fs::write(&path, text).expect("written");
    let path = path.to_str().expect("a path of text");
    let output = compare(&["--aplic", "--replay", path]);
    assert_eq!(output.status.code(), Some(0));
    assert!(last_line(&output).starts_with("# 20 lists, "));
    // Its lists are none of the IOMMU.
    assert_eq!(compare(&["--replay", path]).status.code(), Some(2));
}

#[test]
fn anything_else_is_2() {
    for words in [
        &["--what"][..],
        &["--count"],
        &["--count", "many"],
        &["--replay"],
        &["--replay", "no/such/file"],
    ] {
        assert_eq!(compare(words).status.code(), Some(2), "{words:?}");
    }
}
