//! An archive that isn't the one this crate is for: the example `calls`, built for release over a stub in
//! the library's place, panics at every call that is answered by what this crate doesn't know; and the
//! header's inline functions, over that stub, refuse.

use std::env;
use std::path::{Path, PathBuf};
use std::process::{Command, Output};
use std::sync::OnceLock;

const MESSAGE: &str = "the static library is of another version than this crate";

/// The calls, each with words by which the stub answers it rightly and what is printed then.
fn calls() -> [(&'static str, Vec<&'static str>, &'static str); 10] {
    let mut report = vec!["0"; 66];
    (report[1], report[64]) = ("3", "7");
    [
        (
            "request",
            vec!["0", "4096", "0", "0", "0"],
            "translated to 0x1000",
        ),
        ("take", vec!["6", "1", "0", "0", "0"], "Ok(true)"),
        ("take_many", vec!["6", "129", "0", "0", "0"], "Ok(129)"),
        ("report", report, "Ok(3)"),
        ("wire", vec![], "Ok(())"),
        ("write", vec![], "()"),
        ("read", vec!["7"], "7"),
        ("forward", vec!["0"; 4], "None"),
        ("claim", vec!["0"], "Ok(None)"),
        ("signal", vec!["1"], "Ok(true)"),
    ]
}

fn run(command: &mut Command) {
    let output = command.output().expect("it runs");
    let text = String::from_utf8_lossy(&output.stderr);
    assert!(output.status.success(), "{command:?}: {text}");
}

const HERE: &str = env!("CARGO_MANIFEST_DIR");

/// The C compiler, with warnings as errors and the header's folder.
fn compiler() -> Command {
    let mut command = Command::new(env::var_os("CC").unwrap_or("gcc".into()));
    command.args(["-std=c99", "-Wall", "-Wextra", "-Werror", "-O2"]);
    command.arg("-I").arg(Path::new(HERE).join("../include"));
    command
}

fn folder() -> PathBuf {
    Path::new(env!("CARGO_TARGET_TMPDIR")).join("stub")
}

/// The folder with the stub as an archive, built once.
fn stub() -> &'static Path {
    static STUB: OnceLock<PathBuf> = OnceLock::new();
    STUB.get_or_init(|| {
        std::fs::create_dir_all(folder()).expect("a folder");
        let object = folder().join("stub.o");
        run(compiler()
            .arg("-c")
            .arg(Path::new(HERE).join("tests/stub.c"))
            .arg("-o")
            .arg(&object));
        let archive = folder().join("libcapi.a");
        run(Command::new("ar").arg("rcs").arg(archive).arg(object));
        folder()
    })
}

/// The example, built once over the stub.
fn program() -> &'static Path {
    static PROGRAM: OnceLock<PathBuf> = OnceLock::new();
    PROGRAM.get_or_init(|| {
        let target = folder().join("target");
        run(Command::new(env::var_os("CARGO").unwrap_or("cargo".into()))
            .args(["build", "--release", "--offline", "--quiet"])
            .args(["--example", "calls", "--manifest-path"])
            .arg(Path::new(HERE).join("Cargo.toml"))
            .env("YASMUREKH_LIB_DIR", stub())
            .env("CARGO_TARGET_DIR", &target));
        target.join("release/examples/calls")
    })
}

/// The inline functions, built once over the stub.
fn inline() -> &'static Path {
    static PROGRAM: OnceLock<PathBuf> = OnceLock::new();
    PROGRAM.get_or_init(|| {
        let program = folder().join("inline");
        run(compiler()
            .arg(Path::new(HERE).join("tests/inline.c"))
            .arg(stub().join("libcapi.a"))
            .arg("-o")
            .arg(&program));
        program
    })
}

/// A program's call, answered by the stub with a status and words.
fn answered(program: &Path, name: &str, status: u64, words: &[&str]) -> Output {
    Command::new(program)
        .arg(name)
        .env("STUB_STATUS", status.to_string())
        .env("STUB_WORDS", words.join(" "))
        .env("RUST_BACKTRACE", "0")
        .output()
        .expect("it runs")
}

/// A call of the example.
fn call(name: &str, status: u64, words: &[&str]) -> Output {
    answered(program(), name, status, words)
}

/// What an inline function hands back.
fn handed(name: &str, status: u64, words: &[&str]) -> String {
    let output = answered(inline(), name, status, words);
    assert_eq!(output.status.code(), Some(0), "{name}: {output:?}");
    let text = String::from_utf8_lossy(&output.stdout);
    text.trim_end().to_string()
}

/// Sees that a call ends in the panic that names another version, and hands nothing out.
fn panics(name: &str, status: u64, words: &[&str]) {
    let output = call(name, status, words);
    let text = String::from_utf8_lossy(&output.stderr);
    let case = format!("{name}, status {status}, words {words:?}: {output:?}");
    assert_eq!(output.status.code(), Some(101), "{case}");
    assert!(text.contains(MESSAGE), "{case}");
    assert!(output.stdout.is_empty(), "{case}");
}

#[test]
fn what_the_crate_knows_is_answered() {
    for (name, words, printed) in calls() {
        let output = call(name, 0, &words);
        assert_eq!(output.status.code(), Some(0), "{name}: {output:?}");
        assert_eq!(String::from_utf8_lossy(&output.stdout).trim_end(), printed);
    }
}

#[test]
fn an_unknown_status_panics() {
    for (name, words, _) in calls() {
        // A buffer that is too short, a status of another version, a refusal of another call.
        for status in [1, 2, 77, 2001, u64::MAX] {
            panics(name, status, &words);
            panics(name, status, &[]);
            panics(name, status, &["0"; 5]);
        }
    }
}

#[test]
fn unwritten_words_panic() {
    for (name, words, _) in calls() {
        for written in 0..words.len() {
            // Enable bits may be anything: only the last one of a report is left out.
            if written != 65 {
                panics(name, 0, &words[..written]);
            }
        }
    }
}

/// A refusal that this crate names is handed out; 2013 has no name here.
#[test]
fn a_request_is_refused_by_a_number_that_is_known() {
    let output = call("request", 0, &["5", "2012", "0", "0", "0"]);
    let text = String::from_utf8_lossy(&output.stdout);
    assert!(text.starts_with("refused (2012): "), "{output:?}");
    panics("request", 0, &["5", "2013", "0", "0", "0"]);
    panics("request", 0, &["5", "2012", "0", "0", "1"]);
}

/// The mask of the example's take of many is 255.
#[test]
fn a_take_many_is_believed_within_its_mask() {
    for bits in ["0", "255"] {
        let output = call("take_many", 0, &["6", bits, "0", "0", "0"]);
        let text = String::from_utf8_lossy(&output.stdout);
        assert_eq!(text.trim_end(), format!("Ok({bits})"));
    }
    for (number, refusal) in [("2009", "Doubleword"), ("2011", "Overlap")] {
        let output = call("take_many", 0, &["5", number, "0", "0", "0"]);
        let text = String::from_utf8_lossy(&output.stdout);
        assert_eq!(text.trim_end(), format!("Err({refusal})"));
    }
    for bits in ["256", "511", "18446744073709551615"] {
        panics("take_many", 0, &["6", bits, "0", "0", "0"]);
    }
    for kind in ["0", "1", "2", "3", "4", "7", "18446744073709551615"] {
        panics("take_many", 0, &[kind, "1", "0", "0", "0"]);
    }
    for place in 2..5 {
        let mut words = ["6", "1", "0", "0", "0"];
        words[place] = "1";
        panics("take_many", 0, &words);
    }
    panics("take_many", 0, &["5", "2010", "0", "0", "0"]);
}

#[test]
fn the_inline_functions_hand_back_the_words() {
    let words = ["4", "13", "7", "8", "2"];
    for name in ["request", "take", "take_many"] {
        assert_eq!(handed(name, 0, &words), "4 13 7 8 2");
    }
    let refused = ["5", "2012", "0", "0", "0"];
    assert_eq!(handed("request", 0, &refused), "5 2012 0 0 0");
    let mut words = ["0"; 66];
    (words[1], words[2], words[65]) = ("3", "7", "9");
    assert_eq!(handed("report", 0, &words), "0 3 16");
    words[0] = "2011";
    assert_eq!(handed("report", 0, &words), "2011 3 16");
}

#[test]
fn the_inline_functions_refuse_what_they_do_not_know() {
    let words = ["7"; 66];
    for status in [1, 2, 2001, u64::MAX] {
        for name in ["request", "take", "take_many"] {
            assert_eq!(handed(name, status, &words), format!("5 {status} 0 0 0"));
            assert_eq!(handed(name, status, &[]), format!("5 {status} 0 0 0"));
        }
        assert_eq!(handed("report", status, &words), format!("{status} 0 0"));
    }
    // Nothing written, and a status that says that all is.
    assert_eq!(handed("request", 0, &[]), "5 1 0 0 0");
    assert_eq!(handed("take", 0, &[]), "5 1 0 0 0");
    assert_eq!(handed("take_many", 0, &[]), "5 1 0 0 0");
    assert_eq!(handed("report", 0, &[]), "1 0 0");
}
