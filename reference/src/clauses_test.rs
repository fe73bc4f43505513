//! The reader of rows, and rows whose answers 01 and 02 state outright.

use std::collections::BTreeSet;

use super::run;

/// What a text prints, or its error.
fn answers(text: &str) -> Result<String, String> {
    let mut out = Vec::new();
    run(text, &mut out)?;
    Ok(String::from_utf8(out).expect("text"))
}

#[test]
fn lines_that_print_nothing() {
    let text = "# a remark\n#\n\nm 0 4096 0 0\ns 0x1000 0 1 0\nw 0x1fff8 0xffffffffffffffff\n\
        n 0x2000 4096\no 0 131072\nv 0x1fff8 1\nd 0\ny 0 256\n";
    assert_eq!(answers(text), Ok(String::new()));
}

#[test]
fn calls_are_numbered_from_1() {
    let text =
        "m 0 0 0 0\nr 0 0 0 0 0 4 0\n# a remark\nt 0 0\np 0\nd 0\nx 64 1\nz 0\nf\nc 16\ng 0\n";
    let expected = "1 4 256 0 0 0\n2 5 2008 0 0\n3 2008 0 0 0\n4 2014\n5 2147483652\n6 0 0 0 0\n7 2014 0\n8 0 0\n";
    assert_eq!(answers(text), Ok(expected.to_string()));
}

/// 02, Req 13: the whole case, "1 4 256 0 0"; the stage, the directory, beside it.
#[test]
fn numbers_are_decimal_or_hexadecimal() {
    for zero in ["0", "00", "0x0", "0x00"] {
        let text = format!("m {zero} 0 0 0\nr {zero} 0 0 0 0 0x4 0\n");
        assert_eq!(answers(&text), Ok("1 4 256 0 0 0\n".to_string()));
    }
    let text = "m 0 0 1 0\nr 0 0 0 1 0xFFFFFFFFFFFFF0 0x10 0\nr 0 0 0 1 0xffffffffffffff 1 0\n";
    let expected = "1 0 72057594037927920 0 0 0\n2 0 72057594037927935 0 0 0\n";
    assert_eq!(answers(text), Ok(expected.to_string()));
}

#[test]
fn broken_lines_end_with_their_number() {
    let broken = [
        "q",
        "mm 0 0 0 0",
        " ",
        " m 0 0 0 0",
        "m",
        "m ",
        "m 0 0 0",
        "m 0 0 0 0 0",
        "m 0 0 0 ",
        "m 0 0 0 0 ",
        "m 0  0 0 0",
        "m\t0 0 0 0",
        "m 0 131073 0 0",
        "s 0 131073 0 0",
        "w 131065 0",
        "w 0x1fff9 0",
        "w 0xffffffffffffffff 0",
        "w 0",
        "w 0 18446744073709551616",
        "w 0 -1",
        "w 0 +1",
        "w 0 0x+1",
        "w 0 0x",
        "w 0 0X1",
        "w 0 1f",
        "w 0 x",
        "n 0",
        "n 0 0 0",
        "n 0 131073",
        "o 0",
        "o 0 0 0",
        "o 0 131073",
        "v 0",
        "v 0 0 0",
        "v 131065 0",
        "v 0xffffffffffffffff 0",
        "r 0 0 0 0 0 4",
        "r 0 0 0 0 0 4 0 0",
        "r 0 0 4 0 0 4 0",
        "r 0 0 0 3 0 4 0",
        "r 0 0 0 0 0 4 0x100000000",
        "t 0",
        "t 0 0 0",
        "k 0 0",
        "k 0 0 0 0",
        "k 0 0 0x",
        "k 0 0 18446744073709551616",
        "p",
        "p 0 0",
        "d",
        "d 2",
        "x 1",
        "x 1 2",
        "y 0",
        "y 0 0x100000000",
        "z",
        "f 0",
        "f ",
        "c",
        "g",
        "g 0 0",
    ];
    for line in broken {
        let text = format!("m 0 4096 0 0\nd 0\n# third\n{line}\nf\n");
        let error = answers(&text).expect_err(line);
        assert!(error.starts_with("line 4: "), "{line}: {error}");
    }
    for line in [
        "s 0 0 0 0",
        "w 0 0",
        "n 0 0",
        "o 0 0",
        "v 0 0",
        "r 0 0 0 0 0 4 0",
        "t 0 0",
        "k 0 0 0",
        "p 0",
        "x 1 1",
        "y 0 0",
        "f",
    ] {
        assert!(answers(line).is_err(), "{line}");
    }
}

#[test]
fn what_went_before_a_broken_line_is_answered() {
    let mut out = Vec::new();
    assert!(run("m 0 0 0 0\np 0\nq\np 0\n", &mut out).is_err());
    assert_eq!(out, b"1 2008 0 0 0\n");
}

/// 01's message context: mask 3, pattern 0x80004, first stage Bare. The directory is at 0x40000000,
/// the file at 0x40001200, the message table at 0x40002000, the guest root, empty, at 0x40004000.
const CONTEXT: &str = "m 0x40000000 0x8000 2 0x40000\nw 0 1\nw 8 0x8000000000040004\n\
    w 0x20 0x1000000000040002\nw 0x28 3\nw 0x30 0x80004\n";

#[test]
fn worked_cases_of_a_redirecting_entry() {
    let text = format!(
        "{CONTEXT}w 0x2020 0xA000407\nr 0 0 0 0 0x80006000 4 0\nr 0 0 0 1 0x80006123 1 0\n\
         r 0 0 0 0 0x80008000 4 0\nr 0 0 0 2 0x80006000 4 0\nw 0x2020 0xA000405\n\
         r 0 0 0 0 0x80006000 4 0\n"
    );
    // P5, P3 with the offset kept, P4, P14 and P13.
    let expected =
        "1 1 671092736 0 0 0\n2 1 671093027 0 0 0\n3 4 21 0 0 3\n4 4 1 0 0 4\n5 4 263 0 0 4\n";
    assert_eq!(answers(&text), Ok(expected.to_string()));
}

#[test]
fn worked_cases_of_a_file() {
    let text = format!(
        "{CONTEXT}w 0x2020 0x10000483\nw 0x2028 0x100000000A000005\nr 0 0 0 1 0x80006000 4 37\n\
         p 0x40001200\nr 0 0 0 1 0x80006004 4 620756992\nr 0 0 0 1 0x80006004 4 37\n\
         r 0 0 0 1 0x80006000 4 2047\nr 0 0 0 1 0x80006000 4 2048\np 0x40001200\n\
         t 0x40001200 37\nt 0x40001200 37\n"
    );
    // P6: byte 4 gains 32, which is bit 37; P7 to P10: byte 503 gains 128, bit 63 of the last one.
    let expected = "1 2 1073746432 671088640 1029 0\n2 0 1 137438953472 0\n\
        3 2 1073746432 671088640 1029 0\n4 3 0 0 0 0\n5 2 1073746432 671088640 1029 0\n6 3 0 0 0 0\n\
        7 0 2 9223372174293729280 0\n8 6 1 0 0\n9 6 0 0 0\n";
    assert_eq!(answers(&text), Ok(expected.to_string()));
}

/// `m` makes the second window empty at 0, `s` leaves it, `n` makes a new one, `o` lends its bytes as they
/// are, also beyond its old length, and `v` writes them.
#[test]
fn second_windows() {
    let text = "m 0x1000 4096 1 0\nt 0x1000 0\nt 0 0\nn 0x3000 4096\nv 0 1\nv 0x1000 2\nt 0x4000 1\n\
        o 0x3000 8192\nt 0x4000 1\ns 0x8000 4096 1 0\nt 0x3000 0\nt 0x8000 0\nw 0 1\nt 0x8000 0\n\
        v 0 1\no 0x5000 4096\nt 0x5000 0\nv 0 1\nn 0x5000 4096\nt 0x5000 0\nv 0 1\nm 0x1000 4096 1 0\n\
        t 0x5000 0\no 0x5000 4096\nt 0x5000 0\n";
    let expected =
        "1 6 0 0 0\n2 5 2008 0 0\n3 5 2008 0 0\n4 6 1 0 0\n5 6 1 0 0\n6 6 0 0 0\n7 6 1 0 0\n\
        8 6 1 0 0\n9 6 0 0 0\n10 5 2008 0 0\n11 6 0 0 0\n";
    assert_eq!(answers(text), Ok(expected.to_string()));
}

/// 02, Req 12: a take of many prints the ones that were set, of those in the mask; 2009 above doubleword
/// 31. A single take is as it was.
#[test]
fn takes_of_many() {
    let text = "m 0x1000 4096 1 0\nw 0x11f0 1\nw 0x3f0 0xf00000000000000f\nw 0x3f8 0xff\n\
        k 0x1200 31 0x800000000000000a\np 0x1200\nt 0x1200 1985\nt 0x1200 1984\nk 0x1200 31 1\n\
        k 0x1200 31 0xffffffffffffffff\nk 0x1200 31 0\nk 0x1200 32 0xffffffffffffffff\n\
        k 0x1200 0x100000000 1\nt 0x1200 32\nt 0x1200 2048\nk 0x1201 32 1\np 0x1200\n";
    let expected =
        "1 6 9223372036854775818 0 0\n2 0 5 8070450532247928837 255\n3 6 0 0 0\n4 6 1 0 0\n\
        5 6 0 0 0\n6 6 8070450532247928836 0 0\n7 6 0 0 0\n8 5 2009 0 0\n9 5 2009 0 0\n10 6 0 0 0\n\
        11 5 2009 0 0\n12 5 2008 0 0\n13 0 0 0 255\n";
    assert_eq!(answers(text), Ok(expected.to_string()));
}

/// 02, Req 05: 2001 covers both windows, and 2011 comes just after it.
#[test]
fn windows_that_are_refused() {
    let text =
        "m 0 4096 5 0\nn 0x200 0\nr 0 0 0 0 0 4 0\nn 0 4096\nr 0 0 0 0 0 4 0\nt 1 0\nk 1 32 0\n\
        p 1\no 0x1000 4096\nr 0 0 0 0 0 4 0\n";
    let expected =
        "1 5 2001 0 0 0\n2 5 2011 0 0 0\n3 5 2011 0 0\n4 5 2011 0 0\n5 2011 0 0 0\n6 5 2002 0 0 0\n";
    assert_eq!(answers(text), Ok(expected.to_string()));
}

/// 02, Req 06: a file in the context's page, in the entry's, in the page between them; 2,048 is discarded.
#[test]
fn files_over_tables() {
    let text = format!(
        "{CONTEXT}w 0x2020 0x10000383\nr 0 0 0 1 0x80006000 4 37\nt 0x40000e00 37\n\
         r 0 0 0 1 0x80006000 4 2048\nw 0x2020 0x10000b83\nr 0 0 0 1 0x80006004 4 620756992\n\
         p 0x40002e00\nw 0x2020 0x10000783\nr 0 0 0 1 0x80006000 4 37\nt 0x40001e00 37\n"
    );
    let expected = "1 5 2012 0 0 0\n2 6 0 0 0\n3 3 0 0 0 0\n4 5 2012 0 0 0\n5 0 0 0 0\n\
        6 2 1073749504 0 0 0\n7 6 1 0 0\n";
    assert_eq!(answers(&text), Ok(expected.to_string()));
}

#[test]
fn worked_cases_of_the_directories() {
    // P11: two levels answer 260; P12: PD17, mode 2 of a process directory, answers 260, and a process of
    // 16 bits is looked for there.
    let text =
        "m 0 4096 3 0\nr 0x12345 0 0 0 0 4 0\nm 0 4096 2 0\nw 0 0x21\nw 0x18 0x2000000000000000\n\
        r 0 0x2A5C3 1 0 0 4 0\nr 0 0xA5C3 1 0 0 4 0\n";
    let expected = "1 4 260 0 0 0\n2 4 260 0 0 0\n3 4 266 0 0 1\n";
    assert_eq!(answers(text), Ok(expected.to_string()));
}

/// 01, What a request holds: the stages, by the numbers of include/yasmurekh.h, each under the causes that
/// 01 names for it, and no other one anywhere in the rows.
#[test]
fn rows_have_the_stages_of_each_cause() {
    let of_causes: [(u64, &[u64]); 20] = [
        (1, &[0, 2, 3, 4]),
        (5, &[0, 2, 3]),
        (7, &[0, 2, 3]),
        (12, &[2]),
        (13, &[2]),
        (15, &[2]),
        (20, &[3]),
        (21, &[3]),
        (23, &[3]),
        (256, &[0]),
        (257, &[0]),
        (258, &[0]),
        (259, &[0]),
        (260, &[0]),
        (261, &[4]),
        (262, &[4]),
        (263, &[4]),
        (265, &[1]),
        (266, &[1]),
        (267, &[1]),
    ];
    let mut expected = BTreeSet::new();
    for (cause, stages) in of_causes {
        expected.extend(stages.iter().map(|stage| (cause, *stage)));
    }
    let rows = include_str!("../../crates/clauses/stdin").lines();
    let calls = rows.filter(|line| line.starts_with(['r', 't', 'k', 'p', 'x', 'z', 'f', 'c', 'g']));
    let mut found = BTreeSet::new();
    for (call, answer) in calls.zip(include_str!("../../crates/clauses/stdout").lines()) {
        let values: Vec<u64> = answer
            .split(' ')
            .map(|word| word.parse().unwrap())
            .collect();
        match (call.starts_with('r'), &values[1..]) {
            (true, [4, cause, 0, 0, stage]) => {
                found.insert((*cause, *stage));
            }
            (true, [kind, _, _, _, 0]) => assert_ne!(*kind, 4, "{answer}"),
            (true, _) => panic!("{call}: {answer}"),
            (false, _) => {}
        }
    }
    assert_eq!(found, expected);
}

/// 02, Req 07: the lowest-numbered source goes first, and is cleared.
#[test]
fn a_domain_forwards() {
    let text = "d 0\ny 0 0x100\ny 4 1\ny 8 1\ny 0x3004 0x40003\ny 0x3008 0x81005\ny 0x1E00 6\n\
        y 0x1CDC 2\ny 0x1CDC 1\nf\nz 0x1C00\nf\nf\n";
    let expected = "1 1 1 0 3\n2 4\n3 1 2 1 5\n4 0 0 0 0\n";
    assert_eq!(answers(text), Ok(expected.to_string()));
}

/// 02, Req 08: a lower priority number wins; a claim clears.
#[test]
fn a_domain_delivers_to_harts() {
    let text = "d 1\ny 0 0x100\ny 4 1\ny 8 1\ny 0x3004 9\ny 0x3008 5\ny 0x1E00 6\ny 0x1C00 6\n\
        y 0x4000 1\ng 0\nc 0\nc 0\ng 0\nc 0\ng 15\ng 16\nf\n";
    let expected = "1 0 1\n2 0 131077\n3 0 65545\n4 0 0\n5 0 0\n6 0 0\n7 2014 0\n8 0 0 0 0\n";
    assert_eq!(answers(text), Ok(expected.to_string()));
}

/// The rows of this folder and their answers.
#[test]
fn rows_are_answered_as_written() {
    let answered = answers(include_str!("../../crates/clauses/stdin"));
    assert_eq!(
        answered,
        Ok(include_str!("../../crates/clauses/stdout").to_string())
    );
}
