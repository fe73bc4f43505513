//! Lists of a domain's calls as plain text, from a domain at reset on:
//!
//! ```text
//! domain INDEX                           (domain INDEX direct, for direct delivery)
//! wire SOURCE high|low = done
//! read OFFSET = VALUE                    (hexadecimal)
//! write OFFSET VALUE = done              (hexadecimal)
//! forward = HART GUEST IDENTITY
//! claim HART = VALUE                     (the value hexadecimal)
//! signal HART = yes|no
//! end
//! ```
//!
//! A refused wire, claim or signal answers `refused 2014`, a forward of nothing `none`. A line that
//! begins with # is a remark.

use crate::aplic::domain::{Answer, Call, Domain};
use crate::aplic::generate::List;
use crate::aplic::source::Delivery;
use crate::text::Rerun;

/// A list's text, with the answers that this program gives.
pub fn write_list(index: u64, list: &List) -> String {
    let mut domain = Domain::new(list.delivery);
    let mut text = match list.delivery {
        Delivery::Message => format!("domain {index}\n"),
        Delivery::Direct => format!("domain {index} direct\n"),
    };
    for call in &list.calls {
        let answer = write_answer(domain.run(call));
        text += &format!("{} = {answer}\n", write_call(call));
    }
    text + "end\n"
}

pub fn write_call(call: &Call) -> String {
    match call {
        Call::Wire { source, high } => {
            format!("wire {source} {}", if *high { "high" } else { "low" })
        }
        Call::Read { offset } => format!("read {offset:x}"),
        Call::Write { offset, value } => format!("write {offset:x} {value:x}"),
        Call::Forward => "forward".to_string(),
        Call::Claim { hart } => format!("claim {hart}"),
        Call::Signal { hart } => format!("signal {hart}"),
    }
}

pub fn write_answer(answer: Answer) -> String {
    match answer {
        Answer::Done => "done".to_string(),
        Answer::Refused(number) => format!("refused {number}"),
        Answer::Value(value) => format!("{value:x}"),
        Answer::Forwarded(None) => "none".to_string(),
        Answer::Forwarded(Some(message)) => format!(
            "{} {} {}",
            message.hart_index, message.guest_index, message.identity
        ),
        Answer::Signalled(true) => "yes".to_string(),
        Answer::Signalled(false) => "no".to_string(),
    }
}

/// One list of a text, with the answers that stand beside its calls.
#[derive(Clone, Debug, Default, PartialEq, Eq)]
pub struct Written {
    pub index: u64,
    pub list: List,
    pub answers: Vec<String>,
}

/// Reads a text and hands over list after list; an error names a line that can't be read.
pub fn read_lists(text: &str, mut each: impl FnMut(Written)) -> Result<(), String> {
    let mut open: Option<Written> = None;
    for line in text.lines().filter(|line| !line.starts_with('#')) {
        let broken = || format!("can't read: {line}");
        let (left, right) = line.split_once(" = ").unwrap_or((line, ""));
        let words: Vec<&str> = left.split(' ').collect();
        match (&words[..], &mut open) {
            (["domain", index, mode @ ..], _) => {
                open.take().map(&mut each);
                let mut written = Written {
                    index: index.parse().map_err(|_| broken())?,
                    ..Written::default()
                };
                written.list.delivery = match mode {
                    [] => Delivery::Message,
                    ["direct"] => Delivery::Direct,
                    _ => return Err(broken()),
                };
                open = Some(written);
            }
            (["end"], Some(_)) => {
                open.take().map(&mut each);
            }
            (words, Some(written)) => {
                let call = read_call(words).ok_or_else(broken)?;
                written.list.calls.push(call);
                written.answers.push(right.to_string());
            }
            _ => return Err(broken()),
        }
    }
    open.take().map(&mut each);
    Ok(())
}

fn read_call(words: &[&str]) -> Option<Call> {
    let hexadecimal = |word: &str| u64::from_str_radix(word, 16).ok();
    let call = match words {
        ["wire", source, level @ ("high" | "low")] => Call::Wire {
            source: source.parse().ok()?,
            high: *level == "high",
        },
        ["read", offset] => Call::Read {
            offset: hexadecimal(offset)?,
        },
        ["write", offset, value] => Call::Write {
            offset: hexadecimal(offset)?,
            value: u32::from_str_radix(value, 16).ok()?,
        },
        ["forward"] => Call::Forward,
        ["claim", hart] => Call::Claim {
            hart: hart.parse().ok()?,
        },
        ["signal", hart] => Call::Signal {
            hart: hart.parse().ok()?,
        },
        _ => return None,
    };
    Some(call)
}

/// Runs a text of lists again and compares the answers; an error names a line that can't be read.
pub fn rerun(text: &str) -> Result<Rerun, String> {
    let mut result = Rerun::default();
    read_lists(text, |written| {
        result.lists += 1;
        let mut domain = Domain::new(written.list.delivery);
        for (call, expected) in written.list.calls.iter().zip(&written.answers) {
            result.calls += 1;
            if write_answer(domain.run(call)) != *expected {
                let line = format!("{} = {expected}", write_call(call));
                result.different.push(line);
            }
        }
    })?;
    Ok(result)
}

#[cfg(test)]
mod tests {
    use super::{read_lists, rerun, write_list};
    use crate::aplic::generate::list;

    #[test]
    fn reading_inverts_writing() {
        let mut text = "# a remark\n".to_string();
        for index in 0..50 {
            text += &write_list(index, &list(7, index));
        }
        let mut index = 0;
        let read = read_lists(&text, |written| {
            assert_eq!((written.index, written.list), (index, list(7, index)));
            index += 1;
        });
        assert_eq!((read, index), (Ok(()), 50));
        let result = rerun(&text).expect("readable");
        assert!(result.lists == 50 && result.different.is_empty());
    }

    #[test]
    fn other_lines_are_named() {
        for line in ["forward", "domain x", "domain 0 indirect", "end"] {
            assert!(read_lists(line, |_| {}).is_err(), "{line}");
        }
        for line in [
            "wire 1 up",
            "read",
            "write 0 100000000",
            "claim",
            "take 1 2",
        ] {
            let text = format!("domain 0\n{line}\n");
            assert_eq!(
                read_lists(&text, |_| {}),
                Err(format!("can't read: {line}"))
            );
        }
    }
}
