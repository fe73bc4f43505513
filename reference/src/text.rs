//! Lists as plain text: one line for each of the two windows, after it one for each of its doublewords
//! that isn't zero, then one for each call with its answer.
//!
//! ```text
//! list INDEX
//! first|second START LENGTH
//! word OFFSET VALUE                      (hexadecimal)
//! byte OFFSET VALUE                      (hexadecimal; only where the length leaves a rest)
//! request MODE ROOT DEVICE PROCESS|- user|supervisor ACCESS ADDRESS LENGTH DATA = ANSWER
//! take FILE IDENTITY = ANSWER
//! take-many FILE DOUBLEWORD MASK = ANSWER
//! end
//! ```
//!
//! Numbers of calls are decimal; an answer is 01's four numbers, and the stage of a fault. A line
//! that begins with # is a remark.

use crate::coverage::run_call;
use crate::file;
use crate::generate::{Call, List};
use crate::memory::{Memory, Side, Window};
use crate::types::{Access, Answer, Request};

/// A list's text, with the answers that this program gives.
pub fn write_list(index: u64, list: &List) -> String {
    let mut memory = list.memory.clone();
    let mut text = format!("list {index}\n");
    for &side in Side::ALL {
        text += &write_window(side, memory.window(side));
    }
    for call in &list.calls {
        let answer = run_call(&mut memory, call, &mut |_| {});
        text += &format!("{} = {}\n", write_call(call), write_answer(answer));
    }
    text + "end\n"
}

/// A window's text.
fn write_window(side: Side, window: &Window) -> String {
    let length = window.bytes.len();
    let mut text = format!("{} {} {length}\n", side.name(), window.start);
    let whole = length - length % 8;
    for (number, bytes) in window.bytes[..whole].chunks(8).enumerate() {
        let value = file::read(bytes);
        if value != 0 {
            text += &format!("word {:x} {value:x}\n", number * 8);
        }
    }
    for (number, byte) in window.bytes[whole..].iter().enumerate() {
        if *byte != 0 {
            text += &format!("byte {:x} {byte:x}\n", whole + number);
        }
    }
    text
}

/// A call's text.
pub fn write_call(call: &Call) -> String {
    match call {
        Call::Take { file, identity } => format!("take {file} {identity}"),
        Call::TakeMany {
            file,
            doubleword,
            mask,
        } => format!("take-many {file} {doubleword} {mask}"),
        Call::Request {
            mode,
            root,
            request,
            data,
        } => {
            let process = match request.process_id {
                Some(process) => process.to_string(),
                None => "-".to_string(),
            };
            let privilege = match request.supervisor {
                true => "supervisor",
                false => "user",
            };
            format!(
                "request {mode} {root} {} {process} {privilege} {} {} {} {data}",
                request.device_id,
                request.access.name(),
                request.address,
                request.length,
            )
        }
    }
}

/// An answer's text.
pub fn write_answer(answer: Answer) -> String {
    let [number, a, b, c] = answer.numbers();
    let stage = match answer.stage() {
        Some(stage) => format!(" {}", stage.name()),
        None => String::new(),
    };
    format!("{number} {a} {b} {c}{stage}")
}

/// One list of a text, with the answers that stand beside its calls.
#[derive(Clone, Debug, PartialEq, Eq)]
pub struct Written {
    pub index: u64,
    pub list: List,
    pub answers: Vec<String>,
}

/// Reads a text and hands over list after list; an error names a line that can't be read.
pub fn read_lists(text: &str, mut each: impl FnMut(Written)) -> Result<(), String> {
    let mut open: Option<Written> = None;
    let mut side = Side::First;
    for line in text.lines().filter(|line| !line.starts_with('#')) {
        let broken = || format!("can't read: {line}");
        let (left, right) = line.split_once(" = ").unwrap_or((line, ""));
        let words: Vec<&str> = left.split(' ').collect();
        if words[0] == "list" {
            open.take().map(&mut each);
            open = Some(read_head(&words).ok_or_else(broken)?);
            continue;
        }
        let written = open.as_mut().ok_or_else(broken)?;
        let memory = &mut written.list.memory;
        match words[0] {
            "first" | "second" => {
                side = Side::ALL[usize::from(words[0] == "second")];
                *memory.window_mut(side) = read_window(&words).ok_or_else(broken)?;
            }
            "word" | "byte" => {
                read_bytes(&words, &mut memory.window_mut(side).bytes).ok_or_else(broken)?;
            }
            "request" | "take" | "take-many" => {
                let call = read_call(&words).ok_or_else(broken)?;
                written.list.calls.push(call);
                written.answers.push(right.to_string());
            }
            "end" => {
                open.take().map(&mut each);
            }
            _ => return Err(broken()),
        }
    }
    open.take().map(&mut each);
    Ok(())
}

/// What a text of lists gives: how many calls, and the lines whose answers differ.
#[derive(Clone, Debug, Default)]
pub struct Rerun {
    pub lists: u64,
    pub calls: u64,
    pub different: Vec<String>,
}

/// Runs a text of lists again and compares the answers; an error names a line that can't be read.
pub fn rerun(text: &str) -> Result<Rerun, String> {
    let mut result = Rerun::default();
    read_lists(text, |written| {
        result.lists += 1;
        let mut list = written.list;
        for (call, expected) in list.calls.iter().zip(&written.answers) {
            let answer = run_call(&mut list.memory, call, &mut |_| {});
            result.calls += 1;
            if write_answer(answer) != *expected {
                let line = format!("{} = {expected}", write_call(call));
                result.different.push(line);
            }
        }
    })?;
    Ok(result)
}

/// A list's first line: its windows are empty, and it has no calls yet.
fn read_head(words: &[&str]) -> Option<Written> {
    let index = words.get(1)?.parse().ok()?;
    let list = List {
        memory: Memory::default(),
        calls: Vec::new(),
    };
    Some(Written {
        index,
        list,
        answers: Vec::new(),
    })
}

/// A window's start and length: its bytes are zero.
fn read_window(words: &[&str]) -> Option<Window> {
    let start = words.get(1)?.parse().ok()?;
    let length: usize = words.get(2)?.parse().ok()?;
    if length > 1 << 24 {
        return None;
    }
    let bytes = vec![0; length];
    Some(Window { start, bytes })
}

/// A doubleword or a byte put into a window.
fn read_bytes(words: &[&str], window: &mut [u8]) -> Option<()> {
    let offset = usize::from_str_radix(words.get(1)?, 16).ok()?;
    let value = u64::from_str_radix(words.get(2)?, 16).ok()?;
    let size = if words[0] == "word" { 8 } else { 1 };
    let end = offset.checked_add(size)?;
    let bytes = value.to_le_bytes();
    window.get_mut(offset..end)?.copy_from_slice(&bytes[..size]);
    Some(())
}

/// One call.
fn read_call(words: &[&str]) -> Option<Call> {
    let number = |place: usize| -> Option<u64> { words.get(place)?.parse().ok() };
    if words[0] == "take" {
        return Some(Call::Take {
            file: number(1)?,
            identity: number(2)?,
        });
    }
    if words[0] == "take-many" {
        return Some(Call::TakeMany {
            file: number(1)?,
            doubleword: number(2)?,
            mask: number(3)?,
        });
    }
    let access = Access::ALL
        .into_iter()
        .find(|access| access.name() == words[6.min(words.len() - 1)])?;
    let process_id = match *words.get(4)? {
        "-" => None,
        process => Some(process.parse().ok()?),
    };
    let request = Request {
        device_id: number(3)?,
        process_id,
        supervisor: *words.get(5)? == "supervisor",
        access,
        address: number(7)?,
        length: number(8)?,
    };
    Some(Call::Request {
        mode: number(1)?,
        root: number(2)?,
        request,
        data: words.get(9)?.parse().ok()?,
    })
}

#[cfg(test)]
mod tests {
    use super::{read_lists, rerun, write_list};
    use crate::generate::list;

    #[test]
    fn reading_inverts_writing() {
        let mut text = "# a remark\n".to_string();
        for index in 0..200 {
            text += &write_list(index, &list(7, index));
        }
        let mut index = 0;
        let read = read_lists(&text, |written| {
            assert_eq!((written.index, written.list), (index, list(7, index)));
            index += 1;
        });
        assert_eq!((read, index), (Ok(()), 200));
        assert!(read_lists("take 1 2 = 5 2001 0 0", |_| {}).is_err());
        for line in [
            "list 0\nfirst 0",
            "list 0\nthird 0 8",
            "list 0\nword 0 1",
            "list 0\ntake-many 0 0 = 5 2008 0 0",
            "list 0\nfirst 0 16\nsecond 0 8\nword 8 1",
        ] {
            assert!(read_lists(line, |_| {}).is_err(), "{line}");
        }
    }

    #[test]
    fn text_runs_again_with_the_same_answers() {
        for index in 0..200 {
            let list = list(7, index);
            let result = rerun(&write_list(index, &list)).expect("readable");
            assert_eq!(result.calls, list.calls.len() as u64);
            assert!(result.different.is_empty(), "{:?}", result.different);
        }
    }
}
