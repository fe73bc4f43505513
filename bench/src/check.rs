//! The plain program and the proved library against the reference program, over generated lists.

use crate::call::{Memory, Numbers, Settings, Window};
use crate::plain::{self, Access};
use crate::program::{Plain, Program, Proved};
use crate::proved::{now, Raw};
use yasmurekh_reference::coverage::run_call;
use yasmurekh_reference::generate::{list, Call, List};
use yasmurekh_reference::memory as reference_memory;
use yasmurekh_reference::types as reference;

fn numbers(answer: reference::Answer) -> Numbers {
    let [kind, first, second, third] = answer.numbers();
    let stage = answer.stage().map_or(0, |stage| stage as u64);
    [kind, first, second, third, stage]
}

fn access(access: reference::Access) -> Access {
    match access {
        reference::Access::Read => Access::Read,
        reference::Access::Write => Access::Write,
        reference::Access::ReadForExecute => Access::Execute,
    }
}

/// A request as the library's face has it, and as the plain program has it.
fn requests(request: &reference::Request, data: u32) -> (Raw, plain::Request) {
    let given = u64::from(request.process_id.is_some());
    let raw = Raw {
        device: request.device_id,
        process: request.process_id.unwrap_or(0),
        flags: given | u64::from(request.supervisor) << 1,
        access: access(request.access) as u64,
        address: request.address,
        length: request.length,
        value: data,
    };
    let asked = plain::Request {
        device: request.device_id,
        process: request.process_id,
        supervisor: request.supervisor,
        access: access(request.access),
        address: request.address,
        length: request.length,
        value: data,
    };
    (raw, asked)
}

/// The answers of library and plain program to one call.
fn answers(memories: &mut [Memory; 2], call: &Call) -> [Numbers; 2] {
    let [first, second] = memories;
    match *call {
        Call::Take { file, identity } => [
            now::take(first, file, identity),
            plain::take(second, file, identity).numbers(),
        ],
        Call::TakeMany {
            file,
            doubleword,
            mask,
        } => [
            Proved::take_many(first, file, doubleword, mask),
            Plain::take_many(second, file, doubleword, mask),
        ],
        Call::Request {
            mode,
            root,
            request,
            data,
        } => {
            let (raw, asked) = requests(&request, data);
            [
                now::request(first, &Settings { mode, root }, &raw),
                plain::request(second, mode, root, &asked).numbers(),
            ]
        }
    }
}

fn window(window: &reference_memory::Window) -> Window {
    Window {
        start: window.start,
        bytes: window.bytes.clone(),
    }
}

fn memory(memory: &reference_memory::Memory) -> Memory {
    Memory {
        first: window(&memory.first),
        second: window(&memory.second),
    }
}

fn same(memory: &Memory, theirs: &reference_memory::Memory) -> bool {
    let window = |ours: &Window, theirs: &reference_memory::Window| {
        ours.start == theirs.start && ours.bytes == theirs.bytes
    };
    window(&memory.first, &theirs.first) && window(&memory.second, &theirs.second)
}

fn check_list(list: &List) -> Result<(), String> {
    let mut theirs = list.memory.clone();
    let mut memories = [memory(&theirs), memory(&theirs)];
    for call in &list.calls {
        let expected = numbers(run_call(&mut theirs, call, &mut |_| {}));
        let [proved, plain] = answers(&mut memories, call);
        let kept = memories.iter().all(|memory| same(memory, &theirs));
        if proved != expected || plain != expected || !kept {
            return Err(format!(
                "{call:x?}: reference {expected:?}, proved {proved:?}, plain {plain:?}"
            ));
        }
    }
    Ok(())
}

/// So many lists; gives the number of calls.
pub fn check(seed: u64, lists: u64) -> Result<usize, String> {
    let mut calls = 0;
    for index in 0..lists {
        let list = list(seed, index);
        check_list(&list).map_err(|text| format!("seed {seed}, list {index}: {text}"))?;
        calls += list.calls.len();
    }
    Ok(calls)
}
