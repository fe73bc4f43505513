//! Makes the call that is named on the command line, over two pages of zeros or a new domain, and prints
//! what it answers.

use std::process::ExitCode;

use yasmurekh::aplic::{register, Domain};
use yasmurekh::{report, request, take, take_many, Memory, Mode, Request, Settings, Window};

fn main() -> ExitCode {
    let (mut tables, mut files) = ([0; 4096], [0; 4096]);
    let mut memory = Memory {
        first: Window::new(0, &mut tables),
        second: Window::new(0x1000, &mut files),
    };
    let mut domain = Domain::new();
    let call = std::env::args().nth(1).unwrap_or_default();
    let answer = match call.as_str() {
        "request" => {
            let off = Settings {
                mode: Mode::OFF,
                root: 0,
            };
            request(&mut memory, &off, &Request::read(0, 0x1000, 4)).to_string()
        }
        "take" => format!("{:?}", take(&mut memory, 0x1000, 37)),
        "take_many" => format!("{:?}", take_many(&mut memory, 0x1000, 1, 0xFF)),
        "report" => format!("{:?}", report(&memory, 0x1000).map(|report| report.count)),
        "wire" => format!("{:?}", domain.wire(7, true)),
        "write" => format!("{:?}", domain.write(register::SETIENUM, 7)),
        "read" => format!("{:?}", domain.read(register::setip(0))),
        "forward" => format!("{:?}", domain.forward()),
        "claim" => format!("{:?}", domain.claim(0)),
        "signal" => format!("{:?}", domain.signalled(0)),
        _ => {
            eprintln!(
                "usage: calls request|take|take_many|report|wire|write|read|forward|claim|signal"
            );
            return ExitCode::FAILURE;
        }
    };
    println!("{answer}");
    ExitCode::SUCCESS
}
