//! The command `clauses`: answers a text of rows made by hand, one line for each call. README.md says
//! how the text looks.

use std::io::Write;

use crate::aplic::{Delivery, Domain};
use crate::iommu::{report, request, take, take_many};
use crate::memory::{Memory, Side, Window};
use crate::types::{Access, Request, Settings, Stage};

/// The most bytes that a memory has.
const MOST: u64 = 131_072;

/// Why a line breaks the format.
type Broken = &'static str;

/// What a line prints: the values of a call; none for any other line.
type Printed = Option<Vec<u64>>;

/// Answers a text; an error names the line that breaks the format, and what went before is answered.
pub fn run(text: &str, out: &mut impl Write) -> Result<(), String> {
    let mut rows = Rows::default();
    let mut calls = 0;
    for (number, line) in (1..).zip(text.lines()) {
        let broken = |why| format!("line {number}: {why}");
        let Some(values) = rows.line(line).map_err(broken)? else {
            continue;
        };
        calls += 1;
        let values: Vec<String> = values.iter().map(u64::to_string).collect();
        writeln!(out, "{calls} {}", values.join(" ")).map_err(|_| broken("can't be answered"))?;
    }
    Ok(())
}

/// A memory, and as much of it as is lent, as a window from a start on.
#[derive(Default)]
struct Lent {
    start: u64,
    length: usize,
    bytes: Vec<u8>,
}

/// The memories of the two windows, and the settings.
struct Board {
    first: Lent,
    second: Lent,
    settings: Settings,
}

/// What the lines so far have made.
#[derive(Default)]
struct Rows {
    board: Option<Board>,
    domain: Option<Domain>,
}

impl Rows {
    /// One line.
    fn line(&mut self, line: &str) -> Result<Printed, Broken> {
        if line.is_empty() || line.starts_with('#') {
            return Ok(None);
        }
        let (letter, rest) = line.split_once(' ').unwrap_or((line, ""));
        let expected = numbers_after(letter).ok_or("unknown letter")?;
        let words = rest.split(' ').filter(|_| line.contains(' '));
        let numbers: Option<Vec<u64>> = words.map(number).collect();
        let numbers = numbers.ok_or("a number can't be read")?;
        match numbers.len() == expected {
            true => self.run(letter, &numbers),
            false => Err("too few or too many numbers"),
        }
    }

    /// A line of a known letter, with as many numbers as it has.
    fn run(&mut self, letter: &str, numbers: &[u64]) -> Result<Printed, Broken> {
        match letter {
            "m" => self.board = Some(Board::new(numbers)?),
            "s" => self.board()?.set(numbers)?,
            "w" => self.board()?.first.put(numbers[0], numbers[1])?,
            "n" => self.board()?.second = Lent::new(numbers[0], numbers[1])?,
            "o" => self.board()?.second.lend(numbers[0], numbers[1])?,
            "v" => self.board()?.second.put(numbers[0], numbers[1])?,
            "r" => return self.board()?.request(numbers).map(Some),
            "t" => return Ok(Some(self.board()?.take(numbers[0], numbers[1]))),
            "k" => return self.board()?.take_many(numbers).map(Some),
            "p" => return Ok(Some(self.board()?.report(numbers[0]))),
            "d" => self.domain = Some(Domain::new(delivery(numbers[0])?)),
            _ => return self.run_domain(letter, numbers),
        }
        Ok(None)
    }

    /// A line about the domain, but the one that makes it.
    fn run_domain(&mut self, letter: &str, numbers: &[u64]) -> Result<Printed, Broken> {
        let domain = self.domain.as_mut().ok_or("no domain yet")?;
        Ok(Some(match letter {
            "x" => {
                let wired = domain.wire(numbers[0], flag(numbers[1])?);
                vec![wired.err().unwrap_or(0)]
            }
            "y" => {
                domain.write(numbers[0], word(numbers[1])?);
                return Ok(None);
            }
            "z" => vec![u64::from(domain.read(numbers[0]))],
            "f" => forward(domain),
            "c" => pair(domain.claim(numbers[0]).map(u64::from)),
            _ => pair(domain.signal(numbers[0]).map(u64::from)),
        }))
    }

    fn board(&mut self) -> Result<&mut Board, Broken> {
        self.board.as_mut().ok_or("no memory yet")
    }
}

impl Lent {
    /// A memory of zero bytes, lent from a start on.
    fn new(start: u64, length: u64) -> Result<Lent, Broken> {
        let mut lent = Lent {
            bytes: vec![0; MOST as usize],
            ..Lent::default()
        };
        lent.lend(start, length)?;
        Ok(lent)
    }

    /// Lends the bytes as they are under another start and length.
    fn lend(&mut self, start: u64, length: u64) -> Result<(), Broken> {
        if length > MOST {
            return Err("the length is above 131072");
        }
        (self.start, self.length) = (start, length as usize);
        Ok(())
    }

    /// Puts a doubleword, lowest byte first.
    fn put(&mut self, offset: u64, value: u64) -> Result<(), Broken> {
        if offset > MOST - 8 {
            return Err("the offset is too high");
        }
        let offset = offset as usize;
        self.bytes[offset..offset + 8].copy_from_slice(&value.to_le_bytes());
        Ok(())
    }

    /// The window that is lent.
    fn window(&self) -> Window {
        Window {
            start: self.start,
            bytes: self.bytes[..self.length].to_vec(),
        }
    }
}

impl Board {
    /// A new first memory under settings: start, length, mode and root; an empty second window at 0.
    fn new(numbers: &[u64]) -> Result<Board, Broken> {
        let mut board = Board {
            first: Lent::new(0, 0)?,
            second: Lent::new(0, 0)?,
            settings: Settings { mode: 0, root: 0 },
        };
        board.set(numbers)?;
        Ok(board)
    }

    /// Other settings: the first window's start and length, mode and root.
    fn set(&mut self, numbers: &[u64]) -> Result<(), Broken> {
        let &[start, length, mode, root] = numbers else {
            return Err("four numbers are needed");
        };
        self.settings = Settings { mode, root };
        self.first.lend(start, length)
    }

    /// The two windows that are lent.
    fn memory(&self) -> Memory {
        Memory {
            first: self.first.window(),
            second: self.second.window(),
        }
    }

    /// Keeps the windows' bytes as a call left them.
    fn keep(&mut self, memory: &Memory) {
        for &side in Side::ALL {
            let lent = match side {
                Side::First => &mut self.first,
                Side::Second => &mut self.second,
            };
            lent.bytes[..lent.length].copy_from_slice(&memory.window(side).bytes);
        }
    }

    /// DEVICE, PROCESS, FLAGS, ACCESS, ADDRESS, COUNT and DATA; the answer's four numbers, then the
    /// number of a fault's stage, 0 where the answer is no fault.
    fn request(&mut self, numbers: &[u64]) -> Result<Vec<u64>, Broken> {
        let &[device_id, process, flags, access, address, length, data] = numbers else {
            return Err("seven numbers are needed");
        };
        if flags > 3 {
            return Err("unknown flags");
        }
        let access = usize::try_from(access).ok();
        let asked = Request {
            device_id,
            process_id: (flags & 1 == 1).then_some(process),
            supervisor: flags & 2 == 2,
            access: *access
                .and_then(|access| Access::ALL.get(access))
                .ok_or("unknown access")?,
            address,
            length,
        };
        let data = word(data)?;
        let mut memory = self.memory();
        let answer = request(&self.settings, &mut memory, &asked, data);
        self.keep(&memory);
        let mut values = answer.numbers().to_vec();
        values.push(answer.stage().map_or(0, Stage::number));
        Ok(values)
    }

    fn take(&mut self, file: u64, identity: u64) -> Vec<u64> {
        let mut memory = self.memory();
        let answer = take(&mut memory, file, identity);
        self.keep(&memory);
        answer.numbers().to_vec()
    }

    /// FILE, DOUBLEWORD and MASK.
    fn take_many(&mut self, numbers: &[u64]) -> Result<Vec<u64>, Broken> {
        let &[file, doubleword, mask] = numbers else {
            return Err("three numbers are needed");
        };
        let mut memory = self.memory();
        let answer = take_many(&mut memory, file, doubleword, mask);
        self.keep(&memory);
        Ok(answer.numbers().to_vec())
    }

    /// The refusal, the count, the sum of the pending doublewords and that of the enable ones.
    fn report(&self, file: u64) -> Vec<u64> {
        let report = report(&self.memory(), file);
        let mut sums = [0u64; 2];
        for pair in report.pairs {
            sums[0] = sums[0].wrapping_add(pair.pending);
            sums[1] = sums[1].wrapping_add(pair.enable);
        }
        vec![report.refusal, report.count, sums[0], sums[1]]
    }
}

/// How many numbers stand after a letter.
fn numbers_after(letter: &str) -> Option<usize> {
    match letter {
        "m" | "s" => Some(4),
        "r" => Some(7),
        "k" => Some(3),
        "w" | "n" | "o" | "v" | "t" | "x" | "y" => Some(2),
        "p" | "d" | "z" | "c" | "g" => Some(1),
        "f" => Some(0),
        _ => None,
    }
}

/// A number: decimal digits, or hexadecimal ones after 0x.
fn number(text: &str) -> Option<u64> {
    let (digits, base) = match text.strip_prefix("0x") {
        Some(digits) => (digits, 16),
        None => (text, 10),
    };
    // A sign is no digit.
    let read = digits.chars().all(|digit| digit.is_digit(base));
    read.then(|| u64::from_str_radix(digits, base).ok())?
}

fn delivery(mode: u64) -> Result<Delivery, Broken> {
    match flag(mode)? {
        false => Ok(Delivery::Message),
        true => Ok(Delivery::Direct),
    }
}

fn flag(number: u64) -> Result<bool, Broken> {
    match number {
        0 => Ok(false),
        1 => Ok(true),
        _ => Err("a number that isn't 0 or 1"),
    }
}

fn word(number: u64) -> Result<u32, Broken> {
    u32::try_from(number).map_err(|_| "a number of more than 32 bits")
}

/// A forward: 1 and the message, or zeros.
fn forward(domain: &mut Domain) -> Vec<u64> {
    match domain.forward() {
        None => vec![0; 4],
        Some(message) => [1, message.hart_index, message.guest_index, message.identity]
            .map(u64::from)
            .to_vec(),
    }
}

/// The refusal's number, or 0, and the value.
fn pair(answer: Result<u64, u64>) -> Vec<u64> {
    match answer {
        Ok(value) => vec![0, value],
        Err(refusal) => vec![refusal, 0],
    }
}

#[cfg(test)]
#[path = "clauses_test.rs"]
mod tests;
