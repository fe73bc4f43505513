//! What a call is given and what it answers (01, What a request holds).

/// The directory mode and the root page number.
#[derive(Clone, Copy, Debug, PartialEq, Eq)]
pub struct Settings {
    pub mode: u64,
    pub root: u64,
}

#[derive(Clone, Copy, Debug, PartialEq, Eq, PartialOrd, Ord)]
pub enum Access {
    Read,
    Write,
    ReadForExecute,
}

impl Access {
    pub const ALL: [Access; 3] = [Access::Read, Access::Write, Access::ReadForExecute];

    pub fn name(self) -> &'static str {
        match self {
            Access::Read => "read",
            Access::Write => "write",
            Access::ReadForExecute => "read-for-execute",
        }
    }
}

/// One device request; the data value is passed beside it.
#[derive(Clone, Copy, Debug, PartialEq, Eq)]
pub struct Request {
    pub device_id: u64,
    pub process_id: Option<u64>,
    pub supervisor: bool,
    pub access: Access,
    pub address: u64,
    pub length: u64,
}

/// The stage that found a fault.
#[derive(Clone, Copy, Debug, PartialEq, Eq, PartialOrd, Ord)]
pub enum Stage {
    Directory,
    ProcessDirectory,
    First,
    Second,
    MessageTable,
}

impl Stage {
    pub const ALL: [Stage; 5] = [
        Stage::Directory,
        Stage::ProcessDirectory,
        Stage::First,
        Stage::Second,
        Stage::MessageTable,
    ];

    pub fn name(self) -> &'static str {
        match self {
            Stage::Directory => "directory",
            Stage::ProcessDirectory => "process directory",
            Stage::First => "first stage",
            Stage::Second => "second stage",
            Stage::MessageTable => "message table",
        }
    }

    /// The number that include/yasmurekh.h gives the stage.
    pub fn number(self) -> u64 {
        match self {
            Stage::Directory => 0,
            Stage::ProcessDirectory => 1,
            Stage::First => 2,
            Stage::Second => 3,
            Stage::MessageTable => 4,
        }
    }
}

#[derive(Clone, Copy, Debug, PartialEq, Eq)]
pub enum Answer {
    Translated(u64),
    Redirected(u64),
    Stored {
        file: u64,
        notice_address: u64,
        notice_number: u64,
    },
    Discarded,
    Fault {
        cause: u64,
        stage: Stage,
    },
    Refused(u64),
    Taken(bool),
    /// 02, Req 12: the bits that a take of many cleared.
    TakenMany(u64),
}

impl Answer {
    /// 01, the table of answers: the answer's number and its three numbers.
    pub fn numbers(self) -> [u64; 4] {
        match self {
            Answer::Translated(address) => [0, address, 0, 0],
            Answer::Redirected(address) => [1, address, 0, 0],
            Answer::Stored {
                file,
                notice_address,
                notice_number,
            } => [2, file, notice_address, notice_number],
            Answer::Discarded => [3, 0, 0, 0],
            Answer::Fault { cause, .. } => [4, cause, 0, 0],
            Answer::Refused(number) => [5, number, 0, 0],
            Answer::Taken(pending) => [6, u64::from(pending), 0, 0],
            Answer::TakenMany(answered) => [6, answered, 0, 0],
        }
    }

    /// The stage that a fault names; none for every other answer.
    pub fn stage(self) -> Option<Stage> {
        match self {
            Answer::Fault { stage, .. } => Some(stage),
            _ => None,
        }
    }
}

/// A step gives its result, or the answer that ends the call.
pub type Step<T> = Result<T, Answer>;

/// A fault as the end of a step.
pub fn fault<T>(cause: u64, stage: Stage) -> Step<T> {
    Err(Answer::Fault { cause, stage })
}

/// 01, The two walks: access fault 1, 5, 7 (execute, read, write).
pub fn access_fault(access: Access) -> u64 {
    match access {
        Access::ReadForExecute => 1,
        Access::Read => 5,
        Access::Write => 7,
    }
}

/// 01, The two walks: page fault 12, 13, 15.
pub fn page_fault(access: Access) -> u64 {
    match access {
        Access::ReadForExecute => 12,
        Access::Read => 13,
        Access::Write => 15,
    }
}

/// 01, The two walks: guest page fault 20, 21, 23.
pub fn guest_page_fault(access: Access) -> u64 {
    match access {
        Access::ReadForExecute => 20,
        Access::Read => 21,
        Access::Write => 23,
    }
}

/// One pair of doublewords of an interrupt file.
#[derive(Clone, Copy, Debug, Default, PartialEq, Eq)]
pub struct Pair {
    pub pending: u64,
    pub enable: u64,
}

/// The report of one interrupt file; refusal 0 means that none was given.
#[derive(Clone, Copy, Debug, PartialEq, Eq)]
pub struct Report {
    pub refusal: u64,
    pub count: u64,
    pub pairs: [Pair; 32],
}

/// Bits high:low of a value, moved down to bit 0.
pub fn bits(value: u64, high: u32, low: u32) -> u64 {
    let width = high - low + 1;
    let kept = if width >= 64 {
        u64::MAX
    } else {
        (1 << width) - 1
    };
    (value >> low) & kept
}

/// One bit of a value.
pub fn bit(value: u64, place: u32) -> bool {
    bits(value, place, place) == 1
}

/// The address of a page: page numbers have 44 bits, addresses 56.
pub fn page_address(page_number: u64) -> u64 {
    page_number << 12
}
