//! What a call answers.

use core::error::Error;
use core::fmt;

/// The answer to a device request.
#[derive(Clone, Copy, Debug, PartialEq, Eq, Hash)]
pub enum Answer {
    /// The access goes to this physical address.
    Translated(u64),
    /// A message, to be written to this physical address, an interrupt file of a hart.
    Redirected(u64),
    /// A message, stored as pending in a memory-resident interrupt file of one of the windows.
    Stored {
        /// The file's physical address.
        file: u64,
        /// The notice that the caller now has to send.
        notice: Notice,
    },
    /// An access to a memory-resident interrupt file that stores nothing; it is complete.
    Discarded,
    /// The access faults.
    Fault(Fault),
    /// The request is refused.
    Refused(Refusal),
}

impl Answer {
    /// The five words of the face for C: kind, three values, stage.
    pub(crate) fn from_words(words: [u64; 5]) -> Answer {
        if let Some(place) = words.iter().position(|word| *word == UNWRITTEN) {
            another_version("answer without word", place as u64);
        }
        match words {
            [0, address, 0, 0, 0] => Answer::Translated(address),
            [1, address, 0, 0, 0] => Answer::Redirected(address),
            [2, file, address, number, 0] => Answer::Stored {
                file,
                notice: Notice { address, number },
            },
            [3, 0, 0, 0, 0] => Answer::Discarded,
            [4, cause, 0, 0, stage] => Answer::Fault(Fault {
                cause,
                stage: Stage::from_number(stage),
            }),
            [5, number, 0, 0, 0] => Answer::Refused(Refusal::from_number(number)),
            [kind, ..] => another_version("answer", kind),
        }
    }

    /// The kind's number, 0 to 5 in the order of the variants.
    pub const fn number(&self) -> u64 {
        match self {
            Answer::Translated(_) => 0,
            Answer::Redirected(_) => 1,
            Answer::Stored { .. } => 2,
            Answer::Discarded => 3,
            Answer::Fault(_) => 4,
            Answer::Refused(_) => 5,
        }
    }
}

impl fmt::Display for Answer {
    fn fmt(&self, f: &mut fmt::Formatter<'_>) -> fmt::Result {
        match self {
            Answer::Translated(address) => write!(f, "translated to {address:#x}"),
            Answer::Redirected(address) => write!(f, "message redirected to {address:#x}"),
            Answer::Stored { file, notice } => write!(f, "stored in file {file:#x}, {notice}"),
            Answer::Discarded => f.write_str("discarded"),
            Answer::Fault(fault) => fault.fmt(f),
            Answer::Refused(refusal) => refusal.fmt(f),
        }
    }
}

/// What the words that a call answers in hold before it. Only a pair of a report and the bits of a take
/// of many may be this after it.
pub(crate) const UNWRITTEN: u64 = u64::MAX;

/// The status of a call that is never refused by it.
pub(crate) fn done(status: u64) {
    if status != 0 {
        another_version("status", status);
    }
}

/// A take's words: whether the interrupt was pending, or the refusal.
pub(crate) fn taken(words: [u64; 5]) -> Result<bool, Refusal> {
    match words {
        [5, number, 0, 0, 0] => Err(Refusal::from_number(number)),
        [6, pending @ (0 | 1), 0, 0, 0] => Ok(pending == 1),
        [kind, ..] => another_version("answer of a take", kind),
    }
}

/// A take of many's words: the bits of the mask that were pending, or the refusal.
pub(crate) fn taken_many(words: [u64; 5], mask: u64) -> Result<u64, Refusal> {
    match words {
        [5, 2009, 0, 0, 0] => Err(Refusal::Doubleword),
        [5, number, 0, 0, 0] => Err(Refusal::from_number(number)),
        [6, bits, 0, 0, 0] if bits & !mask == 0 => Ok(bits),
        [kind, ..] => another_version("answer of a take of many", kind),
    }
}

/// A wire change's status: done, or the refusal.
pub(crate) fn wired(status: u64) -> Result<(), Refusal> {
    match status {
        0 => Ok(()),
        2014 => Err(Refusal::Source),
        _ => another_version("status of a wire change", status),
    }
}

/// The status of a call about a hart: done, or the refusal.
pub(crate) fn of_hart(status: u64) -> Result<(), Refusal> {
    match status {
        0 => Ok(()),
        2014 => Err(Refusal::Hart),
        _ => another_version("status of a call about a hart", status),
    }
}

/// The 32 bits of a register.
pub(crate) fn register(word: u64) -> u32 {
    u32::try_from(word).unwrap_or_else(|_| another_version("value of a register", word))
}

/// Yes or no.
pub(crate) fn bit(word: u64) -> bool {
    match word {
        0 => false,
        1 => true,
        _ => another_version("signal", word),
    }
}

/// The library answers no number that this crate doesn't name.
#[cold]
pub(crate) fn another_version(what: &str, number: u64) -> ! {
    panic!("the static library is of another version than this crate: {what} {number}")
}

/// The notice of a stored message: the caller writes `number`, as 32 bits, to `address`.
///
/// Every stored message has one, whether or not its interrupt was pending before and whatever the
/// file's enable bits are.
#[derive(Clone, Copy, Debug, PartialEq, Eq, Hash)]
pub struct Notice {
    /// The physical address of the notice's page.
    pub address: u64,
    /// The notice's number, at most 2,047.
    pub number: u64,
}

impl fmt::Display for Notice {
    fn fmt(&self, f: &mut fmt::Formatter<'_>) -> fmt::Result {
        write!(f, "notice {} to {:#x}", self.number, self.address)
    }
}

/// A fault: the cause by the standard's number, and the stage that found it.
#[derive(Clone, Copy, Debug, PartialEq, Eq, Hash)]
pub struct Fault {
    /// The cause, as the IOMMU specification numbers it.
    pub cause: u64,
    /// The stage that found the fault.
    pub stage: Stage,
}

impl Fault {
    /// What the cause means, in a few words.
    pub const fn description(&self) -> &'static str {
        match self.cause {
            1 => "instruction access fault",
            5 => "read access fault",
            7 => "write access fault",
            12 => "instruction page fault",
            13 => "read page fault",
            15 => "write page fault",
            20 => "instruction guest page fault",
            21 => "read guest page fault",
            23 => "write guest page fault",
            256 => "all inbound transactions disallowed",
            257 => "device directory entry load access fault",
            258 => "device directory entry not valid",
            259 => "device directory entry misconfigured",
            260 => "transaction type disallowed",
            261 => "message table entry load access fault",
            262 => "message table entry not valid",
            263 => "message table entry misconfigured",
            265 => "process directory entry load access fault",
            266 => "process directory entry not valid",
            267 => "process directory entry misconfigured",
            _ => "fault",
        }
    }
}

impl fmt::Display for Fault {
    fn fmt(&self, f: &mut fmt::Formatter<'_>) -> fmt::Result {
        let what = self.description();
        write!(
            f,
            "{what} (cause {}), found by the {}",
            self.cause, self.stage
        )
    }
}

impl Error for Fault {}

/// The stage that found a fault.
#[derive(Clone, Copy, Debug, PartialEq, Eq, PartialOrd, Ord, Hash)]
pub enum Stage {
    /// The device directory, and what is asked before any stage translates.
    Directory,
    /// The process directory.
    ProcessDirectory,
    /// The first stage.
    First,
    /// The second stage, also where it translates an address of another table.
    Second,
    /// The message table.
    MessageTable,
}

impl Stage {
    /// All stages, in the order of their numbers.
    pub const ALL: [Stage; 5] = [
        Stage::Directory,
        Stage::ProcessDirectory,
        Stage::First,
        Stage::Second,
        Stage::MessageTable,
    ];

    fn from_number(number: u64) -> Stage {
        match number {
            0 => Stage::Directory,
            1 => Stage::ProcessDirectory,
            2 => Stage::First,
            3 => Stage::Second,
            4 => Stage::MessageTable,
            _ => another_version("stage", number),
        }
    }

    /// The stage's number, 0 to 4 in the order of the variants.
    pub const fn number(self) -> u64 {
        self as u64
    }
}

impl fmt::Display for Stage {
    fn fmt(&self, f: &mut fmt::Formatter<'_>) -> fmt::Result {
        f.write_str(match self {
            Stage::Directory => "device directory",
            Stage::ProcessDirectory => "process directory",
            Stage::First => "first stage",
            Stage::Second => "second stage",
            Stage::MessageTable => "message table",
        })
    }
}

/// Why a call is refused. Nothing changed then.
///
/// The checks stand in the order of the variants, and the first that is broken answers.
#[derive(Clone, Copy, Debug, PartialEq, Eq, PartialOrd, Ord, Hash)]
#[non_exhaustive]
pub enum Refusal {
    /// 2001: a window's start or length is no multiple of 4,096, or the window ends above 2^56.
    Window,
    /// 2011: an address lies in both windows.
    Overlap,
    /// 2002: the directory mode is above 4, or the root page number has more than 44 bits.
    Directory,
    /// 2003: the device_id has more than 24 bits.
    DeviceId,
    /// 2004: the process_id has more than 20 bits.
    ProcessId,
    /// 2005: supervisor without a process_id.
    Supervisor,
    /// 2006: the length is 0, or the access leaves its 4 KiB page.
    Length,
    /// 2007: the message would be stored, and its file is in neither window.
    FileOutside,
    /// 2012: the message would be stored, and its file lies in the 4 KiB page that holds the request's
    /// device context or its message entry. No other page counts.
    FileOverTables,
    /// 2008: either take, or report: the file's address is no multiple of 512, or it is in neither window.
    File,
    /// 2009: take: the identity is above 2,047.
    Identity,
    /// 2009 too: take of many: the doubleword number is above 31.
    Doubleword,
    /// 2014: wire change of a domain: no source has that number, 1 to 63.
    Source,
    /// 2014 too: claim or signal of a domain: no hart has that number, 0 to 15.
    Hart,
}

impl Refusal {
    /// All refusals, in the order of the variants.
    pub const ALL: [Refusal; 14] = [
        Refusal::Window,
        Refusal::Overlap,
        Refusal::Directory,
        Refusal::DeviceId,
        Refusal::ProcessId,
        Refusal::Supervisor,
        Refusal::Length,
        Refusal::FileOutside,
        Refusal::FileOverTables,
        Refusal::File,
        Refusal::Identity,
        Refusal::Doubleword,
        Refusal::Source,
        Refusal::Hart,
    ];

    fn from_number(number: u64) -> Refusal {
        match number {
            2001 => Refusal::Window,
            2002 => Refusal::Directory,
            2003 => Refusal::DeviceId,
            2004 => Refusal::ProcessId,
            2005 => Refusal::Supervisor,
            2006 => Refusal::Length,
            2007 => Refusal::FileOutside,
            2008 => Refusal::File,
            2009 => Refusal::Identity,
            2011 => Refusal::Overlap,
            2012 => Refusal::FileOverTables,
            2014 => Refusal::Source,
            _ => another_version("refusal", number),
        }
    }

    /// The refusal's number.
    pub const fn number(self) -> u64 {
        match self {
            Refusal::Window => 2001,
            Refusal::Overlap => 2011,
            Refusal::Directory => 2002,
            Refusal::DeviceId => 2003,
            Refusal::ProcessId => 2004,
            Refusal::Supervisor => 2005,
            Refusal::Length => 2006,
            Refusal::FileOutside => 2007,
            Refusal::FileOverTables => 2012,
            Refusal::File => 2008,
            Refusal::Identity | Refusal::Doubleword => 2009,
            Refusal::Source | Refusal::Hart => 2014,
        }
    }
}

impl fmt::Display for Refusal {
    fn fmt(&self, f: &mut fmt::Formatter<'_>) -> fmt::Result {
        let why = match self {
            Refusal::Window => "a window isn't whole pages below 2^56",
            Refusal::Overlap => "the two windows overlap",
            Refusal::Directory => "no such directory mode, or the root page number is too wide",
            Refusal::DeviceId => "the device_id is too wide",
            Refusal::ProcessId => "the process_id is too wide",
            Refusal::Supervisor => "supervisor without a process_id",
            Refusal::Length => "the access is empty or leaves its page",
            Refusal::FileOutside => "the message's file is in neither window",
            Refusal::FileOverTables => {
                "the message's file is in the page of its device context or message entry"
            }
            Refusal::File => "no interrupt file of either window is at that address",
            Refusal::Identity => "the identity is above 2,047",
            Refusal::Doubleword => "the doubleword number is above 31",
            Refusal::Source => "no source of the domain has that number",
            Refusal::Hart => "no hart of the domain has that number",
        };
        write!(f, "refused ({}): {why}", self.number())
    }
}

impl Error for Refusal {}

/// 64 interrupts of a file: a pending and an enable bit for each.
#[derive(Clone, Copy, Debug, Default, PartialEq, Eq, Hash)]
pub struct Pair {
    /// The pending bits.
    pub pending: u64,
    /// The enable bits.
    pub enable: u64,
}

/// An interrupt file as it stands.
#[derive(Clone, Copy, Debug, PartialEq, Eq, Hash)]
pub struct Report {
    /// How many of the 2,048 interrupts are pending, identity 0 included.
    pub count: u64,
    /// The pairs: identity n is bit n mod 64 of pair n / 64.
    pub pairs: [Pair; 32],
}

impl Report {
    /// The 66 words of the face for C: refusal, count, then the pairs.
    pub(crate) fn from_words(words: &[u64; 66]) -> Result<Report, Refusal> {
        if words[0] != 0 {
            return Err(Refusal::from_number(words[0]));
        }
        let mut pairs = [Pair::default(); 32];
        for (pair, words) in pairs.iter_mut().zip(words[2..].chunks_exact(2)) {
            *pair = Pair {
                pending: words[0],
                enable: words[1],
            };
        }
        let count = words[1];
        let pending: u32 = pairs.iter().map(|pair| pair.pending.count_ones()).sum();
        if count != u64::from(pending) {
            another_version("count", count);
        }
        Ok(Report { count, pairs })
    }

    /// Whether an interrupt is pending; false for an identity above 2,047.
    pub fn is_pending(&self, identity: u64) -> bool {
        self.bit(identity, |pair| pair.pending)
    }

    /// Whether an interrupt is enabled; false for an identity above 2,047.
    pub fn is_enabled(&self, identity: u64) -> bool {
        self.bit(identity, |pair| pair.enable)
    }

    /// The pending interrupts, lowest first.
    ///
    /// ```
    /// let mut window = [0; 4096];
    /// window[0] = 0b1000_0010;
    /// window[16] = 1;
    /// let report = yasmurekh::report(&yasmurekh::Memory::one(0, &mut window), 0)?;
    /// assert!(report.pending().eq([1, 7, 64]));
    /// # Ok::<(), yasmurekh::Refusal>(())
    /// ```
    pub fn pending(&self) -> impl Iterator<Item = u64> + '_ {
        (0..2048).filter(|identity| self.is_pending(*identity))
    }

    fn bit(&self, identity: u64, bits: impl Fn(&Pair) -> u64) -> bool {
        let pair = usize::try_from(identity / 64).ok();
        pair.and_then(|place| self.pairs.get(place))
            .is_some_and(|pair| bits(pair) >> (identity % 64) & 1 == 1)
    }
}

#[cfg(test)]
mod tests {
    extern crate std;

    use super::*;
    use std::panic::catch_unwind;
    use std::string::String;

    const MESSAGE: &str = "the static library is of another version than this crate";

    /// Sees that a call panics by [`another_version`].
    #[track_caller]
    fn refuses<T>(call: impl FnOnce() -> T + std::panic::UnwindSafe) {
        let panic = catch_unwind(call).err().expect("a panic");
        let text = panic.downcast_ref::<String>().expect("a text");
        assert!(text.starts_with(MESSAGE), "{text}");
    }

    /// A status that a call never has: short buffer, and what no version of the face has named.
    const UNKNOWN: [u64; 4] = [1, 2, 2001, u64::MAX];

    #[test]
    fn an_unknown_status() {
        done(0);
        assert_eq!(wired(0), Ok(()));
        assert_eq!(wired(2014), Err(Refusal::Source));
        assert_eq!(of_hart(0), Ok(()));
        assert_eq!(of_hart(2014), Err(Refusal::Hart));
        for status in UNKNOWN {
            refuses(move || done(status));
            refuses(move || wired(status));
            refuses(move || of_hart(status));
        }
        refuses(|| done(2014));
    }

    /// An answer of each kind, by its words.
    fn known() -> [([u64; 5], Answer); 8] {
        let fault = Fault {
            cause: 13,
            stage: Stage::First,
        };
        let notice = Notice {
            address: 2,
            number: 3,
        };
        [
            ([0, 1, 0, 0, 0], Answer::Translated(1)),
            ([1, 1, 0, 0, 0], Answer::Redirected(1)),
            ([2, 1, 2, 3, 0], Answer::Stored { file: 1, notice }),
            ([3, 0, 0, 0, 0], Answer::Discarded),
            ([4, 13, 0, 0, 2], Answer::Fault(fault)),
            ([5, 2006, 0, 0, 0], Answer::Refused(Refusal::Length)),
            ([5, 2011, 0, 0, 0], Answer::Refused(Refusal::Overlap)),
            ([5, 2012, 0, 0, 0], Answer::Refused(Refusal::FileOverTables)),
        ]
    }

    #[test]
    fn unknown_words_of_a_request() {
        for (words, answer) in known() {
            assert_eq!(Answer::from_words(words), answer);
            // Each word left unwritten.
            for place in 0..5 {
                let mut words = words;
                words[place] = UNWRITTEN;
                refuses(move || Answer::from_words(words));
            }
        }
        for words in [
            [6, 0, 0, 0, 0],
            [7, 0, 0, 0, 0],
            [0, 1, 0, 0, 1],
            [0, 1, 1, 0, 0],
            [3, 1, 0, 0, 0],
            [4, 13, 0, 0, 5],
            [4, 13, 1, 0, 2],
            [5, 2010, 0, 0, 0],
            [5, 2013, 0, 0, 0],
            [5, 2011, 0, 0, 1],
            [5, 2012, 0, 0, 1],
            [5, 2012, 1, 0, 0],
            [5, 2006, 0, 0, 1],
        ] {
            refuses(move || Answer::from_words(words));
        }
    }

    /// A number leads back to its refusal; of two that share one, to the first.
    #[test]
    fn a_refusal_by_its_number() {
        for refusal in Refusal::ALL {
            let number = refusal.number();
            let first = Refusal::ALL.into_iter().find(|it| it.number() == number);
            assert_eq!(Some(Refusal::from_number(number)), first);
        }
        assert!(Refusal::ALL.windows(2).all(|pair| pair[0] < pair[1]));
        let named = |number| Refusal::ALL.iter().any(|it| it.number() == number);
        for number in (1999..2020).filter(|number| !named(*number)) {
            refuses(move || Refusal::from_number(number));
        }
    }

    #[test]
    fn unknown_words_of_a_take() {
        assert_eq!(taken([6, 0, 0, 0, 0]), Ok(false));
        assert_eq!(taken([6, 1, 0, 0, 0]), Ok(true));
        assert_eq!(taken([5, 2009, 0, 0, 0]), Err(Refusal::Identity));
        assert_eq!(taken([5, 2011, 0, 0, 0]), Err(Refusal::Overlap));
        for words in [
            [UNWRITTEN; 5],
            [0, 0, 0, 0, 0],
            [5, UNWRITTEN, 0, 0, 0],
            [6, 2, 0, 0, 0],
            [6, UNWRITTEN, 0, 0, 0],
            [6, 1, 0, 0, UNWRITTEN],
        ] {
            refuses(move || taken(words));
        }
    }

    #[test]
    fn unknown_words_of_a_take_many() {
        for (bits, mask) in [(0, 0), (0, 5), (4, 5), (5, 5), (u64::MAX, u64::MAX)] {
            assert_eq!(taken_many([6, bits, 0, 0, 0], mask), Ok(bits));
        }
        let refused = |number| taken_many([5, number, 0, 0, 0], 5);
        assert_eq!(refused(2009), Err(Refusal::Doubleword));
        assert_eq!(refused(2008), Err(Refusal::File));
        assert_eq!(refused(2011), Err(Refusal::Overlap));
        // A bit that isn't in the mask.
        for (bits, mask) in [
            (1, 0),
            (2, 5),
            (7, 5),
            (UNWRITTEN, 5),
            (1 << 63, !(1 << 63)),
        ] {
            refuses(move || taken_many([6, bits, 0, 0, 0], mask));
        }
        for words in [
            [UNWRITTEN; 5],
            [0, 1, 0, 0, 0],
            [3, 0, 0, 0, 0],
            [7, 1, 0, 0, 0],
            [5, UNWRITTEN, 0, 0, 0],
            [5, 2010, 0, 0, 0],
            [5, 2009, 0, 0, 1],
            [6, 1, 1, 0, 0],
            [6, 1, 0, UNWRITTEN, 0],
            [6, 1, 0, 0, UNWRITTEN],
        ] {
            refuses(move || taken_many(words, u64::MAX));
        }
    }

    #[test]
    fn unknown_words_of_a_report() {
        let mut words = [0; 66];
        (words[1], words[2], words[64]) = (5, 7, 3);
        let report = Report::from_words(&words).expect("no refusal");
        assert_eq!([report.count, report.pairs[31].pending], [5, 3]);
        for place in (0..66).step_by(2).chain([1]) {
            let mut words = words;
            words[place] = UNWRITTEN;
            refuses(move || Report::from_words(&words));
        }
        refuses(|| Report::from_words(&[UNWRITTEN; 66]));
    }

    #[test]
    fn unknown_words_of_a_domain() {
        assert_eq!(register(0xFFFF_FFFF), u32::MAX);
        assert_eq!([bit(0), bit(1)], [false, true]);
        for word in [1 << 32, UNWRITTEN] {
            refuses(move || register(word));
            refuses(move || bit(word));
        }
        refuses(|| bit(2));
    }
}
