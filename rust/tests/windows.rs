//! Two windows: what is looked for in both, which of them changes, and what is refused.

use yasmurekh::{
    report, request, take, take_many, Answer, Fault, Memory, Mode, Notice, Refusal, Request,
    Settings, Stage, Window,
};

const PAGE: u64 = 4096;
/// Where the two windows start, unless a test says so; where a page lies that is in neither.
const STARTS: [u64; 2] = [0x1000_0000, 0x2000_0000];
const NOWHERE: u64 = 0x3000_0000;

/// The pages of the layout.
#[derive(Clone, Copy, Debug, PartialEq, Eq)]
enum Page {
    /// A guest's root, whose first entry maps 1 GiB; in the same page the context of device 1.
    Directory,
    /// The root of a first stage.
    First,
    /// A message table.
    Messages,
    /// Interrupt files.
    Files,
}

const ALL: [Page; 4] = [Page::Directory, Page::First, Page::Messages, Page::Files];

/// V, R, W, X, U, A, D.
const LEAF: u64 = 0xDF;
/// A data access, and a message for identity 37.
const READ: Request = Request::read(1, 0x1234, 8);
const MESSAGE: Request = Request::message(1, 0x4000_0000, 37);
const TRANSLATED: Answer = Answer::Translated(0x8000_1234);

fn fault(cause: u64, stage: Stage) -> Answer {
    Answer::Fault(Fault { cause, stage })
}

fn put(page: &mut [u8], offset: usize, word: u64) {
    page[offset..offset + 8].copy_from_slice(&word.to_le_bytes());
}

/// The bytes of a page, with the pages at these places. The second stage leaves the first gibibyte where
/// it is and leads the next to 2 GiB; the first stage leads the data there, and the message to guest
/// 2 GiB, which is the pattern.
fn bytes(page: Page, places: &[u64; 4]) -> Vec<u8> {
    let [directory, first, messages, files] = places.map(|place| place / PAGE);
    let mut bytes = vec![0; PAGE as usize];
    match page {
        Page::Directory => {
            put(&mut bytes, 0, LEAF);
            put(&mut bytes, 8, 0x8000_0000 >> 2 | LEAF);
            put(&mut bytes, 64, 1); // tc: valid
            put(&mut bytes, 72, 8 << 60 | directory); // iohgatp: Sv39x4
            put(&mut bytes, 88, 8 << 60 | first); // fsc: Sv39
            put(&mut bytes, 96, 1 << 60 | messages); // msiptp: flat
            put(&mut bytes, 112, 0x80000); // pattern, under mask 0
        }
        Page::First => {
            put(&mut bytes, 0, 0x4000_0000 >> 2 | LEAF);
            put(&mut bytes, 8, 0x8000_0000 >> 2 | LEAF);
        }
        Page::Messages => {
            // The file at 0x200 of its page; notice 1029 to 0x2800_0000.
            put(&mut bytes, 0, (files * PAGE + 0x200) >> 9 << 7 | 3);
            put(&mut bytes, 8, 1 << 60 | 0x2800_0000 >> 2 | 5);
        }
        // Every bit is set but that of identity 37.
        Page::Files => {
            bytes.fill(0xFF);
            bytes[0x204] = 0xDF;
        }
    }
    bytes
}

/// Two windows of one's own, and what the layout has in them.
#[derive(Clone, Debug, PartialEq)]
struct Two {
    starts: [u64; 2],
    windows: [Vec<u8>; 2],
    directory: u64,
    file: u64,
}

impl Two {
    /// The layout in windows from these starts on: the pages that are gone are in neither, those that
    /// are chosen in the second, the others in the first.
    fn new(starts: [u64; 2], chosen: impl Fn(Page) -> Option<usize>) -> Two {
        let mut places = [NOWHERE; 4];
        let mut ends = starts;
        for page in ALL {
            if let Some(window) = chosen(page) {
                places[page as usize] = ends[window];
                ends[window] += PAGE;
            }
        }
        let mut windows = [Vec::new(), Vec::new()];
        for page in ALL {
            if let Some(window) = chosen(page) {
                windows[window].append(&mut bytes(page, &places));
            }
        }
        Two {
            starts,
            windows,
            directory: places[0],
            file: places[3] + 0x200,
        }
    }

    /// Tables in the first window, files in the second.
    fn usual() -> Two {
        Two::new(STARTS, |page| Some(usize::from(page == Page::Files)))
    }

    /// All in the first window; the second is empty, at an address.
    fn beside_empty(start: u64) -> Two {
        Two::new([STARTS[0], start], |_| Some(0))
    }

    fn swapped(mut self) -> Two {
        self.starts.reverse();
        self.windows.reverse();
        self
    }

    fn memory(&mut self) -> Memory<'_> {
        let [first, second] = &mut self.windows;
        Memory {
            first: Window::new(self.starts[0], first),
            second: Window::new(self.starts[1], second),
        }
    }

    fn settings(&self) -> Settings {
        Settings {
            mode: Mode::ONE_LEVEL,
            root: self.directory / PAGE,
        }
    }

    /// The answer to the message, where it is stored.
    fn stored(&self) -> Answer {
        Answer::Stored {
            file: self.file,
            notice: Notice {
                address: 0x2800_0000,
                number: 1029,
            },
        }
    }

    fn request(&mut self, asked: &Request) -> Answer {
        let settings = self.settings();
        request(&mut self.memory(), &settings, asked)
    }

    fn take(&mut self, file: u64, identity: u64) -> Result<bool, Refusal> {
        take(&mut self.memory(), file, identity)
    }

    fn take_many(&mut self, file: u64, doubleword: u64, mask: u64) -> Result<u64, Refusal> {
        take_many(&mut self.memory(), file, doubleword, mask)
    }

    /// The number of pending interrupts of a file.
    fn count(&mut self, file: u64) -> Result<u64, Refusal> {
        report(&self.memory(), file).map(|report| report.count)
    }

    /// The bytes that differ from another's: window, address, before, after.
    fn changes(&self, before: &Two) -> Vec<(usize, u64, u8, u8)> {
        let mut changes = Vec::new();
        for window in [0, 1] {
            let (old, new) = (&before.windows[window], &self.windows[window]);
            assert_eq!(old.len(), new.len());
            for place in (0..old.len()).filter(|place| old[*place] != new[*place]) {
                let address = self.starts[window] + place as u64;
                changes.push((window, address, old[place], new[place]));
            }
        }
        changes
    }

    /// Sees that request, both takes and report are all refused, and change nothing.
    #[track_caller]
    fn refused(mut self, refusal: Refusal) {
        let before = self.clone();
        for asked in [READ, MESSAGE] {
            assert_eq!(self.request(&asked), Answer::Refused(refusal));
        }
        assert_eq!(self.take(self.file, 36), Err(refusal));
        assert_eq!(self.take_many(self.file, 0, u64::MAX), Err(refusal));
        assert_eq!(self.count(self.file), Err(refusal));
        assert_eq!(self, before);
    }

    /// Sees that all is found: a translation, a store in the one byte of the window, its report and its
    /// take, and no other byte of either window changed.
    #[track_caller]
    fn served(mut self, window: usize) {
        let before = self.clone();
        let file = self.file;
        assert_eq!(self.request(&READ), TRANSLATED);
        assert_eq!(self.count(file), Ok(2047));
        assert_eq!(self, before);
        assert_eq!(self.request(&MESSAGE), self.stored());
        let changed = [(window, file + 4, 0xDF, 0xFF)];
        assert_eq!(self.changes(&before), changed);
        // A bit that is set stays set.
        assert_eq!(self.request(&MESSAGE), self.stored());
        assert_eq!(self.changes(&before), changed);
        assert_eq!(self.count(file), Ok(2048));
        assert_eq!(self.take(file, 37), Ok(true));
        assert_eq!(self, before);
        assert_eq!(self.take(file, 37), Ok(false));
        assert_eq!(self, before);
        // By a mask: all of the fifth byte but bit 37, which isn't set.
        assert_eq!(self.take_many(file, 0, 0xFF << 32), Ok(0xDF << 32));
        assert_eq!(self.changes(&before), [(window, file + 4, 0xDF, 0)]);
    }
}

/// Every way to put the four pages into two windows.
#[test]
fn pages_in_either_window() {
    for chosen in 0..16 {
        let of = |page| chosen >> page as usize & 1;
        let two = Two::new(STARTS, |page| Some(of(page)));
        two.clone().served(of(Page::Files));
        two.swapped().served(1 - of(Page::Files));
    }
}

/// Without a page, the fault of its stage; without the files, the refusals.
#[test]
fn pages_in_neither_window() {
    for gone in ALL {
        for chosen in 0..16 {
            let of = |page| chosen >> page as usize & 1;
            let mut two = Two::new(STARTS, |page| (page != gone).then_some(of(page)));
            let before = two.clone();
            let file = two.file;
            let answers = [two.request(&READ), two.request(&MESSAGE)];
            let expected = match gone {
                Page::Directory => [fault(257, Stage::Directory); 2],
                Page::First => [fault(5, Stage::First), fault(7, Stage::First)],
                Page::Messages => [TRANSLATED, fault(261, Stage::MessageTable)],
                Page::Files => [TRANSLATED, Answer::Refused(Refusal::FileOutside)],
            };
            assert_eq!(answers, expected, "without {gone:?}, {chosen}");
            let (taken, count) = match gone {
                Page::Files => (Err(Refusal::File), Err(Refusal::File)),
                _ => (Ok(false), Ok(2047)),
            };
            assert_eq!(two.take(file, 37), taken);
            assert_eq!(two.take_many(file, 0, 1 << 37), taken.map(u64::from));
            assert_eq!(two.count(file), count);
            assert_eq!(two, before);
        }
    }
}

/// 2001 by either window alone, with whatever the other is; by an empty window too.
#[test]
fn a_broken_window() {
    let changes: [fn(&mut Two); 10] = [
        |two| two.starts[1] += 512,
        |two| two.windows[1].truncate(4095),
        |two| two.windows[1].truncate(1),
        |two| two.starts[1] = 1 << 56,
        |two| two.starts[1] = u64::MAX << 12,
        |two| (two.starts[1], two.windows[1]) = (1, Vec::new()),
        |two| (two.starts[1], two.windows[1]) = ((1 << 56) + 4096, Vec::new()),
        // Before 2011.
        |two| two.starts[1] = two.starts[0] + 512,
        |two| (two.starts[1], two.windows[1]) = (two.starts[0], vec![0; 4097]),
        // Both.
        |two| two.starts = [1, 2],
    ];
    for change in changes {
        let mut two = Two::usual();
        change(&mut two);
        two.clone().refused(Refusal::Window);
        two.swapped().refused(Refusal::Window);
    }
}

/// 2011 in requests, takes and reports.
#[test]
fn overlapping_windows() {
    let [low, _] = STARTS;
    // The tables have three pages.
    for (start, pages) in [
        (low, 3),
        (low, 1),
        (low + PAGE, 1),
        (low + 2 * PAGE, 1),
        (low + 2 * PAGE, 2),
        (low - PAGE, 2),
        (low - PAGE, 5),
    ] {
        let mut two = Two::usual();
        two.starts[1] = start;
        two.windows[1] = vec![0xFF; (pages * PAGE) as usize];
        two.clone().refused(Refusal::Overlap);
        two.swapped().refused(Refusal::Overlap);
    }
}

/// 2011 comes right after 2001: whatever else is wrong comes later.
#[test]
fn overlap_before_the_other_refusals() {
    let mut two = Two::usual();
    two.starts[1] = two.starts[0];
    let before = two.clone();
    let worst = Request::read(u64::MAX, u64::MAX, 0).as_supervisor();
    let worst_settings = Settings {
        mode: Mode(5),
        root: u64::MAX,
    };
    for settings in [two.settings(), worst_settings] {
        for asked in [READ, worst, worst.with_process(u64::MAX)] {
            let answer = request(&mut two.memory(), &settings, &asked);
            assert_eq!(answer, Answer::Refused(Refusal::Overlap));
        }
    }
    assert_eq!(two.take(1, u64::MAX), Err(Refusal::Overlap));
    assert_eq!(two.take_many(1, u64::MAX, 1), Err(Refusal::Overlap));
    assert_eq!(two.count(1), Err(Refusal::Overlap));
    assert_eq!(two, before);
}

/// An empty window overlaps nothing, wherever it starts, and nothing is found in it.
#[test]
fn an_empty_window() {
    let [start, _] = STARTS;
    let end = start + 4 * PAGE;
    for empty in [
        0,
        start - PAGE,
        start,
        start + PAGE,
        end - PAGE,
        end,
        1 << 56,
    ] {
        let two = Two::beside_empty(empty);
        two.clone().served(0);
        for mut two in [two.clone(), two.clone().swapped()] {
            assert_eq!(two.take(end, 37), Err(Refusal::File));
            assert_eq!(two.count(start - PAGE), Err(Refusal::File));
        }
        two.swapped().served(1);
    }
    // Both, at the same place.
    let mut none = Two::beside_empty(start);
    none.windows[0].clear();
    assert_eq!(none.request(&READ), fault(257, Stage::Directory));
    assert_eq!(none.take(start, 0), Err(Refusal::File));
    assert_eq!(none.count(start), Err(Refusal::File));
}

/// Windows that touch are legal in either order.
#[test]
fn windows_that_touch() {
    let [start, _] = STARTS;
    for pages in 1..4 {
        let low = |page: Page| (page as u64) < pages;
        let touching = [start, start + pages * PAGE];
        let two = Two::new(touching, |page| Some(usize::from(!low(page))));
        assert_eq!(two.starts[0] + two.windows[0].len() as u64, two.starts[1]);
        two.clone().served(1);
        two.swapped().served(0);
    }
}

/// The files at the ends of both windows, and none beyond them.
#[test]
fn files_of_both_windows() {
    let full = vec![0xFF; PAGE as usize];
    let mut two = Two::usual();
    two.windows = [full.clone(), full];
    for mut two in [two.clone(), two.swapped()] {
        for page in STARTS {
            for file in [page, page + PAGE - 512] {
                let before = two.clone();
                assert_eq!(two.take(file, 2047), Ok(true));
                let window = usize::from(two.starts[1] == page);
                assert_eq!(two.changes(&before), [(window, file + 503, 0xFF, 0x7F)]);
                assert_eq!(two.count(file), Ok(2047));
                assert_eq!(two.take(file, 2048), Err(Refusal::Identity));
                assert_eq!(two.take_many(file, 32, 1), Err(Refusal::Doubleword));
                assert_eq!(two.count(file + 1), Err(Refusal::File));
            }
            let before = two.clone();
            for file in [page - 512, page + PAGE] {
                assert_eq!(two.take(file, 0), Err(Refusal::File));
                assert_eq!(two.take_many(file, 0, u64::MAX), Err(Refusal::File));
                assert_eq!(two.count(file), Err(Refusal::File));
            }
            assert_eq!(two, before);
        }
    }
}
