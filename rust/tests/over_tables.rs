//! Files over tables: no message is stored in the page of its own device context or message entry.

use yasmurekh::{
    report, request, take, take_many, Access, Answer, Fault, Memory, Mode, Notice, Refusal,
    Request, Settings, Stage, Window,
};

const PAGE: u64 = 4096;
const START: u64 = 0x4000_0000;
/// Pages from START on; those without tables hold nothing.
const PAGES: u64 = 9;
/// The page of the root of a device directory of two levels.
const ROOT: u64 = 1;
/// Two devices, and the pages of their contexts.
const DEVICES: [(u64, u64); 2] = [(0, 2), (127, 3)];
/// The first of two pages with 512 message entries, which both devices use.
const MESSAGES: u64 = 6;
/// The entries at the ends of these pages, and their pages.
const ENTRIES: [(u64, u64); 4] = [(0, 6), (255, 6), (256, 7), (511, 7)];

const SETTINGS: Settings = Settings {
    mode: Mode::TWO_LEVEL,
    root: at(ROOT) / PAGE,
};

const OVER: Answer = Answer::Refused(Refusal::FileOverTables);

const fn at(page: u64) -> u64 {
    START + PAGE * page
}

fn put(bytes: &mut [u8], address: u64, word: u64) {
    let place = (address - START) as usize;
    bytes[place..place + 8].copy_from_slice(&word.to_le_bytes());
}

/// A root with its mode, as iohgatp and msiptp have it.
fn root(mode: u64, address: u64) -> u64 {
    mode << 60 | address >> 12
}

/// A context whose messages go to guest 2 GiB and the pages after it that the mask picks.
fn put_context(bytes: &mut [u8], context: u64, messages: u64, mask: u64) {
    put(bytes, context, 1); // tc: valid
    put(bytes, context + 8, root(8, START)); // iohgatp: Sv39x4
    put(bytes, context + 32, root(1, messages)); // msiptp: flat
    put(bytes, context + 40, mask);
    put(bytes, context + 48, 0x80000); // pattern
}

/// A message entry that names a file: notice 5 to 0x2800_0000.
fn put_entry(bytes: &mut [u8], entry: u64, file: u64) {
    put(bytes, entry, file >> 9 << 7 | 3);
    put(bytes, entry + 8, 0x2800_0000 >> 2 | 5);
}

/// The pages, with one message entry that names a file.
fn layout(number: u64, file: u64) -> Vec<u8> {
    let mut bytes = vec![0; (PAGES * PAGE) as usize];
    for (device, page) in DEVICES {
        put(&mut bytes, at(ROOT) + device / 64 * 8, at(page) >> 2 | 1);
        let context = at(page) + device % 64 * 64;
        put_context(&mut bytes, context, at(MESSAGES), 0x1FF);
    }
    put_entry(&mut bytes, at(MESSAGES) + 16 * number, file);
    bytes
}

/// The memory in two windows, cut before a page.
fn cut(bytes: &mut [u8], page: u64) -> Memory<'_> {
    let (low, high) = bytes.split_at_mut((page * PAGE) as usize);
    Memory {
        first: Window::new(START, low),
        second: Window::new(at(page), high),
    }
}

/// The same, the higher window first.
fn swapped(bytes: &mut [u8], page: u64) -> Memory<'_> {
    let Memory { first, second } = cut(bytes, page);
    Memory {
        first: second,
        second: first,
    }
}

/// A message for identity 37 by a message entry.
fn message(device: u64, number: u64) -> Request {
    Request::message(device, 0x8000_0000 + PAGE * number, 37)
}

fn stored(file: u64) -> Answer {
    let notice = Notice {
        address: 0x2800_0000,
        number: 5,
    };
    Answer::Stored { file, notice }
}

/// The answer to a request over all pages, and the bytes that it changed: address, before, after.
fn asked(lent: &[u8], asked: &Request) -> (Answer, Vec<(u64, u8, u8)>) {
    let mut bytes = lent.to_vec();
    let answer = request(&mut cut(&mut bytes, PAGES), &SETTINGS, asked);
    let changed = (0..lent.len())
        .filter(|place| lent[*place] != bytes[*place])
        .map(|place| (START + place as u64, lent[place], bytes[place]))
        .collect();
    (answer, changed)
}

/// Refused in the page of the context, stored a page on, where nothing lies; the same about the entry.
#[test]
fn a_page_apart() {
    for (page, number) in [(3, 0), (7, 300)] {
        let (file, message) = (at(page), message(127, number));
        assert_eq!(asked(&layout(number, file), &message), (OVER, vec![]));
        let next = file + PAGE;
        let expected = (stored(next), vec![(next + 4, 0, 32)]);
        assert_eq!(asked(&layout(number, next), &message), expected);
    }
}

/// Every file of every page, for contexts and entries in several pages and windows cut anywhere, in
/// either order: refused in the page of this request's context or entry, stored in any other, be it
/// that of the directory's root, of another device's context or of other message entries.
#[test]
fn these_two_pages_and_no_other() {
    for (device, context) in DEVICES {
        for (number, entry) in ENTRIES {
            for file in (0..8 * PAGES).map(|place| START + 512 * place) {
                let lent = layout(number, file);
                let mut expected = lent.clone();
                let over = [context, entry].contains(&((file - START) / PAGE));
                let answer = if over {
                    OVER
                } else {
                    expected[(file - START) as usize + 4] |= 32;
                    stored(file)
                };
                for page in 0..=PAGES {
                    for windows in [cut, swapped] {
                        let mut bytes = lent.clone();
                        let mut memory = windows(&mut bytes, page);
                        let found = request(&mut memory, &SETTINGS, &message(device, number));
                        assert_eq!(found, answer, "{device} {number} {file:#x} {page}");
                        assert!(bytes == expected, "{device} {number} {file:#x} {page}");
                    }
                }
            }
        }
    }
}

/// What stores nothing is discarded, and what faults faults, wherever the file lies.
#[test]
fn discards_and_faults_come_before() {
    let (number, page) = (0, 0x8000_0000);
    for file in [at(2), at(MESSAGES) + 512, at(PAGES), at(4)] {
        let lent = layout(number, file);
        for discarded in [
            Request::message(0, page, 2048),
            Request::message(0, page + 4, 37),
            Request::message(0, page + 8, 37),
            Request::read(0, page, 4),
            Request::write(0, page, 8),
            Request::write(0, page, 1),
        ] {
            assert_eq!(asked(&lent, &discarded), (Answer::Discarded, vec![]));
        }
        let execute = Request {
            access: Access::ReadForExecute,
            ..message(0, number)
        };
        let fault = |cause| {
            Answer::Fault(Fault {
                cause,
                stage: Stage::MessageTable,
            })
        };
        assert_eq!(asked(&lent, &execute), (fault(1), vec![]));
        let mut invalid = lent;
        invalid[(MESSAGES * PAGE) as usize] = 2;
        let found = asked(&invalid, &message(0, number));
        assert_eq!(found, (fault(262), vec![]));
    }
}

/// A redirected message isn't a store: it may go where the context lies.
#[test]
fn a_redirected_message_over_its_context() {
    let mut lent = layout(0, at(2));
    put(&mut lent, at(MESSAGES), at(2) >> 2 | 7);
    let found = asked(&lent, &message(0, 0));
    assert_eq!(found, (Answer::Redirected(at(2)), vec![]));
}

/// A file in neither window is 2007, and can't be 2012 too: the pages of context and entry are in a
/// window whole.
#[test]
fn a_file_outside() {
    for file in [START - 512, at(PAGES), 0, (1 << 56) - 512] {
        let found = asked(&layout(0, file), &message(0, 0));
        assert_eq!(found, (Answer::Refused(Refusal::FileOutside), vec![]));
    }
}

/// Directory, message table and files in one page: no message is stored there, but all are in the next.
#[test]
fn all_in_one_page() {
    for pages in [1, 2] {
        for file in (0..8 * pages).map(|place| START + 512 * place) {
            let mut bytes = vec![0; (pages * PAGE) as usize];
            put_entry(&mut bytes, START, file);
            put_context(&mut bytes, START + 64, START, 0);
            let settings = Settings {
                mode: Mode::ONE_LEVEL,
                root: START / PAGE,
            };
            let lent = bytes.clone();
            let mut memory = Memory::one(START, &mut bytes);
            let answer = request(&mut memory, &settings, &message(1, 0));
            let over = file < at(1);
            assert_eq!(answer, if over { OVER } else { stored(file) });
            assert_eq!(bytes == lent, over);
        }
    }
}

/// Takes and reports know nothing of contexts and entries.
#[test]
fn takes_and_reports_go_on() {
    for file in [at(2) + 512, at(MESSAGES) + 512] {
        let mut bytes = layout(0, file);
        bytes[(file - START) as usize + 4] = 0xE0;
        let mut memory = cut(&mut bytes, 5);
        assert_eq!(request(&mut memory, &SETTINGS, &message(0, 0)), OVER);
        assert_eq!(report(&memory, file).map(|report| report.count), Ok(3));
        assert_eq!(take(&mut memory, file, 37), Ok(true));
        assert_eq!(take_many(&mut memory, file, 0, u64::MAX), Ok(3 << 38));
        assert!(bytes == layout(0, file), "{file:#x}");
    }
}
