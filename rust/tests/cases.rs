//! The worked cases P5 to P14, the order of refusals, takes and reports, all in one window; two are in
//! tests/windows.rs.

use yasmurekh::{
    report, request, take, Access, Answer, Fault, Memory, Mode, Notice, Pair, Privilege, Refusal,
    Request, Settings, Stage,
};

const START: u64 = 0x4000_0000;
const FILE: u64 = 0x4000_1200;
const PLACE: usize = (FILE - START) as usize;

const SETTINGS: Settings = Settings {
    mode: Mode::ONE_LEVEL,
    root: START / 4096,
};

/// The message entries of P5, P6 and P13.
const REDIRECT: [u64; 2] = [0x0A00_0407, 0];
const STORE: [u64; 2] = [0x1000_0483, 0x1000_0000_0A00_0005];
const RESERVED_MODE: [u64; 2] = [0x0A00_0405, 0];

/// The one window, from START on.
fn one(window: &mut [u8]) -> Memory<'_> {
    Memory::one(START, window)
}

fn put(window: &mut [u8], offset: usize, word: u64) {
    window[offset..offset + 8].copy_from_slice(&word.to_le_bytes());
}

/// Three pages: a directory whose first context is the message context, a page of files, and a
/// message table with an entry for file number 2.
fn layout(entry: [u64; 2]) -> Vec<u8> {
    let mut window = vec![0; 3 * 4096];
    put(&mut window, 0, 1);
    put(&mut window, 8, 0x8000_0000_0004_0000);
    put(&mut window, 32, 0x1000_0000_0004_0002);
    put(&mut window, 40, 3);
    put(&mut window, 48, 0x80004);
    put(&mut window, 8192 + 32, entry[0]);
    put(&mut window, 8192 + 40, entry[1]);
    window
}

/// A request's answer, and the bytes that it changed: place, before, after.
fn run(window: &mut [u8], asked: &Request) -> (Answer, Vec<(usize, u8, u8)>) {
    let before = window.to_vec();
    let answer = request(&mut one(window), &SETTINGS, asked);
    let changed = (0..before.len())
        .filter(|place| before[*place] != window[*place])
        .map(|place| (place, before[place], window[place]))
        .collect();
    (answer, changed)
}

/// The same over a fresh layout.
fn case(entry: [u64; 2], asked: &Request) -> (Answer, Vec<(usize, u8, u8)>) {
    run(&mut layout(entry), asked)
}

fn fault(cause: u64, stage: Stage) -> Answer {
    Answer::Fault(Fault { cause, stage })
}

fn stored() -> Answer {
    Answer::Stored {
        file: FILE,
        notice: Notice {
            address: 0x2800_0000,
            number: 1029,
        },
    }
}

#[test]
fn p5_redirected() {
    let (answer, changed) = case(REDIRECT, &Request::read(0, 0x8000_6000, 4));
    assert_eq!(answer, Answer::Redirected(0x2800_1000));
    assert_eq!(answer.number(), 1);
    assert_eq!(changed, []);
}

#[test]
fn p6_stored() {
    let (answer, changed) = case(STORE, &Request::message(0, 0x8000_6000, 37));
    assert_eq!(answer, stored());
    assert_eq!(changed, [(PLACE + 4, 0, 32)]);
}

#[test]
fn p7_big_endian() {
    let (answer, changed) = case(STORE, &Request::message(0, 0x8000_6004, 620_756_992));
    assert_eq!(answer, stored());
    assert_eq!(changed, [(PLACE + 4, 0, 32)]);
}

#[test]
fn p8_discarded() {
    let (answer, changed) = case(STORE, &Request::message(0, 0x8000_6004, 37));
    assert_eq!(answer, Answer::Discarded);
    assert_eq!(changed, []);
}

#[test]
fn p9_last_identity() {
    let (answer, changed) = case(STORE, &Request::message(0, 0x8000_6000, 2047));
    assert_eq!(answer, stored());
    assert_eq!(changed, [(PLACE + 503, 0, 128)]);
}

#[test]
fn p10_past_the_last_identity() {
    let (answer, changed) = case(STORE, &Request::message(0, 0x8000_6000, 2048));
    assert_eq!(answer, Answer::Discarded);
    assert_eq!(changed, []);
}

#[test]
fn p11_device_wider_than_two_levels() {
    let settings = Settings {
        mode: Mode::TWO_LEVEL,
        ..SETTINGS
    };
    let asked = Request::read(0x01_2345, 0x1000, 4);
    let answer = request(&mut one(&mut layout(STORE)), &settings, &asked);
    assert_eq!(answer, fault(260, Stage::Directory));
    let settings = Settings {
        mode: Mode::THREE_LEVEL,
        ..SETTINGS
    };
    // Three levels have a place for it: entry 2 of the root is word 16, and it isn't valid.
    let answer = request(&mut one(&mut layout(STORE)), &settings, &asked);
    assert_eq!(answer, fault(258, Stage::Directory));
}

#[test]
fn p12_process_wider_than_pd17() {
    let asked = Request::read(0, 0x1000, 4).with_process(0x2A5C3);
    let mut window = vec![0; 3 * 4096];
    put(&mut window, 0, 0b100001); // V, PDTV
    put(&mut window, 24, 0x2000_0000_0004_0001); // PD17
    let (answer, changed) = run(&mut window, &asked);
    assert_eq!(answer, fault(260, Stage::Directory));
    assert_eq!(changed, []);
    // PD20 has a place for it: entry 1 of its root, here not valid, then pointing outside.
    put(&mut window, 24, 0x3000_0000_0004_0001);
    let (answer, _) = run(&mut window, &asked);
    assert_eq!(answer, fault(266, Stage::ProcessDirectory));
    put(&mut window, 4096 + 8, 1);
    let (answer, _) = run(&mut window, &asked);
    assert_eq!(answer, fault(265, Stage::ProcessDirectory));
}

#[test]
fn p13_reserved_entry_mode() {
    let (answer, changed) = case(RESERVED_MODE, &Request::read(0, 0x8000_6000, 4));
    assert_eq!(answer, fault(263, Stage::MessageTable));
    assert_eq!(changed, []);
}

#[test]
fn p14_execute_at_a_message() {
    let (answer, changed) = case(REDIRECT, &Request::execute(0, 0x8000_6000, 4));
    assert_eq!(answer, fault(1, Stage::MessageTable));
    assert_eq!(changed, []);
}

/// SUM opens user pages to a supervisor's reads and writes, and changes nothing else.
#[test]
fn supervisor_on_user_pages() {
    let mut window = vec![0; 3 * 4096];
    put(&mut window, 0, 0b100001); // V, PDTV
    put(&mut window, 24, 0x1000_0000_0004_0001); // PD8
    for (process, ta) in [(0, 0b011), (1, 0b111)] {
        put(&mut window, 4096 + 16 * process, ta); // V, ENS; for process 1 SUM
        put(&mut window, 4096 + 16 * process + 8, 0x8000_0000_0004_0002);
    }
    // Two pages of 1 GiB with V, R, W, X, A, D: U = 0, then U = 1.
    put(&mut window, 8192, 0x2000_00CF);
    put(&mut window, 8192 + 8, 0x3000_00DF);

    let own = (0x1234, Answer::Translated(0x8000_1234));
    let users = (0x4000_1234, Answer::Translated(0xC000_1234));
    for (access, cause) in [
        (Access::Read, 13),
        (Access::Write, 15),
        (Access::ReadForExecute, 12),
    ] {
        for sum in [0, 1] {
            let opened = sum == 1 && access != Access::ReadForExecute;
            for (supervisor, (address, reached), open) in [
                (true, own, true),
                (true, users, opened),
                (false, own, false),
                (false, users, true),
            ] {
                let asked = Request {
                    access,
                    ..Request::read(0, address, 4).with_process(sum)
                };
                let asked = if supervisor {
                    asked.as_supervisor()
                } else {
                    asked
                };
                let expected = if open {
                    reached
                } else {
                    fault(cause, Stage::First)
                };
                let (answer, changed) = run(&mut window, &asked);
                assert_eq!(answer, expected, "{asked:?}");
                assert_eq!(changed, []);
            }
        }
    }
}

/// iohgatp or fsc: a mode, and a page of the window at START.
fn root(mode: u64, page: u64) -> u64 {
    mode << 60 | (START / 4096 + page)
}

/// Sv48 on Sv57x4: a page of 512 GiB at the last addresses below 2^47 leads to guest address 2^55,
/// which a page of 256 TiB maps; the guest's first 256 TiB, where the first stage's table lies, stay
/// where they are. A mode above 10 is misconfigured.
#[test]
fn four_levels_on_five() {
    const LEAF: u64 = 0xDF; // V, R, W, X, U, A, D
    let mut window = vec![0; 8 * 4096];
    put(&mut window, 0, 1);
    put(&mut window, 8, root(10, 4));
    put(&mut window, 24, root(9, 1));
    put(&mut window, 4096 + 255 * 8, (1 << 55 >> 2) | LEAF);
    put(&mut window, 4 * 4096, LEAF);
    put(&mut window, 4 * 4096 + 128 * 8, (3 << 48 >> 2) | LEAF);

    let last = Request::read(0, (1 << 47) - 8, 8);
    let (answer, changed) = run(&mut window, &last);
    assert_eq!(answer, Answer::Translated((3 << 48) + (1 << 39) - 8));
    assert_eq!(changed, []);
    let (answer, _) = run(&mut window, &Request::read(0, 1 << 47, 8));
    assert_eq!(answer, fault(13, Stage::First));

    for (word, page) in [(8, 4), (24, 1)] {
        let mut other = window.clone();
        put(&mut other, word, root(11, page));
        let (answer, changed) = run(&mut other, &last);
        assert_eq!(answer, fault(259, Stage::Directory));
        assert_eq!(changed, []);
    }
}

/// A request that breaks every rule, mended rule by rule: each refusal comes in its turn, and last of all
/// the one by the file that the message entry names.
fn refused_in_order(entry: u64, last: Refusal) {
    let mut settings = Settings {
        mode: Mode(5),
        root: 1 << 44,
    };
    let mut asked = Request {
        device_id: 1 << 24,
        process_id: Some(1 << 20),
        privilege: Privilege::Supervisor,
        length: 0,
        ..Request::message(0, 0x8000_6000, 37)
    };
    let mut window = layout([entry, STORE[1]]);
    let lent = window.clone();
    let mut next = |start: u64, settings: &Settings, asked: &Request| match request(
        &mut Memory::one(start, &mut window),
        settings,
        asked,
    ) {
        Answer::Refused(refusal) => Some(refusal),
        _ => None,
    };
    assert_eq!(next(START + 1, &settings, &asked), Some(Refusal::Window));
    assert_eq!(next(START, &settings, &asked), Some(Refusal::Directory));
    settings.mode = Mode::ONE_LEVEL;
    assert_eq!(next(START, &settings, &asked), Some(Refusal::Directory));
    settings.root = START / 4096;
    assert_eq!(next(START, &settings, &asked), Some(Refusal::DeviceId));
    asked.device_id = 0;
    assert_eq!(next(START, &settings, &asked), Some(Refusal::ProcessId));
    asked.process_id = None;
    assert_eq!(next(START, &settings, &asked), Some(Refusal::Supervisor));
    asked.privilege = Privilege::User;
    assert_eq!(next(START, &settings, &asked), Some(Refusal::Length));
    asked.length = 4097;
    assert_eq!(next(START, &settings, &asked), Some(Refusal::Length));
    asked.length = 4;
    assert_eq!(next(START, &settings, &asked), Some(last));
    asked.data = 2048; // nothing to store: discarded before the file is looked at
    let answer = request(&mut one(&mut window), &settings, &asked);
    assert_eq!(answer, Answer::Discarded);
    assert_eq!(window, lent);
}

#[test]
fn refusals_in_order() {
    // A file at 2^31, outside the window; in the context's page, then in the message entry's.
    refused_in_order(0x2000_0003, Refusal::FileOutside);
    refused_in_order(0x1000_0083, Refusal::FileOverTables);
    refused_in_order(0x1000_0883, Refusal::FileOverTables);
}

#[test]
fn takes() {
    let mut window = layout(STORE);
    let message = Request::message(0, 0x8000_6000, 37);
    assert_eq!(take(&mut one(&mut window), FILE, 37), Ok(false));
    assert_eq!(
        request(&mut one(&mut window), &SETTINGS, &message),
        stored()
    );
    assert_eq!(
        request(&mut one(&mut window), &SETTINGS, &message),
        stored()
    );
    let after_stores = window.clone();
    assert_eq!(take(&mut one(&mut window), FILE, 36), Ok(false));
    assert_eq!(window, after_stores);
    assert_eq!(take(&mut one(&mut window), FILE, 37), Ok(true));
    assert_eq!(window, layout(STORE));
    assert_eq!(take(&mut one(&mut window), FILE, 37), Ok(false));
    assert_eq!(window, layout(STORE));
}

#[test]
fn take_refusals_in_order() {
    let mut window = vec![0xFF; 4096];
    let last = START + 4096 - 512;
    assert_eq!(
        take(&mut Memory::one(1, &mut window), 1, 2048),
        Err(Refusal::Window)
    );
    assert_eq!(
        take(&mut one(&mut window), last + 1, 2048),
        Err(Refusal::File)
    );
    assert_eq!(
        take(&mut one(&mut window), last + 512, 2048),
        Err(Refusal::File)
    );
    assert_eq!(
        take(&mut one(&mut window), START - 512, 0),
        Err(Refusal::File)
    );
    assert_eq!(
        take(&mut one(&mut window), last, 2048),
        Err(Refusal::Identity)
    );
    assert_eq!(
        take(&mut one(&mut window), last, u64::MAX),
        Err(Refusal::Identity)
    );
    assert_eq!(take(&mut one(&mut []), START, 0), Err(Refusal::File));
    assert_eq!(window, vec![0xFF; 4096]);
    assert_eq!(take(&mut one(&mut window), last, 2047), Ok(true));
    assert_eq!(window[4096 - 512 + 503], 0x7F);
}

#[test]
fn reports() {
    let mut window = layout(STORE);
    put(&mut window, PLACE, 1 | 1 << 37);
    put(&mut window, PLACE + 8, 1 << 37);
    put(&mut window, PLACE + 31 * 16, 1 << 63);
    let shown = report(&one(&mut window), FILE).expect("a file of the window");
    assert_eq!(shown.count, 3);
    let first = Pair {
        pending: 1 | 1 << 37,
        enable: 1 << 37,
    };
    assert_eq!(shown.pairs[0], first);
    assert_eq!(shown.pairs[1], Pair::default());
    assert!(shown.pending().eq([0, 37, 2047]));
    assert!(shown.is_enabled(37) && !shown.is_enabled(0));
    assert!(!shown.is_pending(2048) && !shown.is_pending(u64::MAX));

    assert_eq!(
        report(&Memory::one(START + 1, &mut window), 1),
        Err(Refusal::Window)
    );
    assert_eq!(report(&one(&mut window), FILE + 1), Err(Refusal::File));
    assert_eq!(
        report(&one(&mut window), START + 3 * 4096),
        Err(Refusal::File)
    );
    assert_eq!(report(&one(&mut []), START), Err(Refusal::File));
}

#[test]
fn an_empty_window_and_one_at_the_top() {
    let read = Request::read(0, 0x1000, 4);
    let violation = fault(257, Stage::Directory);
    assert_eq!(request(&mut one(&mut []), &SETTINGS, &read), violation);
    let mut top = Memory::one(1 << 56, &mut []);
    assert_eq!(request(&mut top, &SETTINGS, &read), violation);
    let refused = Answer::Refused(Refusal::Window);
    let mut page = [0; 4096];
    let mut beyond = Memory::one(1 << 56, &mut page);
    assert_eq!(request(&mut beyond, &SETTINGS, &read), refused);
}

#[test]
fn numbers_and_words() {
    let numbers = Refusal::ALL.iter().map(|refusal| refusal.number());
    let checked = [2001, 2011].into_iter().chain(2002..=2007);
    assert!(numbers.eq(checked.chain([2012, 2008, 2009, 2009, 2014, 2014])));
    for (place, stage) in Stage::ALL.iter().enumerate() {
        assert_eq!(stage.number(), place as u64);
    }
    assert_eq!(
        Refusal::File.to_string(),
        "refused (2008): no interrupt file of either window is at that address"
    );
    assert_eq!(
        Refusal::FileOverTables.to_string(),
        "refused (2012): the message's file is in the page of its device context or message entry"
    );
    assert_eq!(
        Refusal::Doubleword.to_string(),
        "refused (2009): the doubleword number is above 31"
    );
    assert_eq!(
        fault(21, Stage::Second).to_string(),
        "read guest page fault (cause 21), found by the second stage"
    );
    assert_eq!(
        stored().to_string(),
        "stored in file 0x40001200, notice 1029 to 0x28000000"
    );
    assert_eq!(Mode::from(2), Mode::ONE_LEVEL);
    assert_eq!(Mode(9).to_string(), "mode 9");
}
