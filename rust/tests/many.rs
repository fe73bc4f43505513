//! Takes of many interrupts at once, by a doubleword number and a mask.

use yasmurekh::{
    report, request, take, take_many, Answer, Memory, Mode, Refusal, Request, Settings, Window,
};

const PAGE: usize = 4096;
const STARTS: [u64; 2] = [0x1000_0000, 0x2000_0000];
/// The third file of a window's page, and the place of its bytes there.
const PLACE: usize = 0x400;
const FILE: u64 = STARTS[0] + PLACE as u64;

/// Two windows of a page.
type Pages = [Vec<u8>; 2];

fn filled(byte: u8) -> Pages {
    [vec![byte; PAGE], vec![byte; PAGE]]
}

fn memory(pages: &mut Pages) -> Memory<'_> {
    let [first, second] = pages;
    Memory {
        first: Window::new(STARTS[0], first),
        second: Window::new(STARTS[1], second),
    }
}

fn put(page: &mut [u8], place: usize, word: u64) {
    page[place..place + 8].copy_from_slice(&word.to_le_bytes());
}

/// Numbers that look random.
struct Numbers(u64);

impl Numbers {
    fn next(&mut self) -> u64 {
        self.0 = self.0.wrapping_add(0x9E37_79B9_7F4A_7C15);
        let mixed = (self.0 ^ (self.0 >> 31)).wrapping_mul(0xBF58_476D_1CE4_E5B9);
        mixed ^ (mixed >> 29)
    }
}

/// All ones of every doubleword, the first and the last among them: its eight pending bytes alone
/// become 0, and the enable bits beside them stay.
#[test]
fn all_of_a_doubleword() {
    for (window, start) in STARTS.into_iter().enumerate() {
        for doubleword in 0..32 {
            let mut pages = filled(0xFF);
            let file = start + PLACE as u64;
            let mut take = || take_many(&mut memory(&mut pages), file, doubleword, u64::MAX);
            assert_eq!(take(), Ok(u64::MAX));
            assert_eq!(take(), Ok(0));
            let mut expected = filled(0xFF);
            put(&mut expected[window], PLACE + 16 * doubleword as usize, 0);
            assert_eq!(pages, expected);
        }
    }
}

/// What is pending and in the mask is answered and cleared; what is pending beside it stays.
#[test]
fn bits_outside_the_mask_stay() {
    let pending = 0x8000_0020_0000_0103;
    let enable = 0xFEDC_BA98_7654_3210;
    for (mask, taken) in [
        (0, 0),
        (1, 1),
        (4, 0),
        (0x102, 0x102),
        (0xFFFF_FFFF, 0x103),
        (!0xFFFF_FFFF, 0x8000_0020_0000_0000),
        (!pending, 0),
        (pending, pending),
        (u64::MAX, pending),
    ] {
        let mut pages = filled(0);
        put(&mut pages[0], PLACE + 16 * 31, pending);
        put(&mut pages[0], PLACE + 16 * 31 + 8, enable);
        let mut expected = pages.clone();
        put(&mut expected[0], PLACE + 16 * 31, pending & !taken);
        let answer = take_many(&mut memory(&mut pages), FILE, 31, mask);
        assert_eq!((answer, &pages), (Ok(taken), &expected), "{mask:#x}");
        let shown = report(&memory(&mut pages), FILE).expect("a file");
        assert_eq!(shown.count, u64::from((pending & !taken).count_ones()));
        assert_eq!(shown.pairs[31].enable, enable);
    }
}

/// Identity n is bit n mod 64 of doubleword n / 64: 0 and 2,047 too.
#[test]
fn each_identity_by_its_bit() {
    for identity in 0..2048 {
        let (doubleword, bit) = (identity / 64, 1 << (identity % 64));
        let mut pages = filled(0xFF);
        assert_eq!(take(&mut memory(&mut pages), FILE, identity), Ok(true));
        let mut others = filled(0xFF);
        let mut memory = memory(&mut others);
        assert_eq!(take_many(&mut memory, FILE, doubleword, bit), Ok(bit));
        assert_eq!(take_many(&mut memory, FILE, doubleword, bit), Ok(0));
        assert_eq!(take(&mut memory, FILE, identity), Ok(false));
        assert_eq!(others, pages);
    }
}

/// As single takes of all bits of the mask do it, over any bytes and any masks.
#[test]
fn as_single_takes() {
    let mut numbers = Numbers(1);
    let mut pages = filled(0);
    for round in 0..400 {
        for page in &mut pages {
            page.fill_with(|| numbers.next() as u8);
        }
        let window = numbers.next() as usize % 2;
        let file = STARTS[window] + 512 * (numbers.next() % 8);
        let doubleword = numbers.next() % 32;
        let mask = match round % 4 {
            0 => numbers.next() & numbers.next() & numbers.next(),
            1 => u64::MAX,
            _ => numbers.next(),
        };
        let mut singly = pages.clone();
        let mut taken = 0;
        for bit in (0..64).filter(|bit| mask >> bit & 1 == 1) {
            let pending = take(&mut memory(&mut singly), file, 64 * doubleword + bit);
            taken |= u64::from(pending.expect("a file")) << bit;
        }
        let answer = take_many(&mut memory(&mut pages), file, doubleword, mask);
        assert_eq!(answer, Ok(taken));
        assert_eq!(pages, singly);
    }
}

/// What a device stored, identity 0 among it.
#[test]
fn stored_messages() {
    let file = STARTS[1] + 0x200;
    let mut pages = filled(0);
    let tables = &mut pages[0];
    tables.resize(2 * PAGE, 0);
    put(tables, 0, 1); // tc: valid
    put(tables, 8, 8 << 60 | 0x3_0000); // iohgatp: Sv39x4
    put(tables, 32, 1 << 60 | (STARTS[0] / 4096 + 1)); // msiptp: flat, the second page
    put(tables, 48, 0x80000); // pattern, under mask 0
    put(tables, PAGE, file >> 9 << 7 | 3);
    put(tables, PAGE + 8, 0x2800_0000 >> 2 | 5);
    let settings = Settings {
        mode: Mode::ONE_LEVEL,
        root: STARTS[0] / 4096,
    };
    let mut memory = memory(&mut pages);
    for identity in [0, 5, 5, 63, 64, 2047] {
        let message = Request::message(0, 0x8000_0000, identity);
        let answer = request(&mut memory, &settings, &message);
        assert!(matches!(answer, Answer::Stored { file: stored, .. } if stored == file));
    }
    assert_eq!(take_many(&mut memory, file, 0, !1), Ok(1 << 63 | 1 << 5));
    assert_eq!(take_many(&mut memory, file, 0, u64::MAX), Ok(1));
    let shown = report(&memory, file).expect("a file");
    assert!(shown.pending().eq([64, 2047]));
    assert_eq!(take_many(&mut memory, file, 31, 1 << 63), Ok(1 << 63));
    assert_eq!(take_many(&mut memory, file, 1, 3), Ok(1));
    assert_eq!(memory.second.bytes, [0; PAGE]);
}

/// 2001, 2011, 2008, 2009, in this order and whatever the mask is; nothing changes.
#[test]
fn refusals_in_order() {
    let last = STARTS[0] + PAGE as u64 - 512;
    for mask in [0, 1, u64::MAX] {
        let mut pages = filled(0xFF);
        let mut memory = memory(&mut pages);
        let mut refused = |starts: [u64; 2], file, doubleword| {
            (memory.first.start, memory.second.start) = (starts[0], starts[1]);
            take_many(&mut memory, file, doubleword, mask).err()
        };
        let same = [STARTS[0]; 2];
        assert_eq!(refused([1, 1], 1, 32), Some(Refusal::Window));
        assert_eq!(refused([STARTS[0], 512], 1, 32), Some(Refusal::Window));
        assert_eq!(refused(same, 1, 32), Some(Refusal::Overlap));
        assert_eq!(refused(same, FILE, 0), Some(Refusal::Overlap));
        for file in [1, FILE + 8, last + 512, STARTS[0] - 512, u64::MAX - 511] {
            assert_eq!(refused(STARTS, file, 32), Some(Refusal::File));
            assert_eq!(refused(STARTS, file, 0), Some(Refusal::File));
        }
        for file in [FILE, last, STARTS[1]] {
            for doubleword in [32, 33, 1 << 32, 1 << 58, 1 << 63, u64::MAX] {
                assert_eq!(refused(STARTS, file, doubleword), Some(Refusal::Doubleword));
            }
        }
        assert_eq!(Refusal::Doubleword.number(), 2009);
        assert_eq!(refused(STARTS, last, 31), None);
        let mut expected = filled(0xFF);
        put(&mut expected[0], PAGE - 512 + 16 * 31, !mask);
        assert_eq!(pages, expected);
    }
}

#[test]
fn empty_windows_have_no_file() {
    let mut memory = Memory::default();
    for file in [0, 512, FILE] {
        let answer = take_many(&mut memory, file, 0, u64::MAX);
        assert_eq!(answer, Err(Refusal::File));
    }
    let mut page = [0xFF; PAGE];
    let mut memory = Memory {
        first: Window::empty(),
        second: Window::new(STARTS[1], &mut page),
    };
    assert_eq!(take_many(&mut memory, 0, 0, 1), Err(Refusal::File));
    assert_eq!(take_many(&mut memory, STARTS[1], 0, 1), Ok(1));
    assert_eq!(page[..2], [0xFE, 0xFF]);
}
