//! Where the generator puts its windows, and which tables go into which of them (02, Req 05).

use crate::memory::{Memory, Side, Window};
use crate::random::Random;

/// What a page is for.
#[derive(Clone, Copy, Debug)]
pub enum Role {
    Directory,
    Process,
    FirstStage,
    SecondStage,
    Messages,
    Files,
}

/// The window for each role; none where its pages are strewn over both.
pub type Plan = [Option<Side>; 6];

/// Start and pages of a window.
type Spot = (u64, u64);

const PAGE: u64 = 4_096;

/// The page number behind the physical addresses.
const TOP: u64 = 1 << 44;

/// All roles strewn, one window for each, or all in one but a few.
pub fn choose_plan(random: &mut Random) -> Plan {
    let side = |random: &mut Random| Some(random.pick(Side::ALL));
    match random.below(10) {
        0..=3 => [None; 6],
        4..=7 => [(); 6].map(|_| side(random)),
        _ => {
            let most = side(random);
            [(); 6].map(|_| {
                if random.chance(75) {
                    most
                } else {
                    side(random)
                }
            })
        }
    }
}

/// The places of the two windows: all pages in one of them, or some in each.
pub fn choose_spots(random: &mut Random) -> [Spot; 2] {
    let pages = match random.below(100) {
        0..=1 => 0,
        2..=3 => random.between(1, 6),
        _ => random.between(16, 34),
    };
    match random.below(100) {
        _ if pages == 0 => empty_spots(random),
        0..=19 => beside_empty(random, pages),
        20..=34 => {
            let [other, empty] = beside_empty(random, pages);
            [empty, other]
        }
        _ => both(random, pages),
    }
}

/// Both windows empty, at one place or at two.
fn empty_spots(random: &mut Random) -> [Spot; 2] {
    let first = choose_start(random, 0);
    match random.chance(30) {
        true => [(first, 0); 2],
        false => [(first, 0), (choose_start(random, 0), 0)],
    }
}

/// A window with all pages, and an empty one at each place by it.
fn beside_empty(random: &mut Random, pages: u64) -> [Spot; 2] {
    let start = choose_start(random, pages);
    let (first, end) = (start / PAGE, start / PAGE + pages);
    let empty = match random.below(10) {
        0 => 0,
        1..=2 => first,
        3..=4 => first + random.below(pages),
        5 => end,
        6 => first.saturating_sub(random.between(1, 9)),
        7 => (end + random.between(1, 9)).min(TOP),
        8 => TOP,
        _ => random.of_width(44),
    };
    [(start, pages), (empty * PAGE, 0)]
}

/// Pages in both windows: one right after the other, near to each other, or anywhere.
fn both(random: &mut Random, pages: u64) -> [Spot; 2] {
    let low = match random.below(10) {
        0 => 1,
        _ => pages * random.between(3, 7) / 10,
    }
    .max(1);
    let high = (pages - low).max(1);
    let gap = match random.below(100) {
        0..=59 => 0,
        60..=79 => random.between(1, 16),
        _ => {
            let spots = [low, high].map(|pages| (choose_start(random, pages), pages));
            if !touch(spots) {
                return spots;
            }
            random.of_width(30)
        }
    };
    let start = choose_start(random, low + gap + high);
    let spots = [(start, low), (start + (low + gap) * PAGE, high)];
    match random.chance(50) {
        true => spots,
        false => [spots[1], spots[0]],
    }
}

/// Whether two windows overlap or lie side by side.
fn touch([(first, pages), (second, more)]: [Spot; 2]) -> bool {
    first <= second + more * PAGE && second <= first + pages * PAGE
}

/// A window's start: zero, the very top, across a large page's edge, or anywhere.
fn choose_start(random: &mut Random, pages: u64) -> u64 {
    let top = TOP - pages;
    let page = match random.below(100) {
        0..=14 => 0,
        15..=29 => top,
        30..=49 => {
            let edge = random.pick(&[9, 9, 18, 18, 27, 36]);
            (random.of_width(44 - edge) << edge).saturating_sub(random.below(pages + 1))
        }
        50..=64 => random.of_width(29),
        _ => random.of_width(44),
    };
    page.min(top) * PAGE
}

/// Windows that 2011 refuses: one of them is moved over the other, at times with other lengths.
pub fn overlap(random: &mut Random, memory: &mut Memory) {
    let Memory { first, second } = memory;
    let (moved, other) = match random.chance(50) {
        true => (first, second),
        false => (second, first),
    };
    if other.bytes.is_empty() {
        *other = Window {
            start: choose_start(random, 3),
            bytes: vec![0; 3 * PAGE as usize],
        };
    }
    let (start, pages) = (other.start / PAGE, other.bytes.len() as u64 / PAGE);
    let own = (moved.bytes.len() as u64 / PAGE).max(1);
    let (first, length) = match random.below(8) {
        0 => (start, pages),
        1 => (start + pages - 1, own),
        2 => ((start + 1).saturating_sub(own), own),
        3 => (start, random.between(1, pages)),
        4 => (start + random.below(pages), 1),
        5 => (
            start.saturating_sub(random.below(3)),
            pages + random.below(3),
        ),
        6 => (start.saturating_sub(1), pages + 2),
        _ => (start + random.below(pages), own),
    };
    moved.bytes.resize((length * PAGE) as usize, 0);
    // A window that would end beyond the top is moved down, as far as it overlaps.
    moved.start = first.min((TOP - length).max(start.saturating_sub(length - 1))) * PAGE;
}

/// Windows that 2001 refuses: the first, the second, or both.
pub fn break_windows(random: &mut Random, memory: &mut Memory) {
    let which = random.below(3);
    if which != 1 {
        break_window(random, &mut memory.first);
    }
    if which != 0 {
        break_window(random, &mut memory.second);
    }
}

/// Start, length or end.
fn break_window(random: &mut Random, window: &mut Window) {
    let length = window.bytes.len() as u64;
    match random.below(8) {
        0..=1 => window.start += random.between(1, 4_095),
        2 if length > 0 => window.bytes.truncate(length as usize - 1),
        2 | 3 => window.bytes.push(0),
        4..=5 => window.start = (1 << 56) - length + PAGE,
        6 => window.start = u64::MAX - random.below(2) * 4_095,
        _ => window.start = (random.number() | 1 << 63) & !random.pick(&[0, 4_095]),
    }
}
