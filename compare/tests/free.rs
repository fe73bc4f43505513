//! Lists that don't come from the reference's generator: windows whose pages are tables of any kind
//! in any order, that point at each other and at themselves, and wholly free numbers.

use std::ops::Range;

use yasmurekh_compare::{Comparison, Library, Reference};
use yasmurekh_reference::coverage::Coverage;
use yasmurekh_reference::generate::{Call, List};
use yasmurekh_reference::mark::{Mark, Point};
use yasmurekh_reference::memory::{Memory, Window};
use yasmurekh_reference::random::Random;
use yasmurekh_reference::text::write_list;
use yasmurekh_reference::{Access, Request};

/// A number of any size; often small, often near a power of two.
fn any(random: &mut Random) -> u64 {
    match random.below(4) {
        0 => random.below(5_000),
        1 => random.number() >> random.below(64),
        2 => (1u64 << random.below(64)).wrapping_sub(random.below(3)),
        _ => random.number(),
    }
}

/// Lists of pages that point anywhere in the windows.
struct Soup {
    random: Random,
    /// The page numbers of both windows, those of the first first.
    pages: Vec<u64>,
    /// How many of them are in the first window.
    first: usize,
    /// The places of the contexts, messages and processes among them.
    kinds: [usize; 3],
}

impl Soup {
    fn page(&mut self) -> u64 {
        self.random.pick(&self.pages)
    }

    /// The page of this kind, mostly.
    fn mostly(&mut self, kind: usize) -> u64 {
        let page = self.page();
        match self.random.chance(70) {
            true => self.pages[self.kinds[kind]],
            false => page,
        }
    }

    /// A page number in the windows on 16 KiB, mostly.
    fn guest_root(&mut self) -> u64 {
        let page = self.page();
        match self.random.chance(90) {
            true => page & !3,
            false => page,
        }
    }

    fn mode(&mut self, modes: &[u64]) -> u64 {
        self.random.pick(modes) << 60
    }

    /// A pointer or a leaf of a page table; a pointer of a directory.
    fn table_word(&mut self) -> u64 {
        let flags = [0x01, 0xDF, 0xD7, 0xDB, 0xD9, 0xCF, 0x5F, 0x9F, 0x00];
        let place = match self.random.below(10) {
            0..=6 => self.page(),
            // Large pages, aligned.
            7..=8 => {
                let low = self.random.pick(&[18, 27, 36]);
                self.random.of_width(44) >> low << low
            }
            _ => self.random.of_width(44),
        };
        place << 10 | self.random.pick(&flags)
    }

    fn context_word(&mut self, place: usize) -> u64 {
        match place % 8 {
            0 => self
                .random
                .pick(&[0x01, 0x01, 0x21, 0x21, 0x221, 0x11, 0x00]),
            1 => self.mode(&[0, 8, 9, 10]) | self.guest_root(),
            2 => self.random.of_width(20) << 12,
            3 => self.mode(&[0, 0, 0, 0, 8, 9, 10, 1, 2, 3]) | self.mostly(2),
            4 => self.mode(&[0, 1, 1]) | self.mostly(1),
            5 => self.random.pick(&[63, 63, 62, 7, 5, 0, 1 << 46 | 31]),
            6 => self.random.below(64) | self.random.pick(&[0, 0, 0, 1 << 46]),
            _ => 0,
        }
    }

    fn message_word(&mut self, place: usize) -> u64 {
        let page = self.page();
        match (place % 2, self.random.below(3)) {
            (0, 0) => page << 10 | self.random.pick(&[0b111, 0b011, 0b101]),
            (0, _) => (page * 8 + self.random.below(8)) << 7 | 0b011,
            _ => self.random.below(2) << 60 | page << 10 | self.random.below(1_024),
        }
    }

    fn process_word(&mut self, place: usize) -> u64 {
        match place % 2 {
            0 => self.random.pick(&[0b001, 0b011, 0b101, 0b111]) | self.random.of_width(20) << 12,
            _ => self.mode(&[0, 8, 9, 10]) | self.page(),
        }
    }

    /// The bytes of the page at this place.
    fn bytes(&mut self, place: usize) -> Vec<u8> {
        // Contexts, messages and processes have a page each, at least.
        let own = self.kinds.iter().position(|page| *page == place);
        let kind = own.unwrap_or_else(|| self.random.below(6) as usize);
        let full = self.random.pick(&[50, 100, 100]);
        let mut bytes = Vec::new();
        for place in 0..512 {
            let word = match kind {
                _ if self.random.below(400) == 0 => self.random.number(),
                _ if !self.random.chance(full) => 0,
                0 => self.context_word(place),
                1 => self.message_word(place),
                2 => self.process_word(place),
                _ => self.table_word(),
            };
            bytes.extend_from_slice(&word.to_le_bytes());
        }
        bytes
    }

    /// The window of the pages at these places.
    fn window(&mut self, places: Range<usize>) -> Window {
        Window {
            start: self.pages.get(places.start).map_or(0, |page| page << 12),
            bytes: places.flat_map(|place| self.bytes(place)).collect(),
        }
    }

    fn address(&mut self) -> u64 {
        let page = match self.random.below(6) {
            0..=1 => self.random.below(64),
            2 => self.random.below(64) | 1 << 46,
            3 => self.random.below(4) << 18 | self.random.below(4) << 9 | self.random.below(512),
            4 => self.random.of_width(47),
            _ => any(&mut self.random) >> 12,
        };
        page << 12 | self.random.pick(&[0, 0, 0, 4, 4, 8])
    }

    fn call(&mut self) -> Call {
        if self.random.chance(15) {
            return Call::Take {
                file: (self.page() << 12) + self.random.below(8) * 512,
                identity: self.random.below(2_050),
            };
        }
        if self.random.chance(15) {
            return Call::TakeMany {
                file: (self.page() << 12) + self.random.below(8) * 512,
                doubleword: self.random.below(33),
                mask: self.random.pick(&[0, 1, u64::MAX]) ^ any(&mut self.random),
            };
        }
        let process = self.random.pick(&[0, 1, 2, 255, 256, 1 << 17]) + self.random.below(3);
        let process_id = self.random.chance(40).then_some(process);
        let identity = self.random.below(2_100) as u32;
        let request = Request {
            device_id: self.random.pick(&[0, 0, 0, 0, 64, 1 << 15]) + self.random.below(64),
            process_id,
            supervisor: process_id.is_some() && self.random.chance(30),
            access: self.random.pick(&Access::ALL),
            address: self.address(),
            length: 4,
        };
        Call::Request {
            mode: self.random.pick(&[1, 2, 2, 2, 3, 4]),
            root: self.mostly(0),
            request,
            data: match request.address % 8 {
                4 => identity.swap_bytes(),
                _ => identity,
            },
        }
    }

    /// Pages in a window or in two, which touch or lie apart, in either order.
    fn new(mut random: Random) -> Soup {
        let count = random.between(4, 16);
        let start = random.pick(&[0, 16, 0x80000, (1 << 44) - 32]);
        let first = random.pick(&[0, 1, count / 2, count / 2, count - 1, count]);
        let gap = random.pick(&[0, 0, 1, 16]);
        // The first window's pages, then the second's; or the other way round.
        let (low, high) = match random.chance(50) {
            true => (0..first, first..count),
            false => (first..count, 0..first),
        };
        let high_start = start + (low.end - low.start) + gap;
        let mut pages = vec![0; count as usize];
        for (place, page) in low.zip(start..).chain(high.zip(high_start..)) {
            pages[place as usize] = page;
        }
        let turn = random.below(count) as usize;
        Soup {
            random,
            first: first as usize,
            kinds: [0, 1, 2].map(|kind| (kind + turn) % pages.len()),
            pages,
        }
    }

    fn list(index: u64) -> List {
        let mut soup = Soup::new(Random::new(77, index));
        let first = soup.window(0..soup.first);
        let second = soup.window(soup.first..soup.pages.len());
        List {
            memory: Memory { first, second },
            calls: (0..200).map(|_| soup.call()).collect(),
        }
    }
}

/// A window of free bytes, mostly at a page and near to another address.
fn free_window(random: &mut Random, near: u64) -> Window {
    let length = random.pick(&[0, 1, 512, 4_095, 4_096, 4_096, 8_192, 8_192]);
    let full = random.number() | random.number();
    let start = match random.chance(75) {
        true => near,
        false => any(random),
    };
    Window {
        start,
        bytes: (0..length).map(|n| (full >> (n % 57)) as u8).collect(),
    }
}

/// Takes of both kinds with free numbers, and a take of many near a window.
fn free_takes(random: &mut Random, memory: &Memory) -> [Call; 3] {
    let single = Call::Take {
        file: any(random),
        identity: any(random),
    };
    let many = Call::TakeMany {
        file: any(random),
        doubleword: any(random),
        mask: any(random),
    };
    let window = random.pick(&[&memory.first, &memory.second]);
    let near = Call::TakeMany {
        file: window.start.wrapping_add(random.below(17) * 512),
        doubleword: random.below(33),
        mask: any(random),
    };
    [single, many, near]
}

/// Free numbers over free bytes.
fn free_list(index: u64) -> List {
    let mut random = Random::new(78, index);
    let near = random.pick(&[0, 4_096, 8_192, 8_192, 12_288]);
    let memory = Memory {
        first: free_window(&mut random, 0),
        second: free_window(&mut random, near),
    };
    let few = |random: &mut Random, few: u64| match random.chance(75) {
        true => few,
        false => any(random),
    };
    let mut calls = Vec::new();
    for _ in 0..10 {
        let process = any(&mut random);
        let request = Request {
            device_id: any(&mut random),
            process_id: random.chance(50).then_some(process),
            supervisor: random.chance(30),
            access: random.pick(&Access::ALL),
            address: any(&mut random),
            length: any(&mut random),
        };
        calls.push(Call::Request {
            mode: few(&mut random, 2),
            root: few(&mut random, 0),
            request,
            data: random.number() as u32,
        });
        calls.extend(free_takes(&mut random, &memory));
    }
    List { memory, calls }
}

fn compare_lists(lists: impl Iterator<Item = List>) -> Coverage {
    let reference = Reference {
        coverage: Some(Coverage::default()),
    };
    let mut comparison = Comparison::new(Library, reference);
    for list in lists {
        if let Err(difference) = comparison.list(&list) {
            panic!("{difference}\n{}", write_list(0, &list));
        }
    }
    comparison.reference.coverage.unwrap_or_default()
}

#[test]
fn pages_that_point_anywhere() {
    let coverage = compare_lists((0..1_000).map(Soup::list));
    println!("{:?}, {} marks", coverage.answers, coverage.marks.len());
    assert!(coverage.answers.iter().all(|count| *count > 20));
    assert!(coverage.marks.len() > 300);
    // Any page may be any table or hold files, so that some files lie over their tables.
    let refused = [Point::R2012At0, Point::R2012At4].map(Mark::Point);
    assert!(refused.iter().all(|mark| coverage.marks.contains_key(mark)));
}

#[test]
fn free_numbers_over_free_bytes() {
    let coverage = compare_lists((0..10_000).map(free_list));
    assert_eq!(coverage.calls, 400_000);
    assert!(coverage.answers[6] > 1_000);
}
