//! Valid tables for the generator: directories, contexts, page tables, message tables and files.

use crate::layout::{leaf, pointer, root_of, Layout, ALL_FLAGS};
use crate::memory::Side;
use crate::paging::Root;
use crate::placement::{choose_plan, choose_spots, Plan, Role};
use crate::random::Random;
use crate::scheme::{size, Scheme, FIRST, SECOND};

/// A table entry that the list's requests may pass, for the damages.
#[derive(Clone, Copy, Debug)]
pub enum Place {
    DirectoryPointer(u64),
    DeviceContext(u64),
    ProcessPointer(u64),
    ProcessContext(u64),
    PageEntry { address: u64, level: u64 },
    MessageEntry(u64),
}

impl Place {
    fn address(self) -> u64 {
        match self {
            Place::DirectoryPointer(address)
            | Place::DeviceContext(address)
            | Place::ProcessPointer(address)
            | Place::ProcessContext(address)
            | Place::PageEntry { address, .. }
            | Place::MessageEntry(address) => address,
        }
    }
}

/// Guest addresses, from a base on, that map the addresses from a low one on, for tables.
#[derive(Clone, Copy, Debug)]
pub struct Region {
    base: u64,
    low: u64,
    span: u64,
}

impl Region {
    fn holds(&self, guest: u64) -> bool {
        guest.wrapping_sub(self.base) < self.span
    }
}

/// A second stage: its root, and how the pages of each window are mapped for tables.
#[derive(Clone, Copy, Debug)]
pub struct Space {
    pub root: Root,
    pub table_level: u64,
    pub regions: [Region; 2],
}

/// The message context of a device.
#[derive(Clone, Copy, Debug, Default)]
pub struct Messages {
    pub mask: u64,
    pub pattern: u64,
    pub table: u64,
    /// The page of the table that has the entries.
    pub page: u64,
    /// The device context.
    pub context: u64,
}

/// An address that a device may use, with what its entries ask.
#[derive(Clone, Copy, Debug)]
pub struct Target {
    pub device: u64,
    pub process: Option<u64>,
    pub supervisor: bool,
    pub address: u64,
    /// The size of the region that is mapped alike.
    pub span: u64,
    /// The file of a message entry, where the target is one.
    pub message: Option<u64>,
}

/// The tables of one list.
pub struct World {
    pub random: Random,
    pub layout: Layout,
    pub mode: u64,
    pub root: u64,
    /// The free pages of each window.
    free: [Vec<u64>; 2],
    plan: Plan,
    pub places: Vec<Place>,
    pub targets: Vec<Target>,
    pub files: Vec<u64>,
    high_ids: [u64; 2],
}

/// The bits of a mask and of a pattern that may be used.
const MESSAGE_BITS: u64 = 47;

/// Tables, and pages that a first stage maps, are named by page numbers of 44 bits.
const NAMED: u64 = 1 << 56;

fn align_down(address: u64, alignment: u64) -> u64 {
    address - address % alignment
}

/// The reverse of extract: spreads the bits of a value over the ones of a mask.
fn deposit(value: u64, mask: u64) -> u64 {
    let mut result = 0;
    let mut count = 0;
    for place in 0..64 {
        if mask >> place & 1 == 1 {
            result |= (value >> count & 1) << place;
            count += 1;
        }
    }
    result
}

impl World {
    /// Two windows with a directory and up to three devices.
    pub fn new(mut random: Random) -> World {
        let spots = choose_spots(&mut random);
        let plan = choose_plan(&mut random);
        let layout = Layout::of_two(spots);
        let free = spots.map(|(start, pages)| shuffled(&mut random, start, pages));
        let mode = random.between(2, 4);
        let high_ids = [random.pick(&[0, 1, 511]), random.below(512)];
        let mut world = World {
            random,
            layout,
            mode,
            root: 0,
            free,
            plan,
            places: Vec::new(),
            targets: Vec::new(),
            files: Vec::new(),
            high_ids,
        };
        world.fill();
        world
    }

    fn fill(&mut self) {
        self.add_files();
        let space = self.add_space();
        let other = if self.random.chance(15) {
            self.add_space()
        } else {
            space
        };
        let directory = self.page(Role::Directory);
        self.root = directory.unwrap_or(self.layout.memory.first.start) >> 12;
        for _ in 0..self.random.between(1, 3) {
            let chosen = if self.random.chance(80) { space } else { other };
            self.add_device(chosen);
        }
        self.fill_rest();
    }

    /// The window for a role; any that has a page left, where its pages are strewn.
    fn side(&mut self, role: Role) -> usize {
        match self.plan[role as usize] {
            Some(side) => side as usize,
            None => {
                let [first, second] = [0, 1].map(|side| self.free[side].len() as u64);
                usize::from(self.random.below(first + second) >= first)
            }
        }
    }

    /// A free page of the role's window, of the other one, or none.
    pub fn page(&mut self, role: Role) -> Option<u64> {
        let side = self.side(role);
        let page = self.free[side].pop();
        page.or_else(|| self.free[1 - side].pop())
    }

    /// A page of a process directory; at times the highest free one, so that a table region may end
    /// with it.
    fn process_page(&mut self) -> Option<u64> {
        let side = self.side(Role::Process);
        let pages = &mut self.free[side];
        let highest = pages.iter().max().copied();
        match highest {
            Some(page) if self.random.chance(20) => {
                pages.retain(|other| *other != page);
                Some(page)
            }
            _ => self.page(Role::Process),
        }
    }

    /// Four free pages on 16 KiB; adjacent windows may share them.
    fn second_stage_root(&mut self) -> Option<u64> {
        let side = self.side(Role::SecondStage);
        let roots = |side: usize| -> Vec<u64> {
            let aligned = self.free[side].iter().filter(|page| *page % 16_384 == 0);
            aligned
                .filter(|page| (1..4).all(|n| self.is_free(*page + n * 4_096)))
                .copied()
                .collect()
        };
        let found = [roots(side), roots(1 - side)];
        let roots = found.iter().find(|roots| !roots.is_empty())?;
        let root = self.random.choose(roots)?;
        for pages in &mut self.free {
            pages.retain(|page| *page & !0x3FFF != root);
        }
        Some(root)
    }

    fn is_free(&self, page: u64) -> bool {
        self.free.iter().any(|pages| pages.contains(&page))
    }

    /// One or two pages of interrupt files, at times with bits set.
    fn add_files(&mut self) {
        for _ in 0..self.random.between(1, 2) {
            let Some(page) = self.page(Role::Files) else {
                return;
            };
            let some_set = self.random.chance(40);
            for file in 0..8 {
                self.files.push(page + file * 512);
            }
            for word in 0..512 {
                if some_set && self.random.chance(50) {
                    let value = self.random.number() & self.random.number();
                    self.layout.put(page + word * 8, value);
                }
            }
        }
    }

    /// At times the pages left over aren't zero.
    fn fill_rest(&mut self) {
        if !self.random.chance(10) {
            return;
        }
        for page in self.free.concat() {
            for word in 0..512 {
                let value = self.random.number() & self.random.number();
                self.layout.put(page + word * 8, value | 1);
            }
        }
    }

    /// A second stage with its root.
    fn add_space(&mut self) -> Option<Space> {
        let table = self.second_stage_root()?;
        let scheme = &SECOND[self.random.below(3) as usize];
        let table_level = self.random.below(scheme.levels);
        Some(Space {
            root: Root { scheme, table },
            table_level,
            regions: self.regions(scheme, table_level),
        })
    }

    /// The guest addresses by which pages of a level map the windows: one region for both, where they
    /// are near, else one for each.
    fn regions(&mut self, scheme: &Scheme, level: u64) -> [Region; 2] {
        let ends = Side::ALL.iter().map(|side| {
            let window = self.layout.memory.window(*side);
            (window.start, window.start + window.bytes.len() as u64)
        });
        let ends: Vec<(u64, u64)> = ends.collect();
        let low = ends[0].0.min(ends[1].0);
        let high = ends[0].1.max(ends[1].1);
        if high - low < 128 * 4_096 {
            return [self.region(scheme, level, low, high); 2];
        }
        let first = self.region(scheme, level, ends[0].0, ends[0].1);
        let mut second = first;
        // Another base, until they don't meet.
        for _ in 0..5 {
            second = self.region(scheme, level, ends[1].0, ends[1].1);
            if !first.holds(second.base) && !second.holds(first.base) {
                break;
            }
        }
        [first, second]
    }

    /// The guest addresses for those from start to end.
    fn region(&mut self, scheme: &Scheme, level: u64, start: u64, end: u64) -> Region {
        let low = align_down(start, size(level));
        Region {
            base: self.table_base(scheme, level, end - low),
            low,
            span: (end - low).next_multiple_of(size(level)),
        }
    }

    /// The guest address from which on pages of a level map a region; at times it ends at the
    /// scheme's limit.
    fn table_base(&mut self, scheme: &Scheme, level: u64, span: u64) -> u64 {
        let limit = scheme.limit().min(NAMED);
        let last = align_down(limit - span, size(level));
        if self.random.chance(40) {
            return last;
        }
        let max = limit / size(scheme.levels - 1) - 1;
        let tops = [0, 0, 1, 3, max / 4, max / 4 + 1, max];
        self.pick_address(scheme, &tops, level.max(1)).min(last)
    }

    /// An address of a page of a level: its root index is one of these, and each index below it is
    /// at an edge of its table or near one.
    fn pick_address(&mut self, scheme: &Scheme, tops: &[u64], level: u64) -> u64 {
        let root = scheme.levels - 1;
        let mut address = self.random.pick(tops) * size(root);
        for at in level..root {
            let second = if at == 0 { 9 } else { 1 };
            address += self.random.pick(&[0, second, 511]) * size(at);
        }
        address
    }

    /// The guest address at which a page of a window is mapped for tables; where the leaf is for
    /// this page alone, it has this U.
    pub fn guest_of(&mut self, space: &Space, page: u64, user: bool) -> u64 {
        let unit = size(space.table_level);
        let side = self.layout.memory.holder(page, 4_096);
        let region = space.regions[side.unwrap_or(Side::First) as usize];
        let guest = region.base + (page - region.low);
        let mut flags = self.random.pick(&[ALL_FLAGS, 0x53, 0x57, 0x5B, 0xF3]);
        if !user && space.table_level == 0 {
            flags &= !0x10;
        }
        let (from, to) = (align_down(guest, unit), align_down(page, unit));
        self.map(&space.root, None, from, space.table_level, leaf(to, flags));
        guest
    }

    /// The page of a window behind a guest address of its region.
    fn page_behind(&self, space: &Space, guest: u64) -> u64 {
        let [first, second] = &space.regions;
        let region = if first.holds(guest) { first } else { second };
        guest.wrapping_sub(region.base).wrapping_add(region.low)
    }

    /// Puts an entry for an address at a level, with the tables above it. An entry that is there
    /// stays. Says whether the entry put, or an equal one, stands.
    pub fn map(
        &mut self,
        root: &Root,
        space: Option<&Space>,
        address: u64,
        level: u64,
        entry: u64,
    ) -> bool {
        let mut table = root.table;
        let mut at = root.scheme.levels - 1;
        loop {
            let place = table + root.scheme.index(address, at) * 8;
            let present = self.layout.get(place);
            if at == level {
                if present == 0 {
                    self.layout.put(place, entry);
                    self.places.push(Place::PageEntry {
                        address: place,
                        level,
                    });
                }
                return present == 0 || present == entry;
            }
            table = match present {
                0 => match self.add_table(root, space, place, at) {
                    Some(next) => next,
                    None => return false,
                },
                _ if present & 0xE != 0 => return false,
                _ => self.follow(space, present),
            };
            at -= 1;
        }
    }

    /// A new table under a place; its page, or none.
    fn add_table(
        &mut self,
        root: &Root,
        space: Option<&Space>,
        place: u64,
        level: u64,
    ) -> Option<u64> {
        let page = self.page(match root.scheme.signed {
            true => Role::FirstStage,
            false => Role::SecondStage,
        })?;
        let named = match space {
            Some(space) => self.guest_of(space, page, true),
            None => page,
        };
        let software = self.random.pick(&[0, 0, 0, 0x20, 0x100, 0x300]);
        self.layout.put(place, pointer(named) | software);
        self.places.push(Place::PageEntry {
            address: place,
            level,
        });
        Some(page)
    }

    /// The page of the window that a pointer names.
    fn follow(&self, space: Option<&Space>, entry: u64) -> u64 {
        let named = (entry >> 10 & ((1 << 44) - 1)) << 12;
        match space {
            Some(space) => self.page_behind(space, named),
            None => named,
        }
    }

    /// A device: its context, its processes, its page tables and its targets.
    fn add_device(&mut self, space: Option<Space>) {
        let id = self.device_id();
        let Some(context) = self.context_place(id) else {
            return;
        };
        let space = if self.random.chance(78) { space } else { None };
        let messages = match space {
            Some(_) if self.random.chance(85) => self.add_message_table(context),
            _ => None,
        };
        let mut words = self.context_noise();
        if let Some(space) = space {
            let root = root_of(space.root.scheme.mode, space.root.table);
            words[1] = root | self.random.of_width(16) << 44;
        }
        if let Some(messages) = messages {
            words[4] = root_of(1, messages.table);
            words[5] = messages.mask;
            words[6] = messages.pattern;
        }
        let device = DevicePlan {
            id,
            space,
            messages,
        };
        self.choose_first_stage(&device, &mut words);
        for (number, word) in words.iter().enumerate() {
            self.layout.put(context + 8 * number as u64, *word);
        }
        self.places.push(Place::DeviceContext(context));
    }

    /// The device's own first stage, a Bare process directory, or PD8, PD17 or PD20.
    fn choose_first_stage(&mut self, device: &DevicePlan, words: &mut [u64; 8]) {
        match self.random.below(100) {
            0..=39 => words[3] = self.add_first_stage(device, Owner::default()),
            40..=47 => {
                words[0] |= 1 << 5 | self.random.below(2) << 9;
                words[3] = self.random.of_width(44);
                for process in [None, Some(0), Some(0x345), Some(0xF_FFFF)] {
                    let owner = Owner {
                        process,
                        ens: process == Some(0x345),
                        sum: false,
                    };
                    self.add_targets(device, owner, None);
                }
            }
            _ => {
                words[0] |= 1 << 5 | self.random.below(2) << 9;
                words[3] = self.add_process_directory(device);
                self.add_targets(device, Owner::default(), None);
            }
        }
    }

    /// A valid context with both stages Bare, and noise where no mode gives a field a meaning.
    fn context_noise(&mut self) -> [u64; 8] {
        let mut words = [0; 8];
        words[0] = 1 | self.random.below(2) << 4;
        if self.random.chance(30) {
            words[1] = self.random.of_width(60);
            words[4] = self.random.of_width(44);
            words[5] = self.random.of_width(MESSAGE_BITS as u32);
            words[6] = self.random.of_width(MESSAGE_BITS as u32);
        }
        words[2] = self.random.of_width(20) << 12;
        words
    }

    /// A device number within the directory's levels, at times the first or the last of its page; the
    /// upper indices repeat.
    fn device_id(&mut self) -> u64 {
        let low = match self.random.chance(15) {
            true => self.random.pick(&[0, 63]),
            false => self.random.below(64),
        };
        let middle = self.high_ids[self.random.below(2) as usize];
        let high = self.high_ids[1];
        match self.mode {
            2 => low,
            3 => middle << 6 | low,
            _ => high << 15 | middle << 6 | low,
        }
    }

    /// The place of a device's context, with the directory above it.
    fn context_place(&mut self, id: u64) -> Option<u64> {
        let ddi = [id & 63, id >> 6 & 511, id >> 15 & 511];
        let mut table = self.root << 12;
        for level in (1..self.mode - 1).rev() {
            let place = table + ddi[level as usize] * 8;
            if self.layout.get(place) == 0 {
                let page = self.page(Role::Directory)?;
                self.layout.put(place, pointer(page));
                self.places.push(Place::DirectoryPointer(place));
            }
            table = self.layout.get(place) >> 10 << 12;
        }
        Some(table + ddi[0] * 64)
    }

    /// PD8, PD17 or PD20 with one to three processes; gives pdtp.
    fn add_process_directory(&mut self, device: &DevicePlan) -> u64 {
        let levels = self.random.between(1, 3);
        let Some(root) = self.process_page() else {
            return 0;
        };
        let width = [8, 17, 20][levels as usize - 1];
        let mut processes = vec![0, self.random.of_width(width)];
        processes.push(self.random.pick(&[1, 255, (1 << width) - 1]));
        processes.dedup();
        processes.truncate(self.random.between(1, 3) as usize);
        for process in processes {
            if let Some(place) = self.process_place(device, root, levels, process) {
                self.add_process(device, place, process);
            }
        }
        let named = self.table_name(device, root, true);
        root_of(levels, named)
    }

    /// The address by which a device's tables name a page of the window; `user` as for `guest_of`.
    fn table_name(&mut self, device: &DevicePlan, page: u64, user: bool) -> u64 {
        match device.space {
            Some(space) => self.guest_of(&space, page, user),
            None => page,
        }
    }

    /// The place of a process context, with the directory above it.
    fn process_place(
        &mut self,
        device: &DevicePlan,
        root: u64,
        levels: u64,
        process: u64,
    ) -> Option<u64> {
        let pdi = [process & 255, process >> 8 & 511, process >> 17 & 7];
        let mut table = root;
        for level in (1..levels).rev() {
            let place = table + pdi[level as usize] * 8;
            if self.layout.get(place) == 0 {
                let page = self.process_page()?;
                let named = self.table_name(device, page, true);
                self.layout.put(place, pointer(named));
                self.places.push(Place::ProcessPointer(place));
            }
            let entry = self.layout.get(place);
            table = self.follow(device.space.as_ref(), entry);
        }
        Some(table + pdi[0] * 16)
    }

    /// One process context with its first stage.
    fn add_process(&mut self, device: &DevicePlan, place: u64, process: u64) {
        if self.layout.get(place) != 0 {
            return;
        }
        let owner = Owner {
            process: Some(process),
            ens: self.random.chance(60),
            sum: self.random.chance(50),
        };
        let allowed = u64::from(owner.ens) << 1 | u64::from(owner.sum) << 2;
        let ta = 1 | allowed | self.random.of_width(20) << 12;
        let fsc = self.add_first_stage(device, owner);
        self.layout.put(place, ta);
        self.layout.put(place + 8, fsc);
        self.places.push(Place::ProcessContext(place));
    }

    /// A first stage, Bare or of any scheme, with its targets; gives iosatp.
    fn add_first_stage(&mut self, device: &DevicePlan, owner: Owner) -> u64 {
        let page = if self.random.chance(25) {
            None
        } else {
            self.page(Role::FirstStage)
        };
        let scheme = &FIRST[self.random.below(3) as usize];
        let root = page.map(|table| Root { scheme, table });
        self.add_targets(device, owner, root);
        let Some(page) = page else {
            return self.random.of_width(44);
        };
        let user = self.second_user(owner.ens && owner.sum);
        root_of(scheme.mode, self.table_name(device, page, user))
    }

    /// Some targets of one address space.
    fn add_targets(&mut self, device: &DevicePlan, owner: Owner, first: Option<Root>) {
        for _ in 0..self.random.between(1, 3) {
            let supervisor = owner.ens && self.random.chance(50);
            let message = match device.messages {
                Some(messages) if self.random.chance(50) => Some(self.add_message_entry(&messages)),
                _ => None,
            };
            let (guest, second_span) = match message {
                Some((page, _)) => (page, 4_096),
                None => {
                    let user = self.second_user(supervisor && owner.sum);
                    self.add_second_target(device, user, first.is_some())
                }
            };
            let (address, span) = match first {
                Some(root) => {
                    let user = self.first_user(supervisor, owner.sum);
                    self.add_first_target(device, &root, guest, second_span, user)
                }
                None => (guest, second_span),
            };
            self.targets.push(Target {
                device: device.id,
                process: owner.process,
                supervisor,
                address,
                span,
                message: message.map(|(_, file)| file),
            });
        }
    }

    /// A guest address that the second stage maps, or a physical one where it is Bare; one that a
    /// first stage can name, where it is for one.
    fn add_second_target(&mut self, device: &DevicePlan, user: bool, named: bool) -> (u64, u64) {
        let Some(space) = device.space else {
            let level = self.random.below(5);
            let address = align_down(self.random.of_width(56), size(level));
            return (address, size(level));
        };
        let scheme = space.root.scheme;
        let limit = scheme.limit().min(if named { NAMED } else { u64::MAX });
        let max = limit / size(scheme.levels - 1) - 1;
        let tops = [0, 2, 2, 5, max / 4, max / 4 + 1, max, max];
        let mut found = (0, 4_096);
        // An attempt fails where no page is left, or another page stands in the way.
        for _ in 0..3 {
            let level = self.random.below(scheme.levels);
            let guest = self.pick_address(scheme, &tops, level);
            let target = align_down(self.random.of_width(56), size(level));
            let entry = leaf(target, self.leaf_flags(user));
            found = (guest, size(level));
            if self.map(&space.root, None, guest, level, entry) {
                break;
            }
        }
        found
    }

    /// An address that the first stage maps to a guest address, and the span that is mapped alike.
    fn add_first_target(
        &mut self,
        device: &DevicePlan,
        root: &Root,
        guest: u64,
        second_span: u64,
        user: bool,
    ) -> (u64, u64) {
        let scheme = root.scheme;
        let mut found = (0, 4_096);
        for _ in 0..3 {
            let level = self.random.below(scheme.levels);
            let own = size(level);
            // Where the first stage's page is the smaller one, it may lie anywhere in the other.
            let guest = guest % NAMED + own * self.random.below(second_span / own);
            let base = self.pick_address(scheme, &[0, 1, 255, 255, 256, 511], level);
            // The bits above a negative address are ones.
            let high = match base < scheme.limit() {
                true => 0,
                false => u64::MAX << scheme.address_bits,
            };
            let entry = leaf(align_down(guest, own), self.leaf_flags(user));
            found = ((base + guest % own) | high, own.min(second_span));
            if self.map(root, device.space.as_ref(), base, level, entry) {
                break;
            }
        }
        found
    }

    /// U of a second-stage leaf: 1, at times 0, more often where SUM might seem to help.
    fn second_user(&mut self, sum: bool) -> bool {
        self.random.chance(if sum { 85 } else { 98 })
    }

    /// U of a first-stage leaf: mostly a page that the request may use, at times the other one.
    fn first_user(&mut self, supervisor: bool, sum: bool) -> bool {
        match (supervisor, sum) {
            (false, _) => self.random.chance(92),
            (true, false) => self.random.chance(30),
            (true, true) => self.random.chance(65),
        }
    }

    /// The low bits of a leaf: mostly all permissions, at times fewer; RSW and G vary.
    fn leaf_flags(&mut self, user: bool) -> u64 {
        let permissions = match self.random.below(100) {
            0..=79 => 0xE,
            80..=84 => 0x2,
            85..=89 => 0x6,
            90..=94 => 0xA,
            _ => 0x8,
        };
        let marks = self.random.pick(&[0xC0, 0xC0, 0xC0, 0xC0, 0xC0, 0x40]);
        let software = self.random.pick(&[0, 0, 0x20, 0x100, 0x200, 0x320]);
        1 | permissions | marks | software | u64::from(user) << 4
    }

    /// A message table: a mask, a pattern, and a page that holds entries, at times the one of the device
    /// context.
    fn add_message_table(&mut self, context: u64) -> Option<Messages> {
        let mask = choose_mask(&mut self.random);
        let page = match self.random.chance(12) {
            true => align_down(context, 4_096),
            false => self.page(Role::Messages)?,
        };
        let alignment = (16u64 << mask.count_ones()).max(4_096);
        // Mostly within what a first stage can name; at times so low that the mask's bits are above.
        let width = self.random.pick(&[2, 29, 38, 44, 44, MESSAGE_BITS as u32]);
        Some(Messages {
            mask,
            pattern: self.random.of_width(width),
            table: align_down(page, alignment),
            page,
            context,
        })
    }

    /// One message entry: the guest page that leads to it, and the file that it names.
    fn add_message_entry(&mut self, messages: &Messages) -> (u64, u64) {
        let place = self.entry_place(messages);
        let number = (place - messages.table) / 16;
        let page = deposit(number, messages.mask) | (messages.pattern & !messages.mask);
        let file = self.choose_file(messages, place);
        if self.layout.get(place) == 0 {
            let to_file = self.random.chance(75);
            let (first, second) = if to_file {
                let low = self.random.of_width(10);
                let bit10 = self.random.below(2) << 60;
                let notice = self.random.of_width(44) << 10;
                ((file / 512) << 7 | 3, low | bit10 | notice)
            } else {
                let page = match self.random.chance(50) {
                    true => file / 4_096,
                    false => self.random.of_width(44),
                };
                (page << 10 | 7, self.random.number())
            };
            self.layout.put(place, first);
            self.layout.put(place + 8, second);
            self.places.push(Place::MessageEntry(place));
        }
        let named = (self.layout.get(place) >> 7 & ((1 << 47) - 1)) * 512;
        (page << 12, named)
    }

    /// The place of a message entry; at times the last one, and none in the device context where they
    /// share a page that has room for both.
    fn entry_place(&mut self, messages: &Messages) -> u64 {
        let entries = (1u64 << messages.mask.count_ones()).min(256);
        let slot = match self.random.chance(8) {
            true => entries - 1,
            false => self.random.below(entries),
        };
        let place = messages.page + slot * 16;
        match place / 64 == messages.context / 64 && entries >= 8 {
            true => place ^ 64,
            false => place,
        }
    }

    /// A file for a message entry: mostly a page of files, at times a page of tables or one beside
    /// these, at times any place, also outside.
    fn choose_file(&mut self, messages: &Messages, entry: u64) -> u64 {
        match self.random.below(100) {
            0..=61 => self.random.choose(&self.files.clone()).unwrap_or(0),
            62..=80 => self.file_by_tables(messages, entry),
            81..=87 => self.any_file(),
            88..=93 => self.file_beside() % (1 << 56),
            94..=96 => {
                let start = self.any_file();
                self.random.below(start / 512 + 1) * 512
            }
            _ => self.random.of_width(47) * 512,
        }
    }

    /// A file in the page of the device context or of the message entry, in a page beside it, in the
    /// message table's first page, or in that of any other table.
    fn file_by_tables(&mut self, messages: &Messages, entry: u64) -> u64 {
        let table = self.random.pick(&[messages.context, entry]);
        let random = &mut self.random;
        let place = match random.below(20) {
            0..=10 => table,
            11..=13 => table.saturating_sub(4_096),
            14..=16 => table + 4_096,
            17 => messages.table,
            _ => random.choose(&self.places).map_or(table, Place::address),
        };
        let page = align_down(place, 4_096);
        let file = match random.below(5) {
            0 => align_down(place, 512),
            1 => page,
            2 => page + 7 * 512,
            _ => page + random.below(8) * 512,
        };
        file % (1 << 56)
    }

    /// Any file of the windows; the start of one that is empty.
    pub fn any_file(&mut self) -> u64 {
        let memory = &self.layout.memory;
        let [first, second] = [&memory.first, &memory.second].map(|w| w.bytes.len() as u64 / 512);
        let number = self.random.below(first + second);
        match number < first {
            true => memory.first.start + number * 512,
            false => memory.second.start + (number - first) * 512,
        }
    }

    /// The file right below a window, or right above it.
    pub fn file_beside(&mut self) -> u64 {
        let side = self.random.pick(Side::ALL);
        let window = self.layout.memory.window(side);
        match self.random.chance(50) {
            true => window.start.saturating_sub(512),
            false => window.start + window.bytes.len() as u64,
        }
    }
}

/// The pages of a window, in any order.
fn shuffled(random: &mut Random, start: u64, pages: u64) -> Vec<u64> {
    let mut free: Vec<u64> = (0..pages).map(|page| start + page * 4_096).collect();
    for place in (1..free.len()).rev() {
        let other = random.below(place as u64 + 1) as usize;
        free.swap(place, other);
    }
    free
}

/// Who uses an address space, and what its process context allows supervisors.
#[derive(Clone, Copy, Default)]
struct Owner {
    process: Option<u64>,
    ens: bool,
    sum: bool,
}

/// What the tables of a device have in common.
#[derive(Clone, Copy)]
struct DevicePlan {
    id: u64,
    space: Option<Space>,
    messages: Option<Messages>,
}

/// A mask: no ones, few, many; dense and spread.
fn choose_mask(random: &mut Random) -> u64 {
    let full = (1u64 << MESSAGE_BITS) - 1;
    match random.below(100) {
        0..=11 => 0,
        12..=23 => 1 << random.below(MESSAGE_BITS),
        24..=43 => run_of_ones(random, 1, 8),
        44..=63 => spread(random, 8),
        64..=79 => run_of_ones(random, 9, 16),
        80..=92 => spread(random, 14) | spread(random, 9),
        93..=97 => random.number() & full,
        _ => full,
    }
}

/// So many ones next to each other, anywhere in a mask.
fn run_of_ones(random: &mut Random, least: u64, most: u64) -> u64 {
    let ones = random.between(least, most);
    ((1 << ones) - 1) << random.below(MESSAGE_BITS + 1 - ones)
}

/// Some single bits of a mask.
fn spread(random: &mut Random, bits: u64) -> u64 {
    let mut mask = 0;
    for _ in 0..random.between(2, bits) {
        mask |= 1 << random.below(MESSAGE_BITS);
    }
    mask
}
