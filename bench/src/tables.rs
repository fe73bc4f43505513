//! Tables for the rows: directories, page tables, message tables and files in the windows.

use crate::call::{Memory, Settings, Window};

/// Where the tables start: on 2 MiB, and on 1 MiB for message tables of 2^16 entries.
pub const START: u64 = 0x4000_0000;
/// Where a page starts that isn't among the tables' pages.
const ELSEWHERE: u64 = 0x8000_0000;
/// Where guests see the pages of their own tables.
const GUEST_TABLES: u64 = 0x1000_0000;
/// Where devices see the messages' pages.
pub const MESSAGES: u64 = 0x2000_0000;
/// The pattern of message pages, below the mask.
const PATTERN: u64 = 0x28000;

/// Where devices see data in pages of a level, on an address that the level aligns.
pub fn device_data(level: u32) -> u64 {
    size(level).max(0x10_0000_0000)
}

/// Where guests see their data.
pub fn guest_data(level: u32) -> u64 {
    size(level).max(0x80_0000_0000)
}

/// Where the data lies: outside the window.
fn host_data(level: u32) -> u64 {
    size(level).max(0x200_0000_0000)
}

const TABLE: u64 = 1;
/// V, R, W, X, U, A, D.
const USER_LEAF: u64 = 0xDF;
/// V, ENS, SUM of a process context: supervisors may use the user pages.
const PROCESS: u64 = 7;

/// Which window holds what.
#[derive(Clone, Copy, Debug, PartialEq, Eq)]
pub enum Places {
    /// All is in the first window; the second is empty.
    First,
    /// All is in the second window; the first is a page with nothing in it.
    Second,
    /// The tables are in the first window, the files in the second.
    FilesSecond,
    /// The files are in the first window, the tables in the second.
    FilesFirst,
    /// The directory's root and the files are in the first window, all other tables in the second.
    RootFirst,
}

impl Places {
    /// Whether the files lie apart from the tables' pages.
    fn files_apart(self) -> bool {
        matches!(self, Places::FilesSecond | Places::FilesFirst)
    }
}

/// What the tables of a row are to hold.
#[derive(Clone, Copy, Debug)]
pub struct Plan {
    pub places: Places,
    /// Bytes of the window with the tables.
    pub window: usize,
    /// Levels of the device directory.
    pub directory: u64,
    pub devices: u32,
    /// Mode of the stages that aren't Bare: 8 for Sv39 and Sv39x4, 9 for Sv48, 10 for Sv57.
    pub mode: u64,
    /// Level of the first stage's pages: 0 for 4 KiB, 1 for 2 MiB, and so on; none for Bare.
    pub first: Option<u32>,
    pub second: Option<u32>,
    /// Data pages of each address space.
    pub pages: u64,
    /// Processes of each device, by PD20.
    pub processes: u64,
    /// The message mask.
    pub mask: Option<u64>,
}

impl Default for Plan {
    fn default() -> Plan {
        Plan {
            places: Places::First,
            window: 4 << 20,
            directory: 2,
            devices: 8,
            mode: 8,
            first: Some(0),
            second: Some(0),
            pages: 64,
            processes: 0,
            mask: None,
        }
    }
}

/// Windows with their tables.
pub struct World {
    pub settings: Settings,
    pub plan: Plan,
    /// The tables' bytes, with the files' where they lie beside them.
    bytes: Vec<u8>,
    pub devices: Vec<u32>,
    /// The guest pages whose messages are stored, in the order of the entries.
    pub message_pages: Vec<u64>,
    pub files: Vec<u64>,
    next: u64,
}

/// A second stage: its root, and the level by which it maps the guest's tables.
#[derive(Clone, Copy)]
struct Space {
    root: u64,
    level: u32,
}

/// The size of a page of a level.
pub fn size(level: u32) -> u64 {
    4_096 << (9 * level)
}

/// The process numbers of a device.
pub fn process_id(number: u64) -> u32 {
    (number * 0x2A5C3 % (1 << 20)) as u32
}

fn entry(page: u64, flags: u64) -> u64 {
    (page >> 12) << 10 | flags
}

/// The first doubleword of a message entry that stores in a file.
pub fn storing(file: u64) -> u64 {
    file >> 9 << 7 | 3
}

fn root(mode: u64, page: u64) -> u64 {
    mode << 60 | page >> 12
}

/// The place of a page among the guest's addresses.
fn guest(page: u64) -> u64 {
    page - START + GUEST_TABLES
}

/// Spreads the bits of a value over the ones of a mask.
fn deposit(value: u64, mask: u64) -> u64 {
    let ones = (0..64).filter(|place| mask >> place & 1 == 1);
    ones.enumerate()
        .map(|(number, place)| (value >> number & 1) << place)
        .sum()
}

impl World {
    pub fn new(plan: Plan) -> World {
        let mut world = World {
            settings: Settings::default(),
            plan,
            bytes: vec![0; plan.window],
            devices: Vec::new(),
            message_pages: Vec::new(),
            files: Vec::new(),
            next: START,
        };
        let directory = world.page();
        world.settings = Settings {
            mode: plan.directory + 1,
            root: directory >> 12,
        };
        let file_page = match plan.places.files_apart() {
            true => ELSEWHERE,
            false => world.page(),
        };
        world.files = (0..8).map(|file| file_page + 512 * file).collect();
        for number in 0..plan.devices {
            world.add_device(directory, number);
        }
        world
    }

    /// Both windows, as the plan has them.
    pub fn memory(&self) -> Memory {
        let tables = Window {
            start: START,
            bytes: self.bytes.clone(),
        };
        let page = Window {
            start: ELSEWHERE,
            bytes: vec![0; 4_096],
        };
        let [first, second] = match self.plan.places {
            Places::First => [tables, Window::default()],
            Places::Second | Places::FilesFirst => [page, tables],
            Places::FilesSecond => [tables, page],
            // The root's page and the files' are the first two.
            Places::RootFirst => [(0, 8_192), (8_192, self.bytes.len())].map(|(from, to)| Window {
                start: START + from as u64,
                bytes: self.bytes[from..to].to_vec(),
            }),
        };
        Memory { first, second }
    }

    fn page(&mut self) -> u64 {
        let page = self.next;
        self.next += 4_096;
        assert!(self.next - START <= self.bytes.len() as u64, "window full");
        page
    }

    pub fn put(&mut self, address: u64, value: u64) {
        let place = (address - START) as usize;
        self.bytes[place..place + 8].copy_from_slice(&value.to_le_bytes());
    }

    fn get(&self, address: u64) -> u64 {
        let place = (address - START) as usize;
        let word = self.bytes[place..].first_chunk().expect("in the window");
        u64::from_le_bytes(*word)
    }

    /// Device numbers use every index of the directory.
    fn device_id(&self, number: u32) -> u32 {
        match self.plan.directory {
            1 => number + 1,
            2 => (number % 2 + 1) << 6 | (number + 1),
            _ => 3 << 15 | (number % 2 + 1) << 6 | (number + 1),
        }
    }

    fn add_device(&mut self, directory: u64, number: u32) {
        let id = self.device_id(number);
        let context = self.context(directory, u64::from(id));
        let space = self.plan.second.map(|level| self.add_space(level));
        self.put(context, 1);
        if let Some(space) = space {
            self.put(context + 8, root(self.plan.mode, space.root));
            self.add_second_data(space);
        }
        if let Some(mask) = self.plan.mask {
            let table = self.add_messages(mask);
            self.put(context + 32, root(1, table));
            self.put(context + 40, mask);
            self.put(context + 48, PATTERN & !mask);
        }
        if self.plan.processes > 0 {
            let pdtp = self.add_processes(space);
            self.put(context, 1 | 1 << 5);
            self.put(context + 24, pdtp);
        } else if let Some(level) = self.plan.first {
            let iosatp = self.add_first_stage(space, level);
            self.put(context + 24, iosatp);
        }
        self.devices.push(id);
    }

    /// The place of a device's context.
    fn context(&mut self, directory: u64, id: u64) -> u64 {
        let mut table = directory;
        for level in (1..self.plan.directory).rev() {
            let index = id >> (6 + 9 * (level - 1)) & 0x1FF;
            table = self.below(None, table + 8 * index);
        }
        table + 64 * (id & 63)
    }

    /// The table that an entry names; made where there is none.
    fn below(&mut self, space: Option<Space>, place: u64) -> u64 {
        let present = self.get(place);
        if present != 0 {
            let named = (present >> 10) << 12;
            return match space {
                Some(_) => named - GUEST_TABLES + START,
                None => named,
            };
        }
        let page = self.page();
        let named = self.name(space, page);
        self.put(place, entry(named, TABLE));
        page
    }

    /// The address by which a device's tables name a page; the second stage maps it.
    fn name(&mut self, space: Option<Space>, page: u64) -> u64 {
        let Some(space) = space else { return page };
        let low = size(space.level) - 1;
        self.map(
            None,
            space.root,
            guest(page) & !low,
            space.level.min(1),
            entry(page & !low, USER_LEAF),
        );
        guest(page)
    }

    /// Puts a leaf for an address, with the tables above it.
    fn map(&mut self, space: Option<Space>, root: u64, address: u64, level: u32, leaf: u64) {
        // The addresses used stay within nine index bits of a first-stage root.
        let top = self.plan.mode as u32 - 6;
        let mut place = root + 8 * (address / size(top));
        for at in (level..top).rev() {
            let table = self.below(space, place);
            place = table + 8 * (address >> (12 + 9 * at) & 0x1FF);
        }
        self.put(place, leaf);
    }

    fn add_space(&mut self, level: u32) -> Space {
        while !self.next.is_multiple_of(16_384) {
            self.page();
        }
        let root = self.page();
        for _ in 0..3 {
            self.page();
        }
        Space {
            root,
            level: level.min(1),
        }
    }

    fn add_second_data(&mut self, space: Space) {
        let Some(level) = self.plan.second else {
            return;
        };
        for page in 0..self.plan.pages {
            let offset = page * size(level);
            let leaf = entry(host_data(level) + offset, USER_LEAF);
            self.map(None, space.root, guest_data(level) + offset, level, leaf);
        }
    }

    /// A first stage with the data, two pages that fault, and the messages; gives iosatp.
    fn add_first_stage(&mut self, space: Option<Space>, level: u32) -> u64 {
        let table = self.page();
        let base = match self.plan.second {
            Some(second) => guest_data(second),
            None => host_data(level),
        };
        let data = device_data(level);
        for page in 0..self.plan.pages {
            let offset = page * size(level);
            let leaf = entry(base + offset, USER_LEAF);
            self.map(space, table, data + offset, level, leaf);
        }
        // One page beyond the data that the second stage doesn't map.
        let beyond = self.plan.pages * size(level);
        let leaf = entry(base + beyond, USER_LEAF);
        self.map(space, table, data + beyond, level, leaf);
        for (number, page) in self.message_pages.clone().into_iter().enumerate() {
            let leaf = entry(page, USER_LEAF);
            let address = MESSAGES + 4_096 * number as u64;
            self.map(space, table, address, 0, leaf);
        }
        let named = self.name(space, table);
        root(self.plan.mode, named)
    }

    /// A message table with up to 16 entries that store; gives its address. The table may begin
    /// before the window: a mask of many ones asks for more room than the window has.
    fn add_messages(&mut self, mask: u64) -> u64 {
        let page = self.page();
        let table = page & !((16u64 << mask.count_ones()).max(4_096) - 1);
        let first = (page - table) / 16;
        let count = 16.min(1 << mask.count_ones());
        self.message_pages.clear();
        for number in 0..count {
            let file = self.files[number as usize % 8];
            let place = page + 16 * number;
            self.put(place, storing(file));
            self.put(place + 8, entry(0x2800_0000 + number * 4_096, 5) | 1 << 60);
            let guest_page = deposit(first + number, mask) | PATTERN & !mask;
            self.message_pages.push(guest_page << 12);
        }
        table
    }

    /// A PD20 directory with a first stage for each process; gives pdtp.
    fn add_processes(&mut self, space: Option<Space>) -> u64 {
        let directory = self.page();
        for number in 0..self.plan.processes {
            let id = u64::from(process_id(number));
            let middle = self.below(space, directory + 8 * (id >> 17));
            let leaf = self.below(space, middle + 8 * (id >> 8 & 0x1FF));
            let place = leaf + 16 * (id & 0xFF);
            let fsc = match self.plan.first {
                Some(level) => self.add_first_stage(space, level),
                None => 0,
            };
            self.put(place, PROCESS);
            self.put(place + 8, fsc);
        }
        let named = self.name(space, directory);
        root(3, named)
    }
}

impl World {
    /// The address of a device's context.
    fn context_of(&mut self, device: u32) -> u64 {
        let directory = self.settings.root << 12;
        self.context(directory, u64::from(device))
    }

    /// The page that holds a device's context.
    pub fn context_page(&mut self, device: u32) -> u64 {
        self.context_of(device) & !0xFFF
    }

    /// The address of a device's message table.
    pub fn message_table(&mut self, device: u32) -> u64 {
        let context = self.context_of(device);
        (self.get(context + 32) & ((1 << 44) - 1)) << 12
    }
}
