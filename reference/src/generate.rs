//! The generator: lists of calls over two windows, a function of the seed and the index alone.

use crate::damage::damage;
use crate::memory::{Memory, Side};
use crate::placement::{break_windows, overlap};
use crate::random::Random;
use crate::scheme::{FIRST, SECOND};
use crate::types::{Access, Request};
use crate::world::{Target, World};

/// One call of a list.
#[derive(Clone, Copy, Debug, PartialEq, Eq)]
pub enum Call {
    Request {
        mode: u64,
        root: u64,
        request: Request,
        data: u32,
    },
    Take {
        file: u64,
        identity: u64,
    },
    /// 02, Req 12.
    TakeMany {
        file: u64,
        doubleword: u64,
        mask: u64,
    },
}

/// Two windows and the calls that run over them in order; all of them give the same starts.
#[derive(Clone, Debug, PartialEq, Eq)]
pub struct List {
    pub memory: Memory,
    pub calls: Vec<Call>,
}

/// The list of this index under this seed.
pub fn list(seed: u64, index: u64) -> List {
    let mut world = World::new(Random::new(seed, index));
    let damages = match world.random.below(100) {
        0..=39 => 0,
        40..=84 => 1,
        _ => world.random.between(2, 3),
    };
    for _ in 0..damages {
        damage(&mut world);
    }
    let count = world.random.between(1, 30);
    let mut calls = Vec::new();
    let mut stored = Vec::new();
    for _ in 0..count {
        let call = match world.random.below(100) {
            0..=13 => take_call(&mut world, &stored),
            14..=24 => take_many_call(&mut world, &stored),
            _ => request_call(&mut world, &mut stored),
        };
        calls.push(call);
        if world.random.chance(1) {
            calls.append(&mut stores_taken_at_once(&mut world));
        }
    }
    let World { random, layout, .. } = &mut world;
    if random.chance(3) {
        overlap(random, &mut layout.memory);
    }
    if random.chance(if layout.memory.overlap() { 20 } else { 3 }) {
        break_windows(random, &mut layout.memory);
    }
    List {
        memory: world.layout.memory,
        calls,
    }
}

/// A take: of what was just stored, or of something else, or a bad one.
fn take_call(world: &mut World, stored: &[(u64, u64)]) -> Call {
    let last = match stored.last() {
        Some(last) => *last,
        None => (world.any_file(), 37),
    };
    let (mut file, mut identity) = world.random.choose(stored).unwrap_or(last);
    match world.random.below(100) {
        0..=54 => (file, identity) = last,
        55..=69 => {}
        70..=77 => identity = world.random.below(2_048),
        78..=83 => {
            file = world.random.choose(&world.files).unwrap_or(file);
            identity = world.random.below(2_048);
        }
        84..=86 => file = world.any_file(),
        87..=94 => file = bad_file(world, file),
        95..=98 => identity = bad_identity(&mut world.random),
        _ => {
            file = bad_file(world, file);
            identity = bad_identity(&mut world.random);
        }
    }
    Call::Take { file, identity }
}

/// A take of many: of what was just stored, or of something else, or a bad one.
fn take_many_call(world: &mut World, stored: &[(u64, u64)]) -> Call {
    let last = match stored.last() {
        Some(last) => *last,
        None => (world.any_file(), 37),
    };
    let (mut file, mut identity) = world.random.choose(stored).unwrap_or(last);
    let other = world.random.below(2_048);
    match world.random.below(100) {
        0..=39 => (file, identity) = last,
        40..=54 => {}
        55..=61 => identity = other,
        62..=71 => {
            file = world.random.choose(&world.files).unwrap_or(file);
            identity = other;
        }
        72..=79 => {
            file = world.random.choose(&world.files).unwrap_or(file);
            identity = other % 64 + world.random.pick(&[0, 31 * 64]);
        }
        80..=83 => file = world.any_file(),
        84..=90 => file = bad_file(world, file),
        91..=97 => {}
        _ => file = bad_file(world, file),
    }
    let (mut doubleword, bit) = (identity / 64, identity % 64);
    if doubleword <= 31 && world.files.contains(&file) {
        put_bits(world, file + 16 * doubleword, bit);
    }
    let pending = world.layout.get(file.wrapping_add(16 * doubleword));
    let mask = choose_bits(&mut world.random, pending, bit);
    if world.random.chance(6) {
        doubleword = bad_doubleword(&mut world.random);
    }
    Call::TakeMany {
        file,
        doubleword,
        mask,
    }
}

/// Stores of some identities of one doubleword by one message target, with one of them at times taken
/// singly, and a take of many behind them; nothing where no target is a message.
fn stores_taken_at_once(world: &mut World) -> Vec<Call> {
    let messages = world
        .targets
        .iter()
        .filter(|target| target.message.is_some());
    let messages: Vec<Target> = messages.copied().collect();
    let random = &mut world.random;
    let Some(target) = random.choose(&messages) else {
        return Vec::new();
    };
    let file = target.message.unwrap_or(0);
    let doubleword = random.pick(&[0, 1, 31, 31]);
    let mut calls = Vec::new();
    let mut bits = 0u64;
    for _ in 0..random.between(2, 5) {
        let bit = random.below(64);
        bits |= 1 << bit;
        let identity = (64 * doubleword + bit) as u32;
        let (offset, data) = match random.chance(60) {
            true => (0, identity),
            false => (4, identity.swap_bytes()),
        };
        calls.push(write_of(world.mode, world.root, &target, offset, data));
        if random.chance(15) {
            let identity = u64::from(identity);
            calls.push(Call::Take { file, identity });
        }
    }
    let lowest = bits & bits.wrapping_neg();
    let other = random.number();
    calls.push(Call::TakeMany {
        file,
        doubleword,
        mask: random.pick(&[bits, bits, u64::MAX, bits ^ lowest, bits | other, other]),
    });
    calls
}

/// A write of four bytes at an offset of a message target.
fn write_of(mode: u64, root: u64, target: &Target, offset: u64, data: u32) -> Call {
    Call::Request {
        mode,
        root,
        request: Request {
            device_id: target.device,
            process_id: target.process,
            supervisor: target.supervisor,
            access: Access::Write,
            address: target.address | offset,
            length: 4,
        },
        data,
    }
}

/// At times the pair of doublewords at an address of a file has bits set from the list's start on.
fn put_bits(world: &mut World, address: u64, bit: u64) {
    let random = &mut world.random;
    let some = random.number() & random.number();
    let pending = match random.below(10) {
        0 => u64::MAX,
        1 => random.number(),
        2 => some,
        3 => 7 << bit | 7 << bit >> 1,
        4 => 0x0101_0101_0101_0101 << (bit % 8) | some,
        _ => world.layout.get(address),
    };
    let enable = match random.below(6) {
        0 => u64::MAX,
        1 => random.number(),
        2 => !pending,
        _ => world.layout.get(address + 8),
    };
    world.layout.put(address, pending);
    world.layout.put(address + 8, enable);
}

/// The mask of a take of many: one bit, none, all, the pending ones, those beside one, and others.
fn choose_bits(random: &mut Random, pending: u64, bit: u64) -> u64 {
    let pending = pending | 1 << bit;
    match random.below(100) {
        0..=17 => 1 << bit,
        18..=31 => u64::MAX,
        32..=37 => 0,
        38..=49 => random.number(),
        50..=57 => random.number() & random.number() & random.number(),
        58..=63 => pending,
        64..=75 => {
            // The neighbours of a pending bit, and not it.
            let ones = (0..64u64).filter(|place| pending >> place & 1 == 1);
            let ones: Vec<u64> = ones.collect();
            let one = 1u64 << random.choose(&ones).unwrap_or(bit);
            one << 1 | one >> 1
        }
        76..=81 => !pending,
        82..=87 => !(1 << bit),
        88..=91 => 1 << bit | 1 << random.below(64),
        _ => random.pick(&[
            0xFFFF_FFFF,
            0xFFFF_FFFF << 32,
            1,
            1 << 63,
            0xFF << (bit & !7),
            0x7FFF_FFFF_FFFF_FFFF,
        ]),
    }
}

/// A doubleword number that 2009 refuses.
fn bad_doubleword(random: &mut Random) -> u64 {
    let low = random.below(32);
    match random.below(12) {
        0..=2 => 32,
        3 => 33,
        4 => random.between(33, 63),
        5 => 2_047,
        6 => random.pick(&[64, 256, 2_048, 65_536]) + low,
        7 => 1 << 32,
        8 => low | 1 << random.between(32, 57),
        9 => low | 1 << random.between(58, 63),
        10 => u64::MAX,
        _ => random.number(),
    }
}

/// A file that 2008 refuses: off its alignment, or beside a window, where no other window is.
fn bad_file(world: &mut World, file: u64) -> u64 {
    match world.random.below(8) {
        0..=1 => file + world.random.between(1, 511),
        2..=5 => world.file_beside(),
        6 => world.random.number() & !511,
        _ => u64::MAX,
    }
}

/// An identity that 2009 refuses.
fn bad_identity(random: &mut Random) -> u64 {
    match random.below(4) {
        0..=1 => 2_048,
        2 => random.number(),
        _ => u64::MAX,
    }
}

/// A request at one of the targets, at times with one field changed, at times with several checks
/// broken.
fn request_call(world: &mut World, stored: &mut Vec<(u64, u64)>) -> Call {
    let target = choose_target(world);
    let random = &mut world.random;
    let page = random.below(target.span / 4_096) * 4_096;
    let (offset, length) = choose_piece(random, target.message.is_some());
    let mut request = Request {
        device_id: target.device,
        process_id: target.process,
        supervisor: target.supervisor,
        access: choose_access(random, target.message.is_some()),
        address: target.address.wrapping_add(page) | offset,
        length,
    };
    if random.chance(8) {
        let last = target.span - 1;
        // The last byte of what is mapped alike, the first beyond it, and the two at its start.
        let edge = random.pick(&[last, last, last + 1, 0, u64::MAX]);
        (request.address, request.length) = (target.address.wrapping_add(edge), 1);
    }
    let data = choose_data(random, &request, target.message, stored);
    let (mut mode, mut root) = (world.mode, world.root);
    if random.chance(8) {
        let side = random.pick(Side::ALL);
        let start = world.layout.memory.window(side).start;
        (mode, root) = change_settings(random, mode, root, start);
    } else if random.chance(18) {
        change_request(random, &mut request);
    } else if random.chance(2) {
        (mode, root) = break_checks(random, mode, root, &mut request);
    }
    Call::Request {
        mode,
        root,
        request,
        data,
    }
}

/// One of the world's targets; any address where it has none.
fn choose_target(world: &mut World) -> Target {
    let any = Target {
        device: world.random.of_width(24),
        process: None,
        supervisor: false,
        address: world.random.number(),
        span: 4_096,
        message: None,
    };
    world.random.choose(&world.targets).unwrap_or(any)
}

/// The data value: an identity, reversed at offset 4; what may be stored is remembered for takes.
fn choose_data(
    random: &mut Random,
    request: &Request,
    file: Option<u64>,
    stored: &mut Vec<(u64, u64)>,
) -> u32 {
    let offset = request.address % 4_096;
    let identity = match stored.last() {
        Some((_, identity)) if random.chance(35) => *identity,
        _ => choose_identity(random),
    };
    if let Some(file) = file {
        let storable = request.access == Access::Write && request.length == 4;
        if storable && (offset == 0 || offset == 4) {
            stored.push((file, identity));
        }
    }
    match offset {
        4 if random.chance(85) => (identity as u32).swap_bytes(),
        _ => identity as u32,
    }
}

/// Messages are mostly writes.
fn choose_access(random: &mut Random, message: bool) -> Access {
    if message && random.chance(82) {
        return Access::Write;
    }
    random.pick(&Access::ALL)
}

/// Page offset and length: message writes at 0 and 4, and the edges of a page.
fn choose_piece(random: &mut Random, message: bool) -> (u64, u64) {
    let offset = match random.below(100) {
        0..=44 => 0,
        45..=74 => 4,
        75..=80 => random.pick(&[1, 2, 8, 12, 2_048]),
        81..=86 => random.pick(&[4_088, 4_092, 4_095]),
        _ => random.below(4_096),
    };
    let length = match random.below(100) {
        _ if message && random.chance(90) => 4,
        0..=39 => 4,
        40..=79 => random.pick(&[1, 2, 8]),
        _ => 4_096 - offset,
    };
    (offset, length.min(4_096 - offset))
}

/// An identity: 0, the limits, and others.
fn choose_identity(random: &mut Random) -> u64 {
    match random.below(100) {
        0..=9 => 0,
        10..=34 => 37,
        35..=54 => random.pick(&[1, 7, 8, 63, 64, 65, 2_046]),
        55..=64 => 2_047,
        65..=69 => 2_048,
        70..=92 => random.below(2_048),
        93..=96 => random.between(2_048, 70_000),
        _ => random.number() & 0xFFFF_FFFF,
    }
}

/// Another directory mode, or another root.
fn change_settings(random: &mut Random, mode: u64, root: u64, start: u64) -> (u64, u64) {
    match random.below(10) {
        0 => (0, root),
        1..=2 => (1, root),
        3 => (random.between(2, 4), root),
        4 => (bad_mode(random), root),
        5 => (random.number(), root),
        6 => (mode, random.pick(&[1 << 44, u64::MAX, (1 << 44) - 1])),
        7 => (mode, root ^ 1 << random.below(64)),
        8 => (mode, (start >> 12) + random.below(40)),
        _ => (random.below(5), random.of_width(44)),
    }
}

/// One field of a request changed.
fn change_request(random: &mut Random, request: &mut Request) {
    match random.below(14) {
        0 => request.device_id ^= 1 << random.below(24),
        1 => request.device_id = random.of_width(24),
        2 => request.device_id = wide_device(random),
        3 => request.process_id = None,
        4 => request.process_id = Some(random.of_width(20)),
        5 => request.process_id = Some(random.pick(&[1 << 8, 1 << 17, 0xF_FFFF, 0])),
        6 => request.process_id = Some(wide_process(random)),
        7 => request.supervisor = !request.supervisor,
        8 => request.length = random.pick(&[0, 4_097, u64::MAX, 5, 3]),
        9 => request.length = crossing_length(random, request.address),
        10 => request.address ^= 1 << random.below(64),
        11..=12 => {
            request.address = edge_address(random);
            request.length = 1;
        }
        _ => request.access = random.pick(&Access::ALL),
    }
}

/// Breaks two of the checks 2002 to 2006, at times three or four; gives mode and root.
fn break_checks(
    random: &mut Random,
    mut mode: u64,
    mut root: u64,
    request: &mut Request,
) -> (u64, u64) {
    // A process_id that is too wide isn't absent, so 2004 and 2005 are never broken at once.
    let mut checks = vec![2002, 2003, random.pick(&[2004, 2005]), 2006];
    for _ in 0..random.pick(&[0, 1, 2, 2, 2]) {
        checks.swap_remove(random.below(checks.len() as u64) as usize);
    }
    for check in checks {
        match check {
            2002 if random.chance(50) => mode = bad_mode(random),
            2002 => root = random.pick(&[1 << 44, u64::MAX]),
            2003 => request.device_id = wide_device(random),
            2004 => request.process_id = Some(wide_process(random)),
            2005 => (request.supervisor, request.process_id) = (true, None),
            _ if random.chance(50) => request.length = 0,
            _ => request.length = crossing_length(random, request.address),
        }
    }
    (mode, root)
}

/// A directory mode that 2002 refuses.
fn bad_mode(random: &mut Random) -> u64 {
    random.pick(&[5, 15, 256, u64::MAX])
}

/// A device_id that 2003 refuses.
fn wide_device(random: &mut Random) -> u64 {
    random.pick(&[1 << 24, u64::MAX, 1 << 32])
}

/// A process_id that 2004 refuses.
fn wide_process(random: &mut Random) -> u64 {
    random.pick(&[1 << 20, u64::MAX, 1 << 21])
}

/// A length by which an access at an address leaves its page, so that 2006 refuses it.
fn crossing_length(random: &mut Random, address: u64) -> u64 {
    4_096 - address % 4_096 + random.between(1, 9)
}

/// Addresses at the limits of the schemes, and of untranslated ones.
fn edge_address(random: &mut Random) -> u64 {
    let scheme = match random.chance(50) {
        true => &FIRST[random.below(3) as usize],
        false => &SECOND[random.below(3) as usize],
    };
    let limit = scheme.limit();
    let high = limit.wrapping_neg();
    let edge = random.pick(&[limit, limit, high, high, limit * 2, 1 << 56, 0]);
    match random.below(4) {
        0 => edge,
        1 => edge.wrapping_sub(1),
        2 => edge.wrapping_add(random.of_width(50)),
        _ => random.number(),
    }
}
