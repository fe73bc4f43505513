//! Damages: one field or bit of one table entry, aimed so that each sub-check is met.

use crate::random::Random;
use crate::world::{Place, World};

/// Damages one place of the world.
pub fn damage(world: &mut World) {
    let Some(place) = choose_place(world) else {
        return;
    };
    match place {
        Place::DirectoryPointer(address) | Place::ProcessPointer(address) => {
            change(world, address, pointer_damage)
        }
        Place::DeviceContext(address) => context_damage(world, address),
        Place::ProcessContext(address) => process_damage(world, address),
        Place::PageEntry { address, level } => {
            let random = &mut world.random;
            let entry = world.layout.get(address);
            let damaged = page_entry_damage(random, entry, level);
            world.layout.put(address, damaged);
        }
        Place::MessageEntry(address) => message_damage(world, address),
    }
}

/// Contexts and message entries have more sub-checks than the rest, so they come more often.
fn choose_place(world: &mut World) -> Option<Place> {
    let wanted = world.random.below(100);
    let fits = |place: &&Place| match place {
        Place::DeviceContext(_) => wanted < 30,
        Place::MessageEntry(_) => (30..42).contains(&wanted),
        Place::ProcessContext(_) | Place::ProcessPointer(_) => (42..54).contains(&wanted),
        Place::DirectoryPointer(_) => (54..60).contains(&wanted),
        Place::PageEntry { .. } => wanted >= 60,
    };
    let places: Vec<Place> = world.places.iter().filter(fits).copied().collect();
    world.random.choose(&places)
}

/// Replaces one doubleword.
fn change(world: &mut World, address: u64, rule: fn(&mut Random, u64) -> u64) {
    let value = world.layout.get(address);
    let damaged = rule(&mut world.random, value);
    world.layout.put(address, damaged);
}

/// One bit from low to high, both included.
fn one_bit(random: &mut Random, low: u64, high: u64) -> u64 {
    1 << random.between(low, high)
}

/// A page number beyond the limit of Sv39x4 or of Sv48x4, at times the first one.
fn beyond(random: &mut Random, page_number: u64) -> u64 {
    match random.below(2) {
        0 => random.pick(&[1 << 29, 1 << 38]),
        _ => (page_number % (1 << 44)) | one_bit(random, 29, 43),
    }
}

/// A field of a doubleword replaced.
fn with_field(value: u64, low: u32, width: u32, field: u64) -> u64 {
    let kept = !(((1 << width) - 1) << low);
    value & kept | field << low
}

/// A non-leaf entry of a directory.
fn pointer_damage(random: &mut Random, entry: u64) -> u64 {
    match random.below(6) {
        0 => entry & !1,
        1 => entry | one_bit(random, 1, 9),
        2 => entry | one_bit(random, 54, 63),
        3 => with_field(entry, 10, 44, random.of_width(44)),
        4 => entry ^ one_bit(random, 10, 53),
        _ => entry ^ one_bit(random, 0, 63),
    }
}

/// The doubleword of a device context that a kind of damage is for.
fn context_word(random: &mut Random, kind: u64) -> u64 {
    match kind {
        0..=12 => 0,
        13..=16 => 1,
        17..=18 => 2,
        19..=23 | 31 | 32 => 3,
        24..=27 => 4,
        28 => 5,
        29 => 6,
        30 => 7,
        _ => random.below(8),
    }
}

/// One of the eight doublewords of a device context.
fn context_damage(world: &mut World, address: u64) {
    let kind = world.random.below(34);
    let word = context_word(&mut world.random, kind);
    let random = &mut world.random;
    let place = address + word * 8;
    let value = world.layout.get(place);
    let damaged = match kind {
        0 => value & !1,
        1..=8 => value | 1 << [1, 2, 3, 6, 7, 8, 10, 11][kind as usize - 1],
        9 => value | one_bit(random, 12, 23),
        10 => value | one_bit(random, 24, 31),
        11 => value | one_bit(random, 32, 63),
        12 => value ^ one_bit(random, 4, 9) & 0x230 ^ random.pick(&[0, 1 << 9, 1 << 5]),
        13 => with_field(value, 60, 4, random.below(16)),
        14 => value ^ random.between(1, 3),
        15 => with_field(value, 60, 4, 0),
        16 => with_field(value, 0, 44, random.of_width(42) << 2),
        17 => value | one_bit(random, 0, 11),
        18 => value | one_bit(random, 32, 63),
        19 => value | one_bit(random, 44, 59),
        20 | 31 | 32 => with_field(value, 60, 4, random.below(16)),
        21 => with_field(value, 0, 44, beyond(random, value)),
        22 => with_field(value, 0, 44, random.of_width(44)),
        23 => with_field(value, 60, 4, random.below(4)),
        24 => value | one_bit(random, 44, 59),
        25 => with_field(value, 60, 4, random.below(16)),
        26 => value ^ one_bit(random, 0, 4),
        27 => with_field(value, 0, 44, random.of_width(44)),
        28 | 29 => value | one_bit(random, 47, 63),
        30 => value | one_bit(random, 0, 63),
        _ => value ^ one_bit(random, 0, 63),
    };
    world.layout.put(place, damaged);
}

/// One of the two doublewords of a process context.
fn process_damage(world: &mut World, address: u64) {
    let kind = world.random.below(13);
    let place = address + 8 * u64::from(kind >= 6);
    let random = &mut world.random;
    let value = world.layout.get(place);
    let damaged = match kind {
        0 => value & !1,
        1 => value & !2,
        2 => value ^ 4,
        3 => value | one_bit(random, 3, 11),
        4 => value | one_bit(random, 32, 63),
        5 => value ^ one_bit(random, 0, 63),
        6 => value | one_bit(random, 44, 59),
        7 | 11 | 12 => with_field(value, 60, 4, random.below(16)),
        8 => with_field(value, 0, 44, beyond(random, value)),
        9 => with_field(value, 0, 44, random.of_width(44)),
        _ => value ^ one_bit(random, 0, 63),
    };
    world.layout.put(place, damaged);
}

/// A page-table entry.
fn page_entry_damage(random: &mut Random, entry: u64, level: u64) -> u64 {
    let is_leaf = entry & 0xE != 0;
    match random.below(if is_leaf { 18 } else { 9 }) {
        0 => entry & !1,
        1 => entry & !2 | 4,
        2 => entry | one_bit(random, 54, 63),
        3 => with_field(entry, 10, 44, random.of_width(44)),
        4 => entry ^ one_bit(random, 0, 63),
        5 => with_field(entry, 10, 44, beyond(random, entry >> 10)),
        6..=8 if !is_leaf => entry | random.pick(&[1 << 4, 1 << 6, 1 << 7]),
        // A leaf becomes a pointer.
        6 => entry & !0xDE,
        7 => entry & !0xE,
        10 => entry & !(1 << 6),
        11 => entry & !(1 << 7),
        12 => entry & !2 & !4 | 8,
        13 => entry & !4,
        14 => entry & !8,
        15 => entry ^ 1 << 4,
        // A large page off its alignment.
        _ => entry | one_bit(random, 10, 9 + 9 * level.max(1)),
    }
}

/// One of the two doublewords of a message entry.
fn message_damage(world: &mut World, address: u64) {
    let kind = world.random.below(10);
    let place = address + 8 * u64::from(kind >= 8);
    let random = &mut world.random;
    let value = world.layout.get(place);
    let damaged = match kind {
        0 => value & !1,
        1 => value | 1 << 63,
        2 => with_field(value, 1, 2, 0),
        3 => with_field(value, 1, 2, 2),
        4 => value | one_bit(random, 3, 6),
        5 => value | one_bit(random, 54, 62),
        6 => value | one_bit(random, 7, 9),
        7 => value ^ one_bit(random, 0, 63),
        8 => value | one_bit(random, 54, 59),
        _ => value | one_bit(random, 61, 63),
    };
    world.layout.put(place, damaged);
}
