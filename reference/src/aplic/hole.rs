//! Places of the control region, and beyond it, that aren't a register of the domain.

use crate::aplic::domain;
use crate::aplic::register::Register;
use crate::random::Random;

/// Name, first byte and last byte of a run of places without a register; every byte that isn't part
/// of a register or of a hart's structure is in one of them.
const RUNS: [(&str, u64, u64); 23] = [
    ("sourcecfg[64] to sourcecfg[1023]", 0x0100, 0x0FFF),
    ("0x1000 to 0x1BBF", 0x1000, 0x1BBF),
    ("mmsiaddrcfg", 0x1BC0, 0x1BC3),
    ("mmsiaddrcfgh", 0x1BC4, 0x1BC7),
    ("smsiaddrcfg", 0x1BC8, 0x1BCB),
    ("smsiaddrcfgh", 0x1BCC, 0x1BCF),
    ("0x1BD0 to 0x1BFF", 0x1BD0, 0x1BFF),
    ("setip[2] to setip[31]", 0x1C08, 0x1C7F),
    ("0x1C80 to 0x1CDB", 0x1C80, 0x1CDB),
    ("0x1CE0 to 0x1CFF", 0x1CE0, 0x1CFF),
    ("in_clrip[2] to in_clrip[31]", 0x1D08, 0x1D7F),
    ("0x1D80 to 0x1DDB", 0x1D80, 0x1DDB),
    ("0x1DE0 to 0x1DFF", 0x1DE0, 0x1DFF),
    ("setie[2] to setie[31]", 0x1E08, 0x1E7F),
    ("0x1E80 to 0x1EDB", 0x1E80, 0x1EDB),
    ("0x1EE0 to 0x1EFF", 0x1EE0, 0x1EFF),
    ("clrie[2] to clrie[31]", 0x1F08, 0x1F7F),
    ("0x1F80 to 0x1FDB", 0x1F80, 0x1FDB),
    ("0x1FE0 to 0x1FFF", 0x1FE0, 0x1FFF),
    ("setipnum_be", 0x2004, 0x2007),
    ("0x2008 to 0x2FFF", 0x2008, 0x2FFF),
    ("genmsi", 0x3000, 0x3003),
    ("target[64] to target[1023]", 0x3100, 0x3FFF),
];

/// 002, 4.1.5: the structures of harts, 32 bytes each, begin here.
const HARTS: u64 = 0x4000;
/// The structure of the first hart that the domain hasn't.
const NEXT_HART: u64 = HARTS + 32 * domain::HARTS;
/// 4.1.3: hart index numbers are below 2^14.
const HARTS_END: u64 = HARTS + (32 << 14);

/// Name, first byte and last byte of a register in a hart's structure, and of what is reserved there.
const HART_PARTS: [(&str, u64, u64); 6] = [
    ("idelivery", 0x00, 0x03),
    ("iforce", 0x04, 0x07),
    ("ithreshold", 0x08, 0x0B),
    ("reserved", 0x0C, 0x17),
    ("topi", 0x18, 0x1B),
    ("claimi", 0x1C, 0x1F),
];
/// The place of what is reserved.
const RESERVED: usize = 3;

/// A kind of place that isn't a register of the domain.
#[derive(Clone, Copy, Debug, PartialEq, Eq, PartialOrd, Ord)]
pub enum Hole {
    /// So many bytes into a register.
    Into(u64),
    /// A run of the control region's first 16 KiB, by its place in the table of runs.
    Run(usize),
    /// What is reserved in the structures of harts 0 to 15.
    Reserved,
    /// A part of hart 16's structure, by its place in the table.
    NextHart(usize),
    /// The same of a hart above 16.
    Hart(usize),
    /// Beyond all structures of harts.
    Beyond,
    /// A register's offset plus a multiple of 2^16, below 2^32.
    Above16,
    /// A register's offset plus a multiple of 2^32.
    Above32,
}

impl Hole {
    pub fn all() -> Vec<Hole> {
        let mut all: Vec<Hole> = (1..4).map(Hole::Into).collect();
        all.extend((0..RUNS.len()).map(Hole::Run));
        all.extend((0..HART_PARTS.len()).map(Hole::NextHart));
        all.extend((0..HART_PARTS.len()).map(Hole::Hart));
        all.extend([Hole::Reserved, Hole::Beyond, Hole::Above16, Hole::Above32]);
        all
    }

    /// The kind of place at an offset that isn't a register's.
    pub fn at(offset: u64) -> Hole {
        let register = |offset| Register::at(offset).is_some();
        if register(offset & !3) {
            return Hole::Into(offset % 4);
        }
        if register(offset % (1 << 32)) {
            return Hole::Above32;
        }
        if offset < 1 << 32 && register(offset % (1 << 16)) {
            return Hole::Above16;
        }
        let within = |place: u64| move |run: &(&str, u64, u64)| (run.1..=run.2).contains(&place);
        if (HARTS..HARTS_END).contains(&offset) {
            let place = HART_PARTS.iter().position(within(offset % 32));
            let place = place.unwrap_or_default();
            return match offset {
                HARTS..NEXT_HART => Hole::Reserved,
                _ if offset < NEXT_HART + 32 => Hole::NextHart(place),
                _ => Hole::Hart(place),
            };
        }
        RUNS.iter()
            .position(within(offset))
            .map_or(Hole::Beyond, Hole::Run)
    }

    /// Some offset of the kind, mostly one of an aligned word; those that look like a register's are
    /// made from this one's.
    pub fn offset(self, random: &mut Random, register: Register) -> u64 {
        let register = register.offset();
        let offset = match self {
            Hole::Into(bytes) => return register + bytes,
            Hole::Run(run) => {
                let (_, first, last) = RUNS[run];
                let any = random.between(first, last);
                random.pick(&[first, last - 3, any])
            }
            Hole::Reserved => {
                HARTS + 32 * random.below(domain::HARTS) + in_structure(RESERVED, random)
            }
            Hole::NextHart(place) => NEXT_HART + in_structure(place, random),
            Hole::Hart(place) => {
                let end = random.pick(&[18, 64, 1 << 14]);
                HARTS + 32 * random.between(17, end - 1) + in_structure(place, random)
            }
            Hole::Beyond => match random.below(3) {
                // At the very end offsets look like those of the first harts.
                0 => HARTS_END + 32 * domain::HARTS,
                1 => u64::MAX,
                _ => HARTS_END.saturating_add(random.of_width(64)),
            },
            Hole::Above16 => return register + (random.between(1, 0xFFFF) << 16),
            Hole::Above32 => return register + (random.of_width(32).max(1) << 32),
        };
        match random.chance(90) {
            true => offset & !3,
            false => offset,
        }
    }

    pub fn name(self) -> String {
        match self {
            Hole::Into(bytes) => format!("misaligned, {bytes} bytes into a register"),
            Hole::Run(run) => RUNS[run].0.to_string(),
            Hole::Reserved => "structure of harts 0 to 15, reserved".to_string(),
            Hole::NextHart(place) => format!("structure of hart 16, {}", HART_PARTS[place].0),
            Hole::Hart(place) => format!("structure of a hart above 16, {}", HART_PARTS[place].0),
            Hole::Beyond => "beyond the structures of harts".to_string(),
            Hole::Above16 => "a register's offset and a multiple of 2^16".to_string(),
            Hole::Above32 => "a register's offset and a multiple of 2^32".to_string(),
        }
    }
}

/// Some place in a part of a hart's structure.
fn in_structure(part: usize, random: &mut Random) -> u64 {
    let (_, first, last) = HART_PARTS[part];
    random.between(first, last)
}

#[cfg(test)]
mod tests {
    use super::{Hole, HARTS, RUNS};
    use crate::aplic::register::Register;
    use crate::random::Random;

    /// The runs and the registers share no byte and leave none out.
    #[test]
    fn each_byte_is_in_one_place() {
        for offset in 0..HARTS {
            let runs = RUNS.iter().filter(|run| (run.1..=run.2).contains(&offset));
            let register = Register::at(offset & !3).is_some();
            assert_eq!(runs.count() + usize::from(register), 1, "{offset:x}");
        }
    }

    /// Offsets that are made for a kind of place are nearly all of it, and never a register.
    #[test]
    fn offsets_are_of_their_kind() {
        let mut random = Random::new(5, 0);
        let registers = Register::all();
        for hole in Hole::all() {
            let mut hits = 0;
            for _ in 0..1_000 {
                let register = random.pick(&registers);
                let offset = hole.offset(&mut random, register);
                assert_eq!(Register::at(offset), None, "{offset:x}");
                hits += u32::from(Hole::at(offset) == hole);
            }
            assert!(hits > 800, "{}: {hits}", hole.name());
        }
    }
}
