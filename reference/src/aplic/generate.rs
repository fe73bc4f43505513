//! The generator: lists of calls of a domain at reset, a function of the seed and the index alone.

use crate::aplic::domain::{Call, HARTS, SOURCES};
use crate::aplic::hart::HartRegister;
use crate::aplic::hole::Hole;
use crate::aplic::register::{Mask, Number, Register};
use crate::aplic::source::{Delivery, Mode};
use crate::random::Random;

/// Calls of one domain, from its reset on.
#[derive(Clone, Debug, Default, PartialEq, Eq)]
pub struct List {
    pub delivery: Delivery,
    pub calls: Vec<Call>,
}

/// The list of this index under this seed; about half are of each delivery mode.
pub fn list(seed: u64, index: u64) -> List {
    let mut maker = Maker::new(Random::new(seed, index));
    if maker.random.chance(85) {
        maker.set_up();
    }
    for _ in 0..maker.random.between(10, 400) {
        let call = maker.call();
        maker.calls.push(call);
    }
    List {
        delivery: maker.delivery,
        calls: maker.calls,
    }
}

struct Maker {
    random: Random,
    delivery: Delivery,
    /// The sources that most calls of the list are about, so that calls meet each other's effects.
    sources: Vec<u64>,
    /// The harts and the priorities, likewise.
    harts: Vec<u64>,
    priorities: Vec<u64>,
    registers: Vec<Register>,
    holes: Vec<Hole>,
    calls: Vec<Call>,
}

impl Maker {
    fn new(mut random: Random) -> Maker {
        let delivery = random.pick(&Delivery::ALL);
        let sources: Vec<u64> = match random.below(100) {
            0..=9 => (1..=SOURCES).collect(),
            10..=19 => vec![1, 31, 32, SOURCES],
            _ => {
                let count = random.between(1, 6);
                (0..count).map(|_| random.between(1, SOURCES)).collect()
            }
        };
        let harts = (0..random.between(1, 2)).map(|_| random.below(HARTS));
        let harts = harts.collect();
        let priorities = (0..random.between(1, 3)).map(|_| match random.below(3) {
            0 => random.between(1, 3),
            _ => random.below(256),
        });
        let priorities = priorities.collect();
        Maker {
            random,
            delivery,
            sources,
            harts,
            priorities,
            registers: Register::all(),
            holes: Hole::all(),
            calls: Vec::new(),
        }
    }

    /// Most sources of the list made active, given a target and enabled; then the domain's enable.
    fn set_up(&mut self) {
        for source in self.sources.clone() {
            if self.random.chance(50) {
                self.calls.push(Call::Wire { source, high: true });
            }
            let mode = self.random.pick(&Mode::ALL).number();
            self.push_write(Register::Sourcecfg(source), mode);
            if self.random.chance(90) {
                let value = self.target_value();
                self.push_write(Register::Target(source), value);
            }
            if self.random.chance(75) {
                self.push_write(Register::Number(Number::Setienum), source as u32);
            }
        }
        for hart in self.harts.clone() {
            if self.random.chance(80) {
                self.push_write(Register::Hart(hart, HartRegister::Idelivery), 1);
            }
            if self.random.chance(30) {
                let value = self.threshold_value();
                self.push_write(Register::Hart(hart, HartRegister::Ithreshold), value);
            }
        }
        if self.random.chance(90) {
            self.push_write(Register::Domaincfg, 0x100);
        }
    }

    fn push_write(&mut self, register: Register, value: u32) {
        self.calls.push(write(register, value));
    }

    fn call(&mut self) -> Call {
        match self.random.below(100) {
            0..=18 => self.wire(),
            19..=28 => {
                let source = self.source();
                write(Register::Sourcecfg(source), self.sourcecfg_value())
            }
            29..=38 => self.mask_write(),
            39..=48 => {
                let number = self.random.pick(&Number::ALL);
                write(Register::Number(number), self.number_value())
            }
            49..=54 => {
                let source = self.source();
                write(Register::Target(source), self.target_value())
            }
            55..=58 => write(Register::Domaincfg, self.domaincfg_value()),
            59..=60 => Call::Forward,
            61..=84 => match self.delivery {
                Delivery::Message if self.random.chance(60) => Call::Forward,
                _ => self.hart_call(),
            },
            85..=93 => Call::Read {
                offset: self.read_register().offset(),
            },
            _ => self.hole(),
        }
    }

    /// A claim, a signal, or an access of a hart's registers.
    fn hart_call(&mut self) -> Call {
        let hart = self.hart();
        let read = |register: HartRegister| Call::Read {
            offset: Register::Hart(hart, register).offset(),
        };
        match self.random.below(100) {
            0..=17 => Call::Claim {
                hart: self.hart_number(),
            },
            18..=35 => read(HartRegister::Claimi),
            36..=53 => read(HartRegister::Topi),
            54..=71 => Call::Signal {
                hart: self.hart_number(),
            },
            _ => {
                let register = self.random.pick(&HartRegister::ALL);
                let value = match register {
                    HartRegister::Ithreshold => self.threshold_value(),
                    _ => self.random.pick(&[0, 1, 1]) | self.high_bits(1),
                };
                write(Register::Hart(hart, register), value)
            }
        }
    }

    /// Bits from this one on, at times.
    fn high_bits(&mut self, lowest: u32) -> u32 {
        match self.random.chance(30) {
            true => self.random.number() as u32 >> lowest << lowest,
            false => 0,
        }
    }

    /// Mostly one of the list's harts.
    fn hart(&mut self) -> u64 {
        match self.random.chance(90) {
            true => self.random.pick(&self.harts),
            false => self.random.below(HARTS),
        }
    }

    /// A hart's number, at times that of none.
    fn hart_number(&mut self) -> u64 {
        let hart = self.hart();
        let random = &mut self.random;
        match random.below(100) {
            0..=1 => HARTS,
            2 => random.between(HARTS + 1, 2 * HARTS - 1),
            3 => random.of_width(64).max(2 * HARTS) / HARTS * HARTS + hart,
            4 => 1 << random.between(5, 63) | hart,
            5 => u64::MAX,
            _ => hart,
        }
    }

    /// One of the list's priorities, a neighbour of it, or any.
    fn priority(&mut self) -> u64 {
        let some = self.random.pick(&self.priorities);
        match self.random.below(20) {
            0..=9 => some,
            10..=11 => some + 1,
            12..=13 => some.saturating_sub(1),
            14..=15 => 0,
            16 => 1,
            17 => 255,
            _ => self.random.below(256),
        }
    }

    /// Often 0, which lets every source pass.
    fn threshold_value(&mut self) -> u32 {
        let value = match self.random.chance(30) {
            true => 0,
            false => self.priority() as u32 & 0xFF,
        };
        value | self.high_bits(8)
    }

    /// In direct delivery: mostly one of the list's harts; at times one above 15 that ends in the same
    /// four bits.
    fn direct_target_value(&mut self) -> u32 {
        let hart = self.hart();
        let index = match self.random.below(20) {
            0 => HARTS + hart,
            1 => self.random.below(1 << 14) / HARTS * HARTS + hart,
            2 => (1 << 14) - 1,
            _ => hart,
        };
        let reserved = self.high_bits(8) & 0x0003_FF00;
        (index as u32) << 18 | reserved | self.priority() as u32 & 0xFF
    }

    /// Mostly one of the list's sources.
    fn source(&mut self) -> u64 {
        match self.random.chance(90) {
            true => self.random.pick(&self.sources),
            false => self.random.between(1, SOURCES),
        }
    }

    /// A number that is no source's, or at an edge; below 2^32 where it is to be written.
    fn odd_number(&mut self, width: u32) -> u64 {
        let random = &mut self.random;
        let above = random.of_width(width).max(1_024);
        match random.below(8) {
            0 => 0,
            1 => 1,
            2 => SOURCES,
            3 => SOURCES + 1,
            4 => random.between(SOURCES + 2, 1_023),
            5 => above & !63 | random.between(1, SOURCES),
            6 => above & !63,
            _ => u64::MAX >> (64 - width),
        }
    }

    fn wire(&mut self) -> Call {
        let source = match self.random.chance(94) {
            true => self.source(),
            false => self.odd_number(64),
        };
        let high = self.random.chance(50);
        Call::Wire { source, high }
    }

    /// Any SM, more often one that leaves the source active; at times with bit 10, at times with
    /// reserved bits.
    fn sourcecfg_value(&mut self) -> u32 {
        let random = &mut self.random;
        let mut value = random.below(8) as u32;
        if random.chance(30) {
            value = random.pick(&[1, 4, 5, 6, 7]);
        } else if random.chance(25) {
            value |= 1 << 10;
        }
        if random.chance(15) {
            value |= random.number() as u32 & !0x407;
        }
        value
    }

    /// Ones for the list's sources in a half, or for others.
    fn mask_write(&mut self) -> Call {
        let mask = self.random.pick(&Mask::ALL);
        let half = self.source() / 32;
        let in_half = self.sources.iter().filter(|source| *source / 32 == half);
        let own = in_half.fold(0, |value, source| value | 1u32 << (source % 32));
        let any = self.random.number() as u32;
        let value = match self.random.below(10) {
            0..=4 => own & any,
            5..=6 => own,
            7 => any,
            8 => 1 << (any % 32),
            _ => u32::MAX,
        };
        write(Register::Mask(mask, half), value)
    }

    fn number_value(&mut self) -> u32 {
        match self.random.chance(85) {
            true => self.source() as u32,
            false => self.odd_number(32) as u32,
        }
    }

    /// Any value, at times with some fields all zeros or all ones.
    fn target_value(&mut self) -> u32 {
        if self.delivery == Delivery::Direct && self.random.chance(90) {
            return self.direct_target_value();
        }
        let random = &mut self.random;
        let mut value = random.number() as u32;
        for field in [0xFFFC_0000, 0x0003_F000, 0x0000_07FF] {
            match random.below(4) {
                0 => value |= field,
                1 => value &= !field,
                _ => {}
            }
        }
        value
    }

    /// Mostly with IE; DM, BE and other bits at times.
    fn domaincfg_value(&mut self) -> u32 {
        let random = &mut self.random;
        let mut value = random.number() as u32 & 0x005;
        if random.chance(65) {
            value |= 1 << 8;
        }
        if random.chance(40) {
            value |= random.number() as u32 & !0x105;
        }
        value
    }

    fn read_register(&mut self) -> Register {
        let source = self.source();
        let mask = self.random.pick(&Mask::ALL);
        match self.random.below(10) {
            0..=4 => Register::Mask(mask, source / 32),
            5 => Register::Sourcecfg(source),
            6 => Register::Target(source),
            _ => self.random.pick(&self.registers),
        }
    }

    /// A read or a write where no register is.
    fn hole(&mut self) -> Call {
        let hole = self.random.pick(&self.holes);
        let register = self.random.pick(&self.registers);
        let offset = hole.offset(&mut self.random, register);
        if self.random.chance(50) {
            return Call::Read { offset };
        }
        // A value that would do something if the place were a register, of either byte order.
        let value = match self.random.below(4) {
            0 => self.source() as u32,
            1 => (self.source() as u32).swap_bytes(),
            2 => u32::MAX,
            _ => self.random.number() as u32,
        };
        Call::Write { offset, value }
    }
}

fn write(register: Register, value: u32) -> Call {
    Call::Write {
        offset: register.offset(),
        value,
    }
}
