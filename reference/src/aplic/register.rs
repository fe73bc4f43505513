//! The registers of the control region, by their offsets (002, 4.1.5, Table 1).

use crate::aplic::domain::{HARTS, SOURCES};
use crate::aplic::hart::HartRegister;
use crate::aplic::source::Act;

/// A register with one bit for each of 32 sources.
#[derive(Clone, Copy, Debug, PartialEq, Eq, PartialOrd, Ord)]
pub enum Mask {
    Setip,
    InClrip,
    Setie,
    Clrie,
}

impl Mask {
    pub const ALL: [Mask; 4] = [Mask::Setip, Mask::InClrip, Mask::Setie, Mask::Clrie];

    pub fn name(self) -> &'static str {
        match self {
            Mask::Setip => "setip",
            Mask::InClrip => "in_clrip",
            Mask::Setie => "setie",
            Mask::Clrie => "clrie",
        }
    }

    /// Table 1: where the 32 registers of the kind begin.
    pub fn base(self) -> u64 {
        match self {
            Mask::Setip => 0x1C00,
            Mask::InClrip => 0x1D00,
            Mask::Setie => 0x1E00,
            Mask::Clrie => 0x1F00,
        }
    }

    /// What a one that is written asks of its source.
    pub fn act(self) -> Act {
        match self {
            Mask::Setip => Act::SetPending,
            Mask::InClrip => Act::ClearPending,
            Mask::Setie => Act::SetEnable,
            Mask::Clrie => Act::ClearEnable,
        }
    }
}

/// A register to which a source's number is written.
#[derive(Clone, Copy, Debug, PartialEq, Eq, PartialOrd, Ord)]
pub enum Number {
    Setipnum,
    Clripnum,
    Setienum,
    Clrienum,
    SetipnumLe,
}

impl Number {
    pub const ALL: [Number; 5] = [
        Number::Setipnum,
        Number::Clripnum,
        Number::Setienum,
        Number::Clrienum,
        Number::SetipnumLe,
    ];

    pub fn name(self) -> &'static str {
        match self {
            Number::Setipnum => "setipnum",
            Number::Clripnum => "clripnum",
            Number::Setienum => "setienum",
            Number::Clrienum => "clrienum",
            Number::SetipnumLe => "setipnum_le",
        }
    }

    pub fn offset(self) -> u64 {
        match self {
            Number::Setipnum => 0x1CDC,
            Number::Clripnum => 0x1DDC,
            Number::Setienum => 0x1EDC,
            Number::Clrienum => 0x1FDC,
            Number::SetipnumLe => 0x2000,
        }
    }

    /// 4.1.5.13: setipnum_le acts as setipnum does.
    pub fn act(self) -> Act {
        match self {
            Number::Setipnum | Number::SetipnumLe => Act::SetPending,
            Number::Clripnum => Act::ClearPending,
            Number::Setienum => Act::SetEnable,
            Number::Clrienum => Act::ClearEnable,
        }
    }
}

/// A register of the domain; the number is that of a source, of 32 sources, or of a hart.
#[derive(Clone, Copy, Debug, PartialEq, Eq, PartialOrd, Ord)]
pub enum Register {
    Domaincfg,
    Sourcecfg(u64),
    Mask(Mask, u64),
    Number(Number),
    Target(u64),
    Hart(u64, HartRegister),
}

/// Table 1: target[n] is at 0x3000 + 4 n; at 0x3000 itself is genmsi.
const TARGETS: u64 = 0x3000;

/// Mask registers that have a source of the domain: sources 0 to 31, and 32 to 63.
const HALVES: u64 = 2;

/// 4.1.5: "Starting at offset 0x4000 .. an array of interrupt delivery control (IDC) structures", "32
/// bytes per structure".
const STRUCTURES: u64 = 0x4000;
const STRUCTURE: u64 = 32;

impl Register {
    /// Every register, in the order of their offsets.
    pub fn all() -> Vec<Register> {
        let mut all = vec![Register::Domaincfg];
        all.extend((1..=SOURCES).map(Register::Sourcecfg));
        for mask in Mask::ALL {
            all.extend((0..HALVES).map(|half| Register::Mask(mask, half)));
        }
        all.extend(Number::ALL.map(Register::Number));
        all.extend((1..=SOURCES).map(Register::Target));
        for hart in 0..HARTS {
            all.extend(HartRegister::ALL.map(|register| Register::Hart(hart, register)));
        }
        all.sort_by_key(|register| register.offset());
        all
    }

    pub fn offset(self) -> u64 {
        match self {
            Register::Domaincfg => 0,
            Register::Sourcecfg(source) => 4 * source,
            Register::Mask(mask, half) => mask.base() + 4 * half,
            Register::Number(number) => number.offset(),
            Register::Target(source) => TARGETS + 4 * source,
            Register::Hart(hart, register) => STRUCTURES + STRUCTURE * hart + register.offset(),
        }
    }

    /// The register at an offset. 4.1.5: everything else is read-only zeros, and so is what belongs to
    /// sources that aren't implemented, or to harts that the domain hasn't; 02, Req 07: genmsi and
    /// setipnum_be too. Only naturally aligned accesses are supported, and others are ignored.
    pub fn at(offset: u64) -> Option<Register> {
        if !offset.is_multiple_of(4) {
            return None;
        }
        let source_of = |base: u64| {
            let source = offset.checked_sub(base)? / 4;
            (1..=SOURCES).contains(&source).then_some(source)
        };
        if offset == 0 {
            return Some(Register::Domaincfg);
        }
        if let Some(source) = source_of(0) {
            return Some(Register::Sourcecfg(source));
        }
        if let Some(source) = source_of(TARGETS) {
            return Some(Register::Target(source));
        }
        if let Some(number) = Number::ALL.into_iter().find(|n| n.offset() == offset) {
            return Some(Register::Number(number));
        }
        if let Some(place) = offset.checked_sub(STRUCTURES) {
            let (hart, place) = (place / STRUCTURE, place % STRUCTURE);
            let mut registers = HartRegister::ALL.into_iter();
            let register = registers.find(|register| register.offset() == place)?;
            return (hart < HARTS).then_some(Register::Hart(hart, register));
        }
        let half_of = |mask: &Mask| offset.checked_sub(mask.base()).map(|beyond| beyond / 4);
        let mask = Mask::ALL
            .into_iter()
            .find(|mask| half_of(mask).is_some_and(|half| half < HALVES))?;
        Some(Register::Mask(mask, half_of(&mask)?))
    }

    pub fn name(self) -> String {
        match self {
            Register::Domaincfg => "domaincfg".to_string(),
            Register::Sourcecfg(source) => format!("sourcecfg[{source}]"),
            Register::Mask(mask, half) => format!("{}[{half}]", mask.name()),
            Register::Number(number) => number.name().to_string(),
            Register::Target(source) => format!("target[{source}]"),
            Register::Hart(hart, register) => format!("{} of hart {hart}", register.name()),
        }
    }
}

#[cfg(test)]
mod tests {
    use super::Register;

    #[test]
    fn each_register_is_at_its_offset() {
        let all = Register::all();
        assert_eq!(all.len(), 1 + 63 + 8 + 5 + 63 + 16 * 5);
        let found = (0..0x10_0000).filter_map(Register::at);
        assert!(found.eq(all.iter().copied()));
        for register in all {
            assert_eq!(Register::at(register.offset()), Some(register));
            assert_eq!(Register::at(register.offset() + (1 << 32)), None);
        }
    }
}
