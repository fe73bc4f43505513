//! The same job as the proved library's wired domain, in plain safe Rust written for speed.
//!
//! What a source has of one bit stands in words with a bit for each source, so that a rule is a few
//! operations on words, for one source as for all. Each hart has such a word of the sources that are
//! targeted to it.

/// A wire number that no source has.
#[derive(Clone, Copy, Debug)]
pub struct NoSource;

/// A number that no hart has.
#[derive(Clone, Copy, Debug)]
pub struct NoHart;

#[derive(Clone, Copy, Debug)]
pub struct Message {
    pub hart_index: u32,
    pub guest_index: u32,
    pub identity: u32,
}

/// A domain; source n is bit n of a word, and place n of an array.
#[derive(Clone, Debug)]
pub struct Domain {
    enable: bool,
    wire: u64,
    pending: u64,
    enabled: u64,
    active: u64,
    /// Sources of an edge or a level.
    attached: u64,
    level: u64,
    inverted: u64,
    modes: [u8; 64],
    targets: [u32; 64],
    direct: bool,
    harts: [Hart; 16],
}

/// A hart; nothing but zeros in message delivery.
#[derive(Clone, Copy, Debug, Default)]
struct Hart {
    delivery: bool,
    force: bool,
    threshold: u8,
    /// The sources that are targeted to it.
    aimed: u64,
}

/// Bits of a target that aren't reserved.
const MESSAGE_TARGET: u32 = !(1 << 11);
const DIRECT_TARGET: u32 = 0xFFFC_00FF;

impl Domain {
    pub fn new(direct: bool) -> Domain {
        Domain {
            direct,
            harts: [Hart::default(); 16],
            enable: false,
            wire: 0,
            pending: 0,
            enabled: 0,
            active: 0,
            attached: 0,
            level: 0,
            inverted: 0,
            modes: [0; 64],
            targets: [0; 64],
        }
    }

    #[inline]
    fn rectified(&self) -> u64 {
        (self.wire ^ self.inverted) & self.attached
    }

    #[inline(never)]
    pub fn wire(&mut self, source: u64, high: bool) -> Result<(), NoSource> {
        if source.wrapping_sub(1) >= 63 {
            return Err(NoSource);
        }
        let before = self.rectified();
        self.wire = self.wire & !(1 << source) | u64::from(high) << source;
        let after = self.rectified();
        self.pending = (self.pending | after & !before) & !(self.level & !after);
        Ok(())
    }

    #[inline(never)]
    pub fn read(&mut self, offset: u64) -> u32 {
        if offset & 3 != 0 {
            return 0;
        }
        match offset {
            0x0000 => 0x8000_0000 | u32::from(self.enable) << 8 | u32::from(!self.direct) << 2,
            0x0004..=0x00FC => u32::from(self.modes[(offset / 4) as usize & 63]),
            0x1C00 => self.pending as u32,
            0x1C04 => (self.pending >> 32) as u32,
            0x1D00 => self.rectified() as u32,
            0x1D04 => (self.rectified() >> 32) as u32,
            0x1E00 => self.enabled as u32,
            0x1E04 => (self.enabled >> 32) as u32,
            0x3004..=0x30FC => self.targets[(offset / 4) as usize & 63],
            0x4000..=0x41FC => self.read_hart(offset),
            _ => 0,
        }
    }

    #[inline]
    fn read_hart(&mut self, offset: u64) -> u32 {
        if !self.direct {
            return 0;
        }
        let number = (offset / 32) as usize & 15;
        let hart = &self.harts[number];
        match offset & 31 {
            0x00 => u32::from(hart.delivery),
            0x04 => u32::from(hart.force),
            0x08 => u32::from(hart.threshold),
            0x18 => self.top(number),
            0x1C => self.claim_top(number),
            _ => 0,
        }
    }

    #[inline(never)]
    pub fn write(&mut self, offset: u64, value: u32) {
        if offset & 3 != 0 {
            return;
        }
        match offset {
            0x0000 => self.enable = value & 0x100 != 0,
            0x0004..=0x00FC => self.configure((offset / 4) as usize & 63, value),
            0x1C00 => self.set_pending(u64::from(value)),
            0x1C04 => self.set_pending(u64::from(value) << 32),
            0x1CDC | 0x2000 => self.set_pending(numbered(value)),
            0x1D00 => self.clear_pending(u64::from(value)),
            0x1D04 => self.clear_pending(u64::from(value) << 32),
            0x1DDC => self.clear_pending(numbered(value)),
            0x1E00 => self.enabled |= u64::from(value) & self.active,
            0x1E04 => self.enabled |= u64::from(value) << 32 & self.active,
            0x1EDC => self.enabled |= numbered(value) & self.active,
            0x1F00 => self.enabled &= !u64::from(value),
            0x1F04 => self.enabled &= !(u64::from(value) << 32),
            0x1FDC => self.enabled &= !numbered(value),
            0x3004..=0x30FC => {
                let source = (offset / 4) as usize & 63;
                if self.active >> source & 1 == 1 {
                    self.aim(source, value);
                }
            }
            0x4000..=0x41FC if self.direct => {
                let hart = &mut self.harts[(offset / 32) as usize & 15];
                match offset & 31 {
                    0x00 => hart.delivery = value & 1 != 0,
                    0x04 => hart.force = value & 1 != 0,
                    0x08 => hart.threshold = value as u8,
                    _ => {}
                }
            }
            _ => {}
        }
    }

    /// A level is set only while its input is high; in direct delivery it is then set already.
    #[inline]
    fn set_pending(&mut self, sources: u64) {
        self.pending |= sources & self.active & !(self.level & !self.rectified());
    }

    /// In direct delivery a level isn't cleared.
    #[inline]
    fn clear_pending(&mut self, sources: u64) {
        let held = if self.direct { self.level } else { 0 };
        self.pending &= !(sources & !held);
    }

    /// Gives an active source a target.
    #[inline]
    fn aim(&mut self, source: usize, value: u32) {
        if !self.direct {
            self.targets[source] = value & MESSAGE_TARGET;
            return;
        }
        self.aim_nowhere(source);
        let value = value & DIRECT_TARGET;
        self.targets[source] = value | u32::from(value & 0xFF == 0);
        if let Some(hart) = self.harts.get_mut((value >> 18) as usize) {
            hart.aimed |= 1 << source;
        }
    }

    #[inline]
    fn aim_nowhere(&mut self, source: usize) {
        if let Some(hart) = self.harts.get_mut((self.targets[source] >> 18) as usize) {
            hart.aimed &= !(1 << source);
        }
        self.targets[source] = 0;
    }

    fn configure(&mut self, source: usize, value: u32) {
        let bit = 1 << source;
        let mode = match value & 7 {
            _ if value & 0x400 != 0 => 0,
            2 | 3 => 0,
            mode => mode,
        };
        let put = |word: u64, one: bool| word & !bit | u64::from(one) << source;
        let was_active = self.active & bit != 0;
        self.modes[source] = mode as u8;
        self.active = put(self.active, mode != 0);
        self.attached = put(self.attached, mode >= 4);
        self.level = put(self.level, mode >= 6);
        self.inverted = put(self.inverted, mode & 5 == 5);
        let rectified = self.rectified();
        self.pending = (self.pending | rectified & bit) & !(self.level & !rectified);
        if mode == 0 {
            self.pending &= !bit;
            self.enabled &= !bit;
            self.aim_nowhere(source);
        } else if !was_active {
            self.aim(source, 0);
        }
    }

    #[inline(never)]
    pub fn forward(&mut self) -> Option<Message> {
        let waiting = self.pending & self.enabled;
        if !self.enable || waiting == 0 || self.direct {
            return None;
        }
        self.pending &= !(waiting & waiting.wrapping_neg());
        let target = self.targets[waiting.trailing_zeros() as usize & 63];
        Some(Message {
            hart_index: target >> 18,
            guest_index: target >> 12 & 0x3F,
            identity: target & 0x7FF,
        })
    }

    /// The value of topi: of the sources that wait below the threshold the lowest priority number, and
    /// of equal ones the lowest source, which comes first here.
    #[inline]
    fn top(&self, number: usize) -> u32 {
        let hart = &self.harts[number];
        let mut waiting = self.pending & self.enabled & hart.aimed;
        let mut best = match hart.threshold {
            0 => 256,
            threshold => u32::from(threshold),
        };
        let mut top = 0;
        while waiting != 0 {
            let source = waiting.trailing_zeros();
            let priority = self.targets[source as usize & 63] & 0xFF;
            if priority < best {
                best = priority;
                top = source << 16 | priority;
            }
            waiting &= waiting - 1;
        }
        top
    }

    #[inline]
    fn claim_top(&mut self, number: usize) -> u32 {
        let top = self.top(number);
        match top {
            0 => self.harts[number].force = false,
            _ => self.clear_pending(1 << (top >> 16)),
        }
        top
    }

    #[inline(never)]
    pub fn claim(&mut self, hart: u64) -> Result<u32, NoHart> {
        match hart {
            0..16 if self.direct => Ok(self.claim_top(hart as usize)),
            0..16 => Ok(0),
            _ => Err(NoHart),
        }
    }

    #[inline(never)]
    pub fn signal(&self, hart: u64) -> Result<bool, NoHart> {
        if hart >= 16 {
            return Err(NoHart);
        }
        let number = hart as usize & 15;
        let hart = &self.harts[number];
        Ok(self.enable && hart.delivery && (hart.force || self.top(number) != 0))
    }
}

/// The bit of a source's number; none where no source has it.
#[inline]
fn numbered(number: u32) -> u64 {
    if number.wrapping_sub(1) < 63 {
        1 << number
    } else {
        0
    }
}
