//! One source of a domain: its state, and every rule that concerns it alone.

use crate::types::{bit, bits};

/// 002, 4.1.5.1: the delivery modes, which 02, Req 08, fixes when the domain is made.
#[derive(Clone, Copy, Debug, Default, PartialEq, Eq, PartialOrd, Ord)]
pub enum Delivery {
    /// DM = 1: MSI delivery mode.
    #[default]
    Message,
    /// DM = 0: direct delivery mode.
    Direct,
}

impl Delivery {
    pub const ALL: [Delivery; 2] = [Delivery::Message, Delivery::Direct];

    pub fn name(self) -> &'static str {
        match self {
            Delivery::Message => "message",
            Delivery::Direct => "direct",
        }
    }
}

/// 002, 4.1.5.2, Table 2: the source modes that aren't reserved.
#[derive(Clone, Copy, Debug, Default, PartialEq, Eq, PartialOrd, Ord)]
pub enum Mode {
    #[default]
    Inactive,
    Detached,
    Edge1,
    Edge0,
    Level1,
    Level0,
}

impl Mode {
    pub const ALL: [Mode; 6] = [
        Mode::Inactive,
        Mode::Detached,
        Mode::Edge1,
        Mode::Edge0,
        Mode::Level1,
        Mode::Level0,
    ];

    pub fn name(self) -> &'static str {
        match self {
            Mode::Inactive => "Inactive",
            Mode::Detached => "Detached",
            Mode::Edge1 => "Edge1",
            Mode::Edge0 => "Edge0",
            Mode::Level1 => "Level1",
            Mode::Level0 => "Level0",
        }
    }

    /// Table 2: the value of SM.
    pub fn number(self) -> u32 {
        match self {
            Mode::Inactive => 0,
            Mode::Detached => 1,
            Mode::Edge1 => 4,
            Mode::Edge0 => 5,
            Mode::Level1 => 6,
            Mode::Level0 => 7,
        }
    }

    /// 4.1.5.2: what a value written to sourcecfg makes of the mode. In a leaf domain bit 10 sets the
    /// entire register to zero; a reserved SM is kept as 0 (02, Req 07); all other bits are reserved.
    pub fn written(value: u32) -> Mode {
        let value = u64::from(value);
        if bit(value, 10) {
            return Mode::Inactive;
        }
        let named = |mode: &Mode| u64::from(mode.number()) == bits(value, 2, 0);
        Mode::ALL.into_iter().find(named).unwrap_or_default()
    }

    /// 4.1.5.2: delegation is none here, so that SM alone decides.
    pub fn is_active(self) -> bool {
        self != Mode::Inactive
    }

    pub fn is_level(self) -> bool {
        matches!(self, Mode::Level1 | Mode::Level0)
    }

    /// 4.1.5.2: "rectified input value = (incoming wire value) XOR (source is inverted)"; zero where
    /// the source is inactive or Detached.
    pub fn rectified(self, wire: bool) -> bool {
        match self {
            Mode::Inactive | Mode::Detached => false,
            Mode::Edge1 | Mode::Level1 => wire,
            Mode::Edge0 | Mode::Level0 => !wire,
        }
    }
}

/// 002, 4.1.5.16: a target register, its fields at full width; a field that the delivery mode doesn't
/// have is zero.
#[derive(Clone, Copy, Debug, Default, PartialEq, Eq)]
pub struct Target {
    pub hart_index: u32,
    /// MSI delivery mode.
    pub guest_index: u32,
    /// MSI delivery mode.
    pub identity: u32,
    /// Direct delivery mode: IPRIO.
    pub priority: u32,
}

impl Target {
    /// 4.1.5.16.2: bits 31:18, 17:12 and 10:0; bit 11 is reserved. 4.1.5.16.1: bits 31:18 and 7:0 (02,
    /// Req 08), "unless those bits are all zeros, in which case the priority number is set to 1".
    pub fn written(delivery: Delivery, value: u32) -> Target {
        let field = |high, low| bits(u64::from(value), high, low) as u32;
        let hart_index = field(31, 18);
        match delivery {
            Delivery::Message => Target {
                hart_index,
                guest_index: field(17, 12),
                identity: field(10, 0),
                priority: 0,
            },
            Delivery::Direct => Target {
                hart_index,
                guest_index: 0,
                identity: 0,
                priority: match field(7, 0) {
                    0 => 1,
                    priority => priority,
                },
            },
        }
    }

    pub fn value(self, delivery: Delivery) -> u32 {
        let rest = match delivery {
            Delivery::Message => self.guest_index << 12 | self.identity,
            Delivery::Direct => self.priority,
        };
        self.hart_index << 18 | rest
    }
}

/// What a write to a mask register or to a register by number asks of a source.
#[derive(Clone, Copy, Debug, PartialEq, Eq, PartialOrd, Ord)]
pub enum Act {
    SetPending,
    ClearPending,
    SetEnable,
    ClearEnable,
}

/// 002, 4.1.4: the components of one source, and the level of its wire.
#[derive(Clone, Copy, Debug, Default, PartialEq, Eq)]
pub struct Source {
    pub mode: Mode,
    pub wire: bool,
    pub pending: bool,
    pub enable: bool,
    pub target: Target,
}

impl Source {
    pub fn rectified(&self) -> bool {
        self.mode.rectified(self.wire)
    }

    /// The incoming wire gets a level. 4.1.7: an edge-sensitive source, and in MSI delivery mode a
    /// level-sensitive one, becomes pending by a low-to-high transition of its rectified input.
    pub fn change_wire(&mut self, delivery: Delivery, high: bool) {
        let before = self.rectified();
        self.wire = high;
        if !before && self.rectified() {
            self.pending = true;
        }
        self.follow_level(delivery);
    }

    /// 4.1.7, level-sensitive: in both modes "The pending bit is cleared whenever the rectified input
    /// value is low"; in direct delivery mode it also "is set to one whenever the rectified input value
    /// is high".
    fn follow_level(&mut self, delivery: Delivery) {
        if !self.mode.is_level() {
            return;
        }
        if !self.rectified() {
            self.pending = false;
        } else if delivery == Delivery::Direct {
            self.pending = true;
        }
    }

    /// A write to sourcecfg. 4.1.5.2: an inactive source's pending bit, enable bit and target are
    /// zeros; pending isn't cleared otherwise, "But see 4.1.7". 02, Req 07: pending is set exactly
    /// when the new rectified input is high, and a source made active starts with target 0, of which
    /// in direct delivery mode priority 0 is kept as 1 (02, Req 08).
    pub fn configure(&mut self, delivery: Delivery, value: u32) {
        let was_active = self.mode.is_active();
        self.mode = Mode::written(value);
        if !self.mode.is_active() {
            self.pending = false;
            self.enable = false;
            self.target = Target::default();
        } else if !was_active {
            self.target = Target::written(delivery, 0);
        }
        if self.rectified() {
            self.pending = true;
        }
        self.follow_level(delivery);
    }

    /// 4.1.5.5 to 4.1.5.13: only an active source is asked.
    pub fn act(&mut self, delivery: Delivery, act: Act) {
        if !self.mode.is_active() {
            return;
        }
        match act {
            Act::SetPending => self.set_pending(delivery),
            Act::ClearPending => self.clear_pending(delivery),
            Act::SetEnable => self.enable = true,
            Act::ClearEnable => self.enable = false,
        }
    }

    /// 4.1.7: a level-sensitive source in direct delivery mode "cannot be set by a write to a setip or
    /// setipnum register"; in MSI delivery mode only "when the rectified input value is high, but not
    /// when the rectified input value is low"; any other active source always.
    fn set_pending(&mut self, delivery: Delivery) {
        let possible = match (self.mode.is_level(), delivery) {
            (false, _) => true,
            (true, Delivery::Message) => self.rectified(),
            (true, Delivery::Direct) => false,
        };
        if possible {
            self.pending = true;
        }
    }

    /// By in_clrip or clripnum, by a claim, or by being forwarded. 4.1.7: a level-sensitive source in
    /// direct delivery mode "is not cleared by a claim of the interrupt at the APLIC, nor can it be
    /// cleared by a write to an in_clrip register or to clripnum"; any other active source always is.
    pub fn clear_pending(&mut self, delivery: Delivery) {
        if delivery == Delivery::Message || !self.mode.is_level() {
            self.pending = false;
        }
    }

    /// 4.1.5.16: "If interrupt source is inactive in this domain, register target is read-only zero".
    pub fn write_target(&mut self, delivery: Delivery, value: u32) {
        if self.mode.is_active() {
            self.target = Target::written(delivery, value);
        }
    }

    /// 4.1.9: a message is sent only when the source's pending and enable bits are both one (and the
    /// domain's IE, which isn't the source's). 4.1.8.1.4: so does topi show it only then.
    pub fn is_waiting(&self) -> bool {
        self.pending && self.enable
    }
}
