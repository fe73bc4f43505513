//! What a take of many was given and did, for coverage (02, Req 12). It is told from the file's pairs
//! before and after the call and from the answer, apart from the rule itself, so that a rule that is
//! wrong gives a mark that isn't in the table.

use crate::mark::{named, Mark, See};
use crate::types::Pair;

named!(
    /// The mask with what was answered, and where the pending bits were.
    Many {
        ZeroNonePending = "mask 0, nothing pending",
        ZeroSomePending = "mask 0, some pending",
        OneAnswered = "mask of one bit, answered",
        OneNotAnswered = "mask of one bit, not answered",
        FullNonePending = "mask all ones, nothing pending",
        FullSomePending = "mask all ones, some pending",
        FullAllPending = "mask all ones, all pending",
        MoreNoneAnswered = "mask of more bits, none answered",
        MoreSomeAnswered = "mask of more bits, some answered",
        MoreAllAnswered = "mask of more bits, all answered",
        OutsideLeft = "some answered, some pending outside the mask",
        OnlyOutside = "mask not 0, all that is pending outside it",
        AllPending = "all that is pending answered, mask not all ones",
        Neighbours = "both neighbours of a pending bit in the mask, and not it",
        LowHalf = "answered in bits 31:0 alone",
        HighHalf = "answered in bits 63:32 alone",
        BothHalves = "answered in both halves",
        OneByte = "answered in one byte",
        MoreBytes = "answered in two to seven bytes",
        AllBytes = "answered in all eight bytes",
        IdentityFirst = "identity 0 answered",
        IdentityLast = "identity 2047 answered",
        LastNotAnswered = "doubleword 31, nothing answered",
        EnableZero = "answered, no enable bits beside",
        EnableOnes = "answered, enable bits beside",
        EnableOnly = "mask not 0, its bits enabled and none pending",
        OthersPending = "answered, pending bits in other doublewords too",
        OthersZero = "answered, nothing pending in other doublewords",
    }
);

/// One bit of the doubleword: before the call, in the answer, and after the call.
#[derive(Clone, Copy, Debug, PartialEq, Eq, PartialOrd, Ord)]
pub struct BitCase {
    /// It is in the mask.
    pub masked: bool,
    pub pending: bool,
    pub enabled: bool,
    pub answered: bool,
    /// It is pending after the call.
    pub left: bool,
    /// It is enabled after the call.
    pub still_enabled: bool,
}

impl BitCase {
    pub fn name(self) -> String {
        let place = if self.masked { "in" } else { "outside" };
        let word = if self.answered { "" } else { "not " };
        let [pending, enabled, left, still] =
            [self.pending, self.enabled, self.left, self.still_enabled].map(u8::from);
        let before = format!("{place} the mask, pending {pending}, enable {enabled}");
        format!("{before}: {word}answered, then {left} and {still}")
    }
}

/// A take of many that wasn't refused.
pub struct Take {
    pub before: [Pair; 32],
    pub after: [Pair; 32],
    pub doubleword: usize,
    pub mask: u64,
    pub answered: u64,
}

impl Take {
    /// Tells the observer of all of it.
    pub fn tell(&self, see: See) {
        see(Mark::Many(self.of_mask()));
        let apart = self.of_pending().into_iter().chain(self.of_answer());
        for (holds, many) in apart {
            if holds {
                see(Mark::Many(many));
            }
        }
        for case in self.cases() {
            see(Mark::Bit(case));
        }
        for bit in (0..64).filter(|bit| is_one(self.answered, *bit)) {
            see(Mark::AnsweredBit(bit));
        }
        if self.answered != 0 {
            see(Mark::AnsweredIn(self.doubleword));
        }
    }

    /// The pending bits of the doubleword before the call.
    fn pending(&self) -> u64 {
        self.before[self.doubleword].pending
    }

    /// The mask's ones, and how many of them were answered.
    fn of_mask(&self) -> Many {
        let (ones, answered) = (self.mask.count_ones(), self.answered.count_ones());
        match (ones, answered) {
            (0, _) if self.pending() == 0 => Many::ZeroNonePending,
            (0, _) => Many::ZeroSomePending,
            (1, 0) => Many::OneNotAnswered,
            (1, _) => Many::OneAnswered,
            (64, 0) => Many::FullNonePending,
            (64, 64) => Many::FullAllPending,
            (64, _) => Many::FullSomePending,
            (_, 0) => Many::MoreNoneAnswered,
            _ if answered == ones => Many::MoreAllAnswered,
            _ => Many::MoreSomeAnswered,
        }
    }

    /// Where the pending bits are, by the mask.
    fn of_pending(&self) -> Vec<(bool, Many)> {
        let (pending, mask) = (self.pending(), self.mask);
        let outside = pending & !mask;
        let inside = pending & mask;
        let enable = self.before[self.doubleword].enable;
        let beside = |bit: &u32| mask >> (bit - 1) & 5 == 5;
        let passed_by = (1..63).any(|bit| is_one(outside, bit) && beside(&bit));
        vec![
            (inside != 0 && outside != 0, Many::OutsideLeft),
            (mask != 0 && inside == 0 && outside != 0, Many::OnlyOutside),
            (
                inside != 0 && outside == 0 && mask != u64::MAX,
                Many::AllPending,
            ),
            (passed_by, Many::Neighbours),
            (mask & enable != 0 && inside == 0, Many::EnableOnly),
        ]
    }

    /// Where the answered bits are, and what stands beside them.
    fn of_answer(&self) -> Vec<(bool, Many)> {
        let answered = self.answered;
        let last = self.doubleword == 31;
        if answered == 0 {
            return vec![(last, Many::LastNotAnswered)];
        }
        let halves = match (answered as u32, answered >> 32) {
            (_, 0) => Many::LowHalf,
            (0, _) => Many::HighHalf,
            _ => Many::BothHalves,
        };
        let bytes = answered.to_le_bytes().iter().filter(|b| **b != 0).count();
        let bytes = match bytes {
            1 => Many::OneByte,
            8 => Many::AllBytes,
            _ => Many::MoreBytes,
        };
        let enable = match self.before[self.doubleword].enable {
            0 => Many::EnableZero,
            _ => Many::EnableOnes,
        };
        let mut others = self.before.iter().enumerate();
        let others = match others.any(|(n, pair)| n != self.doubleword && pair.pending != 0) {
            true => Many::OthersPending,
            false => Many::OthersZero,
        };
        let first = self.doubleword == 0 && is_one(answered, 0);
        let mut told = [halves, bytes, enable, others].map(|m| (true, m)).to_vec();
        told.push((first, Many::IdentityFirst));
        told.push((last && is_one(answered, 63), Many::IdentityLast));
        told
    }

    /// Each case that some of the 64 bits is.
    fn cases(&self) -> Vec<BitCase> {
        let (before, after) = (self.before[self.doubleword], self.after[self.doubleword]);
        let case = |bit| BitCase {
            masked: is_one(self.mask, bit),
            pending: is_one(before.pending, bit),
            enabled: is_one(before.enable, bit),
            answered: is_one(self.answered, bit),
            left: is_one(after.pending, bit),
            still_enabled: is_one(after.enable, bit),
        };
        let mut cases: Vec<BitCase> = (0..64).map(case).collect();
        cases.sort_unstable();
        cases.dedup();
        cases
    }
}

fn is_one(word: u64, bit: u32) -> bool {
    word >> bit & 1 == 1
}

/// Every mark about takes of many, each with the outcome that it must have. 02, Req 12: a bit is
/// answered exactly when it is in the mask and its interrupt waits, and nothing else changes.
pub fn marks() -> Vec<Mark> {
    let mut marks: Vec<Mark> = Many::ALL.iter().map(|many| Mark::Many(*many)).collect();
    for number in 0..8 {
        let [masked, pending, enabled] = [4, 2, 1].map(|bit| number & bit != 0);
        marks.push(Mark::Bit(BitCase {
            masked,
            pending,
            enabled,
            answered: masked && pending,
            left: pending && !masked,
            still_enabled: enabled,
        }));
    }
    marks.extend((0..64).map(Mark::AnsweredBit));
    marks.extend((0..32).map(Mark::AnsweredIn));
    marks
}
