//! Coverage of a domain: runs generated lists, checks what every call may change and what must stand
//! after it, and counts the marks.

use std::collections::BTreeMap;

use crate::aplic::domain::{Answer, Call, Domain, HARTS};
use crate::aplic::generate::list;
use crate::aplic::hart::HartRegister;
use crate::aplic::mark::{observe, Mark};
use crate::aplic::register::Register;
use crate::aplic::source::{Delivery, Source};
use crate::aplic::text::write_call;

/// The counts of a run.
#[derive(Clone, Debug, Default)]
pub struct Coverage {
    pub lists: u64,
    pub calls: u64,
    pub marks: BTreeMap<Mark, u64>,
    pub failures: Vec<String>,
}

impl Coverage {
    /// Runs lists from index 0 on until so many calls are made.
    pub fn run(seed: u64, calls: u64) -> Coverage {
        let mut coverage = Coverage::default();
        let mut index = 0;
        while coverage.calls < calls {
            let mut list = list(seed, index);
            list.calls.truncate((calls - coverage.calls) as usize);
            let mut domain = Domain::new(list.delivery);
            for (number, call) in list.calls.iter().enumerate() {
                let before = domain.clone();
                let answer = coverage.call(&mut domain, call);
                if let Err(reason) = check(&before, call, answer, &domain) {
                    let call = write_call(call);
                    let failure = format!("list {index}, call {number}, {call}: {reason}");
                    coverage.failures.push(failure);
                }
            }
            coverage.lists += 1;
            index += 1;
        }
        coverage
    }

    /// Runs one call and counts its marks.
    pub fn call(&mut self, domain: &mut Domain, call: &Call) -> Answer {
        let before = domain.clone();
        let answer = domain.run(call);
        self.calls += 1;
        let marks = &mut self.marks;
        let mut see = |mark| *marks.entry(mark).or_insert(0) += 1;
        observe(&before, call, answer, domain, &mut see);
        answer
    }

    /// The marks that can arise and never did.
    pub fn at_zero(&self) -> Vec<Mark> {
        let seen = |mark: &Mark| self.marks.contains_key(mark);
        Mark::all().into_iter().filter(|mark| !seen(mark)).collect()
    }

    /// The marks that arose and aren't in the table.
    pub fn unexpected(&self) -> Vec<Mark> {
        let mut unexpected = self.marks.clone();
        for mark in Mark::all() {
            unexpected.remove(&mark);
        }
        unexpected.into_keys().collect()
    }

    /// Nothing failed, nothing is left at zero, and nothing arose that isn't in the table.
    pub fn holds(&self) -> bool {
        self.failures.is_empty() && self.at_zero().is_empty() && self.unexpected().is_empty()
    }

    /// Prints the whole table.
    pub fn print(&self) {
        let mut group = "";
        for mark in Mark::all() {
            if mark.group() != group {
                group = mark.group();
                println!("\n{group}");
            }
            let count = self.marks.get(&mark).copied().unwrap_or(0);
            println!("  {count:>9}  {}", mark.name());
        }
    }

    /// Prints what is missing and what shouldn't be there; the last line counts.
    pub fn print_rest(&self) {
        for mark in self.unexpected() {
            println!("not in the table: {}: {}", mark.group(), mark.name());
        }
        let zero = self.at_zero();
        for mark in &zero {
            println!("at zero: {}: {}", mark.group(), mark.name());
        }
        let all = Mark::all().len();
        println!("{} of {all} marks met", all - zero.len());
    }
}

/// The hart that a call claims for.
fn claiming(call: &Call) -> Option<u64> {
    match *call {
        Call::Claim { hart } => Some(hart),
        Call::Read { offset } => match Register::at(offset) {
            Some(Register::Hart(hart, HartRegister::Claimi)) => Some(hart),
            _ => None,
        },
        _ => None,
    }
}

/// The sources that a call may change, as bits; none where it is refused, or reads and doesn't claim.
fn may_change(before: &Domain, call: &Call) -> u64 {
    let bit = |number: u64| match number {
        1..=63 => 1 << number,
        _ => 0,
    };
    match *call {
        Call::Wire { source, .. } => bit(source),
        Call::Claim { .. } | Call::Read { .. } => {
            let top = claiming(call).and_then(|hart| before.top(hart));
            top.map_or(0, |top| bit(top.source))
        }
        Call::Write { offset, value } => match Register::at(offset) {
            Some(Register::Sourcecfg(number) | Register::Target(number)) => bit(number),
            Some(Register::Mask(_, half)) => u64::from(value) << (32 * half),
            Some(Register::Number(_)) => bit(u64::from(value)),
            _ => 0,
        },
        Call::Forward if before.enable => {
            let mut waiting = before.sources().filter(|(_, source)| source.is_waiting());
            waiting.next().map_or(0, |(number, _)| bit(number))
        }
        Call::Forward | Call::Signal { .. } => 0,
    }
}

/// Only a write to its registers, in direct delivery mode, changes a hart, and a claim that gives
/// nothing, which clears its iforce.
fn check_harts(before: &Domain, call: &Call, after: &Domain) -> Result<(), String> {
    let direct = before.delivery() == Delivery::Direct;
    let written = match *call {
        Call::Write { offset, .. } if direct => match Register::at(offset) {
            Some(Register::Hart(hart, _)) => Some(hart),
            _ => None,
        },
        _ => None,
    };
    for number in 0..HARTS {
        let (Some(was), Some(is)) = (before.hart(number), after.hart(number)) else {
            return Err(format!("hart {number} is missing"));
        };
        let mut expected = *was;
        if direct && claiming(call) == Some(number) && before.top(number).is_none() {
            expected.force = false;
        }
        if written != Some(number) && *is != expected {
            return Err(format!("hart {number} is {is:?}"));
        }
    }
    match before.delivery() == after.delivery() {
        true => Ok(()),
        false => Err("the delivery mode changed".to_string()),
    }
}

/// 002, 4.1.5.2: an inactive source is zeros; 4.1.7: a level-sensitive source is never pending when its
/// rectified input is low, and in direct delivery mode always when it is high.
fn check_source(delivery: Delivery, number: u64, source: &Source) -> Result<(), String> {
    let target = source.target.value(delivery);
    let zeros = !source.pending && !source.enable && target == 0;
    if !source.mode.is_active() && !zeros {
        return Err(format!("source {number} is inactive and has something"));
    }
    if source.mode.is_level() && source.pending && !source.rectified() {
        return Err(format!("source {number} is pending, its input is low"));
    }
    if delivery == Delivery::Message {
        return Ok(());
    }
    if source.mode.is_level() && !source.pending && source.rectified() {
        return Err(format!("source {number} isn't pending, its input is high"));
    }
    if source.mode.is_active() && target & 0xFF == 0 {
        return Err(format!("source {number} has priority 0"));
    }
    Ok(())
}

/// Looks at the domain after a call: no other source, no other hart and no other bit changed; only a
/// write to sourcecfg changed a mode, only a wire change a wire.
fn check(before: &Domain, call: &Call, answer: Answer, after: &Domain) -> Result<(), String> {
    check_harts(before, call, after)?;
    let may_change = may_change(before, call);
    let domaincfg = matches!(call, Call::Write { offset: 0, .. });
    if before.enable != after.enable && !domaincfg {
        return Err("IE changed".to_string());
    }
    for ((number, was), (_, is)) in before.sources().zip(after.sources()) {
        if was != is && may_change >> number & 1 == 0 {
            return Err(format!("source {number} changed"));
        }
        if was.wire != is.wire && !matches!(call, Call::Wire { .. }) {
            return Err(format!("the wire of source {number} changed"));
        }
        check_source(after.delivery(), number, is)?;
    }
    match (call, answer) {
        (Call::Read { offset }, Answer::Value(value))
            if Register::at(*offset).is_none() && value != 0 =>
        {
            Err(format!("no register is there, and {value:x} was read"))
        }
        _ => Ok(()),
    }
}

#[cfg(test)]
mod tests {
    use super::Coverage;
    use crate::aplic::hart_mark::HartMark;
    use crate::aplic::mark::{Event, Mark};
    use crate::aplic::source::Delivery;

    #[test]
    fn every_mark_is_met() {
        let coverage = Coverage::run(11, 1_000_000);
        assert!(coverage.failures.is_empty(), "{:?}", coverage.failures);
        assert_eq!(coverage.unexpected(), []);
        assert_eq!(coverage.at_zero(), []);
        assert_eq!(coverage.calls, 1_000_000);
    }

    /// A mark with the outcome that it must not have.
    fn wrong_outcome(mark: Mark) -> Option<Mark> {
        match mark {
            Mark::Pending(delivery, event, state, after) => {
                Some(Mark::Pending(delivery, event, state, !after))
            }
            Mark::Enable(event, mode, before, after) => {
                Some(Mark::Enable(event, mode, before, !after))
            }
            Mark::TargetBit(delivery, mode, bit, one) => {
                Some(Mark::TargetBit(delivery, mode, bit, !one))
            }
            Mark::Wire(given, refused) => Some(Mark::Wire(given, !refused)),
            Mark::Domaincfg(delivery, before, value, after) => {
                Some(Mark::Domaincfg(delivery, before, value, !after))
            }
            Mark::DomaincfgRead(delivery, enable, dm) => {
                Some(Mark::DomaincfgRead(delivery, enable, !dm))
            }
            Mark::Hart(mark) => wrong_of_hart(mark).map(Mark::Hart),
            _ => None,
        }
    }

    fn wrong_of_hart(mark: HartMark) -> Option<HartMark> {
        let wrong = match mark {
            HartMark::Given(delivery, way, given, refused) => {
                HartMark::Given(delivery, way, given, !refused)
            }
            HartMark::Bit(delivery, register, bit, one) => {
                HartMark::Bit(delivery, register, bit, !one)
            }
            HartMark::Alone(way, limit, shown) => HartMark::Alone(way, limit, !shown),
            HartMark::Chosen(way, choice, right) => HartMark::Chosen(way, choice, !right),
            HartMark::Under(way, under, shown) => HartMark::Under(way, under, !shown),
            HartMark::Far(way, far, nothing) => HartMark::Far(way, far, !nothing),
            HartMark::Force(way, some, before, after) => HartMark::Force(way, some, before, !after),
            HartMark::Signal(reasons, signalled) => HartMark::Signal(reasons, !signalled),
            HartMark::None(way, enable, waits, nothing) => {
                HartMark::None(way, enable, waits, !nothing)
            }
            _ => return None,
        };
        Some(wrong)
    }

    #[test]
    fn a_wrong_outcome_is_unexpected() {
        let all = Mark::all();
        let whole = Coverage {
            marks: all.iter().map(|mark| (*mark, 1)).collect(),
            ..Coverage::default()
        };
        // No mark stands in the table twice.
        assert_eq!(whole.marks.len(), all.len());
        assert!(whole.holds());
        for mark in all.into_iter().filter_map(wrong_outcome) {
            let mut coverage = whole.clone();
            coverage.marks.insert(mark, 1);
            assert_eq!(coverage.unexpected(), [mark]);
        }
    }

    /// States of a source: 2 inactive, 4 of each mode that keeps its pending bit, of each level 3 in MSI
    /// delivery mode and 2 in direct delivery mode. Pending are 8 of either.
    #[test]
    fn every_rule_meets_every_state() {
        let all = Mark::all();
        for (delivery, states, forwards, claims) in [
            (Delivery::Message, 20, 8, 0),
            (Delivery::Direct, 18, 0, 2 * 8),
        ] {
            let under = |wanted: fn(&Event) -> bool| {
                let marks = all.iter().filter(|mark| match mark {
                    Mark::Pending(of, event, ..) => *of == delivery && wanted(event),
                    _ => false,
                });
                marks.count()
            };
            assert_eq!(under(|event| matches!(event, Event::Wire(_))), 2 * states);
            assert_eq!(under(|event| matches!(event, Event::Mask(_))), 2 * states);
            assert_eq!(under(|event| matches!(event, Event::Number(_))), 3 * states);
            let configured = under(|event| matches!(event, Event::Configured(_)));
            assert_eq!(configured, 16 * states);
            assert_eq!(under(|event| matches!(event, Event::Forward)), forwards);
            assert_eq!(under(|event| matches!(event, Event::Claim(_))), claims);
        }
    }
}
