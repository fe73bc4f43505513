//! Coverage: runs generated lists, checks what every call may change and the ledger of each list,
//! and counts the marks.

use std::collections::BTreeMap;

use crate::generate::{list, Call, List};
use crate::iommu::{report_observed, request_observed, take_many_observed, take_observed};
use crate::ledger::Ledger;
use crate::mark::{Mark, See, CAUSES};
use crate::memory::{Memory, Side};
use crate::types::{Answer, Settings};

/// The counts of a run.
#[derive(Clone, Debug, Default)]
pub struct Coverage {
    pub lists: u64,
    pub calls: u64,
    pub answers: [u64; 7],
    pub marks: BTreeMap<Mark, u64>,
    pub failures: Vec<String>,
}

/// Runs one call on the two windows.
pub fn run_call(memory: &mut Memory, call: &Call, see: See) -> Answer {
    match call {
        Call::Request {
            mode,
            root,
            request,
            data,
        } => {
            let settings = Settings {
                mode: *mode,
                root: *root,
            };
            request_observed(&settings, memory, request, *data, see)
        }
        Call::Take { file, identity } => take_observed(memory, *file, *identity, see),
        Call::TakeMany {
            file,
            doubleword,
            mask,
        } => take_many_observed(memory, *file, *doubleword, *mask, see),
    }
}

impl Coverage {
    /// Runs lists from index 0 on until so many calls are made.
    pub fn run(seed: u64, calls: u64) -> Coverage {
        let mut coverage = Coverage::default();
        let mut index = 0;
        while coverage.calls < calls {
            let mut list = list(seed, index);
            list.calls.truncate((calls - coverage.calls) as usize);
            coverage.run_list(&list, index);
            index += 1;
        }
        coverage
    }

    /// Runs one list, with its ledger.
    fn run_list(&mut self, list: &List, index: u64) {
        let mut ledger = Ledger::new(&list.memory);
        let mut memory = list.memory.clone();
        let mut before = list.memory.clone();
        for (number, call) in list.calls.iter().enumerate() {
            let marks = &mut self.marks;
            let mut see = |mark| *marks.entry(mark).or_insert(0) += 1;
            let answer = run_call(&mut memory, call, &mut see);
            self.calls += 1;
            self.answers[answer.numbers()[0] as usize] += 1;
            let changed = before != memory;
            let verdict = check_change(changed.then_some((&before, &memory)), call, answer);
            self.check(index, number, verdict);
            if changed {
                for &side in Side::ALL {
                    let bytes = &mut before.window_mut(side).bytes;
                    bytes.clone_from(&memory.window(side).bytes);
                }
            }
            let verdict = ledger.feed(call, answer);
            self.check(index, number, verdict);
        }
        self.check(index, list.calls.len(), ledger.close(&memory));
        self.check_reports(list, index, &memory, &ledger);
        self.lists += 1;
    }

    /// Keeps a failure, with the list's index and the call's number.
    fn check(&mut self, index: u64, number: usize, verdict: Result<(), String>) {
        if let Err(reason) = verdict {
            self.failures
                .push(format!("list {index}, call {number}: {reason}"));
        }
    }

    /// A report of each file that a take of the list named: its count is that of the ledger.
    fn check_reports(&mut self, list: &List, index: u64, memory: &Memory, ledger: &Ledger) {
        for (number, call) in list.calls.iter().enumerate() {
            let (Call::Take { file, .. } | Call::TakeMany { file, .. }) = call else {
                continue;
            };
            let marks = &mut self.marks;
            let mut see = |mark| *marks.entry(mark).or_insert(0) += 1;
            let report = report_observed(memory, *file, &mut see);
            let zero = report.pairs.iter().all(|p| p.pending == 0 && p.enable == 0);
            let fits = match report.refusal {
                0 => report.count == ledger.waiting(*file),
                _ => report.count == 0 && zero,
            };
            if !fits {
                self.check(index, number, Err(format!("report of {file}")));
            }
        }
    }

    /// The marks that can arise and never did.
    pub fn at_zero(&self) -> Vec<Mark> {
        let seen = |mark: &Mark| self.marks.contains_key(mark);
        Mark::all().into_iter().filter(|mark| !seen(mark)).collect()
    }

    /// The marks that arose and aren't in the table.
    pub fn unexpected(&self) -> Vec<Mark> {
        let all = Mark::all();
        let known = |mark: &&Mark| all.contains(mark);
        self.marks
            .keys()
            .filter(|mark| !known(mark))
            .copied()
            .collect()
    }

    /// Nothing failed, nothing is left at zero, and nothing arose that isn't in the table.
    pub fn holds(&self) -> bool {
        self.failures.is_empty() && self.at_zero().is_empty() && self.unexpected().is_empty()
    }

    /// Prints the whole table.
    pub fn print(&self) {
        let mut group = "";
        for mark in Mark::all() {
            if matches!(mark, Mark::Cause(..)) {
                continue;
            }
            if mark.group() != group {
                group = mark.group();
                println!("\n{group}");
            }
            let count = self.marks.get(&mark).copied().unwrap_or(0);
            println!("  {count:>9}  {}", mark.name());
        }
        self.print_causes();
        println!("\nanswers");
        let names = [
            "translated",
            "redirected",
            "stored",
            "discarded",
            "fault",
            "refused",
            "take made",
        ];
        for (number, name) in names.iter().enumerate() {
            println!("  {:>9}  {number} {name}", self.answers[number]);
        }
    }

    /// The pairs of cause and stage as a table.
    fn print_causes(&self) {
        println!("\ncause by stage");
        for (stage, causes) in CAUSES {
            print!("  {:<18}", stage.name());
            for cause in causes {
                let mark = Mark::Cause(stage, *cause);
                let count = self.marks.get(&mark).copied().unwrap_or(0);
                print!(" {cause}: {count} ");
            }
            println!();
        }
    }
}

/// What a call may change.
enum Allowed {
    /// The byte at this address gains this bit, where it hasn't got it.
    Gain(u128, u8),
    /// Each byte at these addresses loses these bits, which it has.
    Lose(Vec<(u128, u8)>),
}

/// What an answer allows. 01, What a request holds: only answers 2 and 6 may change a window. 02, Req
/// 05: a store changes at most one byte of one window, and so does a take: the one of the file that
/// holds the identity's bit. 02, Req 12: a take of many changes no byte but one with an answered bit.
fn allowed(call: &Call, answer: Answer) -> Allowed {
    let byte = |file: u64, identity: u64| {
        let place = u128::from(file) + u128::from(identity / 64 * 16 + identity % 64 / 8);
        (place, 1 << (identity % 8))
    };
    match (call, answer) {
        (Call::Request { request, data, .. }, Answer::Stored { file, .. }) => {
            let identity = crate::message::identity_of(request.address, *data);
            let (place, bit) = byte(file, identity);
            Allowed::Gain(place, bit)
        }
        (Call::Take { file, identity }, Answer::Taken(true)) => {
            Allowed::Lose(vec![byte(*file, *identity)])
        }
        (
            Call::TakeMany {
                file, doubleword, ..
            },
            Answer::TakenMany(answered),
        ) => {
            let first = u128::from(*file) + 16 * u128::from(*doubleword);
            let bytes = (first..).zip(answered.to_le_bytes());
            Allowed::Lose(bytes.filter(|(_, bits)| *bits != 0).collect())
        }
        _ => Allowed::Lose(Vec::new()),
    }
}

/// Looks at the memory before and after a call, given where they differ: each byte that changed, in the
/// window that it lies in, is one that the answer allows, and each that must change did.
fn check_change(
    changed: Option<(&Memory, &Memory)>,
    call: &Call,
    answer: Answer,
) -> Result<(), String> {
    let found = match changed {
        Some((before, after)) => changes(before, after)?,
        None => Vec::new(),
    };
    let wrong = || Err(format!("answer {:?}: {found:x?}", answer.numbers()));
    match allowed(call, answer) {
        Allowed::Gain(place, bit) => match found[..] {
            [] => Ok(()),
            [(at, old, new)] if at == place && old & bit == 0 && new == old | bit => Ok(()),
            _ => wrong(),
        },
        Allowed::Lose(bytes) => {
            let lost = |(&(place, bits), &(at, old, new)): (&(u128, u8), &(u128, u8, u8))| {
                at == place && old & bits == bits && new == old & !bits
            };
            match bytes.len() == found.len() && bytes.iter().zip(&found).all(lost) {
                true => Ok(()),
                false => wrong(),
            }
        }
    }
}

/// The bytes that changed, with their addresses, before and after, those of the first window first.
fn changes(before: &Memory, after: &Memory) -> Result<Vec<(u128, u8, u8)>, String> {
    let mut found = Vec::new();
    for &side in Side::ALL {
        let (old, new) = (before.window(side), after.window(side));
        if (old.start, old.bytes.len()) != (new.start, new.bytes.len()) {
            return Err(format!("the {} window's place changed", side.name()));
        }
        for place in (0..old.bytes.len()).filter(|place| old.bytes[*place] != new.bytes[*place]) {
            let address = u128::from(old.start) + place as u128;
            found.push((address, old.bytes[place], new.bytes[place]));
        }
    }
    Ok(found)
}

#[cfg(test)]
mod tests {
    use std::collections::BTreeSet;

    use super::{check_change, run_call, Coverage};
    use crate::check::{one_window, plain};
    use crate::generate::{list, Call, List};
    use crate::mark::Mark;
    use crate::memory::{Memory, Side, Window};
    use crate::message::identity_of;
    use crate::types::{Access, Answer};

    #[test]
    fn generated_lists_keep_the_ledger() {
        let coverage = Coverage::run(11, 20_000);
        assert!(coverage.failures.is_empty(), "{:?}", coverage.failures);
        assert!(coverage.unexpected().is_empty());
        assert_eq!(coverage.calls, 20_000);
    }

    /// A take of many of doubleword 31 of the file at 0x1200, all of whose bytes are ones, and what it
    /// leaves there as pending and enable bits: whether the check of changes lets it pass.
    fn passes(mask: u64, answered: u64, [pending, enable]: [u64; 2]) -> bool {
        let mut before = one_window(0x1000, 0x1000);
        before.first.bytes[0x200..0x400].fill(0xFF);
        let mut after = before.clone();
        after.first.bytes[0x3F0..0x3F8].copy_from_slice(&pending.to_le_bytes());
        after.first.bytes[0x3F8..0x400].copy_from_slice(&enable.to_le_bytes());
        let call = Call::TakeMany {
            file: 0x1200,
            doubleword: 31,
            mask,
        };
        let changed = (before != after).then_some((&before, &after));
        check_change(changed, &call, Answer::TakenMany(answered)).is_ok()
    }

    /// 02, Req 12: no byte but one with an answered bit changes.
    #[test]
    fn wrong_changes_are_found() {
        let full = u64::MAX;
        let mask = 0x8001_0000_0100_0003;
        assert!(passes(mask, mask, [!mask, full]));
        assert!(passes(0, 0, [full, full]));
        assert!(passes(full, full, [0, full]));
        for wrong in [
            [full, full],
            [!mask & !4, full],
            [!mask & !(1 << 40), full],
            [!mask | 1, full],
            [!mask, !1],
            [full, !mask],
            [0, full],
        ] {
            assert!(!passes(mask, mask, wrong), "{wrong:x?}");
        }
        assert!(!passes(mask, 0, [!mask, full]));
        assert!(!passes(mask, mask & !3, [!mask, full]));
        assert!(!passes(0, 0, [!1, full]));
    }

    /// A store may leave the byte as it is, a successful take may not; and nothing else may change one.
    #[test]
    fn wrong_changes_of_single_calls_are_found() {
        let zero = one_window(0x1000, 0x1000);
        let mut one = zero.clone();
        one.first.bytes[4] = 32;
        let store = Answer::Stored {
            file: 0x1000,
            notice_address: 0,
            notice_number: 0,
        };
        let write = Call::Request {
            mode: 2,
            root: 0,
            request: plain(Access::Write, 0x8000_6000),
            data: 37,
        };
        let take = |identity| Call::Take {
            file: 0x1000,
            identity,
        };
        let [gain, lose] = [Some((&zero, &one)), Some((&one, &zero))];
        let passes = |changed, call, answer| check_change(changed, &call, answer).is_ok();
        assert!(passes(gain, write, store) && passes(None, write, store));
        assert!(!passes(lose, write, store) && !passes(gain, write, Answer::Discarded));
        let [some, none] = [true, false].map(Answer::Taken);
        assert!(passes(lose, take(37), some) && passes(None, take(37), none));
        assert!(!passes(gain, take(37), some) && !passes(None, take(37), some));
        assert!(!passes(lose, take(37), none) && !passes(lose, take(36), some));
        assert!(!passes(lose, take(37), Answer::Refused(2008)));
    }

    /// What takes met of the calls before them in the list, by file and identity.
    #[derive(Default)]
    struct Meetings {
        stored: BTreeSet<(u64, u64)>,
        taken_singly: BTreeSet<(u64, u64)>,
        taken_by_mask: BTreeSet<(u64, u64)>,
        /// Takes of many that answered a bit that was stored, and those that answered several.
        of_stores: [u64; 2],
        /// Takes of many whose mask has a bit that was taken singly; single takes of 0 of a bit that a
        /// mask took.
        after_other: [u64; 2],
    }

    impl Meetings {
        fn call(&mut self, call: &Call, answer: Answer) {
            match (call, answer) {
                (Call::Request { request, data, .. }, Answer::Stored { file, .. }) => {
                    let identity = identity_of(request.address, *data);
                    self.stored.insert((file, identity));
                }
                (Call::Take { file, identity }, Answer::Taken(true)) => {
                    self.taken_singly.insert((*file, *identity));
                }
                (Call::Take { file, identity }, Answer::Taken(false)) => {
                    let met = self.taken_by_mask.contains(&(*file, *identity));
                    self.after_other[1] += u64::from(met);
                }
                (Call::TakeMany { file, .. }, Answer::TakenMany(answered)) => {
                    self.take_many(call, *file, answered);
                }
                _ => {}
            }
        }

        fn take_many(&mut self, call: &Call, file: u64, answered: u64) {
            let Call::TakeMany {
                doubleword, mask, ..
            } = *call
            else {
                return;
            };
            let places = |word: u64| {
                let ones = (0..64).filter(move |bit| word >> bit & 1 == 1);
                ones.map(move |bit| (file, 64 * doubleword + bit))
            };
            let stored = places(answered).filter(|place| self.stored.contains(place));
            let stored = stored.count();
            self.of_stores[0] += u64::from(stored > 0);
            self.of_stores[1] += u64::from(stored > 1);
            let missed = places(mask & !answered).any(|p| self.taken_singly.contains(&p));
            self.after_other[0] += u64::from(missed);
            self.taken_by_mask.extend(places(answered));
        }
    }

    /// Takes of many get what requests of the same list stored, and both kinds of take each other's
    /// leavings.
    #[test]
    fn generated_takes_of_many_meet_the_other_calls() {
        let mut sums = [0; 4];
        for index in 0..20_000 {
            let List { mut memory, calls } = list(14, index);
            let mut met = Meetings::default();
            for call in &calls {
                let answer = run_call(&mut memory, call, &mut |_| {});
                met.call(call, answer);
            }
            let counts = [met.of_stores, met.after_other].concat();
            for (sum, count) in sums.iter_mut().zip(counts) {
                *sum += count;
            }
        }
        println!("{sums:?}");
        assert!(sums.iter().all(|count| *count > 200), "{sums:?}");
    }

    /// Another window, or none.
    fn other(found: Option<Side>) -> Option<Side> {
        match found {
            Some(Side::First) => Some(Side::Second),
            Some(Side::Second) => None,
            None => Some(Side::First),
        }
    }

    /// A mark with the word that it must not have: two checks in the other order, a page opened or
    /// barred, an edge passed or not, a field accepted or refused, windows refused or not, an entry or a
    /// file found or not, a bit answered or not, a message refused with 2012 or not the wrong way round.
    fn wrong_word(mark: Mark) -> Option<Mark> {
        match mark {
            Mark::Before(asked, first, other) => Some(Mark::Before(asked, other, first)),
            Mark::User(walk, mut look) => {
                look.open = !look.open;
                Some(Mark::User(walk, look))
            }
            Mark::Edge(walk, mode, edge, passed) => Some(Mark::Edge(walk, mode, edge, !passed)),
            Mark::Field(field, accepted) => Some(Mark::Field(field, !accepted)),
            Mark::Windows(asked, lie, refusal) => Some(Mark::Windows(
                asked,
                lie,
                if refusal == 0 { 2011 } else { 0 },
            )),
            Mark::Load(table, place, found) => Some(Mark::Load(table, place, other(found))),
            Mark::File(purpose, place, found) => Some(Mark::File(purpose, place, other(found))),
            Mark::Bit(mut case) => {
                case.answered = !case.answered;
                Some(Mark::Bit(case))
            }
            Mark::Beside(message, context, entry, refused) => {
                Some(Mark::Beside(message, context, entry, !refused))
            }
            _ => None,
        }
    }

    /// Runs calls on a memory; their answers, and the memory after them.
    fn answers(mut memory: Memory, calls: &[Call]) -> (Vec<Answer>, Memory) {
        let run = |call| run_call(&mut memory, call, &mut |_| {});
        (calls.iter().map(run).collect(), memory)
    }

    /// 02, Req 05: no rule prefers one of the windows, so that in the other order they answer alike.
    #[test]
    fn windows_may_be_swapped() {
        let swap = |Memory { first, second }| Memory {
            first: second,
            second: first,
        };
        for index in 0..1_500 {
            let List { memory, calls } = list(12, index);
            let (swapped, after) = answers(swap(memory.clone()), &calls);
            let expected = answers(memory, &calls);
            assert_eq!((swapped, swap(after)), expected, "list {index}");
        }
    }

    /// Two windows side by side answer as one window of their bytes.
    #[test]
    fn windows_side_by_side_are_one() {
        let mut made = 0;
        for index in 0..1_500 {
            let List { memory, calls } = list(13, index);
            let Memory { first, second } = &memory;
            if memory.overlap() || first.end() != u128::from(second.start) {
                continue;
            }
            let one = Window {
                start: first.start,
                bytes: [&first.bytes[..], &second.bytes].concat(),
            };
            let second = Window::default();
            let (joined, after) = answers(Memory { first: one, second }, &calls);
            let (expected, both) = answers(memory, &calls);
            let bytes = [both.first.bytes, both.second.bytes].concat();
            // A window that 2001 refuses may make up a legal one with the other.
            if expected.first() != Some(&Answer::Refused(2001)) {
                assert_eq!(
                    (joined, after.first.bytes),
                    (expected, bytes),
                    "list {index}"
                );
                made += 1;
            }
        }
        assert!(made > 100, "{made}");
    }

    #[test]
    fn a_wrong_word_is_unexpected() {
        let whole = Coverage {
            marks: Mark::all().into_iter().map(|mark| (mark, 1)).collect(),
            ..Coverage::default()
        };
        assert!(whole.holds());
        let wrong: Vec<Mark> = Mark::all().into_iter().filter_map(wrong_word).collect();
        // The order of refusals has 20, 6, 6 and 3 rows, the rule of U 42, the schemes' edges 26, the
        // fields 64, 16 and 130, the windows 30 for each call, loads 7 and files 4 for each place, the
        // bits of a take of many 8, three kinds of message 4 for each of two pages.
        let windows = 4 * 30 + 7 * 3 + 4 * 3;
        let orders = 20 + 6 + 6 + 3;
        let fields = 64 + 16 + 130;
        let messages = 3 * 4 * 4;
        assert_eq!(
            wrong.len(),
            orders + 42 + 26 + fields + windows + 8 + messages
        );
        for mark in wrong {
            let mut coverage = whole.clone();
            coverage.marks.insert(mark, 1);
            assert_eq!(coverage.unexpected(), [mark]);
            assert!(!coverage.holds());
        }
    }

    /// Every pair of schemes, Bare among them, with every page size of each: (1 + 3 + 4 + 5)^2.
    #[test]
    fn every_pair_of_pages_is_a_mark() {
        let all = Mark::all();
        let pairs = all.iter().filter(|mark| matches!(mark, Mark::Passed(..)));
        assert_eq!(pairs.count(), 13 * 13);
        let mut single = all.clone();
        single.sort_unstable();
        single.dedup();
        assert_eq!(single.len(), all.len());
    }
}
