//! Sides that are wrong on purpose: each is found, made small, printed, and found again from the
//! printed text.

#[path = "mutants/many.rs"]
mod many;
#[path = "mutants/tables.rs"]
mod tables;
#[path = "mutants/windows.rs"]
mod windows;

use yasmurekh_compare::{run, Comparison, Difference, Found, Library, Options, Reference, Side};
use yasmurekh_reference::coverage::run_call;
use yasmurekh_reference::generate::{Call, List};
use yasmurekh_reference::mark::{Asked, Edge, Field, Mark, Setting, UserBit, Walk, Word};
use yasmurekh_reference::memory::{Memory, Side as Which, Window};
use yasmurekh_reference::text::read_lists;
use yasmurekh_reference::types::{guest_page_fault, page_fault};
use yasmurekh_reference::{report, Access, Answer, Pair, Report, Request, Stage};

/// A side with something done to its answers, its windows and its reports.
struct Mutant<S> {
    side: S,
    call: Change,
    report: fn(Report) -> Report,
}

/// Gets the call, the memory before it, the memory after it, and the answer.
type Change = fn(&Call, &Memory, &mut Memory, Answer) -> Answer;

impl<S: Side> Side for Mutant<S> {
    fn call(&mut self, memory: &mut Memory, call: &Call) -> Answer {
        let before = memory.clone();
        let answer = self.side.call(memory, call);
        (self.call)(call, &before, memory, answer)
    }

    fn report(&mut self, memory: &mut Memory, file: u64) -> Report {
        (self.report)(self.side.report(memory, file))
    }
}

fn same_answer(_: &Call, _: &Memory, _: &mut Memory, answer: Answer) -> Answer {
    answer
}

fn same_report(report: Report) -> Report {
    report
}

/// A wrong rule that few lists show is met about twice in 200,000 calls.
const OPTIONS: Options = Options {
    seed: 3,
    from: 0,
    count: 1_000_000,
};

/// Runs two sides until they differ, and sees that the printed text differs in the same way.
fn find<L: Side, R: Side>(library: L, reference: R) -> Found {
    let mut comparison = Comparison::new(library, reference);
    let outcome = run(&mut comparison, &OPTIONS, &mut std::io::sink());
    let found = outcome.found.expect("a difference");
    println!("{}", found.text);

    let mut lists: Vec<List> = Vec::new();
    read_lists(&found.text, |written| lists.push(written.list)).expect("readable");
    assert_eq!(lists.len(), 1);
    assert_eq!(lists[0], found.smallest);
    let again = comparison.list(&lists[0]);
    assert_eq!(again, Err(found.smallest_difference.clone()));
    assert!(found.list.calls.len() >= found.smallest.calls.len());
    found
}

/// A mutant library against the reference.
fn find_mutant(call: Change) -> Found {
    let mutant = Mutant {
        side: Library,
        call,
        report: same_report,
    };
    find(mutant, Reference::default())
}

/// The bytes of both windows.
fn bytes(list: &List) -> impl Iterator<Item = u8> + '_ {
    let Memory { first, second } = &list.memory;
    first.bytes.iter().chain(&second.bytes).copied()
}

fn ones(list: &List) -> u32 {
    bytes(list).map(u8::count_ones).sum()
}

/// The doublewords that aren't zero.
fn words(list: &List) -> usize {
    let bytes: Vec<u8> = bytes(list).collect();
    let words = bytes.chunks(8);
    words
        .filter(|word| word.iter().any(|byte| *byte != 0))
        .count()
}

/// The first byte of the windows that a change changed, and its window.
fn changed(before: &Memory, after: &Memory) -> Option<(Which, usize)> {
    Which::ALL.iter().copied().find_map(|which| {
        let [before, after] = [before, after].map(|memory| &memory.window(which).bytes);
        let place = (0..before.len()).find(|place| before[*place] != after[*place])?;
        Some((which, place))
    })
}

#[test]
fn no_difference_without_a_mutation() {
    let mut comparison = Comparison::new(Library, Reference::default());
    let options = Options {
        count: 20_000,
        ..OPTIONS
    };
    let outcome = run(&mut comparison, &options, &mut std::io::sink());
    assert_eq!(outcome.found, None);
    assert_eq!(outcome.calls, 20_000);
    assert!(outcome.reports > 1_000);
}

#[test]
fn another_cause() {
    // Under a one-level directory, so that no case needs a non-leaf entry.
    let found = find_mutant(|call, _, _, answer| match (call, answer) {
        (Call::Request { mode: 2, .. }, Answer::Fault { cause: 259, stage }) => {
            Answer::Fault { cause: 258, stage }
        }
        _ => answer,
    });
    let misconfigured = |cause| Answer::Fault {
        cause,
        stage: Stage::Directory,
    };
    let difference = Difference::Answer {
        call: 0,
        library: misconfigured(258),
        reference: misconfigured(259),
    };
    assert_eq!(found.smallest_difference, difference);
    // A valid bit and one reserved bit are all that it takes.
    assert_eq!(found.smallest.calls.len(), 1);
    assert_eq!(bytes(&found.smallest).count(), 4_096);
    assert_eq!(ones(&found.smallest), 2);
}

#[test]
fn another_stage() {
    let found = find_mutant(|_, _, _, answer| match answer {
        Answer::Fault {
            cause,
            stage: Stage::Second,
        } => Answer::Fault {
            cause,
            stage: Stage::First,
        },
        _ => answer,
    });
    // A directory of at most three levels, and two words of a context.
    assert_eq!(found.smallest.calls.len(), 1);
    assert!(words(&found.smallest) < 5);
}

#[test]
fn a_write_without_a_store() {
    let found = find_mutant(|_, _, after, answer| {
        let Memory { first, second } = after;
        let last = second.bytes.last_mut().or(first.bytes.last_mut());
        if let (Answer::Fault { cause: 13, .. }, Some(byte)) = (answer, last) {
            *byte ^= 0x80;
        }
        answer
    });
    assert!(matches!(found.difference, Difference::Byte { .. }));
    assert!(matches!(
        found.smallest_difference,
        Difference::Byte { call: 0, .. }
    ));
    assert_eq!(found.smallest.calls.len(), 1);
}

#[test]
fn a_take_that_clears_nothing() {
    let found = find_mutant(|call, before, after, answer| {
        if matches!(call, Call::Take { .. }) {
            after.clone_from(before);
        }
        answer
    });
    // One take of one pending bit in one page.
    assert!(matches!(found.smallest.calls[..], [Call::Take { .. }]));
    assert_eq!(bytes(&found.smallest).count(), 4_096);
    assert_eq!(ones(&found.smallest), 1);
}

#[test]
fn a_notice_held_back_where_the_bit_was_set() {
    let found = find_mutant(|_, before, after, answer| match answer {
        Answer::Stored { .. } if before == after => Answer::Discarded,
        _ => answer,
    });
    assert!(matches!(
        found.smallest_difference,
        Difference::Answer {
            library: Answer::Discarded,
            reference: Answer::Stored { .. },
            ..
        }
    ));
    assert_eq!(found.smallest.calls.len(), 1);
}

#[test]
fn a_notice_without_bit_10() {
    let found = find_mutant(|_, _, _, answer| match answer {
        Answer::Stored {
            file,
            notice_address,
            notice_number,
        } => Answer::Stored {
            file,
            notice_address,
            notice_number: notice_number & 1_023,
        },
        _ => answer,
    });
    assert_eq!(found.smallest.calls.len(), 1);
}

#[test]
fn a_made_up_count() {
    let mutant = Mutant {
        side: Library,
        call: same_answer,
        report: |mut report| {
            report.count += u64::from(report.pairs[5].enable != 0);
            report
        },
    };
    let found = find(mutant, Reference::default());
    assert!(matches!(
        found.smallest_difference,
        Difference::Report { .. }
    ));
    assert_eq!(found.smallest.calls.len(), 1);
    assert_eq!(ones(&found.smallest), 1);
}

/// The library behind checks of its own, two of which may stand in the other order.
struct OtherOrder {
    /// Where the first number refuses such a call and the second check is broken too, the second
    /// refuses.
    swapped: Option<(Asked, u64, u64)>,
}

fn broken_window(window: &Window) -> bool {
    let whole = window.start.is_multiple_of(4_096) && window.bytes.len().is_multiple_of(4_096);
    !whole || window.end() > 1 << 56
}

fn broken_file(memory: &Memory, file: u64) -> bool {
    !file.is_multiple_of(512) || memory.holder(file, 512).is_none()
}

/// The checks that all calls begin with, each with whether it is broken.
fn window_checks(memory: &Memory) -> Vec<(u64, bool)> {
    let broken = broken_window(&memory.first) || broken_window(&memory.second);
    vec![(2001, broken), (2011, memory.overlap())]
}

/// The checks of a call by their numbers, each with whether it is broken.
fn checks(memory: &Memory, call: &Call) -> Vec<(u64, bool)> {
    let mut checks = window_checks(memory);
    match call {
        Call::Request {
            mode,
            root,
            request,
            ..
        } => {
            let process = request.process_id;
            let room = 4_096 - request.address % 4_096;
            checks.extend([
                (2002, *mode > 4 || root >> 44 != 0),
                (2003, request.device_id >> 24 != 0),
                (2004, process.is_some_and(|process| process >> 20 != 0)),
                (2005, request.supervisor && process.is_none()),
                (2006, request.length == 0 || request.length > room),
            ]);
        }
        Call::Take { file, identity } => checks.extend([
            (2008, broken_file(memory, *file)),
            (2009, *identity > 2_047),
        ]),
        Call::TakeMany {
            file, doubleword, ..
        } => checks.extend([(2008, broken_file(memory, *file)), (2009, *doubleword > 31)]),
    }
    checks
}

/// Which of the calls it is.
fn asked(call: &Call) -> Asked {
    match call {
        Call::Request { .. } => Asked::Request,
        Call::Take { .. } => Asked::Take,
        Call::TakeMany { .. } => Asked::TakeMany,
    }
}

fn refused_report(refusal: u64) -> Report {
    Report {
        refusal,
        count: 0,
        pairs: [Pair::default(); 32],
    }
}

impl OtherOrder {
    fn refusal(&self, asked: Asked, checks: &[(u64, bool)]) -> Option<u64> {
        let mut broken = checks.iter().filter(|(_, broken)| *broken);
        let (first, _) = *broken.next()?;
        match self.swapped {
            Some((of, number, other)) if of == asked && number == first => {
                let other_is_broken = broken.any(|(number, _)| *number == other);
                Some(if other_is_broken { other } else { first })
            }
            _ => Some(first),
        }
    }
}

impl Side for OtherOrder {
    fn call(&mut self, memory: &mut Memory, call: &Call) -> Answer {
        match self.refusal(asked(call), &checks(memory, call)) {
            Some(number) => Answer::Refused(number),
            None => Library.call(memory, call),
        }
    }

    fn report(&mut self, memory: &mut Memory, file: u64) -> Report {
        let mut checks = window_checks(memory);
        checks.push((2008, broken_file(memory, file)));
        match self.refusal(Asked::Report, &checks) {
            Some(refusal) => refused_report(refusal),
            None => Library.report(memory, file),
        }
    }
}

#[test]
fn no_difference_with_the_checks_in_order() {
    let mut comparison = Comparison::new(OtherOrder { swapped: None }, Reference::default());
    let options = Options {
        count: 200_000,
        ..OPTIONS
    };
    let outcome = run(&mut comparison, &options, &mut std::io::sink());
    assert_eq!(outcome.found, None);
}

#[test]
fn two_checks_in_the_other_order() {
    let mut swapped = 0;
    for mark in Mark::all() {
        let Mark::Before(asked, first, other) = mark else {
            continue;
        };
        println!("# {}", mark.name());
        let order = OtherOrder {
            swapped: Some((asked, first, other)),
        };
        let found = find(order, Reference::default());
        assert_eq!(found.smallest.calls.len(), 1);
        let refusals = match found.smallest_difference {
            Difference::Answer {
                library: Answer::Refused(library),
                reference: Answer::Refused(reference),
                ..
            } => [library, reference],
            Difference::Report {
                library, reference, ..
            } => [library.refusal, reference.refusal],
            different => panic!("{}: {different}", mark.name()),
        };
        assert_eq!(refusals, [other, first], "{}", mark.name());
        swapped += 1;
    }
    // Every two of seven checks but 2004 and 2005, of which only one can be broken; of four, for each
    // kind of take; of three.
    assert_eq!(swapped, 20 + 6 + 6 + 3);
}

/// The reference with another rule of U for supervisors.
struct OtherRule {
    /// The looks at a first-stage leaf's U bit that end the other way.
    other: fn(&UserBit) -> bool,
}

impl Side for OtherRule {
    fn call(&mut self, memory: &mut Memory, call: &Call) -> Answer {
        let before = memory.clone();
        let mut changed = None;
        let answer = run_call(memory, call, &mut |mark| match mark {
            Mark::User(Walk::First, look) if (self.other)(&look) => changed = Some(look),
            _ => {}
        });
        let Some(look) = changed else {
            return answer;
        };
        *memory = before;
        if look.open {
            return Answer::Fault {
                cause: page_fault(look.access),
                stage: Stage::First,
            };
        }
        // A page with U = 1 that is barred to a supervisor is open to a user.
        let mut as_user = *call;
        if let Call::Request { request, .. } = &mut as_user {
            request.supervisor = false;
        }
        run_call(memory, &as_user, &mut |_| {})
    }

    fn report(&mut self, memory: &mut Memory, file: u64) -> Report {
        report(memory, file)
    }
}

/// Another rule of U against the reference: the answers of the two to the smallest case, which is
/// one supervisor request.
fn find_rule(other: fn(&UserBit) -> bool) -> [Answer; 2] {
    let found = find(OtherRule { other }, Reference::default());
    let [Call::Request { request, .. }] = found.smallest.calls[..] else {
        panic!("more than one request");
    };
    assert!(request.supervisor);
    match found.smallest_difference {
        Difference::Answer {
            library, reference, ..
        } => [library, reference],
        other => panic!("{other}"),
    }
}

fn is_page_fault(answer: Answer) -> bool {
    let first = answer.stage() == Some(Stage::First);
    first && [12, 13, 15].contains(&answer.numbers()[1])
}

#[test]
fn user_pages_barred_under_sum() {
    let [other, reference] = find_rule(|look| look.supervisor && look.user && look.open);
    assert!(is_page_fault(other) && !is_page_fault(reference));
}

#[test]
fn user_pages_open_without_sum() {
    let [other, reference] = find_rule(|look| {
        let without_sum = look.supervisor && look.user && look.sum == Some(false);
        without_sum && look.access != Access::ReadForExecute
    });
    assert!(!is_page_fault(other) && is_page_fault(reference));
}

#[test]
fn user_pages_open_to_read_for_execute() {
    let [other, reference] = find_rule(|look| {
        let by_sum = look.supervisor && look.user && look.sum == Some(true);
        by_sum && look.access == Access::ReadForExecute
    });
    assert!(!is_page_fault(other) && is_page_fault(reference));
}

/// What a wrong rule makes of a call.
enum Instead {
    /// This answer.
    Answer(Answer),
    /// The answer to the same request at another address.
    Address(u64),
}

/// A mark that a request met, and what a wrong rule makes of the request then, if anything.
type Wrong = fn(&Mark, &Request) -> Option<Instead>;

/// The reference with a wrong rule where its calls meet certain marks.
struct WrongRule {
    wrong: Wrong,
}

impl Side for WrongRule {
    fn call(&mut self, memory: &mut Memory, call: &Call) -> Answer {
        let before = memory.clone();
        let mut instead = None;
        let answer = run_call(memory, call, &mut |mark| {
            if let Call::Request { request, .. } = call {
                instead = instead.take().or((self.wrong)(&mark, request));
            }
        });
        let Some(instead) = instead else {
            return answer;
        };
        *memory = before;
        match (instead, *call) {
            (Instead::Answer(other), _) => other,
            (Instead::Address(address), mut other) => {
                if let Call::Request { request, .. } = &mut other {
                    request.address = address;
                }
                run_call(memory, &other, &mut |_| {})
            }
        }
    }

    fn report(&mut self, memory: &mut Memory, file: u64) -> Report {
        report(memory, file)
    }
}

/// A fault instead.
fn fault(cause: u64, stage: Stage) -> Option<Instead> {
    Some(Instead::Answer(Answer::Fault { cause, stage }))
}

/// A guest page fault instead.
fn second_fault(request: &Request) -> Option<Instead> {
    fault(guest_page_fault(request.access), Stage::Second)
}

/// What a check that doesn't look lets through: the address counts no more than that it is no fault.
fn let_through(request: &Request) -> Option<Instead> {
    Some(Instead::Answer(Answer::Translated(request.address)))
}

/// Finds each wrong rule, down to one request.
fn find_each(rules: &[(&str, Wrong)]) {
    for (name, wrong) in rules {
        println!("# {name}");
        let found = find(WrongRule { wrong: *wrong }, Reference::default());
        let [Call::Request { .. }] = found.smallest.calls[..] else {
            panic!("{name}: more than one request");
        };
        let answers = matches!(found.smallest_difference, Difference::Answer { .. });
        assert!(answers, "{name}: {}", found.smallest_difference);
    }
}

/// The root index of a guest's scheme without its two extra bits.
fn nine_bits(request: &Request, address_bits: u32) -> Option<Instead> {
    let kept = request.address & !(3 << (address_bits - 2));
    Some(Instead::Address(kept))
}

#[test]
fn nine_root_index_bits() {
    find_each(&[
        ("Sv39x4", |mark, request| match mark {
            Mark::Passed(None, Some((8, _))) => nine_bits(request, 41),
            _ => None,
        }),
        ("Sv48x4", |mark, request| match mark {
            Mark::Passed(None, Some((9, _))) => nine_bits(request, 50),
            _ => None,
        }),
        ("Sv57x4", |mark, request| match mark {
            Mark::Passed(None, Some((10, _))) => nine_bits(request, 59),
            _ => None,
        }),
    ]);
}

#[test]
fn the_limit_of_another_scheme() {
    find_each(&[
        ("Sv39x4's for Sv48x4", |mark, request| match mark {
            Mark::Passed(None, Some((9, _))) if request.address >> 41 != 0 => second_fault(request),
            _ => None,
        }),
        ("Sv48x4's for Sv57x4", |mark, request| match mark {
            Mark::Passed(None, Some((10, _))) if request.address >> 50 != 0 => {
                second_fault(request)
            }
            _ => None,
        }),
        ("Sv57x4's for Sv48x4", |mark, request| match mark {
            Mark::Edge(Walk::SecondFinal, 9, Edge::FirstAbove, _) => {
                Some(Instead::Address(request.address % (1 << 50)))
            }
            _ => None,
        }),
        ("Sv39's for Sv48", |mark, request| match mark {
            Mark::Passed(Some((9, _)), _) if is_wide(request.address, 38) => {
                fault(page_fault(request.access), Stage::First)
            }
            _ => None,
        }),
        ("Sv48's for Sv57", |mark, request| match mark {
            Mark::Passed(Some((10, _)), _) if is_wide(request.address, 47) => {
                fault(page_fault(request.access), Stage::First)
            }
            _ => None,
        }),
        ("Sv57's without its sign", |mark, request| match mark {
            Mark::Passed(Some((10, _)), _) if request.address >> 56 != 0 => {
                fault(page_fault(request.access), Stage::First)
            }
            _ => None,
        }),
    ]);
}

/// The bits from this one on aren't all the same.
fn is_wide(address: u64, bit: u32) -> bool {
    let above = (address as i64) >> bit;
    above != 0 && above != -1
}

#[test]
fn misaligned_large_pages() {
    find_each(&[
        ("512 GiB, first stage", |mark, request| match mark {
            Mark::Misaligned(Walk::First, _, 3) => let_through(request),
            _ => None,
        }),
        ("512 GiB, second stage", |mark, request| match mark {
            Mark::Misaligned(Walk::SecondFinal, _, 3) => let_through(request),
            _ => None,
        }),
        ("256 TiB, either stage", |mark, request| match mark {
            Mark::Misaligned(_, _, 4) => let_through(request),
            _ => None,
        }),
        (
            "large pages that tables are read by",
            |mark, request| match mark {
                Mark::Misaligned(Walk::SecondForFirst | Walk::SecondForProcess, ..) => {
                    let_through(request)
                }
                _ => None,
            },
        ),
    ]);
}

#[test]
fn other_widths_of_mask_and_pattern() {
    find_each(&[
        ("mask bit 46 refused", |mark, _| match mark {
            Mark::Field(Field::Top(Word::Mask, Some(46)), _) => fault(259, Stage::Directory),
            _ => None,
        }),
        ("pattern bit 46 refused", |mark, _| match mark {
            Mark::Field(Field::Top(Word::Pattern, Some(46)), _) => fault(259, Stage::Directory),
            _ => None,
        }),
        ("mask bit 47 accepted", |mark, request| match mark {
            Mark::Field(Field::Top(Word::Mask, Some(47)), _) => let_through(request),
            _ => None,
        }),
        ("pattern bit 47 accepted", |mark, request| match mark {
            Mark::Field(Field::Top(Word::Pattern, Some(47)), _) => let_through(request),
            _ => None,
        }),
        (
            "messages only within the guest limit",
            |mark, request| match mark {
                Mark::Recognised(_, _, true) => second_fault(request),
                _ => None,
            },
        ),
    ]);
}

#[test]
fn other_modes_and_roots() {
    find_each(&[
        (
            "mode 9 refused in a process context",
            |mark, _| match mark {
                Mark::Field(Field::Mode(Setting::ProcessFsc, 9), _) => {
                    fault(267, Stage::ProcessDirectory)
                }
                _ => None,
            },
        ),
        (
            "mode 10 refused in a device context",
            |mark, _| match mark {
                Mark::Field(Field::Mode(Setting::DeviceFsc, 10), _) => fault(259, Stage::Directory),
                _ => None,
            },
        ),
        ("mode 11 accepted in iohgatp", |mark, request| match mark {
            Mark::Field(Field::Mode(Setting::Iohgatp, 11), _) => let_through(request),
            _ => None,
        }),
        (
            "mode 9 accepted as a process directory's",
            |mark, request| match mark {
                Mark::Field(Field::Mode(Setting::Pdtp, 9), _) => let_through(request),
                _ => None,
            },
        ),
        ("Sv57x4's root on 4 KiB", |mark, request| match mark {
            Mark::Field(Field::Root(10, _), false) => let_through(request),
            _ => None,
        }),
    ]);
}

/// The same mutation on both sides, so that only the ledger can find it.
fn find_in_ledger(call: Change) -> Found {
    let library = Mutant {
        side: Library,
        call,
        report: same_report,
    };
    let reference = Mutant {
        side: Reference::default(),
        call,
        report: same_report,
    };
    find(library, reference)
}

#[test]
fn every_take_answered_with_1() {
    let found = find_in_ledger(|_, _, _, answer| match answer {
        Answer::Taken(_) => Answer::Taken(true),
        _ => answer,
    });
    assert!(matches!(
        found.smallest_difference,
        Difference::Ledger { call: 0, .. }
    ));
    assert_eq!(ones(&found.smallest), 0);
}

#[test]
fn a_store_that_stores_nothing() {
    let found = find_in_ledger(|_, before, after, answer| {
        if matches!(answer, Answer::Stored { .. }) {
            after.clone_from(before);
        }
        answer
    });
    assert!(matches!(
        found.smallest_difference,
        Difference::Close { .. } | Difference::Ledger { .. }
    ));
}

#[test]
fn every_bit_set_at_the_first_store() {
    let found = find_in_ledger(|_, before, after, answer| {
        if matches!(answer, Answer::Stored { .. }) {
            if let Some((which, place)) = changed(before, after) {
                after.window_mut(which).bytes[place] = 0xFF;
            }
        }
        answer
    });
    assert!(matches!(
        found.smallest_difference,
        Difference::Close { .. } | Difference::Ledger { .. }
    ));
}
