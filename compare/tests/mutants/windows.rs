//! Sides that are wrong about the windows.
//!
//! 2011 before 2001, after 2002 and after any other check, in requests, takes and reports, is among the
//! orders of `two_checks_in_the_other_order`.

use super::*;

/// What a side does with the library's answers.
#[derive(Clone, Copy)]
struct Wrong {
    /// A change of the memory before the library sees it, undone after the call.
    shown: fn(&mut Memory),
    /// A refusal that the library doesn't give, with nothing changed.
    refusal: fn(&Memory, Asked) -> Option<u64>,
    /// What is done after the call.
    call: Change,
}

const RIGHT: Wrong = Wrong {
    shown: |_| {},
    refusal: |_, _| None,
    call: same_answer,
};

impl Wrong {
    /// Runs something over the memory as it is shown, and puts back what was hidden.
    fn over<T>(self, memory: &mut Memory, run: impl FnOnce(&mut Memory) -> T) -> T {
        let before = memory.clone();
        (self.shown)(memory);
        let shown = memory.clone();
        let done = run(memory);
        for &which in Which::ALL {
            if shown.window(which) != before.window(which) {
                *memory.window_mut(which) = before.window(which).clone();
            }
        }
        done
    }
}

impl Side for Wrong {
    fn call(&mut self, memory: &mut Memory, call: &Call) -> Answer {
        if let Some(number) = (self.refusal)(memory, asked(call)) {
            return Answer::Refused(number);
        }
        let before = memory.clone();
        let answer = self.over(memory, |memory| Library.call(memory, call));
        (self.call)(call, &before, memory, answer)
    }

    fn report(&mut self, memory: &mut Memory, file: u64) -> Report {
        match (self.refusal)(memory, Asked::Report) {
            Some(number) => refused_report(number),
            None => self.over(memory, |memory| Library.report(memory, file)),
        }
    }
}

fn empty(window: &mut Window) {
    *window = Window::default();
}

fn is_broken(memory: &Memory) -> bool {
    broken_window(&memory.first) || broken_window(&memory.second)
}

/// Finds a wrong side, down to one call that the two answer so.
fn answers(wrong: Wrong) -> (Found, [Answer; 2]) {
    let found = find(wrong, Reference::default());
    assert_eq!(found.smallest.calls.len(), 1);
    match found.smallest_difference {
        Difference::Answer {
            library, reference, ..
        } => (found, [library, reference]),
        other => panic!("{other}"),
    }
}

/// The number of bytes of each window in the smallest list.
fn lengths(found: &Found) -> [usize; 2] {
    let Memory { first, second } = &found.smallest.memory;
    [first.bytes.len(), second.bytes.len()]
}

#[test]
fn no_difference_without_a_wrong() {
    let mut comparison = Comparison::new(RIGHT, Reference::default());
    let options = Options {
        count: 20_000,
        ..OPTIONS
    };
    let outcome = run(&mut comparison, &options, &mut std::io::sink());
    assert_eq!(outcome.found, None);
}

#[test]
fn the_second_window_never_looked_at() {
    let (found, _) = answers(Wrong {
        shown: |memory| {
            if !is_broken(memory) && !memory.overlap() {
                empty(&mut memory.second);
            }
        },
        ..RIGHT
    });
    // Bytes of that window are needed; how many of the other depends on the list.
    assert!(lengths(&found)[1] > 0);
}

#[test]
fn the_first_window_never_looked_at() {
    let (found, _) = answers(Wrong {
        shown: |memory| {
            if !is_broken(memory) && !memory.overlap() {
                empty(&mut memory.first);
            }
        },
        ..RIGHT
    });
    assert!(lengths(&found)[0] > 0);
}

/// Overlapping windows are served: what lies in both is looked for in the first.
fn serve_overlap(memory: &mut Memory) {
    if !is_broken(memory) && memory.overlap() {
        empty(&mut memory.second);
    }
}

#[test]
fn overlapping_windows_served() {
    let (found, [library, reference]) = answers(Wrong {
        shown: serve_overlap,
        ..RIGHT
    });
    assert_eq!(reference, Answer::Refused(2011));
    assert_ne!(library, reference);
    assert_eq!(lengths(&found), [4_096, 4_096]);
}

/// Only a report shows it: takes and requests are refused.
#[test]
fn overlapping_windows_reported() {
    struct Reported;
    impl Side for Reported {
        fn call(&mut self, memory: &mut Memory, call: &Call) -> Answer {
            Library.call(memory, call)
        }
        fn report(&mut self, memory: &mut Memory, file: u64) -> Report {
            let wrong = Wrong {
                shown: serve_overlap,
                ..RIGHT
            };
            wrong.over(memory, |memory| Library.report(memory, file))
        }
    }
    let found = find(Reported, Reference::default());
    let Difference::Report { reference, .. } = &found.smallest_difference else {
        panic!("{}", found.smallest_difference);
    };
    assert_eq!(reference.refusal, 2011);
}

/// The one window is empty, and starts in the other.
fn empty_inside(memory: &Memory) -> bool {
    let inside = |empty: &Window, other: &Window| {
        let (start, end) = (u128::from(other.start), other.end());
        empty.bytes.is_empty() && (start..end).contains(&u128::from(empty.start))
    };
    let Memory { first, second } = memory;
    inside(first, second) || inside(second, first)
}

#[test]
fn an_empty_window_counted_as_overlapping() {
    let (found, [library, reference]) = answers(Wrong {
        refusal: |memory, _| (!is_broken(memory) && empty_inside(memory)).then_some(2011),
        ..RIGHT
    });
    assert_eq!(library, Answer::Refused(2011));
    assert_ne!(reference, library);
    assert!(empty_inside(&found.smallest.memory));
}

#[test]
fn two_empty_windows_at_one_place_counted_as_overlapping() {
    fn both_empty(memory: &Memory) -> bool {
        let Memory { first, second } = memory;
        first == second && first.bytes.is_empty()
    }
    let (found, [library, _]) = answers(Wrong {
        refusal: |memory, _| (!is_broken(memory) && both_empty(memory)).then_some(2011),
        ..RIGHT
    });
    assert_eq!(library, Answer::Refused(2011));
    assert!(both_empty(&found.smallest.memory));
}

/// Two windows with bytes, the one right before the other.
fn touch([before, after]: [&Window; 2]) -> bool {
    let full = !before.bytes.is_empty() && !after.bytes.is_empty();
    full && before.end() == u128::from(after.start)
}

#[test]
fn adjacent_windows_refused() {
    let refusals: [fn(&Memory, Asked) -> Option<u64>; 2] = [
        |memory, _| touch([&memory.first, &memory.second]).then_some(2011),
        |memory, _| touch([&memory.second, &memory.first]).then_some(2011),
    ];
    for refusal in refusals {
        let (found, [library, reference]) = answers(Wrong { refusal, ..RIGHT });
        assert_eq!(library, Answer::Refused(2011));
        assert_ne!(reference, library);
        assert_eq!(refusal(&found.smallest.memory, Asked::Request), Some(2011));
    }
}

#[test]
fn one_window_alone_asked_for_2001() {
    // The other counts as empty where it is broken.
    let shown: [fn(&mut Memory); 2] = [
        |memory| {
            if broken_window(&memory.second) {
                empty(&mut memory.second);
            }
        },
        |memory| {
            if broken_window(&memory.first) {
                empty(&mut memory.first);
            }
        },
    ];
    for shown in shown {
        let (_, [library, reference]) = answers(Wrong { shown, ..RIGHT });
        assert_eq!(reference, Answer::Refused(2001));
        assert_ne!(library, reference);
    }
}

/// 2011 is refused, but in one of the calls; that of reports is `overlapping_windows_reported`.
#[test]
fn overlap_not_asked_for_in_one_call() {
    for of in [Asked::Request, Asked::Take, Asked::TakeMany] {
        struct Unasked(Asked);
        impl Side for Unasked {
            fn call(&mut self, memory: &mut Memory, call: &Call) -> Answer {
                let wrong = Wrong {
                    shown: serve_overlap,
                    ..RIGHT
                };
                match asked(call) == self.0 {
                    true => wrong.over(memory, |memory| Library.call(memory, call)),
                    false => Library.call(memory, call),
                }
            }
            fn report(&mut self, memory: &mut Memory, file: u64) -> Report {
                Library.report(memory, file)
            }
        }
        let found = find(Unasked(of), Reference::default());
        assert!(matches!(
            found.smallest_difference,
            Difference::Answer {
                reference: Answer::Refused(2011),
                ..
            }
        ));
    }
}

fn other(which: Which) -> Which {
    match which {
        Which::First => Which::Second,
        Which::Second => Which::First,
    }
}

/// Puts the changed byte into the other window, at the same place, where it has one.
fn into_the_other(before: &Memory, after: &mut Memory) {
    let Some((which, place)) = changed(before, after) else {
        return;
    };
    let byte = after.window(which).bytes[place];
    *after = before.clone();
    if let Some(there) = after.window_mut(other(which)).bytes.get_mut(place) {
        *there = byte;
    }
}

/// Finds a wrong change, down to one call.
fn byte_of(call: Change) {
    let found = find(Wrong { call, ..RIGHT }, Reference::default());
    assert_eq!(found.smallest.calls.len(), 1);
    let byte = matches!(found.smallest_difference, Difference::Byte { .. });
    assert!(byte, "{}", found.smallest_difference);
}

#[test]
fn a_store_into_the_other_window() {
    byte_of(|_, before, after, answer| {
        if matches!(answer, Answer::Stored { .. }) {
            into_the_other(before, after);
        }
        answer
    });
}

#[test]
fn a_take_from_the_other_window() {
    byte_of(|_, before, after, answer| {
        if matches!(answer, Answer::Taken(_)) {
            into_the_other(before, after);
        }
        answer
    });
}

#[test]
fn a_take_of_many_from_the_other_window() {
    byte_of(|_, before, after, answer| {
        if matches!(answer, Answer::TakenMany(_)) {
            into_the_other(before, after);
        }
        answer
    });
}

/// The same change on both sides: the ledger finds that the file's own window didn't get it.
#[test]
fn a_store_into_the_other_window_on_both_sides() {
    let found = find_in_ledger(|_, before, after, answer| {
        if matches!(answer, Answer::Stored { .. }) {
            into_the_other(before, after);
        }
        answer
    });
    assert!(matches!(
        found.smallest_difference,
        Difference::Close { .. } | Difference::Ledger { .. }
    ));
}

/// A store that changes a byte of each window.
#[test]
fn a_store_into_both_windows() {
    byte_of(|_, before, after, answer| {
        if let (Answer::Stored { .. }, Some((which, place))) = (answer, changed(before, after)) {
            if let Some(there) = after.window_mut(other(which)).bytes.get_mut(place) {
                *there ^= 1;
            }
        }
        answer
    });
}

fn lies_in(memory: &Memory, file: u64, which: Which) -> bool {
    memory.holder(file, 512) == Some(which)
}

/// A file in one of the windows isn't found by stores.
#[test]
fn stores_in_one_window_only() {
    fn without(which: Which, before: &Memory, after: &mut Memory, answer: Answer) -> Answer {
        match answer {
            Answer::Stored { file, .. } if lies_in(before, file, which) => {
                *after = before.clone();
                Answer::Refused(2007)
            }
            _ => answer,
        }
    }
    let calls: [Change; 2] = [
        |_, before, after, answer| without(Which::Second, before, after, answer),
        |_, before, after, answer| without(Which::First, before, after, answer),
    ];
    for call in calls {
        let (_, [library, reference]) = answers(Wrong { call, ..RIGHT });
        assert_eq!(library, Answer::Refused(2007));
        assert!(matches!(reference, Answer::Stored { .. }));
    }
}

/// A file in one of the windows isn't found by takes.
#[test]
fn takes_in_one_window_only() {
    fn without(
        which: Which,
        call: &Call,
        before: &Memory,
        after: &mut Memory,
        answer: Answer,
    ) -> Answer {
        match (call, answer) {
            (Call::Take { file, .. }, Answer::Taken(_))
            | (Call::TakeMany { file, .. }, Answer::TakenMany(_))
                if lies_in(before, *file, which) =>
            {
                *after = before.clone();
                Answer::Refused(2008)
            }
            _ => answer,
        }
    }
    let calls: [Change; 2] = [
        |call, before, after, answer| without(Which::Second, call, before, after, answer),
        |call, before, after, answer| without(Which::First, call, before, after, answer),
    ];
    for (call, expected) in calls.into_iter().zip([[0, 4_096], [4_096, 0]]) {
        let (found, [library, reference]) = answers(Wrong { call, ..RIGHT });
        assert_eq!(library, Answer::Refused(2008));
        assert!(matches!(reference, Answer::Taken(_) | Answer::TakenMany(_)));
        assert_eq!(lengths(&found), expected);
    }
}

/// A file in one of the windows isn't found by reports.
#[test]
fn reports_from_one_window_only() {
    struct From(Which);
    impl Side for From {
        fn call(&mut self, memory: &mut Memory, call: &Call) -> Answer {
            Library.call(memory, call)
        }
        fn report(&mut self, memory: &mut Memory, file: u64) -> Report {
            match Library.report(memory, file) {
                made if made.refusal == 0 && !lies_in(memory, file, self.0) => refused_report(2008),
                made => made,
            }
        }
    }
    for which in [Which::First, Which::Second] {
        let found = find(From(which), Reference::default());
        let Difference::Report {
            library, reference, ..
        } = &found.smallest_difference
        else {
            panic!("{}", found.smallest_difference);
        };
        assert_eq!([library.refusal, reference.refusal], [2008, 0]);
    }
}

/// A report that changes the file's enable bits.
#[test]
fn a_report_that_changes_a_byte() {
    struct Changing;
    impl Side for Changing {
        fn call(&mut self, memory: &mut Memory, call: &Call) -> Answer {
            Library.call(memory, call)
        }
        fn report(&mut self, memory: &mut Memory, file: u64) -> Report {
            let made = Library.report(memory, file);
            if let Some(which) = memory.holder(file, 512).filter(|_| made.refusal == 0) {
                if let Some(bytes) = memory.window_mut(which).part_mut(file, 512) {
                    bytes[8] ^= 1;
                }
            }
            made
        }
    }
    let found = find(Changing, Reference::default());
    let reported = matches!(found.smallest_difference, Difference::Reported { .. });
    assert!(reported, "{}", found.smallest_difference);
}

/// All tables are looked for in the window of the directory's root.
#[test]
fn tables_in_one_window_only() {
    struct OneWindow;
    impl Side for OneWindow {
        fn call(&mut self, memory: &mut Memory, call: &Call) -> Answer {
            let mut alone = memory.clone();
            let answer = Library.call(memory, call);
            let Call::Request { root, .. } = call else {
                return answer;
            };
            let refused = matches!(answer, Answer::Refused(2001 | 2011));
            match alone.holder(root << 12, 4_096) {
                Some(which) if !refused => empty(alone.window_mut(other(which))),
                _ => return answer,
            }
            match Library.call(&mut alone, call) {
                fault @ Answer::Fault { .. } => fault,
                _ => answer,
            }
        }
        fn report(&mut self, memory: &mut Memory, file: u64) -> Report {
            Library.report(memory, file)
        }
    }
    let found = find(OneWindow, Reference::default());
    let [first, second] = lengths(&found);
    assert!(first > 0 && second > 0);
}
