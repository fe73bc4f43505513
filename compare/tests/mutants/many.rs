//! Sides that are wrong about takes of many.
//!
//! Each two of the checks 2001, 2011, 2008 and 2009 in the other order are among those of
//! `two_checks_in_the_other_order`.

use super::*;

/// A take of many's numbers, and the library's answer to it.
#[derive(Clone, Copy)]
struct Given {
    file: u64,
    doubleword: u64,
    mask: u64,
    answer: Answer,
}

impl Given {
    /// The answered bits; none where the library refuses.
    fn answered(&self) -> Option<u64> {
        match self.answer {
            Answer::TakenMany(answered) => Some(answered),
            _ => None,
        }
    }

    /// The address of the pending doubleword, for one that isn't refused.
    fn place(&self) -> u64 {
        self.file + 16 * self.doubleword
    }
}

/// What a wrong side makes of a take of many: gets the memory before it, and the memory after it, to be
/// changed; gives the answer.
type WrongTake = fn(&Given, &Memory, &mut Memory) -> Answer;

/// The library with another take of many.
#[derive(Clone, Copy)]
struct WrongMany {
    wrong: WrongTake,
}

impl Side for WrongMany {
    fn call(&mut self, memory: &mut Memory, call: &Call) -> Answer {
        let before = memory.clone();
        let answer = Library.call(memory, call);
        match *call {
            Call::TakeMany {
                file,
                doubleword,
                mask,
            } => {
                let given = Given {
                    file,
                    doubleword,
                    mask,
                    answer,
                };
                (self.wrong)(&given, &before, memory)
            }
            _ => answer,
        }
    }

    fn report(&mut self, memory: &mut Memory, file: u64) -> Report {
        Library.report(memory, file)
    }
}

/// The doubleword at an address; 0 outside both windows.
fn word(memory: &Memory, address: u64) -> u64 {
    memory.load(address).unwrap_or(0)
}

/// Puts a doubleword; one outside both windows is dropped.
fn put(memory: &mut Memory, address: u64, value: u64) {
    let Some(which) = memory.holder(address, 8) else {
        return;
    };
    if let Some(bytes) = memory.window_mut(which).part_mut(address, 8) {
        bytes.copy_from_slice(&value.to_le_bytes());
    }
}

/// Takes these bits of the doubleword at an address, as it was before the call, and no others.
fn take_at(address: u64, mask: u64, before: &Memory, after: &mut Memory) -> Answer {
    *after = before.clone();
    let pending = word(before, address);
    put(after, address, pending & !mask);
    Answer::TakenMany(pending & mask)
}

/// Finds a wrong take of many, down to one such call.
fn find_many(wrong: WrongTake) -> (Found, Given) {
    let found = find(WrongMany { wrong }, Reference::default());
    let [Call::TakeMany {
        file,
        doubleword,
        mask,
    }] = found.smallest.calls[..]
    else {
        panic!("{:?}", found.smallest.calls);
    };
    let answer = match found.smallest_difference {
        Difference::Answer { reference, .. } => reference,
        _ => Answer::TakenMany(0),
    };
    let given = Given {
        file,
        doubleword,
        mask,
        answer,
    };
    (found, given)
}

/// A wrong answer: the wrong one and the right one to the smallest case.
fn answers(wrong: WrongTake) -> (Found, Given, [Answer; 2]) {
    let (found, given) = find_many(wrong);
    match found.smallest_difference {
        Difference::Answer {
            library, reference, ..
        } => (found, given, [library, reference]),
        other => panic!("{other}"),
    }
}

/// A wrong change under the right answer.
fn byte(wrong: WrongTake) -> (Found, Given) {
    let (found, given) = find_many(wrong);
    let byte = matches!(found.smallest_difference, Difference::Byte { .. });
    assert!(byte, "{}", found.smallest_difference);
    (found, given)
}

#[test]
fn no_difference_without_a_wrong_take_of_many() {
    let right = WrongMany {
        wrong: |given, _, _| given.answer,
    };
    let mut comparison = Comparison::new(right, Reference::default());
    let options = Options {
        count: 20_000,
        ..OPTIONS
    };
    let outcome = run(&mut comparison, &options, &mut std::io::sink());
    assert_eq!(outcome.found, None);
}

#[test]
fn bits_outside_the_mask_cleared() {
    let (found, given) = byte(|given, _, after| {
        if given.answered().is_some() {
            put(after, given.place(), 0);
        }
        given.answer
    });
    // One pending bit in one page, and a mask of 0.
    assert_eq!(given.mask, 0);
    assert_eq!(bytes(&found.smallest).count(), 4_096);
    assert_eq!(ones(&found.smallest), 1);
}

/// Each byte that has an answered bit loses all its bits.
#[test]
fn whole_bytes_cleared() {
    let (found, given) = byte(|given, _, after| {
        let answered = given.answered().unwrap_or(0).to_le_bytes();
        let kept = answered.map(|bits| if bits == 0 { 0xFF } else { 0 });
        if given.answered().is_some() {
            let left = word(after, given.place()) & u64::from_le_bytes(kept);
            put(after, given.place(), left);
        }
        given.answer
    });
    assert_eq!((given.mask.count_ones(), ones(&found.smallest)), (1, 2));
}

#[test]
fn the_mask_answered() {
    let (found, given, _) = answers(|given, _, _| match given.answer {
        Answer::TakenMany(_) => Answer::TakenMany(given.mask),
        refused => refused,
    });
    assert_eq!((given.mask, ones(&found.smallest)), (1, 0));
}

#[test]
fn the_whole_doubleword_answered() {
    let (found, given, [library, reference]) = answers(|given, before, _| match given.answer {
        Answer::TakenMany(_) => Answer::TakenMany(word(before, given.place())),
        refused => refused,
    });
    assert_eq!((given.mask, ones(&found.smallest)), (0, 1));
    assert_eq!(reference, Answer::TakenMany(0));
    assert_ne!(library, reference);
}

/// What is left is answered, or what was in the mask and didn't wait.
#[test]
fn the_other_bits_answered() {
    let wrongs: [WrongTake; 2] = [
        |given, before, _| match given.answer {
            Answer::TakenMany(_) => Answer::TakenMany(word(before, given.place()) & !given.mask),
            refused => refused,
        },
        |given, before, _| match given.answer {
            Answer::TakenMany(_) => Answer::TakenMany(given.mask & !word(before, given.place())),
            refused => refused,
        },
    ];
    for wrong in wrongs {
        answers(wrong);
    }
}

/// As a take of one is, or by a count.
#[test]
fn a_number_answered() {
    let wrongs: [WrongTake; 2] = [
        |given, _, _| match given.answer {
            Answer::TakenMany(answered) => Answer::TakenMany(u64::from(answered != 0)),
            refused => refused,
        },
        |given, _, _| match given.answer {
            Answer::TakenMany(answered) => Answer::TakenMany(u64::from(answered.count_ones())),
            refused => refused,
        },
    ];
    for wrong in wrongs {
        let (found, _, _) = answers(wrong);
        assert_eq!(ones(&found.smallest), 1);
    }
}

#[test]
fn the_enable_doubleword_cleared() {
    let wrongs: [WrongTake; 2] = [
        |given, _, after| {
            if given.answered().is_some() {
                put(after, given.place() + 8, 0);
            }
            given.answer
        },
        // Only the enable bits of what was answered.
        |given, _, after| {
            if let Some(answered) = given.answered() {
                let enable = word(after, given.place() + 8) & !answered;
                put(after, given.place() + 8, enable);
            }
            given.answer
        },
    ];
    for (wrong, expected) in wrongs.into_iter().zip([1, 2]) {
        let (found, _) = byte(wrong);
        assert_eq!(ones(&found.smallest), expected);
    }
}

/// Only what is enabled is taken, or only what isn't.
#[test]
fn enable_bits_looked_at() {
    let wrongs: [WrongTake; 2] = [
        |given, before, after| match given.answer {
            Answer::TakenMany(_) => {
                let enable = word(before, given.place() + 8);
                take_at(given.place(), given.mask & enable, before, after)
            }
            refused => refused,
        },
        |given, before, after| match given.answer {
            Answer::TakenMany(_) => {
                let enable = word(before, given.place() + 8);
                take_at(given.place(), given.mask & !enable, before, after)
            }
            refused => refused,
        },
    ];
    for wrong in wrongs {
        answers(wrong);
    }
}

#[test]
fn nothing_cleared() {
    let (found, given) = byte(|given, before, after| {
        *after = before.clone();
        given.answer
    });
    assert_eq!(given.mask.count_ones(), 1);
    assert_eq!(bytes(&found.smallest).count(), 4_096);
    assert_eq!(ones(&found.smallest), 1);
}

#[test]
fn bits_set_instead_of_cleared() {
    let wrongs: [WrongTake; 2] = [
        |given, before, after| {
            if given.answered().is_some() {
                put(
                    after,
                    given.place(),
                    word(before, given.place()) | given.mask,
                );
            }
            given.answer
        },
        // Those that are 0 are set, and those that are 1 cleared.
        |given, before, after| {
            if given.answered().is_some() {
                put(
                    after,
                    given.place(),
                    word(before, given.place()) ^ given.mask,
                );
            }
            given.answer
        },
    ];
    for wrong in wrongs {
        let (found, given) = byte(wrong);
        assert_eq!((given.mask, ones(&found.smallest)), (1, 0));
    }
}

/// The limit of identities as that of doublewords: what lies behind the file is taken.
#[test]
fn doubleword_numbers_refused_above_2047_only() {
    let (_, given, [library, reference]) = answers(|given, before, after| match given.answer {
        Answer::Refused(2009) if given.doubleword <= 2_047 => {
            take_at(given.place(), given.mask, before, after)
        }
        answer => answer,
    });
    assert_eq!(given.doubleword, 32);
    assert!(matches!(library, Answer::TakenMany(_)));
    assert_eq!(reference, Answer::Refused(2009));
}

/// 32 accepted, or 31 refused.
#[test]
fn doubleword_numbers_with_another_limit() {
    let (_, given, _) = answers(|given, before, after| match given.answer {
        Answer::Refused(2009) if given.doubleword == 32 => {
            take_at(given.place(), given.mask, before, after)
        }
        answer => answer,
    });
    assert_eq!(given.doubleword, 32);
    let (_, given, [library, _]) = answers(|given, before, after| match given.doubleword {
        31 if given.answered().is_some() => {
            *after = before.clone();
            Answer::Refused(2009)
        }
        _ => given.answer,
    });
    assert_eq!((given.doubleword, library), (31, Answer::Refused(2009)));
}

/// A doubleword number of which only some bits are looked at.
#[test]
fn doubleword_numbers_cut() {
    let wrongs: [WrongTake; 4] = [
        |given, before, after| cut(given, given.doubleword % 32, before, after),
        |given, before, after| cut(given, given.doubleword & 0xFF, before, after),
        |given, before, after| cut(given, given.doubleword & 0xFFFF_FFFF, before, after),
        // As a place in the file that is taken modulo 2^64.
        |given, before, after| cut(given, given.doubleword << 4 >> 4, before, after),
    ];
    for wrong in wrongs {
        let (_, given, [library, reference]) = answers(wrong);
        assert!(given.doubleword > 31);
        assert!(matches!(library, Answer::TakenMany(_)));
        assert_eq!(reference, Answer::Refused(2009));
    }
}

/// The same call with another doubleword number, where that isn't refused.
fn cut(given: &Given, doubleword: u64, before: &Memory, after: &mut Memory) -> Answer {
    match given.answer {
        Answer::Refused(2009) if doubleword <= 31 => {
            let place = given.file + 16 * doubleword;
            take_at(place, given.mask, before, after)
        }
        answer => answer,
    }
}

#[test]
fn doubleword_numbers_before_the_file() {
    let (_, given, [library, reference]) = answers(|given, _, _| match given.answer {
        Answer::Refused(2008) if given.doubleword > 31 => Answer::Refused(2009),
        answer => answer,
    });
    assert_eq!(given.doubleword, 32);
    assert_eq!(
        [library, reference],
        [Answer::Refused(2009), Answer::Refused(2008)]
    );
}

/// A doubleword number above 31 told by another refusal, or not at all where the mask is 0.
#[test]
fn another_word_for_2009() {
    let wrongs: [WrongTake; 2] = [
        |given, _, _| match given.answer {
            Answer::Refused(2009) => Answer::Refused(2008),
            answer => answer,
        },
        |given, _, _| match given.answer {
            Answer::Refused(2009) if given.mask == 0 => Answer::TakenMany(0),
            answer => answer,
        },
    ];
    for wrong in wrongs {
        let (_, given, [_, reference]) = answers(wrong);
        assert_eq!((given.doubleword, given.mask), (32, 0));
        assert_eq!(reference, Answer::Refused(2009));
    }
}

/// Another doubleword than the one named is taken, at an offset that is asked of numbers up to 31 alone.
fn elsewhere(given: &Given, offset: fn(u64) -> u64, before: &Memory, after: &mut Memory) -> Answer {
    match given.answer {
        Answer::TakenMany(_) => {
            let place = given.file + offset(given.doubleword);
            take_at(place, given.mask, before, after)
        }
        refused => refused,
    }
}

#[test]
fn other_doublewords_taken() {
    let wrongs: [(&str, WrongTake); 6] = [
        ("8 apart", |given, before, after| {
            elsewhere(given, |number| 8 * number, before, after)
        }),
        ("8 apart, pending ones first", |given, before, after| {
            elsewhere(given, |number| 8 * number + 8, before, after)
        }),
        ("the enable doubleword", |given, before, after| {
            elsewhere(given, |number| 16 * number + 8, before, after)
        }),
        ("the one after it", |given, before, after| {
            elsewhere(given, |number| 16 * (number + 1), before, after)
        }),
        ("the one before it", |given, before, after| {
            elsewhere(given, |number| 16 * number.saturating_sub(1), before, after)
        }),
        ("from the last one on", |given, before, after| {
            elsewhere(given, |number| 16 * (31 - number), before, after)
        }),
    ];
    for (name, wrong) in wrongs {
        println!("# {name}");
        let (found, _, _) = answers(wrong);
        assert_eq!(ones(&found.smallest), 1, "{name}");
    }
}

/// The file beside it is taken from too.
#[test]
fn the_next_file_taken_too() {
    let (found, _) = byte(|given, _, after| {
        if given.answered().is_some() {
            let next = given.place() + 512;
            let left = word(after, next) & !given.mask;
            put(after, next, left);
        }
        given.answer
    });
    assert_eq!(ones(&found.smallest), 1);
}

#[test]
fn files_in_the_first_window_only() {
    let (found, _, [library, reference]) = answers(|given, before, after| {
        let second = before.holder(given.file, 512) == Some(Which::Second);
        match given.answered() {
            Some(_) if second => {
                *after = before.clone();
                Answer::Refused(2008)
            }
            _ => given.answer,
        }
    });
    assert_eq!(library, Answer::Refused(2008));
    assert!(matches!(reference, Answer::TakenMany(_)));
    let Memory { first, second } = &found.smallest.memory;
    assert_eq!([first.bytes.len(), second.bytes.len()], [0, 4_096]);
}

/// A file in the second window is looked for in the first, at the same offset.
#[test]
fn files_of_the_second_window_taken_from_the_first() {
    let (found, _, _) = answers(|given, before, after| {
        let second = before.holder(given.file, 512) == Some(Which::Second);
        match given.answered() {
            Some(_) if second => {
                let offset = given.place() - before.second.start;
                let place = before.first.start.wrapping_add(offset);
                take_at(place, given.mask, before, after)
            }
            _ => given.answer,
        }
    });
    assert!(ones(&found.smallest) > 0);
}

#[test]
fn a_mask_of_0_refused() {
    let (_, given, [library, reference]) = answers(|given, _, _| match given.answer {
        Answer::TakenMany(_) if given.mask == 0 => Answer::Refused(2009),
        answer => answer,
    });
    assert_eq!((given.doubleword, given.mask), (0, 0));
    assert_eq!(
        [library, reference],
        [Answer::Refused(2009), Answer::TakenMany(0)]
    );
}

/// A mask of 0 counts as all ones.
#[test]
fn a_mask_of_0_as_all_ones() {
    let (found, given, _) = answers(|given, before, after| match given.answer {
        Answer::TakenMany(_) if given.mask == 0 => take_at(given.place(), u64::MAX, before, after),
        answer => answer,
    });
    assert_eq!((given.mask, ones(&found.smallest)), (0, 1));
}

/// A mask of which not all bits count, or others.
fn masked(given: &Given, mask: u64, before: &Memory, after: &mut Memory) -> Answer {
    match given.answer {
        Answer::TakenMany(_) => take_at(given.place(), mask, before, after),
        refused => refused,
    }
}

/// Finds each wrong mask, down to so many pending bits.
fn find_masks(wrongs: &[(&str, WrongTake)], expected: u32) {
    for (name, wrong) in wrongs {
        println!("# {name}");
        let (found, _, _) = answers(*wrong);
        assert_eq!(ones(&found.smallest), expected, "{name}");
    }
}

#[test]
fn masks_of_fewer_bits() {
    let wrongs: [(&str, WrongTake); 4] = [
        ("without bit 63", |given, before, after| {
            masked(given, given.mask & !(1 << 63), before, after)
        }),
        ("without bit 0", |given, before, after| {
            masked(given, given.mask & !1, before, after)
        }),
        ("of 32 bits", |given, before, after| {
            masked(given, given.mask & 0xFFFF_FFFF, before, after)
        }),
        ("of 32 bits with a sign", |given, before, after| {
            masked(given, given.mask as u32 as i32 as u64, before, after)
        }),
    ];
    find_masks(&wrongs, 1);
}

#[test]
fn masks_of_other_bits() {
    let wrongs: [(&str, WrongTake); 3] = [
        ("the other way round", |given, before, after| {
            masked(given, given.mask.reverse_bits(), before, after)
        }),
        ("its bytes the other way round", |given, before, after| {
            masked(given, given.mask.swap_bytes(), before, after)
        }),
        ("its bits from identity 1 on", |given, before, after| {
            masked(given, given.mask << 1, before, after)
        }),
    ];
    find_masks(&wrongs, 1);
}

#[test]
fn masks_of_one_bit() {
    let of_mask: [(&str, WrongTake); 2] = [
        ("the lowest", |given, before, after| {
            let lowest = given.mask & given.mask.wrapping_neg();
            masked(given, lowest, before, after)
        }),
        ("the highest", |given, before, after| {
            let highest = given.mask.checked_ilog2().map_or(0, |bit| 1 << bit);
            masked(given, highest, before, after)
        }),
    ];
    find_masks(&of_mask, 1);
    let of_waiting: [(&str, WrongTake); 1] = [("the lowest that waits", |given, before, after| {
        let pending = given.answered().map(|_| word(before, given.place()));
        let waiting = given.mask & pending.unwrap_or(0);
        masked(given, waiting & waiting.wrapping_neg(), before, after)
    })];
    find_masks(&of_waiting, 2);
}

/// All bits are answered and only the lowest is cleared; or all are cleared and only the lowest is
/// answered.
#[test]
fn only_the_lowest_bit() {
    let (found, _) = byte(|given, before, after| {
        if let Some(answered) = given.answered() {
            let lowest = answered & answered.wrapping_neg();
            put(after, given.place(), word(before, given.place()) & !lowest);
        }
        given.answer
    });
    assert_eq!(ones(&found.smallest), 2);
    let (found, _, _) = answers(|given, _, _| match given.answer {
        Answer::TakenMany(answered) => Answer::TakenMany(answered & answered.wrapping_neg()),
        refused => refused,
    });
    assert_eq!(ones(&found.smallest), 2);
}

/// A take of one that is answered as a take of its whole doubleword, or takes its neighbours along.
#[test]
fn a_take_of_one_that_takes_many() {
    let found = find_mutant(|call, _, after, answer| {
        if let (Call::Take { file, identity }, Answer::Taken(_)) = (call, answer) {
            put(after, file + 16 * (identity / 64), 0);
        }
        answer
    });
    assert!(matches!(found.smallest.calls[..], [Call::Take { .. }]));
    assert!(matches!(found.smallest_difference, Difference::Byte { .. }));
    assert_eq!(ones(&found.smallest), 1);
}

/// The same wrong take of many on both sides: the ledger alone finds it.
fn in_ledger(call: Change) -> Found {
    let found = find_in_ledger(call);
    let ledger = matches!(
        found.smallest_difference,
        Difference::Close { .. } | Difference::Ledger { .. }
    );
    assert!(ledger, "{}", found.smallest_difference);
    found
}

#[test]
fn wrong_answers_on_both_sides() {
    let found = in_ledger(|call, _, _, answer| match (call, answer) {
        (Call::TakeMany { mask, .. }, Answer::TakenMany(_)) => Answer::TakenMany(*mask),
        _ => answer,
    });
    assert_eq!(ones(&found.smallest), 0);
    let found = in_ledger(|_, _, _, answer| match answer {
        Answer::TakenMany(_) => Answer::TakenMany(u64::MAX),
        _ => answer,
    });
    assert_eq!(ones(&found.smallest), 0);
    let found = in_ledger(|_, _, _, answer| match answer {
        Answer::TakenMany(_) => Answer::TakenMany(0),
        _ => answer,
    });
    assert_eq!(ones(&found.smallest), 1);
    // One take for all of them.
    let found = in_ledger(|_, _, _, answer| match answer {
        Answer::TakenMany(answered) => Answer::TakenMany(answered & answered.wrapping_neg()),
        _ => answer,
    });
    assert_eq!(ones(&found.smallest), 2);
}

/// The right bits are answered, and nothing is cleared, or the mask's bits are set.
#[test]
fn nothing_cleared_on_both_sides() {
    let found = in_ledger(|call, before, after, answer| {
        if matches!(call, Call::TakeMany { .. }) {
            *after = before.clone();
        }
        answer
    });
    assert_eq!(ones(&found.smallest), 1);
    let found = in_ledger(|call, before, after, answer| {
        if let (Some((place, mask)), Answer::TakenMany(_)) = (place_of(call), answer) {
            put(after, place, word(before, place) | mask);
        }
        answer
    });
    assert_eq!(ones(&found.smallest), 0);
}

/// The right bits are answered, and the whole doubleword is cleared, or the next one too.
#[test]
fn too_much_cleared_on_both_sides() {
    let found = in_ledger(|call, _, after, answer| {
        if let (Some((place, _)), Answer::TakenMany(_)) = (place_of(call), answer) {
            put(after, place, 0);
        }
        answer
    });
    assert_eq!(ones(&found.smallest), 1);
    let found = in_ledger(|call, _, after, answer| {
        if let (Some((place, _)), Answer::TakenMany(_)) = (place_of(call), answer) {
            put(after, place + 16, 0);
        }
        answer
    });
    assert_eq!(ones(&found.smallest), 1);
}

/// The address of a take of many's pending doubleword, where there can be one, and the mask.
fn place_of(call: &Call) -> Option<(u64, u64)> {
    match call {
        Call::TakeMany {
            file,
            doubleword,
            mask,
        } if *doubleword <= 31 => Some((file.checked_add(16 * doubleword)?, *mask)),
        _ => None,
    }
}
