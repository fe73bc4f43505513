//! Calls of a domain that don't come from the reference's generator: wholly free numbers; and states
//! of free words, which stand for no domain and are answered all the same.

use yasmurekh::aplic::{register, Delivery, Domain};
use yasmurekh_compare::aplic::{Comparison, Library, Side};
use yasmurekh_reference::aplic::text::write_list;
use yasmurekh_reference::aplic::{list, Answer, Call, List};
use yasmurekh_reference::random::Random;

/// A number of any size; often small, often near a power of two.
fn any(random: &mut Random) -> u64 {
    match random.below(4) {
        0 => random.below(70),
        1 => random.number() >> random.below(64),
        2 => (1u64 << random.below(64)).wrapping_sub(random.below(3)),
        _ => random.number(),
    }
}

/// A word of the first 20 KiB, mostly of its registers.
fn offset(random: &mut Random) -> u64 {
    match random.below(10) {
        0..=2 => random.below(0x40) * 4,
        8..=9 => 0x4000 + random.below(0x88) * 4,
        3 => 0x3000 + random.below(0x40) * 4,
        4..=5 => 0x1C00 + random.below(0x103) * 4,
        6 => random.below(0x5000),
        _ => any(random),
    }
}

fn free_call(random: &mut Random) -> Call {
    match random.below(10) {
        0..=1 => Call::Wire {
            source: any(random),
            high: random.chance(50),
        },
        2..=3 => Call::Read {
            offset: offset(random),
        },
        4 => Call::Forward,
        5 => Call::Claim {
            hart: random.below(18),
        },
        6 => Call::Signal { hart: any(random) },
        _ => Call::Write {
            offset: offset(random),
            value: any(random) as u32,
        },
    }
}

#[test]
fn free_numbers() {
    let mut comparison = Comparison::new(Library::default(), None);
    for index in 0..2_000 {
        let mut random = Random::new(79, index);
        let list = List {
            delivery: random.pick(&yasmurekh_reference::aplic::Delivery::ALL),
            calls: (0..300).map(|_| free_call(&mut random)).collect(),
        };
        if let Err(difference) = comparison.list(&list) {
            panic!("{difference}\n{}", write_list(index, &list));
        }
    }
}

/// Words of all kinds: few ones, many, all.
fn free_words(random: &mut Random) -> [u64; Domain::WORDS] {
    let kind = random.below(4);
    std::array::from_fn(|_| match kind {
        0 => u64::MAX,
        1 => random.number(),
        2 => random.number() & random.number() & random.number(),
        _ => any(random),
    })
}

/// Whether a call may change no word: reads but of claimi, signals, refusals and forwards of nothing;
/// in message delivery claims too.
fn is_idle(call: &Call, answer: Answer, delivery: Delivery) -> bool {
    let claims = match *call {
        Call::Claim { .. } => true,
        Call::Read { offset } => (0..Domain::HARTS).any(|hart| offset == register::claimi(hart)),
        _ => false,
    };
    match (call, answer) {
        (_, Answer::Refused(_) | Answer::Forwarded(None) | Answer::Signalled(_)) => true,
        _ if claims => delivery == Delivery::Message,
        (Call::Read { .. }, _) => true,
        _ => false,
    }
}

#[test]
fn free_words_are_answered() {
    let (mut forwarded, mut claimed, mut signalled) = (0, 0, 0);
    for index in 0..2_000 {
        let mut random = Random::new(80, index);
        let words = free_words(&mut random);
        let mut domain = Library(Domain::from_words(words));
        let mut again = Library(Domain::from_words(words));
        let delivery = domain.0.delivery();
        for call in list(80, index).calls {
            let before = domain.clone();
            let answer = domain.call(&call);
            // The same words and the same call give the same answer and the same words.
            assert_eq!(answer, again.call(&call));
            assert!(domain == again);
            assert_eq!(domain.0.words()[7], words[7]);
            if is_idle(&call, answer, delivery) {
                assert!(domain == before, "{call:?} changed the words");
            }
            forwarded += u64::from(matches!(answer, Answer::Forwarded(Some(_))));
            signalled += u64::from(answer == Answer::Signalled(true));
            let claim = matches!(call, Call::Claim { .. });
            claimed += u64::from(claim && matches!(answer, Answer::Value(1..)));
        }
    }
    assert!(forwarded > 1_000 && claimed > 100 && signalled > 100);
}
