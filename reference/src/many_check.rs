//! Checks of takes of many (02, Req 12): which ones are refused and in which order, which bits are
//! answered, that nothing else changes, and what the ledger makes of the answers.

use crate::check::{message_bench, one_window, p6_store, plain, run, Checks, P6_ENTRY, START};
use crate::generate::Call;
use crate::iommu::{report, take, take_many};
use crate::ledger::Ledger;
use crate::memory::Memory;
use crate::types::{Access, Answer};

/// All checks of this file.
pub fn all(checks: &mut Checks) {
    refusals(checks);
    numbers(checks);
    bits(checks);
    places(checks);
    after_stores(checks);
    beside_single_takes(checks);
    ledger_closes(checks);
    ledger_rejects(checks);
    ledger_rejects_places(checks);
}

/// The first file of P6's page but one.
const FILE: u64 = 0x4000_1200;
/// Its offset.
const AT: usize = 0x1200;

fn many(answered: u64) -> Answer {
    Answer::TakenMany(answered)
}

/// Refusals 2001, 2008, 2009 in this order (2011 is among the checks of the windows).
fn refusals(checks: &mut Checks) {
    let mut memory = one_window(4_096, 8_192);
    memory.first.bytes.fill(0xFF);
    let full = memory.first.bytes.clone();
    let big = u64::MAX;
    let mut ask = |name: &str, start: u64, file: u64, doubleword: u64, refusal: u64| {
        memory.first.start = start;
        let found = take_many(&mut memory, file, doubleword, big);
        let name = format!("take of many {name}");
        checks.answer(&name, found, Answer::Refused(refusal));
    };
    ask("breaks 2001, 2008, 2009", 1, 3, 32, 2001);
    ask("breaks 2001, 2009", 4_097, 4_608, 32, 2001);
    ask("breaks 2008 and 2009", 4_096, 3, 32, 2008);
    ask("breaks 2008 and 2009, far", 4_096, 12_288, big, 2008);
    ask("of a file misaligned", 4_096, 4_352, 0, 2008);
    ask("of a file below", 4_096, 3_584, 0, 2008);
    ask("of a file above", 4_096, 12_288, 0, 2008);
    ask("of a file at 2^64 - 512", 4_096, big - 511, 0, 2008);
    checks.holds("no refusal changes a byte", memory.first.bytes == full);
}

/// Refusal 2009: a doubleword number above 31, of 64 bits, whatever the mask; the limit of a
/// single-identity take stays above it.
fn numbers(checks: &mut Checks) {
    let mut memory = one_window(4_096, 8_192);
    let big = u64::MAX;
    let wide = [1 << 32, 1 << 32 | 5, 1 << 58, 1 << 59 | 1, 1 << 60, big];
    for doubleword in [32, 33, 64, 256, 2_047, 2_048, 65_536]
        .into_iter()
        .chain(wide)
    {
        for mask in [0, 1, big] {
            let found = take_many(&mut memory, 4_608, doubleword, mask);
            let name = format!("take of many, doubleword {doubleword}, mask {mask}");
            checks.answer(&name, found, Answer::Refused(2009));
        }
    }
    for doubleword in 0..32 {
        let found = take_many(&mut memory, 4_608, doubleword, big);
        let name = format!("take of many, doubleword {doubleword}, nothing pending");
        checks.answer(&name, found, many(0));
    }
    for (identity, expected) in [(32, Answer::Taken(false)), (2_047, Answer::Taken(false))] {
        let found = take(&mut memory, 4_608, identity);
        checks.answer(&format!("take of identity {identity}"), found, expected);
    }
    let found = take(&mut memory, 4_608, 2_048);
    checks.answer("take of identity 2048", found, Answer::Refused(2009));
}

/// Pending and enable doubleword, mask, and the bits answered: those in both the first and the third.
const BITS: [(&str, [u64; 3], u64); 11] = [
    ("mask 0", [u64::MAX, 0, 0], 0),
    ("all ones of all ones", [u64::MAX, 0, u64::MAX], u64::MAX),
    (
        "all ones of some",
        [0x8000_0000_0000_0005, 0, u64::MAX],
        0x8000_0000_0000_0005,
    ),
    ("all ones of none", [0, u64::MAX, u64::MAX], 0),
    (
        "one bit of all ones",
        [u64::MAX, u64::MAX, 1 << 37],
        1 << 37,
    ),
    ("the neighbours alone", [2, 0, 5], 0),
    ("one in, one out", [6, 6, 3], 2),
    ("bit 63", [1 << 63 | 1, 0, 1 << 63], 1 << 63),
    ("bit 0", [1 << 63 | 1, 0, 1], 1),
    (
        "the upper half",
        [0x1_0000_0001, 0, u64::MAX << 32],
        0x1_0000_0000,
    ),
    ("all but one", [0xFF, 0xF0, !0x10], 0xEF),
];

/// Each row in the first, an inner and the last doubleword, between doublewords of ones and of zeros.
fn bits(checks: &mut Checks) {
    for (name, [pending, enable, mask], answered) in BITS {
        for (doubleword, around) in [(0, 0), (0, 0xFF), (9, 0xFF), (31, 0), (31, 0xFF)] {
            let mut memory = one_window(START, 0x3000);
            memory.first.bytes[0x1000..0x2000].fill(around);
            let place = AT + 16 * doubleword;
            memory.first.bytes[place..place + 8].copy_from_slice(&pending.to_le_bytes());
            memory.first.bytes[place + 8..place + 16].copy_from_slice(&enable.to_le_bytes());
            let mut expected = memory.clone();
            let left = (pending & !answered).to_le_bytes();
            expected.first.bytes[place..place + 8].copy_from_slice(&left);
            let found = take_many(&mut memory, FILE, doubleword as u64, mask);
            let name = format!("take of many, {name}, doubleword {doubleword}");
            checks.answer(&name, found, many(answered));
            checks.holds("no other bit changes", memory == expected);
        }
    }
}

/// Identity n is bit n mod 64 of doubleword n div 64: each of the 2,048 by its own bit alone.
fn places(checks: &mut Checks) {
    let mut right = true;
    for identity in 0..2_048u64 {
        let mut memory = one_window(START, 0x3000);
        let zero = memory.clone();
        let byte = AT + (identity / 64 * 16 + identity % 64 / 8) as usize;
        memory.first.bytes[byte] = 1 << (identity % 8);
        let (doubleword, bit) = (identity / 64, 1u64 << (identity % 64));
        right &= take_many(&mut memory, FILE, doubleword, !bit) == many(0);
        right &= take_many(&mut memory, FILE, (doubleword + 1) % 32, bit) == many(0);
        right &= memory != zero;
        right &= take_many(&mut memory, FILE, doubleword, bit) == many(bit);
        right &= memory == zero;
    }
    checks.holds("take of many: each identity by its own bit", right);
}

/// What requests stored, four bytes each, by one take: a merged store counts once.
fn after_stores(checks: &mut Checks) {
    let mut layout = message_bench(P6_ENTRY);
    let before = layout.memory.clone();
    for (address, data) in [
        (0x8000_6000, 37),
        (0x8000_6004, 40 << 24),
        (0x8000_6000, 37),
        (0x8000_6000, 63),
        (0x8000_6000, 0),
        (0x8000_6000, 64),
    ] {
        let found = run(&mut layout, &plain(Access::Write, address), data);
        checks.answer(&format!("store of {data}"), found, p6_store());
    }
    let memory = &mut layout.memory;
    let stored = 1 << 63 | 1 << 40 | 1 << 37 | 1;
    let found = take_many(memory, FILE, 0, u64::MAX);
    checks.answer("take of many: what was stored", found, many(stored));
    let left = report(memory, FILE).count;
    checks.holds("the next doubleword's bit is left", left == 1);
    let found = take_many(memory, FILE, 0, u64::MAX);
    checks.answer("take of many again", found, many(0));
    let found = take_many(memory, FILE, 1, 3);
    checks.answer("take of many: identity 64", found, many(1));
    checks.holds("all bytes as before the stores", *memory == before);
}

/// Both kinds, one after the other, of the same identities.
fn beside_single_takes(checks: &mut Checks) {
    let mut memory = one_window(START, 0x3000);
    memory.first.bytes[AT + 504 - 8] = 0x0F;
    let mut ask = |name: &str, found: Answer, expected: Answer| {
        let name = format!("both kinds of take: {name}");
        checks.answer(&name, found, expected);
    };
    let memory = &mut memory;
    let taken = Answer::Taken;
    ask("1985 alone", take(memory, FILE, 1_985), taken(true));
    ask("a mask of it", take_many(memory, FILE, 31, 2), many(0));
    ask("bits 0 and 1", take_many(memory, FILE, 31, 3), many(1));
    ask("1984 alone", take(memory, FILE, 1_984), taken(false));
    ask("1986 alone", take(memory, FILE, 1_986), taken(true));
    ask("all ones", take_many(memory, FILE, 31, u64::MAX), many(8));
    ask("1987 alone", take(memory, FILE, 1_987), taken(false));
}

/// A memory with P6's file, where these bits of its doubleword 0 are pending.
fn pending(bits: u64) -> Memory {
    let mut memory = one_window(START, 0x3000);
    memory.first.bytes[AT..AT + 8].copy_from_slice(&bits.to_le_bytes());
    memory
}

/// Whether a ledger that starts from some pending bits takes the steps and closes on others.
fn closes(starting: u64, steps: &[(Call, Answer)], ending: u64) -> bool {
    let mut ledger = Ledger::new(&pending(starting));
    let mut fed = steps
        .iter()
        .map(|(call, answer)| ledger.feed(call, *answer));
    fed.all(|step| step.is_ok()) && ledger.close(&pending(ending)).is_ok()
}

/// A take of many of doubleword 0 of P6's file.
fn of_mask(mask: u64, answer: Answer) -> (Call, Answer) {
    let call = Call::TakeMany {
        file: FILE,
        doubleword: 0,
        mask,
    };
    (call, answer)
}

/// A single take of that file.
fn single(identity: u64, answer: Answer) -> (Call, Answer) {
    let call = Call::Take {
        file: FILE,
        identity,
    };
    (call, answer)
}

/// A store of identity 37.
fn store() -> (Call, Answer) {
    let call = Call::Request {
        mode: 2,
        root: START >> 12,
        request: plain(Access::Write, 0x8000_6000),
        data: 37,
    };
    (call, p6_store())
}

/// Both kinds of take stand in one list with the requests.
fn ledger_closes(checks: &mut Checks) {
    let bit = 1 << 37;
    let taken = |pending| single(37, Answer::Taken(pending));
    let all = |answered| of_mask(u64::MAX, many(answered));
    let mut right = |name: &str, starting: u64, steps: &[(Call, Answer)], ending: u64| {
        checks.holds(&format!("ledger: {name}"), closes(starting, steps, ending));
    };
    right("a take of two", 7, &[of_mask(6, many(6))], 1);
    right("a mask of 0", 7, &[of_mask(0, many(0))], 7);
    right("bits outside the mask", 7, &[of_mask(8, many(0))], 7);
    right("a store, taken by a mask", 1, &[store(), all(bit | 1)], 0);
    right("a merged store, too", bit, &[store(), all(bit)], 0);
    right("a mask, then a store", bit, &[all(bit), store()], bit);
    right("single after mask", bit, &[all(bit), taken(false)], 0);
    right("mask after single", bit, &[taken(true), all(0)], 0);
    let refused = of_mask(1, Answer::Refused(2008));
    right("a refused take of many", 7, &[refused], 7);
}

/// Wrong answers, each with the ending that the wrong program would leave.
fn ledger_rejects(checks: &mut Checks) {
    let bit = 1 << 37;
    let mut wrong = |name: &str, starting: u64, steps: &[(Call, Answer)], ending: u64| {
        let name = format!("ledger rejects a take of many: {name}");
        checks.holds(&name, !closes(starting, steps, ending));
    };
    let full = u64::MAX;
    wrong("a bit that wasn't waiting", 1, &[of_mask(3, many(3))], 0);
    wrong("a waiting bit left out", 3, &[of_mask(3, many(1))], 2);
    wrong("a bit left out, and cleared", 3, &[of_mask(3, many(1))], 0);
    wrong("a bit outside the mask", 3, &[of_mask(1, many(3))], 0);
    wrong("one outside is cleared", 3, &[of_mask(1, many(1))], 0);
    wrong("nothing is cleared", 3, &[of_mask(3, many(3))], 3);
    wrong("one more is set", 3, &[of_mask(3, many(3))], 4);
    wrong("the mask itself", 0, &[of_mask(full, many(full))], 0);
    wrong("all ones of the doubleword", 3, &[of_mask(2, many(3))], 1);
    wrong("counted as one take", 3, &[of_mask(3, many(1))], 0);
    wrong("a single answer", 3, &[of_mask(1, Answer::Taken(true))], 2);
    wrong("discarded", 3, &[of_mask(1, Answer::Discarded)], 3);
    wrong(
        "a refusal that clears",
        3,
        &[of_mask(1, Answer::Refused(2009))],
        2,
    );
    let twice = [of_mask(3, many(3)), of_mask(3, many(3))];
    wrong("the same bits again", 3, &twice, 0);
    let both = [of_mask(full, many(bit)), single(37, Answer::Taken(true))];
    wrong("and then a single take of it", bit, &both, 0);
    let both = [single(37, Answer::Taken(true)), of_mask(full, many(bit))];
    wrong("after a single take of it", bit, &both, 0);
    let lost = [store(), of_mask(full, many(0))];
    wrong("a store that it doesn't see", 0, &lost, 0);
    let as_single = [single(1, many(2))];
    wrong("the answer of a single take", 3, &as_single, 1);
    let (request, _) = store();
    wrong("the answer of a request", bit, &[(request, many(bit))], 0);
}

/// Answers 6 where 2008 or 2009 is due, also with a mask of 0.
fn ledger_rejects_places(checks: &mut Checks) {
    let places = [
        ("a file misaligned", FILE + 256, 0),
        ("a file outside", START + 0x3000, 0),
        ("doubleword 32", FILE, 32),
        ("doubleword 2^58", FILE, 1 << 58),
        ("doubleword 2^64 - 1", FILE, u64::MAX),
    ];
    for (name, file, doubleword) in places {
        let rejected = [0, 1, u64::MAX].map(|mask| {
            let call = Call::TakeMany {
                file,
                doubleword,
                mask,
            };
            !closes(0, &[(call, many(0))], 0)
        });
        let name = format!("ledger rejects a take of many: answer 6 for {name}");
        checks.holds(&name, rejected == [true; 3]);
    }
}
