//! Sides that are wrong about files over tables: the reference with another rule of 2012.
//!
//! That 2012 comes after 2007 can't be told from an answer: a file in the page of a table that was read
//! is in that table's window.

use super::*;
use yasmurekh_reference::iommu::request_followed;
use yasmurekh_reference::message::identity_of;
use yasmurekh_reference::windows::Table;
use yasmurekh_reference::Settings;

/// A request that came to a valid message entry, and what the reference made of it.
struct Message {
    call: Call,
    before: Memory,
    /// The tables and the addresses of the entries that were read.
    loads: Vec<(Table, u64)>,
    /// The entry's two doublewords.
    words: [u64; 2],
    answer: Answer,
}

impl Message {
    /// The address of the last entry that was read of a table.
    fn last(&self, table: Table) -> u64 {
        let mut loads = self.loads.iter().rev();
        let found = loads.find(|load| load.0 == table);
        found.expect("a message needs this table").1
    }

    fn context(&self) -> u64 {
        self.last(Table::DeviceContext)
    }

    fn entry(&self) -> u64 {
        self.last(Table::Message)
    }

    /// The first page of the message table.
    fn table(&self) -> u64 {
        let msiptp = self.before.load(self.context() + 32).unwrap_or(0);
        msiptp << 20 >> 8
    }

    /// M = 1, and the file's address.
    fn file(&self) -> Option<u64> {
        let file = (self.words[0] >> 7 & ((1 << 47) - 1)) * 512;
        (self.words[0] >> 1 & 3 == 1).then_some(file)
    }

    /// The file and this address lie in the same piece of memory of so many bytes.
    fn shares(&self, address: u64, size: u64) -> bool {
        self.file()
            .is_some_and(|file| file / size == address / size)
    }

    /// The file is in the page of one of the entries that were read of a table.
    fn over(&self, table: Table) -> bool {
        let mut loads = self.loads.iter().filter(|load| load.0 == table);
        loads.any(|load| self.shares(load.1, 4_096))
    }

    /// The rule itself.
    fn is_over_tables(&self) -> bool {
        self.over(Table::DeviceContext) || self.over(Table::Message)
    }

    fn request(&self) -> Request {
        match self.call {
            Call::Request { request, .. } => request,
            _ => unreachable!("a message comes of a request"),
        }
    }

    /// The answer of a store.
    fn stored(&self) -> Answer {
        let [_, second] = self.words;
        Answer::Stored {
            file: self.file().unwrap_or(0),
            notice_address: (second >> 10 & ((1 << 44) - 1)) << 12,
            notice_number: second >> 60 << 10 | second & 1_023,
        }
    }

    /// Sets the identity's bit.
    fn set(&self, memory: &mut Memory) {
        let (Call::Request { request, data, .. }, Some(file)) = (self.call, self.file()) else {
            return;
        };
        let identity = identity_of(request.address, data);
        let byte = file + identity / 64 * 16 + identity % 64 / 8;
        let window = memory.holder(byte, 1).map(|which| memory.window_mut(which));
        if let Some([byte]) = window.and_then(|window| window.part_mut(byte, 1)) {
            *byte |= 1 << (identity % 8);
        }
    }

    /// A storable message stored or refused with 2012, as a wrong rule has it.
    fn judged(&self, memory: &mut Memory, refused: bool) -> Answer {
        if !matches!(self.answer, Answer::Stored { .. } | Answer::Refused(2012)) {
            return self.answer;
        }
        memory.clone_from(&self.before);
        if refused {
            return Answer::Refused(2012);
        }
        self.set(memory);
        self.stored()
    }
}

/// What a wrong side makes of a message, over the memory as the reference left it.
type WrongMessage = fn(&Message, &mut Memory) -> Answer;

/// The reference with a wrong end of messages.
#[derive(Clone, Copy)]
struct WrongTables {
    wrong: WrongMessage,
}

impl Side for WrongTables {
    fn call(&mut self, memory: &mut Memory, call: &Call) -> Answer {
        let Call::Request {
            mode,
            root,
            request,
            data,
        } = *call
        else {
            return run_call(memory, call, &mut |_| {});
        };
        let before = memory.clone();
        let settings = Settings { mode, root };
        let (answer, trail) = request_followed(&settings, memory, &request, data, &mut |_| {});
        match trail.loads().last() {
            Some((Table::Message, entry)) if answer.stage().is_none() => {
                let words = [0, 8].map(|at| before.load(entry + at).unwrap_or(0));
                let message = Message {
                    call: *call,
                    before,
                    loads: trail.loads().to_vec(),
                    words,
                    answer,
                };
                (self.wrong)(&message, memory)
            }
            _ => answer,
        }
    }

    fn report(&mut self, memory: &mut Memory, file: u64) -> Report {
        report(memory, file)
    }
}

/// The words that a message behind directories of three levels and both stages may need.
const FEW_WORDS: usize = 32;

/// Finds a wrong side, down to one request and a few words.
fn find_tables(name: &str, wrong: WrongMessage) -> Found {
    println!("# {name}");
    let found = find(WrongTables { wrong }, Reference::default());
    let one_request = matches!(found.smallest.calls[..], [Call::Request { .. }]);
    assert!(one_request, "{name}: {:?}", found.smallest.calls);
    assert!(words(&found.smallest) <= FEW_WORDS, "{name}");
    found
}

/// The wrong answer and the right one to the smallest case.
fn answers(name: &str, wrong: WrongMessage) -> [Answer; 2] {
    match find_tables(name, wrong).smallest_difference {
        Difference::Answer {
            library, reference, ..
        } => [library, reference],
        other => panic!("{name}: {other}"),
    }
}

/// Finds rules that store where 2012 is due.
fn find_stores(rules: &[(&str, WrongMessage)]) {
    for (name, wrong) in rules {
        let [library, reference] = answers(name, *wrong);
        assert!(matches!(library, Answer::Stored { .. }), "{name}");
        assert_eq!(reference, Answer::Refused(2012), "{name}");
    }
}

/// Finds rules that refuse what is to be stored.
fn find_refusals(rules: &[(&str, WrongMessage)]) {
    for (name, wrong) in rules {
        let [library, reference] = answers(name, *wrong);
        assert_eq!(library, Answer::Refused(2012), "{name}");
        assert!(matches!(reference, Answer::Stored { .. }), "{name}");
    }
}

/// The right rule in this file's words.
#[test]
fn no_difference_with_the_rule() {
    let right = WrongTables {
        wrong: |message, memory| message.judged(memory, message.is_over_tables()),
    };
    let mut comparison = Comparison::new(right, Reference::default());
    let options = Options {
        count: 200_000,
        ..OPTIONS
    };
    let outcome = run(&mut comparison, &options, &mut std::io::sink());
    assert_eq!(outcome.found, None);
}

#[test]
fn too_few_pages() {
    find_stores(&[
        ("2012 never given", |message, memory| {
            message.judged(memory, false)
        }),
        ("the context alone", |message, memory| {
            message.judged(memory, message.over(Table::DeviceContext))
        }),
        ("the entry alone", |message, memory| {
            message.judged(memory, message.over(Table::Message))
        }),
        ("both at once only", |message, memory| {
            let both = message.over(Table::DeviceContext) && message.over(Table::Message);
            message.judged(memory, both)
        }),
    ]);
}

/// The bytes that hold the one table, in place of its page.
#[test]
fn too_small_pages() {
    find_stores(&[
        ("the 512 bytes of the entry", |message, memory| {
            let over = message.over(Table::DeviceContext);
            message.judged(memory, over || message.shares(message.entry(), 512))
        }),
        ("the 512 bytes of the context", |message, memory| {
            let over = message.over(Table::Message);
            message.judged(memory, over || message.shares(message.context(), 512))
        }),
        ("pages of 512 bytes", |message, memory| {
            message.judged(memory, in_pieces(message, 512))
        }),
        ("pages of 2 KiB", |message, memory| {
            message.judged(memory, in_pieces(message, 2_048))
        }),
        ("the first file of a page", |message, memory| {
            let first = message.file().is_some_and(|file| file % 4_096 == 0);
            message.judged(memory, first && message.is_over_tables())
        }),
        ("files above the table", |message, memory| {
            let above = |table| message.over(table) && message.file() >= Some(message.last(table));
            let over = above(Table::DeviceContext) || above(Table::Message);
            message.judged(memory, over)
        }),
    ]);
}

/// The file is in the piece of so many bytes that holds the context, or the entry.
fn in_pieces(message: &Message, size: u64) -> bool {
    message.shares(message.context(), size) || message.shares(message.entry(), size)
}

#[test]
fn too_large_pages() {
    find_refusals(&[
        ("pages of 8 KiB", |message, memory| {
            message.judged(memory, in_pieces(message, 8_192))
        }),
        ("pages of 64 KiB", |message, memory| {
            message.judged(memory, in_pieces(message, 65_536))
        }),
        ("pages of 2 MiB", |message, memory| {
            message.judged(memory, in_pieces(message, 2 << 20))
        }),
        ("every file of the context's window", |message, memory| {
            message.judged(memory, in_window_of(message, message.context()))
        }),
        ("every file of the entry's window", |message, memory| {
            message.judged(memory, in_window_of(message, message.entry()))
        }),
        ("the entry's whole table", |message, memory| {
            let mask = message.before.load(message.context() + 40).unwrap_or(0);
            let size = (16u128 << mask.count_ones()).clamp(4_096, 1 << 40) as u64;
            let table = message.shares(message.table(), size);
            message.judged(memory, table || message.is_over_tables())
        }),
    ]);
}

/// Over the tables, or in the window that holds this address.
fn in_window_of(message: &Message, address: u64) -> bool {
    let holder = |address| message.before.holder(address, 1);
    message.is_over_tables() || message.file().is_some_and(|f| holder(f) == holder(address))
}

/// The page above or below a table counted too.
#[test]
fn pages_beside() {
    find_refusals(&[
        ("above the context", |message, memory| {
            beside(message, memory, message.context().checked_add(4_096))
        }),
        ("below the context", |message, memory| {
            beside(message, memory, message.context().checked_sub(4_096))
        }),
        ("above the entry", |message, memory| {
            beside(message, memory, message.entry().checked_add(4_096))
        }),
        ("below the entry", |message, memory| {
            beside(message, memory, message.entry().checked_sub(4_096))
        }),
        ("the file's last byte and one more", |message, memory| {
            let next = message.file().map(|file| file + 512);
            let over = next.is_some_and(|next| next / 4_096 == message.context() / 4_096);
            message.judged(memory, over || message.is_over_tables())
        }),
    ]);
}

/// The page of this address counted too.
fn beside(message: &Message, memory: &mut Memory, address: Option<u64>) -> Answer {
    let over = address.is_some_and(|address| message.shares(address, 4_096));
    message.judged(memory, over || message.is_over_tables())
}

/// The pages of another table counted too.
fn also(message: &Message, memory: &mut Memory, table: Table) -> Answer {
    message.judged(memory, message.over(table) || message.is_over_tables())
}

#[test]
fn pages_of_other_tables() {
    find_refusals(&[
        ("the directory's root", |message, memory| {
            let Call::Request { root, .. } = message.call else {
                return message.answer;
            };
            let over = message.shares(root << 12, 4_096);
            message.judged(memory, over || message.is_over_tables())
        }),
        ("non-leaf entries of the directory", |message, memory| {
            also(message, memory, Table::DevicePointer)
        }),
        ("process contexts", |message, memory| {
            also(message, memory, Table::ProcessContext)
        }),
        ("non-leaf process entries", |message, memory| {
            also(message, memory, Table::ProcessPointer)
        }),
        ("the first stage's tables", |message, memory| {
            also(message, memory, Table::FirstStage)
        }),
        ("the second stage's tables", |message, memory| {
            also(message, memory, Table::SecondStage)
        }),
        ("the message table's first page", |message, memory| {
            let over = message.shares(message.table(), 4_096);
            message.judged(memory, over || message.is_over_tables())
        }),
    ]);
}

/// The message table's first page in place of the entry's: it stores where 2012 is due, or refuses where
/// it isn't, whichever comes first.
#[test]
fn the_message_table_for_its_entry() {
    let [library, reference] = answers("the table's first page", |message, memory| {
        let over = message.over(Table::DeviceContext);
        message.judged(memory, over || message.shares(message.table(), 4_096))
    });
    let refused = Answer::Refused(2012);
    assert!([library, reference].contains(&refused) && library != reference);
}

/// Places in the windows compared in place of addresses: a page of the other window counts too.
#[test]
fn offsets_of_the_windows_compared() {
    find_refusals(&[("offsets", |message, memory| {
        let page = |address: u64| {
            let which = message.before.holder(address, 1)?;
            Some((address - message.before.window(which).start) / 4_096)
        };
        let file = message.file().and_then(page);
        let over = [message.context(), message.entry()]
            .map(page)
            .contains(&file);
        message.judged(memory, over)
    })]);
}

/// The rule asked of some requests only.
#[test]
fn some_requests_only() {
    find_stores(&[
        ("page offset 0", |message, memory| {
            let asked = message.request().address % 4_096 == 0;
            message.judged(memory, asked && message.is_over_tables())
        }),
        ("without a process_id", |message, memory| {
            let asked = message.request().process_id.is_none();
            message.judged(memory, asked && message.is_over_tables())
        }),
        ("a directory of one level", |message, memory| {
            let asked = matches!(message.call, Call::Request { mode: 2, .. });
            message.judged(memory, asked && message.is_over_tables())
        }),
        ("a file in the first window", |message, memory| {
            let file = message.file().unwrap_or(0);
            let asked = message.before.first.holds(file, 512);
            message.judged(memory, asked && message.is_over_tables())
        }),
        ("a bit that isn't set", |message, memory| {
            let mut after = message.before.clone();
            message.set(&mut after);
            let asked = after != message.before;
            message.judged(memory, asked && message.is_over_tables())
        }),
    ]);
}

/// 2012 for what is no store: a discarded access, or a redirected message.
#[test]
fn what_is_no_store_refused() {
    let [library, reference] = answers("a discarded access", |message, _| match message.answer {
        Answer::Discarded if message.is_over_tables() => Answer::Refused(2012),
        answer => answer,
    });
    assert_eq!(
        [library, reference],
        [Answer::Refused(2012), Answer::Discarded]
    );
    let [library, reference] = answers("a redirected message", |message, _| match message.answer {
        Answer::Redirected(address) if is_redirected_over(message, address) => {
            Answer::Refused(2012)
        }
        answer => answer,
    });
    assert_eq!(library, Answer::Refused(2012));
    assert!(matches!(reference, Answer::Redirected(_)));
}

fn is_redirected_over(message: &Message, address: u64) -> bool {
    [message.context(), message.entry()]
        .iter()
        .any(|table| table / 4_096 == address / 4_096)
}

#[test]
fn another_word_for_2012() {
    let words: [(&str, WrongMessage, Answer); 4] = [
        (
            "2007",
            |message, _| told(message, Answer::Refused(2007)),
            Answer::Refused(2007),
        ),
        (
            "2008",
            |message, _| told(message, Answer::Refused(2008)),
            Answer::Refused(2008),
        ),
        (
            "2011",
            |message, _| told(message, Answer::Refused(2011)),
            Answer::Refused(2011),
        ),
        (
            "discarded",
            |message, _| told(message, Answer::Discarded),
            Answer::Discarded,
        ),
    ];
    for (name, wrong, word) in words {
        assert_eq!(answers(name, wrong), [word, Answer::Refused(2012)]);
    }
}

/// Another answer where 2012 is due.
fn told(message: &Message, word: Answer) -> Answer {
    match message.answer {
        Answer::Refused(2012) => word,
        answer => answer,
    }
}

/// A refused store whose bit is set all the same.
fn refused_and_set(message: &Message, memory: &mut Memory) -> Answer {
    if message.answer == Answer::Refused(2012) {
        message.set(memory);
    }
    message.answer
}

/// A store over the tables that is answered and sets nothing.
fn answered_and_not_set(message: &Message, _: &mut Memory) -> Answer {
    told(message, message.stored())
}

#[test]
fn a_refused_store_that_sets_its_bit() {
    let found = find_tables("refused, and set", refused_and_set);
    let byte = matches!(found.smallest_difference, Difference::Byte { call: 0, .. });
    assert!(byte, "{}", found.smallest_difference);
}

/// On both sides at once: the ledger alone finds it.
#[test]
fn wrong_stores_over_tables_on_both_sides() {
    let wrongs: [WrongMessage; 2] = [refused_and_set, answered_and_not_set];
    for wrong in wrongs {
        let found = find(WrongTables { wrong }, WrongTables { wrong });
        let ledger = matches!(
            found.smallest_difference,
            Difference::Close { .. } | Difference::Ledger { .. }
        );
        assert!(ledger, "{}", found.smallest_difference);
        assert!(words(&found.smallest) <= FEW_WORDS);
    }
}
