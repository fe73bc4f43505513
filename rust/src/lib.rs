//! A proved software RISC-V IOMMU with memory-resident interrupt files.
//!
//! The routines behind this crate are a static library whose every answer, and every byte that it
//! leaves behind, is proved. This crate gives them Rust types. It allocates nothing, keeps no state
//! between calls, needs no `std`, and has no `unsafe` in its public face.
//!
//! There are four calls of the IOMMU. Each is lent a [`Memory`], two windows of physical memory that
//! hold all tables and all interrupt files: tables on chip and files in main memory, say, or both in one
//! window, with the other empty. Every input gets an answer: there is nothing that a caller has to check
//! first.
//!
//! | Call | What it does | What may change |
//! |---|---|---|
//! | [`request`] | answers one device request | one pending bit, where the answer is [`Answer::Stored`] |
//! | [`take`] | takes one pending interrupt | the bit that it names, where the answer is `Ok(true)` |
//! | [`take_many`] | takes the pending interrupts of a mask, of 64 | the bits that it answers |
//! | [`report`] | shows one interrupt file | nothing |
//!
//! Page tables may be Sv39, Sv48 or Sv57 for the first stage (modes 8, 9 and 10 of fsc) and Sv39x4,
//! Sv48x4 or Sv57x4 for the second (those modes of iohgatp), in any pair. Guest addresses have 59
//! bits, so the message mask and pattern have 47.
//!
//! Devices that signal by a wire have a domain of an interrupt controller of their own, which makes
//! messages of their signals, or signals harts itself: [`aplic::Domain`]. It has nothing to do with the
//! windows.
//!
//! A static library of another version than this crate isn't believed: a status or a word that this crate
//! doesn't know ends the call in a panic. With the right one no call panics. One from before there were two
//! windows must not be linked: its functions have the same names and other parameters.
//!
//! # Example
//!
//! A device writes 37 to a page that its hypervisor has turned into an interrupt file. One window has
//! the tables, in two pages: a one-level device directory and a message table. The other has a page of
//! interrupt files.
//!
//! ```
//! use yasmurekh::{report, request, take, Answer, Memory, Mode, Notice, Request, Settings, Window};
//!
//! const TABLES: u64 = 0x1000_0000;
//! const FILES: u64 = 0x4000_0000;
//! let (mut tables, mut files) = (vec![0; 2 * 4096], vec![0; 4096]);
//! let mut put = |offset: usize, word: u64| {
//!     tables[offset..offset + 8].copy_from_slice(&word.to_le_bytes());
//! };
//! // Page 0: the context of device 0.
//! put(0, 1); // tc: valid
//! put(8, 0x8000_0000_0001_0000); // iohgatp: Sv39x4
//! put(32, 0x1000_0000_0001_0001); // msiptp: flat, the table in page 1
//! put(40, 3); // message mask
//! put(48, 0x80004); // message pattern
//! // Page 1: entry 2 of the message table: the file at 0x4000_0200, notice 1029.
//! put(0x1020, 0x1000_0083);
//! put(0x1028, 0x1000_0000_0A00_0005);
//!
//! let mut memory = Memory {
//!     first: Window::new(TABLES, &mut tables),
//!     second: Window::new(FILES, &mut files),
//! };
//! let settings = Settings { mode: Mode::ONE_LEVEL, root: TABLES / 4096 };
//! let message = Request::message(0, 0x8000_6000, 37);
//! let answer = request(&mut memory, &settings, &message);
//!
//! let notice = Notice { address: 0x2800_0000, number: 1029 };
//! assert_eq!(answer, Answer::Stored { file: 0x4000_0200, notice });
//! assert_eq!(memory.second.bytes[0x204], 32); // bit 37 of the file
//!
//! // The hypervisor writes the notice's number to its address; its hart then looks at the file.
//! let shown = report(&memory, 0x4000_0200)?;
//! assert_eq!(shown.count, 1);
//! assert!(shown.is_pending(37));
//! assert!(take(&mut memory, 0x4000_0200, 37)?);
//! assert!(!take(&mut memory, 0x4000_0200, 37)?); // taken already
//! assert_eq!(files[0x204], 0);
//! # Ok::<(), yasmurekh::Refusal>(())
//! ```

#![no_std]
#![warn(missing_docs)]
#![deny(unsafe_code)]

pub mod aplic;

mod answer;
mod face;
mod memory;
mod request;

pub use answer::{Answer, Fault, Notice, Pair, Refusal, Report, Stage};
pub use memory::{Memory, Window};
pub use request::{Access, Mode, Privilege, Request, Settings};

/// Answers one device request.
///
/// `memory` is lent for the call: its windows hold the tables that the request is translated by, and
/// the interrupt files. It changes only where the answer is [`Answer::Stored`], and then by one bit of
/// one window at most, the pending bit of the identity in that file, which is 1 afterwards. With any
/// other answer, and anywhere else, no byte changes. The answer is computed from the bytes before the
/// call.
///
/// The checks that refuse a request stand in the order of [`Refusal`]'s variants. The last two,
/// [`Refusal::FileOutside`] and [`Refusal::FileOverTables`], ask about the file of a message that would
/// be stored; what stores nothing is discarded before them.
///
/// ```
/// use yasmurekh::{request, Answer, Memory, Mode, Request, Settings};
///
/// let bare = Settings { mode: Mode::BARE, root: 0 };
/// let answer = request(&mut Memory::default(), &bare, &Request::read(0, 0x1000, 8));
/// assert_eq!(answer, Answer::Translated(0x1000));
/// ```
pub fn request(memory: &mut Memory, settings: &Settings, request: &Request) -> Answer {
    Answer::from_words(face::request(memory, settings, request))
}

/// Takes one interrupt: clears its pending bit, and says whether it was set.
///
/// `file` is the address of an interrupt file, a multiple of 512, whose 512 bytes lie in one of the
/// windows; `identity` the interrupt, at most 2,047. `memory` is lent for the call. Only that pending
/// bit changes, and only where the answer is `Ok(true)`.
///
/// # Errors
///
/// [`Refusal::Window`], [`Refusal::Overlap`], [`Refusal::File`] and [`Refusal::Identity`], looked at in
/// that order.
///
/// ```
/// use yasmurekh::{take, Memory, Refusal};
///
/// let mut window = [0xFF; 4096];
/// let mut memory = Memory::one(0, &mut window);
/// assert_eq!(take(&mut memory, 512, 9), Ok(true));
/// assert_eq!(take(&mut memory, 512, 9), Ok(false));
/// assert_eq!(take(&mut memory, 4096, 9), Err(Refusal::File));
/// ```
pub fn take(memory: &mut Memory, file: u64, identity: u64) -> Result<bool, Refusal> {
    answer::taken(face::take(memory, file, identity))
}

/// Takes many interrupts at once: clears the pending bits of a doubleword that are in a mask, and gives
/// those that were set.
///
/// `file` is the address of an interrupt file as for [`take`]; `doubleword`, at most 31, names 64 of its
/// interrupts: identity n is bit n mod 64 of doubleword n / 64. `memory` is lent for the call. Only the
/// bits that are answered change.
///
/// # Errors
///
/// [`Refusal::Window`], [`Refusal::Overlap`], [`Refusal::File`] and [`Refusal::Doubleword`], looked at in
/// that order.
///
/// ```
/// use yasmurekh::{take_many, Memory, Refusal};
///
/// let mut window = [0; 4096];
/// window[512] = 0b1101; // identities 0, 2 and 3
/// let mut memory = Memory::one(0, &mut window);
/// assert_eq!(take_many(&mut memory, 512, 0, 0b0110), Ok(0b0100));
/// assert_eq!(take_many(&mut memory, 512, 0, u64::MAX), Ok(0b1001));
/// assert_eq!(take_many(&mut memory, 512, 0, u64::MAX), Ok(0));
/// assert_eq!(take_many(&mut memory, 512, 32, 1), Err(Refusal::Doubleword));
/// ```
pub fn take_many(
    memory: &mut Memory,
    file: u64,
    doubleword: u64,
    mask: u64,
) -> Result<u64, Refusal> {
    answer::taken_many(face::take_many(memory, file, doubleword, mask), mask)
}

/// Shows one interrupt file: its pending and enable bits, and how many interrupts are pending.
///
/// `file` is the address of an interrupt file as for [`take`]. `memory` is lent to be read alone.
///
/// # Errors
///
/// [`Refusal::Window`], [`Refusal::Overlap`] and [`Refusal::File`], looked at in that order.
///
/// ```
/// use yasmurekh::{report, Memory};
///
/// let mut window = [0; 4096];
/// window[512] = 0b101;
/// let report = report(&Memory::one(0, &mut window), 512)?;
/// assert_eq!(report.count, 2);
/// assert_eq!(report.pairs[0].pending, 0b101);
/// # Ok::<(), yasmurekh::Refusal>(())
/// ```
pub fn report(memory: &Memory, file: u64) -> Result<Report, Refusal> {
    Report::from_words(&face::report(memory, file))
}
