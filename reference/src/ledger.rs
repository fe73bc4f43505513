//! The ledger of demand 3 (01, The ledger): recomputed from the starting bytes, the arguments and
//! the answers alone.

use std::collections::BTreeMap;

use crate::file;
use crate::generate::Call;
use crate::memory::{Memory, Side, Window};
use crate::message::identity_of;
use crate::types::Answer;

/// One file and identity: its mark and its counts.
#[derive(Clone, Copy, Debug, PartialEq, Eq)]
pub struct Account {
    pub started_waiting: bool,
    pub waiting: bool,
    pub stores: u64,
    pub merged: u64,
    pub takes: u64,
}

/// The ledger of one list. 02, Req 05: it covers files in either window, both windows at fixed places,
/// and a file in both is counted in each by itself. Only the accounts that a call has touched are kept;
/// every other mark stands as it started, with counts of 0.
#[derive(Clone, Debug)]
pub struct Ledger {
    starting: Memory,
    accounts: BTreeMap<(Side, u64, u64), Account>,
}

impl Ledger {
    /// A mark starts as the pending bit, each count at 0.
    pub fn new(starting: &Memory) -> Ledger {
        Ledger {
            starting: starting.clone(),
            accounts: BTreeMap::new(),
        }
    }

    /// Feeds one call and its answer; an error names a rule of the ledger that the answer breaks.
    pub fn feed(&mut self, call: &Call, answer: Answer) -> Result<(), String> {
        match (call, answer) {
            (Call::Request { request, data, .. }, Answer::Stored { file, .. }) => {
                let account = self.account(file, identity_of(request.address, *data))?;
                account.stores += 1;
                account.merged += u64::from(account.waiting);
                account.waiting = true;
                Ok(())
            }
            (Call::Request { .. }, Answer::Taken(_) | Answer::TakenMany(_)) => {
                Err("a request answered 6".to_string())
            }
            (Call::Take { file, identity }, Answer::Taken(pending)) => {
                let account = self.account(*file, *identity)?;
                if account.waiting != pending {
                    return Err(format!("take of {file} {identity} answered {pending}"));
                }
                account.takes += u64::from(pending);
                account.waiting = false;
                Ok(())
            }
            (
                Call::TakeMany {
                    file,
                    doubleword,
                    mask,
                },
                Answer::TakenMany(answered),
            ) => self.feed_many(*file, *doubleword, *mask, answered),
            (Call::Take { .. } | Call::TakeMany { .. }, Answer::Refused(_)) => Ok(()),
            (Call::Take { .. }, _) => Err("a take answered neither 5 nor 6".to_string()),
            (Call::TakeMany { .. }, _) => {
                Err("a take of many answered neither 5 nor 6 with bits".to_string())
            }
            _ => Ok(()),
        }
    }

    /// 02, Req 12: each answered bit is one successful take of its identity; a bit is answered exactly
    /// when it is in the mask and its interrupt waits.
    fn feed_many(
        &mut self,
        file: u64,
        doubleword: u64,
        mask: u64,
        answered: u64,
    ) -> Result<(), String> {
        self.side(file)?;
        if doubleword > 31 {
            return Err(format!("{doubleword} is no doubleword of a file"));
        }
        for bit in 0..64 {
            let [in_mask, is_answered] = [mask, answered].map(|word| word >> bit & 1 == 1);
            // The mark of a bit that is in neither stays as it is.
            if !in_mask && !is_answered {
                continue;
            }
            let identity = 64 * doubleword + bit;
            let account = self.account(file, identity)?;
            if is_answered != (in_mask && account.waiting) {
                let word = if is_answered { "answered" } else { "left out" };
                return Err(format!("take of many: {file} {identity} {word}"));
            }
            account.takes += u64::from(is_answered);
            account.waiting &= !is_answered;
        }
        Ok(())
    }

    /// The window that a file lies in; an error where it is in neither, or in both, where every call is
    /// refused.
    fn side(&self, file: u64) -> Result<Side, String> {
        let lies = |side: &Side| file_bytes(self.starting.window(*side), file).is_some();
        let sides: Vec<Side> = Side::ALL.iter().copied().filter(lies).collect();
        match sides[..] {
            [side] => Ok(side),
            [] => Err(format!("{file} is no file of the windows")),
            _ => Err(format!("{file} is in both windows")),
        }
    }

    /// The account of a file and identity, in the window that the file lies in.
    fn account(&mut self, file: u64, identity: u64) -> Result<&mut Account, String> {
        let side = self.side(file)?;
        let bytes = file_bytes(self.starting.window(side), file).unwrap_or(&[]);
        if identity > 2_047 {
            return Err(format!("{identity} is no identity"));
        }
        let waiting = is_pending(bytes, identity);
        let fresh = Account {
            started_waiting: waiting,
            waiting,
            stores: 0,
            merged: 0,
            takes: 0,
        };
        Ok(self.accounts.entry((side, file, identity)).or_insert(fresh))
    }

    /// After the list: each pending bit is 1 exactly when its mark is waiting, and the sums hold
    /// for each identity, for each file and over all files.
    pub fn close(&self, ending: &Memory) -> Result<(), String> {
        for &side in Side::ALL {
            let (before, after) = (self.starting.window(side), ending.window(side));
            if (before.start, before.bytes.len()) != (after.start, after.bytes.len()) {
                return Err(format!("the {} window's place changed", side.name()));
            }
            self.close_marks(side, after)?;
        }
        self.close_sums(ending)
    }

    /// Marks and pending bits of one window, file by file.
    fn close_marks(&self, side: Side, ending: &Window) -> Result<(), String> {
        let starting = self.starting.window(side);
        for file in changed_files(starting, ending) {
            let before = file_bytes(starting, file).unwrap_or(&[]);
            let after = file_bytes(ending, file).unwrap_or(&[]);
            for identity in 0..2_048 {
                let account = self.accounts.get(&(side, file, identity));
                let mark = account.map_or(is_pending(before, identity), |a| a.waiting);
                if mark != is_pending(after, identity) {
                    return Err(format!("file {file} identity {identity}: mark {mark}"));
                }
            }
        }
        // A file whose bytes are as they were has its touched marks as they were.
        let all = (side, 0, 0)..=(side, u64::MAX, u64::MAX);
        for ((_, file, identity), account) in self.accounts.range(all) {
            let bytes = file_bytes(ending, *file).unwrap_or(&[]);
            if is_pending(bytes, *identity) != account.waiting {
                return Err(format!("file {file} identity {identity}: mark"));
            }
        }
        Ok(())
    }

    /// Starting ones and stores equal merged stores, successful takes and ending ones.
    fn close_sums(&self, ending: &Memory) -> Result<(), String> {
        let mut by_file: BTreeMap<(Side, u64), [u64; 3]> = BTreeMap::new();
        for ((side, file, identity), account) in &self.accounts {
            let left = u64::from(account.started_waiting) + account.stores;
            let right = account.merged + account.takes + u64::from(account.waiting);
            if left != right {
                return Err(format!("file {file} identity {identity}: {left}, {right}"));
            }
            let sums = by_file.entry((*side, *file)).or_default();
            sums[0] += account.stores;
            sums[1] += account.merged;
            sums[2] += account.takes;
        }
        let mut total = [0u64; 3];
        for ((side, file), sums) in &by_file {
            let before = ones(self.starting.window(*side), *file);
            let after = ones(ending.window(*side), *file);
            if before + sums[0] != sums[1] + sums[2] + after {
                return Err(format!("the sums of file {file}"));
            }
            for place in 0..3 {
                total[place] += sums[place];
            }
        }
        self.close_total(ending, total)
    }

    /// The sums over all files of both windows, with the stores, merged stores and successful takes.
    fn close_total(&self, ending: &Memory, total: [u64; 3]) -> Result<(), String> {
        let (mut left, mut right) = (total[0], total[1] + total[2]);
        // A file whose bytes are as they were adds the same to both sides.
        for &side in Side::ALL {
            let (before, after) = (self.starting.window(side), ending.window(side));
            for file in changed_files(before, after) {
                left += ones(before, file);
                right += ones(after, file);
            }
        }
        match left == right {
            true => Ok(()),
            false => Err("the sums over all files".to_string()),
        }
    }

    /// The number of marks of a file that are waiting, in the window that it lies in.
    pub fn waiting(&self, file: u64) -> u64 {
        let Ok(side) = self.side(file) else { return 0 };
        let before = ones(self.starting.window(side), file);
        let touched = self.accounts.range((side, file, 0)..=(side, file, 2_047));
        let mut count = i128::from(before);
        for (_, account) in touched {
            count += i128::from(account.waiting) - i128::from(account.started_waiting);
        }
        count.max(0) as u64
    }
}

/// The files of a window, 512 bytes of it at multiples of 512, whose bytes aren't the same in both.
fn changed_files<'a>(before: &'a Window, after: &'a Window) -> impl Iterator<Item = u64> + 'a {
    let first = u128::from(before.start).div_ceil(512);
    let past = (before.end() / 512).max(first);
    let numbers = if before == after { 0..0 } else { first..past };
    numbers
        .map(|number| (number * 512) as u64)
        .filter(|file| file_bytes(before, *file) != file_bytes(after, *file))
}

/// The bytes of a file, where it lies in the window.
fn file_bytes(window: &Window, file: u64) -> Option<&[u8]> {
    if !file.is_multiple_of(512) || file < window.start {
        return None;
    }
    let offset = file - window.start;
    let end = u128::from(offset) + 512;
    if end > window.bytes.len() as u128 {
        return None;
    }
    Some(&window.bytes[offset as usize..offset as usize + 512])
}

/// An interrupt is pending when its bit is 1.
fn is_pending(file: &[u8], identity: u64) -> bool {
    let byte = (identity / 64 * 16 + identity % 64 / 8) as usize;
    file.get(byte)
        .is_some_and(|value| value >> (identity % 8) & 1 == 1)
}

/// The number of pending bits of a file.
fn ones(window: &Window, file: u64) -> u64 {
    match file_bytes(window, file) {
        Some(bytes) => file::count(&file::pairs(bytes)),
        None => 0,
    }
}
