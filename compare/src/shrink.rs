//! Makes a list smaller while something about it stays true.

use std::ops::Range;

use yasmurekh_reference::coverage::run_call;
use yasmurekh_reference::generate::{Call, List};
use yasmurekh_reference::memory::{Side as Which, Window};
use yasmurekh_reference::{Access, Answer, Request};

const PAGE: usize = 4_096;

/// The smallest list found for which `holds` is true. It must be true of the list given.
///
/// Every step that is kept makes the list smaller: fewer calls; or as many, and fewer requests among
/// them; or as many of both, and fewer pages; then fewer ones in the windows; then smaller fields and
/// starts. So this ends, when no step is left that can be kept.
pub fn shrink(list: List, holds: impl FnMut(&List) -> bool) -> List {
    let mut shrinker = Shrinker { list, holds };
    loop {
        let mut smaller = shrinker.drop_calls();
        smaller |= shrinker.start_later();
        smaller |= shrinker.stores_to_takes();
        for &window in Which::ALL {
            smaller |= shrinker.drop_pages(window);
            smaller |= shrinker.clear_window(window);
        }
        smaller |= shrinker.simplify_calls();
        for &window in Which::ALL {
            smaller |= shrinker.lower_start(window);
        }
        if !smaller {
            return shrinker.list;
        }
    }
}

struct Shrinker<H> {
    list: List,
    holds: H,
}

impl<H: FnMut(&List) -> bool> Shrinker<H> {
    /// Keeps a changed list if it still holds.
    fn keep(&mut self, change: impl FnOnce(&mut List)) -> bool {
        let mut list = self.list.clone();
        change(&mut list);
        let kept = (self.holds)(&list);
        if kept {
            self.list = list;
        }
        kept
    }

    fn drop_calls(&mut self) -> bool {
        drop_runs(self.list.calls.len(), |run| {
            self.keep(|list| drop(list.calls.drain(run)))
        })
    }

    /// Drops first calls, with the windows as the reference has them after those.
    fn start_later(&mut self) -> bool {
        let calls = self.list.calls.len();
        (1..calls).rev().any(|first| {
            self.keep(|list| {
                for call in list.calls.drain(..first) {
                    run_call(&mut list.memory, &call, &mut |_| {});
                }
            })
        })
    }

    /// Puts a take of the same file in the place of a list's first call, a store, with the windows
    /// as the reference has them after that store: for what a report of the file shows.
    fn stores_to_takes(&mut self) -> bool {
        let Some(call @ Call::Request { .. }) = self.list.calls.first().copied() else {
            return false;
        };
        let mut memory = self.list.memory.clone();
        let answer = run_call(&mut memory, &call, &mut |_| {});
        let Answer::Stored { file, .. } = answer else {
            return false;
        };
        self.keep(|list| {
            list.memory = memory;
            list.calls[0] = Call::Take { file, identity: 0 };
        })
    }

    fn window(&self, window: Which) -> &Window {
        self.list.memory.window(window)
    }

    /// Keeps a changed window if the list still holds.
    fn keep_window(&mut self, window: Which, change: impl FnOnce(&mut Window)) -> bool {
        self.keep(|list| change(list.memory.window_mut(window)))
    }

    /// Drops pages at a window's end, then at its start, many at once first.
    fn drop_pages(&mut self, window: Which) -> bool {
        let mut smaller = false;
        for at_end in [true, false] {
            let mut pages = self.window(window).bytes.len() / PAGE;
            while pages > 0 {
                let bytes = pages * PAGE;
                let length = self.window(window).bytes.len();
                let start = self.window(window).start.checked_add(bytes as u64);
                let dropped = match (at_end, start) {
                    _ if length < bytes => false,
                    (true, _) => self.keep_window(window, |window| {
                        window.bytes.truncate(length - bytes);
                    }),
                    (false, Some(start)) => self.keep_window(window, |window| {
                        window.start = start;
                        window.bytes.drain(..bytes);
                    }),
                    (false, None) => false,
                };
                smaller |= dropped;
                if !dropped {
                    pages /= 2;
                }
            }
        }
        smaller
    }

    /// Clears a window: pages, then ever smaller pieces, then single bits.
    fn clear_window(&mut self, window: Which) -> bool {
        let mut smaller = false;
        let length = self.window(window).bytes.len();
        for size in [PAGE, 512, 64, 8, 1] {
            for place in (0..length).step_by(size) {
                let piece = place..(place + size).min(length);
                let bytes = &self.window(window).bytes[piece.clone()];
                if bytes.iter().any(|byte| *byte != 0) {
                    smaller |= self.keep_window(window, |window| window.bytes[piece].fill(0));
                }
            }
        }
        for place in 0..length {
            let byte = self.window(window).bytes[place];
            for bit in (0..8).filter(|bit| byte >> bit & 1 == 1) {
                smaller |= self.keep_window(window, |window| window.bytes[place] &= !(1 << bit));
            }
        }
        smaller
    }

    /// Lets a window start lower; the first lower start that holds is taken, until none does.
    fn lower_start(&mut self, window: Which) -> bool {
        let mut smaller = false;
        while simpler_numbers(self.window(window).start)
            .into_iter()
            .any(|start| self.keep_window(window, |window| window.start = start))
        {
            smaller = true;
        }
        smaller
    }

    fn simplify_calls(&mut self) -> bool {
        let mut smaller = false;
        for place in 0..self.list.calls.len() {
            // The first simpler form that holds is taken, until none does.
            while simpler_calls(&self.list.calls[place])
                .into_iter()
                .any(|call| self.keep(|list| list.calls[place] = call))
            {
                smaller = true;
            }
        }
        smaller
    }
}

/// Offers runs of so many calls to be dropped, long runs first; says whether one of them was.
pub fn drop_runs(mut calls: usize, mut dropped: impl FnMut(Range<usize>) -> bool) -> bool {
    let before = calls;
    let mut run = calls;
    while run > 0 {
        let mut end = calls;
        while end > 0 {
            let first = end.saturating_sub(run);
            if dropped(first..end) {
                calls -= end - first;
            }
            end = first;
        }
        run /= 2;
    }
    calls < before
}

/// Smaller numbers to try: 0, 1, then those with a bit less, from the highest on.
pub fn simpler_numbers(number: u64) -> Vec<u64> {
    let bits = (0..64).rev().filter(|bit| number >> bit & 1 == 1);
    let with_less = bits.map(|bit| number & !(1 << bit));
    let small = [0, 1].into_iter().filter(|small| *small < number);
    small.chain(with_less).collect()
}

/// Calls with one field made simpler.
fn simpler_calls(call: &Call) -> Vec<Call> {
    match *call {
        Call::Take { file, identity } => {
            let files = simpler_numbers(file).into_iter();
            let identities = simpler_numbers(identity).into_iter();
            files
                .map(|file| Call::Take { file, identity })
                .chain(identities.map(|identity| Call::Take { file, identity }))
                .collect()
        }
        Call::TakeMany {
            file,
            doubleword,
            mask,
        } => simpler_takes_of_many(file, doubleword, mask),
        Call::Request {
            mode,
            root,
            request,
            data,
        } => simpler_asking(mode, root, &request, data),
    }
}

/// Requests with their settings and data, one field made simpler.
fn simpler_asking(mode: u64, root: u64, request: &Request, data: u32) -> Vec<Call> {
    let with = |mode, root, request: &Request, data| Call::Request {
        mode,
        root,
        request: *request,
        data,
    };
    let mut calls = Vec::new();
    for request in simpler_requests(request) {
        calls.push(with(mode, root, &request, data));
    }
    for mode in simpler_numbers(mode) {
        calls.push(with(mode, root, request, data));
    }
    for root in simpler_numbers(root) {
        calls.push(with(mode, root, request, data));
    }
    for data in simpler_numbers(u64::from(data)) {
        calls.push(with(mode, root, request, data as u32));
    }
    calls
}

/// Takes of many with one number made simpler: a file, a lower doubleword number, a mask with fewer bits.
fn simpler_takes_of_many(file: u64, doubleword: u64, mask: u64) -> Vec<Call> {
    let with = |file, doubleword, mask| Call::TakeMany {
        file,
        doubleword,
        mask,
    };
    let mut calls = Vec::new();
    for file in simpler_numbers(file) {
        calls.push(with(file, doubleword, mask));
    }
    // 31 and 32 are the two sides of what 2009 refuses.
    let edges = [31, 32].into_iter().filter(|edge| *edge < doubleword);
    for doubleword in edges.chain(simpler_numbers(doubleword)) {
        calls.push(with(file, doubleword, mask));
    }
    for mask in simpler_numbers(mask) {
        calls.push(with(file, doubleword, mask));
    }
    calls
}

/// Requests with one field made simpler.
fn simpler_requests(request: &Request) -> Vec<Request> {
    let mut requests = Vec::new();
    let mut add = |change: &dyn Fn(&mut Request)| {
        let mut simpler = *request;
        change(&mut simpler);
        requests.push(simpler);
    };
    if request.supervisor {
        add(&|r| r.supervisor = false);
    }
    if let Some(process) = request.process_id {
        add(&|r| r.process_id = None);
        for process in simpler_numbers(process) {
            add(&|r| r.process_id = Some(process));
        }
    }
    match request.access {
        Access::Read => {}
        Access::Write => add(&|r| r.access = Access::Read),
        Access::ReadForExecute => {
            add(&|r| r.access = Access::Read);
            add(&|r| r.access = Access::Write);
        }
    }
    for device_id in simpler_numbers(request.device_id) {
        add(&|r| r.device_id = device_id);
    }
    for address in simpler_numbers(request.address) {
        add(&|r| r.address = address);
    }
    for length in simpler_numbers(request.length) {
        add(&|r| r.length = length);
    }
    requests
}
