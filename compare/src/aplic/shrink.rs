//! Makes a list of a domain's calls smaller while something about it stays true.

use yasmurekh_reference::aplic::{Call, Delivery, List};

use crate::shrink::{drop_runs, simpler_numbers};

/// The smallest list found for which `holds` is true. It must be true of the list given.
///
/// Every step that is kept leaves fewer calls, or as many with a smaller number or a low wire among
/// them, or message delivery in the place of direct delivery, so this ends.
pub fn shrink(mut list: List, mut holds: impl FnMut(&List) -> bool) -> List {
    let mut keep = |list: &mut List, change: &dyn Fn(&mut List)| {
        let mut changed = list.clone();
        change(&mut changed);
        let kept = changed != *list && holds(&changed);
        if kept {
            *list = changed;
        }
        kept
    };
    loop {
        let mut smaller = keep(&mut list, &|list| list.delivery = Delivery::Message);
        smaller |= drop_runs(list.calls.len(), |run| {
            keep(&mut list, &|list| drop(list.calls.drain(run.clone())))
        });
        for place in 0..list.calls.len() {
            // The first simpler form that holds is taken, until none does.
            while simpler_calls(&list.calls[place])
                .into_iter()
                .any(|call| keep(&mut list, &|list| list.calls[place] = call))
            {
                smaller = true;
            }
        }
        if !smaller {
            return list;
        }
    }
}

/// Calls with one number made smaller, or the wire low.
fn simpler_calls(call: &Call) -> Vec<Call> {
    match *call {
        Call::Wire { source, high } => {
            let mut calls = Vec::new();
            if high {
                calls.push(Call::Wire {
                    source,
                    high: false,
                });
            }
            let sources = simpler_numbers(source).into_iter();
            calls.extend(sources.map(|source| Call::Wire { source, high }));
            calls
        }
        Call::Read { offset } => {
            let offsets = simpler_numbers(offset).into_iter();
            offsets.map(|offset| Call::Read { offset }).collect()
        }
        Call::Write { offset, value } => {
            let values = simpler_numbers(u64::from(value)).into_iter();
            let offsets = simpler_numbers(offset).into_iter();
            let simpler = values.map(|value| Call::Write {
                offset,
                value: value as u32,
            });
            simpler
                .chain(offsets.map(|offset| Call::Write { offset, value }))
                .collect()
        }
        Call::Forward => Vec::new(),
        Call::Claim { hart } => {
            let harts = simpler_numbers(hart).into_iter();
            harts.map(|hart| Call::Claim { hart }).collect()
        }
        Call::Signal { hart } => {
            let harts = simpler_numbers(hart).into_iter();
            harts.map(|hart| Call::Signal { hart }).collect()
        }
    }
}
