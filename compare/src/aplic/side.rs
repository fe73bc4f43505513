//! What is compared with the reference's domain, in the types of the reference program.

use yasmurekh::Refusal;
use yasmurekh_reference::aplic::{Answer, Call, Delivery, Domain, Message};

/// A domain that answers calls. Two that are equal are in the same state.
pub trait Side: Clone + PartialEq {
    /// The side's domain at reset, with this delivery mode.
    fn reset(&self, delivery: Delivery) -> Self;

    fn call(&mut self, call: &Call) -> Answer;
}

/// The proved library, through the Rust crate.
#[derive(Clone, Debug, Default, PartialEq)]
pub struct Library(pub yasmurekh::aplic::Domain);

impl Side for Library {
    fn reset(&self, delivery: Delivery) -> Library {
        Library(match delivery {
            Delivery::Message => yasmurekh::aplic::Domain::new(),
            Delivery::Direct => yasmurekh::aplic::Domain::direct(),
        })
    }

    fn call(&mut self, call: &Call) -> Answer {
        match *call {
            Call::Wire { source, high } => answered(self.0.wire(source, high), |()| Answer::Done),
            Call::Read { offset } => Answer::Value(self.0.read(offset)),
            Call::Write { offset, value } => {
                self.0.write(offset, value);
                Answer::Done
            }
            Call::Forward => Answer::Forwarded(self.0.forward().map(message)),
            Call::Claim { hart } => answered(self.0.claim(hart), |interrupt| {
                Answer::Value(interrupt.map_or(0, topi))
            }),
            Call::Signal { hart } => answered(self.0.signalled(hart), Answer::Signalled),
        }
    }
}

fn answered<T>(result: Result<T, Refusal>, answer: impl FnOnce(T) -> Answer) -> Answer {
    result.map_or_else(|refusal| Answer::Refused(refusal.number()), answer)
}

/// The value of topi that names an interrupt.
fn topi(interrupt: yasmurekh::aplic::Interrupt) -> u32 {
    (interrupt.source << 16 | interrupt.priority) as u32
}

/// The library's message; a field that is too wide becomes one that the reference never gives.
fn message(message: yasmurekh::aplic::Message) -> Message {
    let field = |value: u64| u32::try_from(value).unwrap_or(u32::MAX);
    Message {
        hart_index: field(message.hart_index),
        guest_index: field(message.guest_index),
        identity: field(message.identity),
    }
}

impl Side for Domain {
    fn reset(&self, delivery: Delivery) -> Domain {
        Domain::new(delivery)
    }

    fn call(&mut self, call: &Call) -> Answer {
        self.run(call)
    }
}
