//! The collector's own steps, from any state to the end of a census, in a fixed order: each call is followed by the
//! delivery of every message that it sets off.

use crate::call::Input;
use crate::message::Message;
use crate::names::HouseId;
use crate::net::{Event, Net};

/// Lets the collector work until nothing is left to do. None if no census number is left; an error
/// if the census does not become complete, which only forged messages can bring about.
pub fn settle(net: &mut Net) -> Option<Result<(), String>> {
    let begun = net.sent.len();
    let census = work(net)?;
    if net.sent[begun..].contains(&Message::Complete { census }) {
        Some(Ok(()))
    } else {
        Some(Err(format!("census {census} did not become complete")))
    }
}

/// All of it; the number of its census.
fn work(net: &mut Net) -> Option<u32> {
    let highest = net.houses.iter().map(|house| house.census).max()?;
    let census = highest.checked_add(1)?;
    for from in net.ids() {
        for to in net.ids().filter(|to| *to != from) {
            call(net, from, Input::Word(to));
        }
    }
    call_each(net, &Input::Join(u64::from(census)));
    tell_all(net);
    for _ in 0..2 {
        call(net, HouseId(0), Input::Round);
    }
    call_each(net, &Input::Collect);
    Some(census)
}

/// One call; each message that it sets off comes to whom it is for, one after the other.
fn call(net: &mut Net, house: HouseId, input: Input) {
    let mut next = net.sent.len();
    net.perform(&Event::At(house, input));
    while let Some(message) = net.sent.get(next).cloned() {
        for house in net.targets(&message) {
            // what is refused changes nothing
            let _ = net.deliver(house, &message);
        }
        next += 1;
    }
}

fn call_each(net: &mut Net, input: &Input) {
    for house in net.ids() {
        call(net, house, input.clone());
    }
}

/// Tells, marks and answers until no line is newly marked.
fn tell_all(net: &mut Net) {
    loop {
        let before = marked(net);
        call_each(net, &Input::Tell);
        if marked(net) == before {
            return;
        }
    }
}

fn marked(net: &Net) -> u64 {
    net.houses.iter().map(|house| u64::from(house.survey.tally)).sum()
}
