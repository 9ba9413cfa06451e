//! What the network does with messages.

use super::writer::Writer;
use crate::message::{Message, Recipient};
use crate::names::HouseId;

impl Writer {
    pub fn deliver_new(&mut self) {
        if let Some((number, house)) = self.next_coming(|_| true) {
            self.deliver(number, house);
        }
    }

    /// Delivers a message to a house that it is for.
    pub fn deliver(&mut self, number: usize, house: HouseId) {
        let alone = self.net.sent[number - 1].recipient() != Recipient::Everybody;
        if alone && self.random.percent(50) || self.random.percent(10) {
            self.has_come(number);
            self.step(format!("deliver {number}"));
        } else {
            self.step(format!("{house} deliver {number}"));
        }
    }

    /// Delivers any message that was ever sent, perhaps again; each kind is as likely.
    pub fn deliver_old(&mut self) {
        let kind = self.random.between(1, 8);
        self.deliver_old_of(|message| kind_of(message) == kind);
    }

    /// Delivers any message that was ever sent and of which `wanted` holds.
    pub fn deliver_old_of(&mut self, wanted: impl Fn(&Message) -> bool) {
        let recent = self.random.percent(60);
        let oldest = if recent { self.net.sent.len().saturating_sub(60) } else { 0 };
        let places: Vec<usize> = (oldest..self.net.sent.len()).filter(|place| wanted(&self.net.sent[*place])).collect();
        let Some(place) = self.random.pick(&places).copied() else {
            return;
        };
        match self.net.sent[place].recipient() {
            Recipient::One(_) => self.write(format!("deliver {}", place + 1)),
            Recipient::Everybody => {
                let house = self.any_house();
                self.write(format!("{house} deliver {}", place + 1))
            }
        };
    }

    /// Delivers any message at any house.
    pub fn deliver_astray(&mut self) {
        if !self.net.sent.is_empty() {
            let number = self.random.between(1, self.net.sent.len() as u64);
            let house = self.any_house();
            self.write(format!("{house} deliver {number}"));
        }
    }
}

fn kind_of(message: &Message) -> u64 {
    match message {
        Message::Ask { .. } => 1,
        Message::Give { .. } => 2,
        Message::Word { .. } => 3,
        Message::Telling { .. } => 4,
        Message::Answer { .. } => 5,
        Message::Round { .. } => 6,
        Message::Reply { .. } => 7,
        Message::Complete { .. } => 8,
    }
}
