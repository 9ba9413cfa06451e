//! Messages of the right form that no house has sent.

use super::writer::Writer;
use crate::message::Message;
use crate::names::{HouseId, Name};
use crate::text;

impl Writer {
    /// Brings a message that was made up, mostly to a house that it is for.
    pub fn forge(&mut self) {
        let message = self.forgery();
        let targets = self.net.targets(&message);
        let house = match self.random.pick(&targets).copied() {
            Some(house) if !self.random.percent(10) => house,
            _ => self.any_house(),
        };
        self.write(format!("{house} got {}", text::to_hexadecimal(&message.encode())));
    }

    fn forgery(&mut self) -> Message {
        let (object, from, to) = (self.well_formed_name(), self.any_house(), self.any_house());
        let (census, round) = (self.near_census(to), self.near_round());
        match self.random.between(1, 8) {
            1 => Message::Ask { object, by: from, to },
            2 => Message::Give { object, to, stamp: self.near_stamp(to, object.home()) },
            3 => Message::Word { from, to, stamp: self.near_stamp(from, to), objects: self.some_of(to) },
            4 => Message::Telling { census: self.near_census(object.home()), object, from },
            5 => Message::Answer { census, object, from: to },
            6 => Message::Round { census, round },
            7 => Message::Reply {
                census: self.near_census(HouseId(0)),
                round,
                from,
                calm: self.random.percent(70),
                tally: self.random.below(3) as u32,
            },
            _ => Message::Complete { census },
        }
    }

    fn well_formed_name(&mut self) -> Name {
        let name = self.any_name();
        if name.home().0 < self.net.count() {
            name
        } else {
            Name(name.number() * 16 + u32::from(self.any_house().0))
        }
    }

    fn near_census(&mut self, house: HouseId) -> u32 {
        let own = self.net.house(house).census;
        match self.random.below(40) {
            0 => u32::MAX,
            1..=3 => own.saturating_sub(1),
            4..=6 => own.saturating_add(1),
            _ => own,
        }
    }

    fn near_round(&mut self) -> u32 {
        let present = self.net.houses[0].survey.rounds.len() as u32;
        match self.random.below(8) {
            0 => 0,
            1 => u32::MAX,
            2 => present + 1,
            3 => 1,
            4 => 2,
            _ => present,
        }
    }

    /// A stamp about as high as the highest that `holder` has seen of `home`.
    fn near_stamp(&mut self, holder: HouseId, home: HouseId) -> u32 {
        let seen = self.net.house(holder).stamps_of(home).seen;
        match self.random.below(12) {
            0 => u32::MAX,
            1 => 0,
            2..=5 => seen.saturating_add(1),
            _ => seen,
        }
    }

    fn some_of(&mut self, home: HouseId) -> Vec<Name> {
        let names: Vec<Name> = self.net.house(home).objects.keys().copied().collect();
        names.into_iter().filter(|_| self.random.percent(50)).collect()
    }
}
