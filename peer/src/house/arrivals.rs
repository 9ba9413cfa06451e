//! What a house does with a message that came.

use super::{Answer, House, Line, MOST_LINES, MOST_ROOTS};
use crate::message::{Message, Recipient};
use crate::names::{HouseId, Name};
use crate::refusal::{require, Refusal};

impl House {
    pub fn arrive(&mut self, message: &Message) -> Answer {
        let here = match message.recipient() {
            Recipient::One(house) => house == self.me,
            Recipient::Everybody => true,
        };
        require(here, Refusal::NotForThisHouse)?;
        match message {
            Message::Ask { object, by, to } => self.asked(*object, *by, *to),
            Message::Give { object, stamp, .. } => self.take(*object, *stamp),
            Message::Word { from, stamp, objects, .. } => self.hear(*from, *stamp, objects),
            Message::Telling { census, object, from } => self.mark(*census, *object, *from),
            Message::Answer { census, object, .. } => self.answered(*census, *object),
            Message::Round { census, round } => self.answer_round(*census, *round),
            Message::Reply { census, round, from, calm, tally } => {
                self.note_reply(*census, *round, *from, (*calm, *tally))
            }
            Message::Complete { census } => self.sweep(*census),
        }
    }

    fn asked(&mut self, object: Name, by: HouseId, to: HouseId) -> Answer {
        require(self.objects.contains_key(&object), Refusal::NotPresent)?;
        let as_root = by == self.me && self.roots.contains(&object);
        let as_holder = self.list.get(&(object, by)).is_some_and(|line| line.census == self.census);
        require(as_root || as_holder, Refusal::NotAHolder)?;
        if to == self.me {
            require(self.has_room_for_root(object), Refusal::NoRoom)?;
            self.roots.insert(object);
            return Ok(Vec::new());
        }
        let stamp = self.enter(object, to)?;
        Ok(vec![Message::Give { object, to, stamp }])
    }

    /// Lists the object as held by `holder`, with the next stamp.
    fn enter(&mut self, object: Name, holder: HouseId) -> Result<u32, Refusal> {
        let known = self.list.get(&(object, holder)).map(|line| line.age);
        require(known.is_some() || self.list.len() < MOST_LINES, Refusal::NoRoom)?;
        let stamp = self.stamps_of(holder).given.checked_add(1).ok_or(Refusal::OutOfNumbers)?;
        let age = known.unwrap_or(self.entered);
        self.entered += 1;
        self.stamps_mut(holder).given = stamp;
        self.list.insert((object, holder), Line { age, stamp, census: self.census });
        Ok(stamp)
    }

    fn take(&mut self, object: Name, stamp: u32) -> Answer {
        let home = object.home();
        require(home != self.me, Refusal::NotForThisHouse)?;
        require(stamp > self.stamps_of(home).seen, Refusal::StaleStamp)?;
        require(self.roots.len() < MOST_ROOTS, Refusal::NoRoom)?;
        self.roots.insert(object);
        self.stamps_mut(home).seen = stamp;
        self.survey.note_taking();
        Ok(Vec::new())
    }

    fn hear(&mut self, from: HouseId, stamp: u32, objects: &[Name]) -> Answer {
        self.list.retain(|(object, holder), line| {
            *holder != from || line.stamp > stamp || objects.binary_search(object).is_ok()
        });
        let stamps = self.stamps_mut(from);
        stamps.heard = stamps.heard.max(stamp);
        Ok(Vec::new())
    }

    fn sweep(&mut self, census: u32) -> Answer {
        require(census == self.census, Refusal::OtherCensus)?;
        self.list.retain(|_, line| line.census == census);
        Ok(Vec::new())
    }
}
