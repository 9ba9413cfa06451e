//! Writes lines and plays them on the model.

use super::mood::{Action, Flood, Mood, Order};
use crate::message::Message;
use crate::names::{HouseId, Name};
use crate::net::Net;
use crate::random::Random;
use std::collections::BTreeSet;

pub struct Writer {
    pub random: Random,
    pub net: Net,
    pub lines: Vec<Vec<u8>>,
    pub mood: Mood,
    /// Messages on their way, by number, and the house that each is for.
    on_their_way: Vec<(usize, HouseId)>,
    /// Censuses called complete.
    pub completed: BTreeSet<u32>,
    within: bool,
}

impl Writer {
    pub fn new(random: Random, houses: u8, mood: Mood) -> Writer {
        let net = Net::new(houses);
        Writer {
            random,
            net,
            lines: Vec::new(),
            mood,
            on_their_way: Vec::new(),
            completed: BTreeSet::new(),
            within: false,
        }
    }

    /// Fills a table, if the mood wants that.
    pub fn begin(&mut self, length: usize) {
        match self.mood.flood {
            Flood::None => {}
            Flood::Fields => self.fill_fields(),
            Flood::Roots => self.fill_roots(),
            Flood::Objects => self.fill_objects(),
            Flood::Lines => self.fill_lines(),
        }
        if self.mood.flood != Flood::None {
            let more = self.lines.len() + length.min(200);
            while self.lines.len() < more {
                self.act();
            }
        }
    }

    /// Writes a line and plays it; the numbers of the messages that it sends.
    pub fn write(&mut self, line: impl Into<Vec<u8>>) -> Vec<usize> {
        let line = self.decorated(line.into());
        let played = self.net.play(&line);
        self.lines.push(line);
        let sent: Vec<(usize, Message)> = played.outcomes.into_iter().flatten().flatten().collect();
        for (number, message) in &sent {
            if let Message::Complete { census } = message {
                self.completed.insert(*census);
            }
            for house in self.net.targets(message) {
                if !self.random.percent(self.mood.loss) {
                    self.on_their_way.push((*number, house));
                }
            }
        }
        sent.into_iter().map(|(number, _)| number).collect()
    }

    /// As `write`, for a step of a longer undertaking, which something else may disturb.
    pub fn step(&mut self, line: impl Into<Vec<u8>>) -> Vec<usize> {
        let sent = self.write(line);
        if !self.within && self.random.percent(self.mood.disturbance) {
            self.within = true;
            self.act();
            self.within = false;
        }
        sent
    }

    /// Does something more, small or large.
    pub fn go_on(&mut self) {
        if self.mood.skirmishes {
            self.skirmish();
        } else {
            self.act();
        }
    }

    /// Does something that the mood asks for, if it can be done now.
    pub fn act(&mut self) {
        if !self.mood.honest && self.random.percent(2) {
            return self.forge();
        }
        match self.mood.action(&mut self.random) {
            Action::Make => self.make(),
            Action::Link => self.link(),
            Action::Unlink => self.touch_field("unlink"),
            Action::Load => self.touch_field("load"),
            Action::Drop => self.drop_root(),
            Action::Ask => self.ask(),
            Action::HandOn => self.hand_on(),
            Action::Ring => self.ring(),
            Action::DeliverNew => self.deliver_new(),
            Action::DeliverOld => self.deliver_old(),
            Action::DeliverAstray => self.deliver_astray(),
            Action::Collect => self.collect(),
            Action::Word => self.word(),
            Action::WordHeard => self.word_heard(),
            Action::Join => self.join(),
            Action::Tell => self.tell(),
            Action::Round => self.round(),
            Action::PushCensus => self.push_census(),
            Action::WholeCensus => self.whole_census(),
            Action::Show => self.show(),
            Action::Garbled => self.garbled(),
            Action::AtLimits => self.at_limits(),
            Action::Got => self.got(),
        }
    }

    /// Takes a message that is on its way and of which `wanted` holds.
    pub fn next_coming(&mut self, wanted: impl Fn(&Message) -> bool) -> Option<(usize, HouseId)> {
        let fits = |place: &usize| wanted(&self.net.sent[self.on_their_way[*place].0 - 1]);
        let places: Vec<usize> = (0..self.on_their_way.len()).filter(fits).collect();
        let place = match self.mood.order {
            Order::OldestFirst => *places.first()?,
            Order::LatestFirst => *places.last()?,
            Order::Any => *self.random.pick(&places)?,
        };
        if self.random.percent(self.mood.doubling) {
            return Some(self.on_their_way[place]);
        }
        Some(self.on_their_way.remove(place))
    }

    pub fn is_coming(&self, wanted: impl Fn(&Message) -> bool) -> bool {
        self.on_their_way.iter().any(|(number, _)| wanted(&self.net.sent[number - 1]))
    }

    /// All that is on its way is late, and comes only as something old, if at all.
    pub fn forget_coming(&mut self) {
        self.on_their_way.clear();
    }

    /// The message came to one house.
    pub fn has_come_to(&mut self, number: usize, house: HouseId) {
        self.on_their_way.retain(|coming| *coming != (number, house));
    }

    /// The message came, by a line that says so.
    pub fn has_come(&mut self, number: usize) {
        self.on_their_way.retain(|(coming, _)| *coming != number);
    }

    pub fn any_house(&mut self) -> HouseId {
        HouseId(self.random.below(u64::from(self.net.count())) as u8)
    }

    pub fn other_house(&mut self, than: HouseId) -> Option<HouseId> {
        let others: Vec<HouseId> = self.net.ids().filter(|house| *house != than).collect();
        self.random.pick(&others).copied()
    }

    pub fn any_root(&mut self, house: HouseId) -> Option<Name> {
        let roots: Vec<Name> = self.net.house(house).roots.iter().copied().collect();
        self.random.pick(&roots).copied()
    }

    pub fn own_root(&mut self, house: HouseId) -> Option<Name> {
        let roots: Vec<Name> =
            self.net.house(house).roots.iter().copied().filter(|name| name.home() == house).collect();
        self.random.pick(&roots).copied()
    }

    /// A house with a root, and one of its roots.
    pub fn house_with_root(&mut self) -> Option<(HouseId, Name)> {
        let houses: Vec<HouseId> = self.net.ids().filter(|id| !self.net.house(*id).roots.is_empty()).collect();
        let house = *self.random.pick(&houses)?;
        Some((house, self.any_root(house)?))
    }

    /// Any name that was made, now and then one that was not.
    pub fn any_name(&mut self) -> Name {
        let names: Vec<Name> = self.net.houses.iter().flat_map(|house| house.objects.keys().copied()).collect();
        match self.random.pick(&names) {
            Some(name) if !self.random.percent(10) => *name,
            _ => Name(self.random.between(16, 200) as u32),
        }
    }
}
