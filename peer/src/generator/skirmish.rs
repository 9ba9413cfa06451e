//! Censuses over a few objects that refer to each other across houses, with programs at work: the
//! runs in which a census that goes wrong would lose something.

use super::mood::Step;
use super::writer::Writer;
use crate::message::Message;
use crate::names::{HouseId, Name};

impl Writer {
    /// Lays out some objects and takes a census of them in many small steps.
    pub fn skirmish(&mut self) {
        if self.random.percent(50) {
            self.drop_some(100, 100);
        }
        if self.random.percent(80) {
            self.lay_chain();
        } else {
            self.lay_out();
        }
        self.begin_census();
        for _ in 0..self.random.between(10, 80) {
            if self.is_completed() {
                break;
            }
            self.skirmish_step();
        }
        for _ in 0..60 {
            if self.is_completed() {
                break;
            }
            self.push_census();
        }
        self.aftermath();
    }

    /// House 0 joins the next census, and perhaps others do.
    fn begin_census(&mut self) {
        let census = u64::from(self.highest_census()) + 1;
        let others = self.random.percent(50);
        for house in self.net.ids() {
            if house == HouseId(0) || others && self.random.percent(60) {
                self.write(format!("{house} join {census}"));
            }
        }
    }

    fn is_completed(&self) -> bool {
        self.completed.contains(&self.net.houses[0].census)
    }

    fn skirmish_step(&mut self) {
        if !self.mood.honest && self.random.percent(4) {
            return self.forge();
        }
        match self.mood.step(&mut self.random) {
            Step::Deliver => self.deliver_of_census(),
            Step::Tell => self.tell_what_is_due(),
            Step::Round => self.ask_round(),
            Step::DeliverStale => self.deliver_stale(),
            Step::DeliverAny => self.deliver_new(),
            Step::DeliverOld => self.deliver_old(),
            Step::Move => self.move_root(),
            Step::Drop => self.drop_root(),
            Step::Load => self.touch_field("load"),
            Step::WordHeard => self.word_heard(),
            Step::HandOn => self.hand_on(),
            Step::Link => self.link(),
            Step::Unlink => self.touch_field("unlink"),
            Step::Ask => self.ask(),
            Step::DeliverAsk => self.deliver_old_of(|message| matches!(message, Message::Ask { .. })),
        }
    }

    /// Delivers a message of this or an earlier census once more, or very late.
    fn deliver_stale(&mut self) {
        match self.random.below(4) {
            0 => self.deliver_old_of(|message| matches!(message, Message::Telling { .. })),
            1 => self.deliver_old_of(|message| matches!(message, Message::Answer { .. })),
            _ => self.deliver_old_of(|message| matches!(message, Message::Reply { .. })),
        }
    }

    fn deliver_of_census(&mut self) {
        if let Some((number, house)) = self.next_coming(is_of_census) {
            self.write(format!("{house} deliver {number}"));
        }
    }

    /// Tells at a house that has something new to tell, now and then at any.
    fn tell_what_is_due(&mut self) {
        let restless: Vec<HouseId> = self.net.ids().filter(|id| !self.net.house(*id).is_calm()).collect();
        let house = match self.random.pick(&restless) {
            Some(house) if !self.random.percent(5) => *house,
            _ => self.any_house(),
        };
        self.write(format!("{house} tell"));
    }

    /// Begins a round, mostly only if the one before is through.
    fn ask_round(&mut self) {
        let asking = self.is_coming(|message| matches!(message, Message::Round { .. } | Message::Reply { .. }));
        if !asking || self.random.percent(5) {
            self.write("0 round");
        }
    }

    /// Hands a root to another house and drops it, with words heard on both sides.
    fn move_root(&mut self) {
        let Some((house, root)) = self.house_with_root() else {
            return;
        };
        let Some(to) = self.other_house(house) else {
            return;
        };
        self.hand(house, root, to);
        self.say_word(to, root.home());
        self.write(format!("{house} drop {root}"));
        self.say_word(house, root.home());
    }

    fn say_word(&mut self, house: HouseId, to: HouseId) {
        if house == to || self.random.percent(20) {
            return;
        }
        for number in self.write(format!("{house} word {to}")) {
            self.has_come(number);
            self.write(format!("deliver {number}"));
        }
    }

    /// The news comes to all houses, with old messages in between, and all collect.
    fn aftermath(&mut self) {
        let late = *self.random.pick(&[0, 0, 30, 60]).expect("four chances");
        while let Some((number, house)) = self.next_coming(|message| matches!(message, Message::Complete { .. })) {
            self.has_come_to(number, house);
            self.something_late(late);
            self.write(format!("{house} deliver {number}"));
        }
        for house in self.net.ids() {
            self.something_late(late);
            self.write(format!("{house} collect"));
        }
        if self.random.percent(70) {
            self.forget_coming();
        }
    }

    fn something_late(&mut self, chance: u64) {
        while self.random.percent(chance) {
            match self.random.below(4) {
                0 => self.deliver_old_of(|message| matches!(message, Message::Telling { .. })),
                1 => self.deliver_old_of(|message| matches!(message, Message::Ask { .. })),
                2 => self.deliver_new(),
                _ => self.deliver_old(),
            }
        }
    }

    /// A chain of objects, each in another house than the one before, with one root or none left.
    fn lay_chain(&mut self) {
        let mut house = self.any_house();
        let Some(first) = self.make_at(house) else {
            return;
        };
        let mut latest = first;
        let longest = if self.mood.quiet { 5 } else { 3 };
        for _ in 0..self.random.between(1, longest) {
            house = self.other_house(house).unwrap_or(house);
            let Some(next) = self.make_at(house) else {
                return;
            };
            self.refer(latest, next);
            latest = next;
        }
        if self.random.percent(40) {
            self.refer(latest, first);
        }
        self.hear_all();
        let keep = if self.random.percent(85) { first } else { latest };
        self.lay_root(keep);
    }

    /// Gives `object` a field with `field`, which lives elsewhere.
    fn refer(&mut self, object: Name, field: Name) {
        self.hand(field.home(), field, object.home());
        self.write(format!("{} link {object} {field}", object.home()));
        if object.home() != field.home() {
            self.write(format!("{} drop {field}", object.home()));
        }
    }

    /// Leaves only one root to `keep`, in any house, and perhaps some asks on their way.
    fn lay_root(&mut self, keep: Name) {
        let holder = if self.random.percent(50) { keep.home() } else { self.any_house() };
        if holder != keep.home() {
            self.hand(keep.home(), keep, holder);
        }
        for _ in 0..self.random.below(3) {
            self.ask();
        }
        let rootless = self.random.percent(15);
        for house in self.net.ids() {
            for root in self.net.house(house).roots.clone() {
                if rootless || house != holder || root != keep {
                    self.write(format!("{house} drop {root}"));
                }
            }
        }
        if self.random.percent(70) {
            self.hear_all();
        }
    }
}

fn is_of_census(message: &Message) -> bool {
    !matches!(message, Message::Ask { .. } | Message::Give { .. } | Message::Word { .. })
}
