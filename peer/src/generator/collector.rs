//! What the collector does, and censuses that are pushed to their end.

use super::writer::Writer;
use crate::message::Message;
use crate::names::HouseId;

impl Writer {
    pub fn collect(&mut self) {
        let house = self.any_house();
        self.write(format!("{house} collect"));
    }

    pub fn word(&mut self) {
        let house = self.any_house();
        let to = self.any_house();
        self.write(format!("{house} word {to}"));
    }

    pub fn word_heard(&mut self) {
        let house = self.any_house();
        let Some(to) = self.other_house(house) else {
            return;
        };
        for number in self.write(format!("{house} word {to}")) {
            self.has_come(number);
            self.write(format!("deliver {number}"));
        }
    }

    pub fn join(&mut self) {
        let house = self.any_house();
        let highest = u64::from(self.highest_census());
        let census = if self.random.percent(70) { highest } else { highest + 1 };
        self.write(format!("{house} join {census}"));
    }

    pub fn tell(&mut self) {
        let house = self.any_house();
        self.write(format!("{house} tell"));
    }

    pub fn round(&mut self) {
        let house = if self.random.percent(90) { HouseId(0) } else { self.any_house() };
        self.write(format!("{house} round"));
    }

    /// Asks for something to be printed.
    pub fn show(&mut self) {
        let view = self.random.pick(&["show", "show", "show", "status", "status", "help"]).copied().expect("six lines");
        self.write(view);
    }

    pub fn highest_census(&self) -> u32 {
        self.net.houses.iter().map(|house| house.census).max().unwrap_or(0)
    }

    /// Every house sends a word to every other, and most are heard.
    pub fn hear_all(&mut self) {
        for house in self.net.ids() {
            for to in self.net.ids().filter(|to| *to != house) {
                for number in self.write(format!("{house} word {to}")) {
                    if self.random.percent(95) {
                        self.has_come(number);
                        self.write(format!("deliver {number}"));
                    }
                }
            }
        }
    }

    /// Takes one step towards the end of a census.
    pub fn push_census(&mut self) {
        let hasty = self.random.percent(self.mood.haste);
        if let Some((number, house)) = self.next_coming(|message| !hasty && is_of_census(message)) {
            return self.deliver(number, house);
        }
        let census = self.net.houses[0].census;
        let highest = self.highest_census();
        let restless: Vec<HouseId> = self.net.ids().filter(|id| self.is_restless(*id, census)).collect();
        let wait = !restless.is_empty() && !self.random.percent(self.mood.haste);
        if highest > census {
            self.step(format!("0 join {highest}"));
        } else if census == 0 || self.completed.contains(&census) {
            self.after_census(census);
        } else if let Some(house) = self.random.pick(&restless).filter(|_| wait) {
            self.step(format!("{house} tell"));
        } else {
            self.step("0 round");
        }
    }

    fn is_restless(&self, id: HouseId, census: u32) -> bool {
        let house = self.net.house(id);
        house.census == census && !house.is_calm()
    }

    fn after_census(&mut self, census: u32) {
        match self.random.below(4) {
            0 => self.collect(),
            1 => self.word_heard(),
            2 if census == 0 && self.random.percent(20) => drop(self.step("0 round")),
            _ => drop(self.step(format!("0 join {}", u64::from(census) + 1))),
        }
    }

    /// Pushes until a census is complete, or for so long that something must be missing.
    pub fn whole_census(&mut self) {
        let completed = self.completed.len();
        for _ in 0..80 {
            if self.completed.len() > completed {
                break;
            }
            self.push_census();
        }
        for house in self.net.ids() {
            self.push_census();
            if self.random.percent(50) {
                self.write(format!("{house} collect"));
            }
        }
    }
}

fn is_of_census(message: &Message) -> bool {
    !matches!(message, Message::Ask { .. } | Message::Give { .. } | Message::Word { .. })
}
