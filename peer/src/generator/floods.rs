//! Tables filled to the end.

use super::writer::Writer;
use crate::house::{MOST_FIELDS, MOST_LINES, MOST_OBJECTS, MOST_ROOTS};
use crate::names::{HouseId, Name};

impl Writer {
    pub fn fill_fields(&mut self) {
        let house = self.any_house();
        let Some(object) = self.make_at(house) else {
            return;
        };
        let Some(field) = self.make_at(house) else {
            return;
        };
        for place in 0..=MOST_FIELDS {
            let linked = if place % 3 == 0 { object } else { field };
            self.write(format!("{house} link {object} {linked}"));
        }
    }

    /// Fills the roots of a house, and then tries each way to have one more.
    pub fn fill_roots(&mut self) {
        let house = self.any_house();
        let Some(holder) = self.make_at(house) else {
            return;
        };
        let Some(hidden) = self.make_at(house) else {
            return;
        };
        self.write(format!("{house} link {holder} {hidden}"));
        self.write(format!("{house} link {holder} {holder}"));
        let late = self.give_on_its_way(house);
        let call_home = self.hand_out_and_ask_back(house, hidden);
        self.write(format!("{house} drop {hidden}"));
        while self.net.house(house).roots.len() < MOST_ROOTS {
            if self.make_at(house).is_none() {
                return;
            }
        }
        self.make_at(house);
        self.write(format!("{house} load {holder} {hidden}"));
        self.write(format!("{house} load {holder} {holder}"));
        for number in late.into_iter().chain(call_home) {
            self.write(format!("{house} deliver {number}"));
        }
    }

    /// A give for this house that has not come yet.
    fn give_on_its_way(&mut self, house: HouseId) -> Option<usize> {
        let other = self.other_house(house)?;
        let object = self.make_at(other)?;
        let ask = *self.write(format!("{other} ask {object} {house}")).first()?;
        self.write(format!("deliver {ask}")).first().copied()
    }

    /// An ask of another house that this one should have its own object as a root.
    fn hand_out_and_ask_back(&mut self, house: HouseId, object: Name) -> Option<usize> {
        let other = self.other_house(house)?;
        self.hand(house, object, other);
        self.write(format!("{other} ask {object} {house}")).first().copied()
    }

    pub fn fill_objects(&mut self) {
        let house = self.any_house();
        while self.net.house(house).objects.len() < MOST_OBJECTS {
            let Some(object) = self.make_at(house) else {
                return;
            };
            self.write(format!("{house} drop {object}"));
        }
        self.make_at(house);
        self.write(format!("{house} make 268435456"));
    }

    pub fn fill_lines(&mut self) {
        let house = self.any_house();
        let others: Vec<HouseId> = self.net.ids().filter(|other| *other != house).collect();
        let enough = MOST_OBJECTS * others.len() >= MOST_LINES;
        while enough && self.net.house(house).list.len() < MOST_LINES {
            let Some(object) = self.make_at(house) else {
                return;
            };
            self.list_at_all(house, object, &others);
        }
        if let Some(object) = self.make_at(house) {
            self.list_at_all(house, object, &others);
        }
    }

    fn list_at_all(&mut self, house: HouseId, object: Name, others: &[HouseId]) {
        for other in others {
            for number in self.write(format!("{house} ask {object} {other}")) {
                self.has_come(number);
                self.write(format!("deliver {number}"));
            }
        }
        self.write(format!("{house} drop {object}"));
    }
}
