//! What programs do with references.

use super::writer::Writer;
use crate::names::{HouseId, Name};

impl Writer {
    pub fn make(&mut self) {
        let present: usize = self.net.houses.iter().map(|house| house.objects.len()).sum();
        if present >= self.mood.objects {
            return self.collect();
        }
        let house = self.any_house();
        self.make_at(house);
    }

    /// Makes an object at a house; its name, if there was room.
    pub fn make_at(&mut self, house: HouseId) -> Option<Name> {
        let highest = self.net.houses.iter().map(|house| house.made).max().unwrap_or(0);
        let number = u64::from(highest) + self.random.between(0, 30) / 28 + 1;
        self.write(format!("{house} make {number}"));
        let name = Name::made(number, house)?;
        self.net.house(house).roots.contains(&name).then_some(name)
    }

    pub fn link(&mut self) {
        let house = self.any_house();
        let object = match self.own_root(house) {
            Some(object) if !self.random.percent(5) => object,
            _ => self.any_name(),
        };
        let field = match self.any_root(house) {
            Some(field) if !self.random.percent(5) => field,
            _ => self.any_name(),
        };
        self.write(format!("{house} link {object} {field}"));
    }

    /// Unlinks or loads a field of a root.
    pub fn touch_field(&mut self, command: &str) {
        let house = self.any_house();
        let Some(object) = self.own_root(house) else {
            return;
        };
        let fields = self.net.house(house).objects[&object].clone();
        let field = match self.random.pick(&fields).copied() {
            Some(field) if !self.random.percent(5) => field,
            _ if self.random.percent(80) => return,
            _ => self.any_name(),
        };
        self.write(format!("{house} {command} {object} {field}"));
    }

    pub fn drop_root(&mut self) {
        let Some((house, root)) = self.house_with_root() else {
            return;
        };
        let root = if self.random.percent(3) { self.any_name() } else { root };
        self.write(format!("{house} drop {root}"));
    }

    pub fn ask(&mut self) {
        let Some((house, root)) = self.house_with_root() else {
            return;
        };
        let root = if self.random.percent(3) { self.any_name() } else { root };
        let to = self.any_house();
        self.write(format!("{house} ask {root} {to}"));
    }

    pub fn hand_on(&mut self) {
        let Some((house, root)) = self.house_with_root() else {
            return;
        };
        let to = self.any_house();
        self.hand(house, root, to);
    }

    /// Asks for a root to be handed on, and lets the messages come, mostly.
    pub fn hand(&mut self, house: HouseId, root: Name, to: HouseId) {
        let mut sent = self.step(format!("{house} ask {root} {to}"));
        while let Some(number) = sent.pop() {
            if self.random.percent(10) {
                return;
            }
            self.has_come(number);
            sent = self.step(format!("deliver {number}"));
        }
    }

    /// Two objects of two houses that refer to each other, mostly without roots in the end.
    pub fn ring(&mut self) {
        let here = self.any_house();
        let Some(there) = self.other_house(here) else {
            return;
        };
        let Some(one) = self.own_root(here).or_else(|| self.make_at(here)) else {
            return;
        };
        let Some(other) = self.make_at(there) else {
            return;
        };
        self.hand(here, one, there);
        self.step(format!("{there} link {other} {one}"));
        self.step(format!("{there} drop {one}"));
        self.hand(there, other, here);
        self.step(format!("{here} link {one} {other}"));
        self.step(format!("{here} drop {other}"));
        for (house, root) in [(here, one), (there, other)] {
            if !self.random.percent(20) {
                self.step(format!("{house} drop {root}"));
            }
        }
    }

    /// Objects in all houses that refer to each other, most of them without roots in the end.
    pub fn lay_out(&mut self) {
        for house in self.net.ids() {
            for _ in 0..self.random.between(1, 2) {
                self.make_at(house);
            }
        }
        self.spread_roots();
        for _ in 0..self.random.between(2, 4) * u64::from(self.net.count()) {
            self.link();
        }
        self.drop_some(80, 10);
        self.hear_all();
        for _ in 0..self.random.below(3) {
            self.ask();
        }
        self.drop_some(100, 60);
        if self.random.percent(50) {
            self.hear_all();
        }
    }

    fn spread_roots(&mut self) {
        for house in self.net.ids() {
            let roots: Vec<Name> =
                self.net.house(house).roots.iter().copied().filter(|root| root.home() == house).collect();
            for root in roots {
                for to in self.net.ids() {
                    if to != house && self.random.percent(60) {
                        self.hand(house, root, to);
                    }
                }
            }
        }
    }

    /// Drops far and own roots, each with a chance in percent.
    pub fn drop_some(&mut self, far: u64, own: u64) {
        for house in self.net.ids() {
            for root in self.net.house(house).roots.clone() {
                let chance = if root.home() == house { own } else { far };
                if self.random.percent(chance) {
                    self.write(format!("{house} drop {root}"));
                }
            }
        }
    }
}
