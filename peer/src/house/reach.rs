//! What is met from some names, going through the fields of own objects.

use super::House;
use crate::names::Name;
use std::collections::BTreeSet;

impl House {
    /// Met from the roots and from everything that is listed.
    pub fn kept(&self) -> BTreeSet<Name> {
        self.met(|_| true)
    }

    /// Met from the roots and from what is listed with this house's census.
    pub fn in_use(&self) -> BTreeSet<Name> {
        self.met(|census| census == self.census)
    }

    /// The references in use whose objects live elsewhere.
    pub fn far_in_use(&self) -> BTreeSet<Name> {
        self.in_use().into_iter().filter(|name| name.home() != self.me).collect()
    }

    fn met(&self, counts: impl Fn(u32) -> bool) -> BTreeSet<Name> {
        let mut met = BTreeSet::new();
        for name in &self.roots {
            self.visit(*name, &mut met);
        }
        for ((object, _), line) in &self.list {
            if counts(line.census) {
                self.visit(*object, &mut met);
            }
        }
        met
    }

    fn visit(&self, name: Name, met: &mut BTreeSet<Name>) {
        if met.insert(name) {
            for field in self.objects.get(&name).into_iter().flatten() {
                self.visit(*field, met);
            }
        }
    }
}
