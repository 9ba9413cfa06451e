//! What the programs of a house, and its collector, do by call.

use super::{Answer, House, MOST_FIELDS, MOST_OBJECTS, MOST_ROOTS};
use crate::message::Message;
use crate::names::{HouseId, Name};
use crate::refusal::{require, Refusal};
use std::collections::BTreeSet;

impl House {
    pub(super) fn make(&mut self, number: u64) -> Answer {
        require(number > 0, Refusal::Malformed)?;
        require(self.objects.len() < MOST_OBJECTS && self.roots.len() < MOST_ROOTS, Refusal::NoRoom)?;
        require(number > u64::from(self.made), Refusal::OutOfNumbers)?;
        let name = Name::made(number, self.me).ok_or(Refusal::OutOfNumbers)?;
        self.objects.insert(name, Vec::new());
        self.roots.insert(name);
        self.made = name.number();
        Ok(Vec::new())
    }

    pub(super) fn link(&mut self, object: Name, field: Name) -> Answer {
        require(self.roots.contains(&field), Refusal::NotARoot)?;
        let fields = self.fields_of_root(object)?;
        require(fields.len() < MOST_FIELDS, Refusal::NoRoom)?;
        fields.push(field);
        Ok(Vec::new())
    }

    pub(super) fn unlink(&mut self, object: Name, field: Name) -> Answer {
        let fields = self.fields_of_root(object)?;
        let place = fields.iter().position(|name| *name == field).ok_or(Refusal::NoSuchField)?;
        fields.remove(place);
        Ok(Vec::new())
    }

    pub(super) fn load(&mut self, object: Name, field: Name) -> Answer {
        let found = self.fields_of_root(object)?.contains(&field);
        require(found, Refusal::NoSuchField)?;
        require(self.has_room_for_root(field), Refusal::NoRoom)?;
        self.roots.insert(field);
        Ok(Vec::new())
    }

    pub(super) fn drop_root(&mut self, object: Name) -> Answer {
        require(self.roots.remove(&object), Refusal::NotARoot)?;
        Ok(Vec::new())
    }

    pub(super) fn ask(&mut self, object: Name, to: HouseId) -> Answer {
        require(self.roots.contains(&object), Refusal::NotARoot)?;
        Ok(vec![Message::Ask { object, by: self.me, to }])
    }

    pub(super) fn collect(&mut self) -> Answer {
        let kept = self.kept();
        self.objects.retain(|name, _| kept.contains(name));
        Ok(Vec::new())
    }

    pub(super) fn word(&mut self, to: HouseId) -> Answer {
        require(to != self.me, Refusal::WrongHouse)?;
        let held: BTreeSet<Name> = self.roots.iter().chain(self.objects.values().flatten()).copied().collect();
        let objects = held.into_iter().filter(|name| name.home() == to).collect();
        Ok(vec![Message::Word { from: self.me, to, stamp: self.stamps_of(to).seen, objects }])
    }

    /// The fields of a root that lives here.
    fn fields_of_root(&mut self, object: Name) -> Result<&mut Vec<Name>, Refusal> {
        require(self.roots.contains(&object), Refusal::NotARoot)?;
        self.objects.get_mut(&object).ok_or(Refusal::NotARoot)
    }
}
