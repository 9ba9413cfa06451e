//! One house, as plain collections.

mod arrivals;
mod calls;
mod reach;
mod survey;

use crate::call::Input;
use crate::message::Message;
use crate::names::{HouseId, Name};
use crate::refusal::Refusal;
use std::collections::{BTreeMap, BTreeSet};
pub use survey::Survey;

pub const MOST_OBJECTS: usize = 1024;
pub const MOST_FIELDS: usize = 8;
pub const MOST_ROOTS: usize = 256;
pub const MOST_LINES: usize = 2048;

/// The messages that a step sends, or why it changed nothing.
pub type Answer = Result<Vec<Message>, Refusal>;

/// What the list says of one object and one holder.
#[derive(Clone, Debug, PartialEq, Eq, Hash)]
pub struct Line {
    /// Lines are shown by age: the count of lines entered before this one.
    pub age: u64,
    pub stamp: u32,
    pub census: u32,
}

/// How far the handing of references to and from one other house has come.
#[derive(Clone, Debug, Default, PartialEq, Eq, Hash)]
pub struct Stamps {
    pub given: u32,
    pub seen: u32,
    pub heard: u32,
}

#[derive(Clone, Debug, PartialEq, Eq, Hash)]
pub struct House {
    pub me: HouseId,
    pub houses: u8,
    pub objects: BTreeMap<Name, Vec<Name>>,
    pub roots: BTreeSet<Name>,
    pub list: BTreeMap<(Name, HouseId), Line>,
    pub stamps: BTreeMap<HouseId, Stamps>,
    pub made: u32,
    pub census: u32,
    /// What has come of the present census.
    pub survey: Survey,
    entered: u64,
}

impl House {
    pub fn new(me: HouseId, houses: u8) -> House {
        House {
            me,
            houses,
            objects: BTreeMap::new(),
            roots: BTreeSet::new(),
            list: BTreeMap::new(),
            stamps: BTreeMap::new(),
            made: 0,
            census: 0,
            survey: Survey::default(),
            entered: 0,
        }
    }

    /// Does a call, or takes the bytes of a message that came.
    pub fn perform(&mut self, input: &Input) -> Answer {
        match input {
            Input::Make(number) => self.make(*number),
            Input::Link(object, field) => self.link(*object, *field),
            Input::Unlink(object, field) => self.unlink(*object, *field),
            Input::Load(object, field) => self.load(*object, *field),
            Input::Drop(object) => self.drop_root(*object),
            Input::Ask(object, to) => self.ask(*object, *to),
            Input::Collect => self.collect(),
            Input::Word(to) => self.word(*to),
            Input::Join(census) => self.join_by_call(*census),
            Input::Tell => self.tell(),
            Input::Round => self.begin_round(),
            Input::Got(bytes) => {
                let message = Message::decode(bytes, self.houses).ok_or(Refusal::Malformed)?;
                self.arrive(&message)
            }
        }
    }

    /// What is known of the stamps between this house and another.
    pub fn stamps_of(&self, other: HouseId) -> Stamps {
        self.stamps.get(&other).cloned().unwrap_or_default()
    }

    /// The lines as (object, holder, line), oldest first.
    pub fn lines_by_age(&self) -> Vec<(Name, HouseId, &Line)> {
        let mut lines: Vec<_> = self.list.iter().map(|((object, holder), line)| (*object, *holder, line)).collect();
        lines.sort_by_key(|(_, _, line)| line.age);
        lines
    }

    fn stamps_mut(&mut self, other: HouseId) -> &mut Stamps {
        self.stamps.entry(other).or_default()
    }

    fn has_room_for_root(&self, name: Name) -> bool {
        self.roots.contains(&name) || self.roots.len() < MOST_ROOTS
    }
}
