//! A house's part in a census, and house 0's rounds.

use super::{Answer, House};
use crate::message::Message;
use crate::names::{HouseId, Name};
use crate::refusal::{require, Refusal};
use std::collections::{BTreeMap, BTreeSet};

/// What one house said to a round: whether it is calm, and its tally.
type Said = (bool, u32);

/// All that begins anew with each census.
#[derive(Clone, Debug, Default, PartialEq, Eq, Hash)]
pub struct Survey {
    /// Told, and no answer yet.
    pub unanswered: BTreeSet<Name>,
    pub answered: BTreeSet<Name>,
    pub tally: u32,
    polled: bool,
    stirred: bool,
    /// House 0: who said what to each round so far, the present one last.
    pub rounds: Vec<BTreeMap<HouseId, Said>>,
}

impl Survey {
    pub(super) fn note_taking(&mut self) {
        self.stirred |= self.polled;
    }

    /// Whether all replies to the last round are calm so far, and the same as those to the one before.
    pub fn is_promising(&self) -> bool {
        let mut latest = self.rounds.iter().rev();
        let (Some(present), before) = (latest.next(), latest.next()) else {
            return false;
        };
        let as_before =
            |(house, said)| before.is_none_or(|before: &BTreeMap<HouseId, Said>| before.get(house) == Some(said));
        present.values().all(|(calm, _)| *calm) && present.iter().all(as_before)
    }

    /// Whether the last two rounds have the same calm replies of all houses.
    fn agrees(&self, houses: u8) -> bool {
        let mut latest = self.rounds.iter().rev();
        let (Some(present), Some(before)) = (latest.next(), latest.next()) else {
            return false;
        };
        present.len() == usize::from(houses) && present == before && present.values().all(|(calm, _)| *calm)
    }
}

impl House {
    pub(super) fn join_by_call(&mut self, census: u64) -> Answer {
        let census = u32::try_from(census).map_err(|_| Refusal::OutOfNumbers)?;
        require(census > self.census, Refusal::OutOfNumbers)?;
        self.join(census);
        Ok(Vec::new())
    }

    fn join(&mut self, census: u32) {
        self.census = census;
        self.survey = Survey::default();
        for ((_, holder), line) in &mut self.list {
            let heard = self.stamps.get(holder).map_or(0, |stamps| stamps.heard);
            if line.stamp > heard {
                line.census = census;
            }
        }
    }

    /// Turns away what is of a census before the house's own, and joins one after it.
    fn keep_up(&mut self, census: u32) -> Result<(), Refusal> {
        require(census >= self.census, Refusal::OtherCensus)?;
        if census > self.census {
            self.join(census);
        }
        Ok(())
    }

    pub(super) fn tell(&mut self) -> Answer {
        let in_use = self.far_in_use();
        let due = in_use.difference(&self.survey.answered).copied();
        self.survey.unanswered.extend(due);
        let telling = |object: &Name| Message::Telling { census: self.census, object: *object, from: self.me };
        Ok(self.survey.unanswered.iter().map(telling).collect())
    }

    pub fn is_calm(&self) -> bool {
        self.survey.unanswered.is_empty() && self.far_in_use().is_subset(&self.survey.answered)
    }

    pub(super) fn mark(&mut self, census: u32, object: Name, from: HouseId) -> Answer {
        self.keep_up(census)?;
        if let Some(line) = self.list.get_mut(&(object, from)) {
            if line.census != census {
                line.census = census;
                self.survey.tally += 1;
            }
        }
        Ok(vec![Message::Answer { census, object, from }])
    }

    pub(super) fn answered(&mut self, census: u32, object: Name) -> Answer {
        require(census == self.census, Refusal::OtherCensus)?;
        if self.survey.unanswered.remove(&object) {
            self.survey.answered.insert(object);
        }
        Ok(Vec::new())
    }

    pub(super) fn begin_round(&mut self) -> Answer {
        require(self.me == HouseId(0), Refusal::WrongHouse)?;
        let open = self.survey.rounds.last().is_some_and(|said| said.len() < usize::from(self.houses));
        if !open {
            require((self.survey.rounds.len() as u64) < u64::from(u32::MAX), Refusal::OutOfNumbers)?;
            self.survey.rounds.push(BTreeMap::new());
        }
        Ok(vec![Message::Round { census: self.census, round: self.survey.rounds.len() as u32 }])
    }

    pub(super) fn answer_round(&mut self, census: u32, round: u32) -> Answer {
        self.keep_up(census)?;
        self.survey.polled |= round == 1;
        let calm = self.is_calm() && !(round == 2 && self.survey.stirred);
        Ok(vec![Message::Reply { census, round, from: self.me, calm, tally: self.survey.tally }])
    }

    pub(super) fn note_reply(&mut self, census: u32, round: u32, from: HouseId, said: Said) -> Answer {
        require(census == self.census, Refusal::OtherCensus)?;
        let is_present = round as usize == self.survey.rounds.len();
        let Some(replies) = self.survey.rounds.last_mut().filter(|_| is_present) else {
            return Ok(Vec::new());
        };
        if replies.contains_key(&from) {
            return Ok(Vec::new());
        }
        replies.insert(from, said);
        let complete = self.survey.agrees(self.houses);
        Ok(complete.then_some(Message::Complete { census }).into_iter().collect())
    }
}
