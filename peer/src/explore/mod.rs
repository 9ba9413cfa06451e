//! The runs from a small beginning, within bounds, no state twice.
//!
//! Scripts from seeds meet a rare order of messages only by luck. Here each state that can be
//! reached is visited at most once, and the promise is tested in all of them. There may be more
//! states than time, so the next one to go on from is picked at random, from all stages of a
//! census alike: the states of its beginning are many more than those of its end.

mod moves;
mod settings;

use crate::generator::Script;
use crate::message::Message;
use crate::net::Net;
use crate::promise::Watch;
use crate::random::Random;
use moves::{moves, play, Move};
pub use settings::{Setting, SETTINGS};
use std::collections::hash_map::DefaultHasher;
use std::collections::{BTreeMap, BTreeSet, HashSet};
use std::hash::{Hash, Hasher};

/// What was found.
#[derive(Clone, Debug, Default)]
pub struct Findings {
    pub states: usize,
    /// States in which a census has just been called complete.
    pub completed: usize,
    /// Whether all states within the bounds were visited.
    pub exhausted: bool,
    /// A run that breaks the promise.
    pub violation: Option<Script>,
}

/// How far a census has come: rounds begun, replies to the last, whether all of these were calm and
/// as those before, and whether the census is complete.
type Stage = (usize, usize, bool, bool);

/// A state, by the move that leads to it from another.
struct Node {
    parent: usize,
    by: Option<Move>,
}

struct Search<'a> {
    setting: &'a Setting,
    start: Net,
    nodes: Vec<Node>,
    visited: HashSet<u64>,
    /// States that no move was tried in yet.
    open: BTreeMap<Stage, Vec<usize>>,
    random: Random,
    findings: Findings,
}

/// Visits the states of a setting, at most `most` of them.
pub fn explore(setting: &Setting, most: usize) -> Findings {
    let start = setting.start();
    let mut search = Search {
        setting,
        nodes: Vec::new(),
        visited: HashSet::new(),
        open: BTreeMap::new(),
        random: Random::new(0),
        findings: Findings::default(),
        start,
    };
    search.enter(&search.start.clone(), Node { parent: 0, by: None });
    while let Some(place) = search.pick().filter(|_| search.nodes.len() < most) {
        if !search.expand(place) {
            break;
        }
    }
    search.findings.exhausted = search.open.is_empty() && search.findings.violation.is_none();
    search.findings.states = search.nodes.len();
    search.findings
}

impl Search<'_> {
    /// Takes an open state, each stage being as likely.
    fn pick(&mut self) -> Option<usize> {
        let stages: Vec<Stage> = self.open.keys().copied().collect();
        let stage = self.random.pick(&stages)?;
        let places = self.open.get_mut(stage)?;
        let place = places.swap_remove(self.random.below(places.len() as u64) as usize);
        if places.is_empty() {
            self.open.remove(stage);
        }
        Some(place)
    }

    /// Notes a state, unless it is known.
    fn enter(&mut self, net: &Net, node: Node) -> bool {
        let new = self.visited.insert(fingerprint(net));
        if new {
            self.open.entry(stage(net)).or_default().push(self.nodes.len());
            self.nodes.push(node);
        }
        new
    }

    /// Tries every move in a state; false once the promise is broken.
    fn expand(&mut self, place: usize) -> bool {
        let (net, _) = self.replay(place);
        for next_move in moves(self.setting, &net) {
            let mut after = net.clone();
            play(self.setting, &mut after, next_move);
            let new = self.enter(&after, Node { parent: place, by: Some(next_move) });
            if new && !self.test(&net, &after) {
                return false;
            }
        }
        true
    }

    fn test(&mut self, before: &Net, after: &Net) -> bool {
        let completes = |message: &Message| matches!(message, Message::Complete { .. });
        if after.sent[before.sent.len()..].iter().any(completes) {
            self.findings.completed += 1;
        }
        let mut watch = Watch::default();
        let matters = watch.matters(after);
        if watch.broken(after, &matters).is_none() {
            return true;
        }
        let (_, lines) = self.replay(self.nodes.len() - 1);
        let lines = self.setting.lines().into_iter().chain(lines).map(String::into_bytes).collect();
        self.findings.violation = Some(Script { houses: after.count(), lines });
        false
    }

    /// The state, and the lines that lead to it from the beginning of the setting.
    fn replay(&self, place: usize) -> (Net, Vec<String>) {
        let mut path = Vec::new();
        let mut at = place;
        while let Some(by) = self.nodes[at].by {
            path.push(by);
            at = self.nodes[at].parent;
        }
        let mut net = self.start.clone();
        let mut lines = Vec::new();
        for by in path.into_iter().rev() {
            lines.extend(play(self.setting, &mut net, by));
        }
        (net, lines)
    }
}

fn stage(net: &Net) -> Stage {
    let survey = &net.houses[0].survey;
    let complete = Message::Complete { census: net.houses[0].census };
    let replies = survey.rounds.last().map_or(0, |said| said.len());
    (survey.rounds.len(), replies, survey.is_promising(), net.sent.contains(&complete))
}

/// Two states are the same if their houses are, and the same has been sent, however often.
fn fingerprint(net: &Net) -> u64 {
    let mut hasher = DefaultHasher::new();
    net.houses.hash(&mut hasher);
    net.sent.iter().collect::<BTreeSet<_>>().hash(&mut hasher);
    hasher.finish()
}
