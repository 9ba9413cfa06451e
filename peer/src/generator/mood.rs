//! What a script is like: how often each thing is done in it. Each script leaves some things out
//! altogether, so that the others meet more often.

use crate::random::Random;

#[derive(Clone, Copy, Debug, PartialEq, Eq)]
pub enum Action {
    Make,
    Link,
    Unlink,
    Load,
    Drop,
    Ask,
    HandOn,
    Ring,
    DeliverNew,
    DeliverOld,
    DeliverAstray,
    Collect,
    Word,
    WordHeard,
    Join,
    Tell,
    Round,
    PushCensus,
    WholeCensus,
    Show,
    Garbled,
    AtLimits,
    Got,
}

/// A small step of a census.
#[derive(Clone, Copy, Debug, PartialEq, Eq)]
pub enum Step {
    Deliver,
    Tell,
    Round,
    DeliverStale,
    DeliverAny,
    DeliverOld,
    Move,
    Drop,
    Load,
    WordHeard,
    HandOn,
    Link,
    Unlink,
    Ask,
    DeliverAsk,
}

/// Which of the messages on their way comes next.
#[derive(Clone, Copy, Debug, PartialEq, Eq)]
pub enum Order {
    Any,
    OldestFirst,
    LatestFirst,
}

/// Tables that are filled up at the beginning of a script.
#[derive(Clone, Copy, Debug, PartialEq, Eq)]
pub enum Flood {
    None,
    Fields,
    Roots,
    Objects,
    Lines,
}

#[derive(Clone, Debug)]
pub struct Mood {
    pub honest: bool,
    weights: Vec<(Action, u64)>,
    pub order: Order,
    pub flood: Flood,
    /// Chances in percent: that a message is lost, that one stays on its way after it came, that
    /// something else happens between two steps of a longer undertaking.
    pub loss: u64,
    pub doubling: u64,
    pub disturbance: u64,
    /// That a step of a census is taken before the ones that it should wait for.
    pub haste: u64,
    /// Whether the script is of one census after another, each over objects laid out for it.
    pub skirmishes: bool,
    /// Whether programs do nothing during such a census.
    pub quiet: bool,
    steps: Vec<(Step, u64)>,
    /// No more objects than these are made by the ordinary action.
    pub objects: usize,
}

const USUAL: [(Action, u64); 23] = [
    (Action::Make, 6),
    (Action::Link, 8),
    (Action::Unlink, 3),
    (Action::Load, 3),
    (Action::Drop, 8),
    (Action::Ask, 4),
    (Action::HandOn, 8),
    (Action::Ring, 2),
    (Action::DeliverNew, 16),
    (Action::DeliverOld, 3),
    (Action::DeliverAstray, 1),
    (Action::Collect, 4),
    (Action::Word, 3),
    (Action::WordHeard, 5),
    (Action::Join, 1),
    (Action::Tell, 3),
    (Action::Round, 2),
    (Action::PushCensus, 20),
    (Action::WholeCensus, 1),
    (Action::Show, 1),
    (Action::Garbled, 1),
    (Action::AtLimits, 1),
    (Action::Got, 1),
];

/// The steps of a census with programs at work.
const STEPS: [(Step, u64); 15] = [
    (Step::Deliver, 12),
    (Step::Tell, 5),
    (Step::Round, 5),
    (Step::DeliverStale, 1),
    (Step::DeliverAny, 2),
    (Step::DeliverOld, 1),
    (Step::Move, 3),
    (Step::Drop, 2),
    (Step::Load, 2),
    (Step::WordHeard, 2),
    (Step::HandOn, 2),
    (Step::Link, 1),
    (Step::Unlink, 1),
    (Step::Ask, 1),
    (Step::DeliverAsk, 1),
];

/// How many of these are not the work of programs, and how many are never left out.
const STEPS_OF_CENSUS: usize = 6;
const STEPS_NEEDED: usize = 3;

/// Never left out: without these a script has nothing to work on.
const NEEDED: [Action; 3] = [Action::Make, Action::HandOn, Action::PushCensus];

impl Mood {
    pub fn random(random: &mut Random, honest: bool) -> Mood {
        let quiet = random.percent(30);
        let weights = USUAL.iter().map(|(action, usual)| (*action, usual * factor(random, *action))).collect();
        let order = *random
            .pick(&[Order::Any, Order::Any, Order::Any, Order::Any, Order::OldestFirst, Order::LatestFirst])
            .expect("six orders");
        Mood {
            honest,
            weights,
            order,
            flood: flood(random),
            loss: *random.pick(&[0, 0, 5, 20]).expect("four chances"),
            doubling: *random.pick(&[0, 0, 10, 30]).expect("four chances"),
            disturbance: *random.pick(&[0, 10, 25, 50]).expect("four chances"),
            haste: *random.pick(&[0, 10, 30, 60]).expect("four chances"),
            skirmishes: random.percent(70),
            quiet,
            steps: steps(random, quiet),
            objects: random.between(2, 12) as usize,
        }
    }

    pub fn action(&self, random: &mut Random) -> Action {
        weighted(random, &self.weights).unwrap_or(Action::Show)
    }

    pub fn step(&self, random: &mut Random) -> Step {
        weighted(random, &self.steps).unwrap_or(Step::Deliver)
    }
}

fn weighted<T: Copy>(random: &mut Random, choices: &[(T, u64)]) -> Option<T> {
    let mut left = random.below(choices.iter().map(|(_, weight)| weight).sum());
    for (choice, weight) in choices {
        if left < *weight {
            return Some(*choice);
        }
        left -= weight;
    }
    None
}

fn factor(random: &mut Random, action: Action) -> u64 {
    let factors: &[u64] = if NEEDED.contains(&action) { &[1, 2, 4] } else { &[0, 1, 1, 2, 4] };
    *random.pick(factors).expect("some factors")
}

fn steps(random: &mut Random, quiet: bool) -> Vec<(Step, u64)> {
    let count = if quiet { STEPS_OF_CENSUS } else { STEPS.len() };
    let weight = |random: &mut Random, place: usize| random.below(4) + u64::from(place < STEPS_NEEDED);
    STEPS[..count].iter().enumerate().map(|(place, (step, usual))| (*step, usual * weight(random, place))).collect()
}

fn flood(random: &mut Random) -> Flood {
    match random.below(1000) {
        0..=19 => Flood::Fields,
        20..=39 => Flood::Roots,
        40..=43 => Flood::Objects,
        44..=46 => Flood::Lines,
        _ => Flood::None,
    }
}
