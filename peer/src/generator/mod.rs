//! Scripts made from a seed. A writer plays each line on the model as it writes it, so that most
//! lines mean something in the state that they meet.

mod collector;
mod floods;
mod forgeries;
mod mood;
mod network;
mod oddities;
mod programs;
mod skirmish;
mod writer;

use crate::random::Random;
pub use mood::Flood;
use mood::Mood;
use writer::Writer;

/// Lines for a rehearsal of some houses.
#[derive(Clone, Debug, PartialEq, Eq)]
pub struct Script {
    pub houses: u8,
    pub lines: Vec<Vec<u8>>,
}

impl Script {
    /// The lines as one input.
    pub fn text(&self) -> Vec<u8> {
        self.lines.iter().flat_map(|line| [line.as_slice(), b"\n"].concat()).collect()
    }
}

/// The script of this seed for up to `most` houses. An honest one delivers only what was sent.
pub fn script(seed: u64, honest: bool, most: u8) -> Script {
    written(seed, honest, most, None)
}

/// The same, with this table filled at the beginning.
pub fn flooded_script(seed: u64, honest: bool, most: u8, flood: Flood) -> Script {
    written(seed, honest, most, Some(flood))
}

/// A script of so many lines for this many houses, with a table filled at the beginning.
pub fn long_script(seed: u64, houses: u8, length: usize, flood: Flood) -> Script {
    let mut random = Random::new(seed);
    let mut mood = Mood::random(&mut random, true);
    mood.flood = flood;
    finished(Writer::new(random, houses, mood), length)
}

fn written(seed: u64, honest: bool, most: u8, flood: Option<Flood>) -> Script {
    let mut random = Random::new(seed);
    let length = length(&mut random);
    let mut mood = Mood::random(&mut random, honest);
    mood.flood = flood.unwrap_or(mood.flood);
    let houses = houses(&mut random, &mood, most);
    finished(Writer::new(random, houses, mood), length)
}

fn finished(mut writer: Writer, length: usize) -> Script {
    writer.begin(length);
    while writer.lines.len() < length {
        writer.go_on();
    }
    for last in ["show", "status", "settle", "show", "status"] {
        writer.write(last);
    }
    Script { houses: writer.net.count(), lines: writer.lines }
}

fn houses(random: &mut Random, mood: &Mood, most: u8) -> u8 {
    let wanted = match random.below(20) {
        _ if mood.flood == Flood::Lines => 4,
        0 => 1,
        1..=8 => 2,
        9..=15 => 3,
        16..=18 => 4,
        _ => random.between(1, 16),
    };
    wanted.min(u64::from(most)) as u8
}

fn length(random: &mut Random) -> usize {
    let length = match random.below(100) {
        0..=34 => random.between(20, 60),
        35..=84 => random.between(60, 250),
        85..=98 => random.between(250, 1000),
        _ => random.between(1000, 4000),
    };
    length as usize
}
