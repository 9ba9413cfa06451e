//! The small beginnings from which all runs are tried.

use crate::names::{HouseId, Name};
use crate::net::Net;

/// A beginning, and the bounds within which it goes on.
#[derive(Clone, Debug)]
pub struct Setting {
    pub name: &'static str,
    houses: u8,
    /// The houses of a chain of objects, each with the next in a field.
    chain: &'static [u8],
    /// Whether the last of the chain has the first in a field.
    ring: bool,
    /// The house that has the one root, to the first of the chain; none if there is no root.
    root: Option<u8>,
    /// Whether that house has asked for the object once more, and the ask is still on its way.
    late_ask: bool,
    /// How many censuses were taken before.
    before: u32,
    pub all_join: bool,
    /// Whether programs hand on and drop, and words are sent.
    pub programs: bool,
    pub replies_at_once: bool,
    pub rounds: usize,
    /// The highest stamp that is given.
    pub gives: u32,
}

const QUIET: Setting = Setting {
    name: "quiet chain",
    houses: 2,
    chain: &[0, 1, 0, 1],
    ring: false,
    root: Some(0),
    late_ask: false,
    before: 0,
    all_join: true,
    programs: false,
    replies_at_once: false,
    rounds: 3,
    gives: 0,
};

pub const SETTINGS: [Setting; 7] = [
    QUIET,
    Setting {
        name: "quiet ring held elsewhere",
        houses: 3,
        chain: &[0, 1],
        ring: true,
        root: Some(2),
        replies_at_once: true,
        ..QUIET
    },
    Setting { name: "a census after another", chain: &[0, 1, 0], before: 1, ..QUIET },
    Setting {
        name: "handed on",
        chain: &[1, 0],
        root: Some(1),
        programs: true,
        all_join: false,
        replies_at_once: true,
        gives: 1,
        ..QUIET
    },
    Setting {
        name: "ring let go",
        chain: &[0, 1],
        ring: true,
        programs: true,
        all_join: false,
        replies_at_once: true,
        rounds: 2,
        gives: 2,
        ..QUIET
    },
    Setting {
        name: "late ask",
        chain: &[1, 0],
        late_ask: true,
        programs: true,
        replies_at_once: true,
        rounds: 2,
        gives: 2,
        ..QUIET
    },
    Setting {
        name: "late ask in three houses",
        houses: 3,
        chain: &[1, 0],
        root: Some(2),
        late_ask: true,
        programs: true,
        all_join: false,
        replies_at_once: true,
        rounds: 2,
        gives: 2,
        ..QUIET
    },
];

impl Setting {
    /// The census that is taken: the one after those before.
    pub fn census(&self) -> u32 {
        self.before + 1
    }

    /// The net as it is at the beginning, all words heard.
    pub fn start(&self) -> Net {
        self.begin().0
    }

    /// The lines that lead to the beginning.
    pub fn lines(&self) -> Vec<String> {
        self.begin().1
    }

    fn begin(&self) -> (Net, Vec<String>) {
        let mut layout = Layout { net: Net::new(self.houses), lines: Vec::new() };
        for census in 1..=self.before {
            layout.take_census(census);
        }
        let names: Vec<Name> =
            self.chain.iter().zip(1..).map(|(home, number)| layout.make(HouseId(*home), number)).collect();
        for pair in names.windows(2) {
            layout.refer(pair[0], pair[1]);
        }
        if self.ring {
            layout.refer(names[names.len() - 1], names[0]);
        }
        layout.root(names[0], self.root.map(HouseId), self.late_ask);
        layout.hear_all();
        (layout.net, layout.lines)
    }
}

struct Layout {
    net: Net,
    lines: Vec<String>,
}

impl Layout {
    /// Plays a line, and delivers what it sends if `at_once`.
    fn play(&mut self, line: String, at_once: bool) {
        let before = self.net.sent.len();
        self.net.play(line.as_bytes());
        self.lines.push(line);
        for number in before + 1..=self.net.sent.len() {
            if at_once {
                self.play(format!("deliver {number}"), true);
            }
        }
    }

    /// A census of nothing, with all its messages.
    fn take_census(&mut self, census: u32) {
        for house in self.net.ids() {
            self.play(format!("{house} join {census}"), false);
        }
        for _ in 0..2 {
            self.play("0 round".to_string(), true);
        }
    }

    fn make(&mut self, home: HouseId, number: u64) -> Name {
        self.play(format!("{home} make {number}"), false);
        Name::made(number, home).expect("a small number")
    }

    fn refer(&mut self, object: Name, field: Name) {
        let home = object.home();
        self.play(format!("{} ask {field} {home}", field.home()), true);
        self.play(format!("{home} link {object} {field}"), false);
        self.play(format!("{home} drop {field}"), false);
    }

    /// Leaves one root, or none.
    fn root(&mut self, object: Name, holder: Option<HouseId>, late_ask: bool) {
        if let Some(house) = holder.filter(|house| *house != object.home()) {
            self.play(format!("{} ask {object} {house}", object.home()), true);
        }
        if let Some(house) = holder.filter(|_| late_ask) {
            self.play(format!("{house} ask {object} {house}"), false);
        }
        for house in self.net.houses.clone() {
            for root in house.roots.iter().filter(|root| Some(house.me) != holder || **root != object) {
                self.play(format!("{} drop {root}", house.me), false);
            }
        }
    }

    fn hear_all(&mut self) {
        for house in self.net.ids() {
            for to in self.net.ids().filter(|to| *to != house) {
                self.play(format!("{house} word {to}"), true);
            }
        }
    }
}
