//! Counts of what scripts have reached.

use crate::house::{House, MOST_LINES, MOST_OBJECTS, MOST_ROOTS};
use crate::message::Message;
use crate::net::{Event, Net, Played};
use crate::view::View;
use std::fmt;

#[derive(Clone, Debug, Default, PartialEq, Eq)]
pub struct Stats {
    pub scripts: u64,
    pub lines: u64,
    pub sent: u64,
    /// Censuses called complete.
    pub completed: u64,
    /// Lines of lists that a sweep removed.
    pub swept: u64,
    /// Objects freed by a collection.
    pub freed: u64,
    /// How often each number of refusal was given.
    pub refused: [u64; 12],
    pub full: Full,
    pub views: Views,
}

/// How often something was asked to be printed.
#[derive(Clone, Debug, Default, PartialEq, Eq)]
pub struct Views {
    pub show: u64,
    pub status: u64,
    pub help: u64,
    /// A status of a house that has come to a round.
    pub in_a_round: u64,
}

impl Views {
    fn note(&mut self, view: View, net: &Net) {
        match view {
            View::Show => self.show += 1,
            View::Help => self.help += 1,
            View::Status => {
                self.status += 1;
                self.in_a_round += u64::from(net.houses.iter().any(|house| !house.survey.rounds.is_empty()));
            }
        }
    }
}

/// How many lines were played while some house had a full table.
#[derive(Clone, Debug, Default, PartialEq, Eq)]
pub struct Full {
    pub roots: u64,
    pub objects: u64,
    pub lines: u64,
}

impl Full {
    fn note(&mut self, net: &Net) {
        let any = |is_full: fn(&House) -> bool| u64::from(net.houses.iter().any(is_full));
        self.roots += any(|house| house.roots.len() == MOST_ROOTS);
        self.objects += any(|house| house.objects.len() == MOST_OBJECTS);
        self.lines += any(|house| house.list.len() == MOST_LINES);
    }
}

impl Stats {
    /// Plays one line and counts what comes of it.
    pub fn play(&mut self, net: &mut Net, line: &[u8]) -> Played {
        let (lines, objects) = sizes(net);
        let played = net.play(line);
        let (lines_left, objects_left) = sizes(net);
        self.lines += 1;
        self.full.note(net);
        if let Some(Event::View(view)) = played.event {
            self.views.note(view, net);
        }
        self.freed += objects.saturating_sub(objects_left);
        if delivers_complete(net, &played) {
            self.swept += lines - lines_left;
        }
        for outcome in &played.outcomes {
            match outcome {
                Err(refusal) => self.refused[refusal.number()] += 1,
                Ok(sent) => {
                    self.sent += sent.len() as u64;
                    self.completed +=
                        sent.iter().filter(|(_, message)| matches!(message, Message::Complete { .. })).count() as u64;
                }
            }
        }
        played
    }

    /// The numbers of refusal that were never given.
    pub fn unreached(&self) -> Vec<usize> {
        (1..=11).filter(|number| self.refused[*number] == 0).collect()
    }

    /// What else was never met, by name.
    pub fn unmet(&self) -> Vec<&'static str> {
        let met = [
            ("a completed census", self.completed),
            ("a swept line", self.swept),
            ("a freed object", self.freed),
            ("256 roots", self.full.roots),
            ("1024 objects", self.full.objects),
            ("2048 lines", self.full.lines),
            ("a line show", self.views.show),
            ("a line status", self.views.status),
            ("a line help", self.views.help),
            ("a status in a round", self.views.in_a_round),
        ];
        met.into_iter().filter(|(_, count)| *count == 0).map(|(name, _)| name).collect()
    }
}

fn sizes(net: &Net) -> (u64, u64) {
    let lines = net.houses.iter().map(|house| house.list.len() as u64).sum();
    let objects = net.houses.iter().map(|house| house.objects.len() as u64).sum();
    (lines, objects)
}

fn delivers_complete(net: &Net, played: &Played) -> bool {
    use crate::call::Input;
    match &played.event {
        Some(Event::Deliver(_, number)) => matches!(net.message(*number), Some(Message::Complete { .. })),
        Some(Event::At(_, Input::Got(bytes))) => bytes.first() == Some(&8),
        _ => false,
    }
}

impl fmt::Display for Stats {
    fn fmt(&self, out: &mut fmt::Formatter) -> fmt::Result {
        write!(out, "scripts {} lines {} messages {}", self.scripts, self.lines, self.sent)?;
        write!(out, " completed {} swept {} freed {}", self.completed, self.swept, self.freed)?;
        let Full { roots, objects, lines } = &self.full;
        write!(out, " full: roots {roots} objects {objects} lines {lines};")?;
        let Views { show, status, help, in_a_round } = &self.views;
        write!(out, " shown: show {show} status {status} (in a round {in_a_round}) help {help}; numbers")?;
        (1..=11).try_for_each(|number| write!(out, " {number}:{}", self.refused[number]))
    }
}
