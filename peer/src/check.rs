//! The promise, tested after every line of a script.

use crate::call::Input;
use crate::generator::Script;
use crate::house::House;
use crate::message::Message;
use crate::net::{Event, Net, Played};
use crate::promise::{Matters, Watch};
use crate::settle::settle;
use crate::shrink::shrink;
use crate::stats::Stats;

/// Where and how the promise was first broken. Lines are counted from 1.
#[derive(Clone, Debug)]
pub struct Violation {
    pub line: usize,
    pub what: String,
}

/// A script's houses so far, and what matters in them.
struct Run {
    net: Net,
    watch: Watch,
    matters: Matters,
}

/// Plays the script and tests the promise after every line, and at the end that the collector
/// leaves exactly what matters. A message that was never sent ends the test, as nothing is
/// promised after it.
pub fn check(script: &Script, stats: &mut Stats) -> Result<(), Violation> {
    let mut run = Run { net: Net::new(script.houses), watch: Watch::default(), matters: Matters::new() };
    stats.scripts += 1;
    let often = script.lines.len() <= 300;
    for (place, line) in script.lines.iter().enumerate() {
        let violation = |what| Violation { line: place + 1, what };
        if run.is_forged(line) {
            return Ok(());
        }
        let before = often.then(|| run.net.houses.clone());
        let played = stats.play(&mut run.net, line);
        if let Some(houses) = before {
            unchanged_if_refused(&played, &houses, &run.net.houses).map_err(violation)?;
        }
        run.test(&played).map_err(violation)?;
        if often && place % 50 == 49 {
            run.test_settling().map_err(violation)?;
        }
    }
    run.test_settling().map_err(|what| Violation { line: script.lines.len(), what })
}

fn unchanged_if_refused(played: &Played, before: &[House], after: &[House]) -> Result<(), String> {
    let refused = played.outcomes.iter().all(|outcome| outcome.is_err());
    if refused && before != after {
        return Err("a refusal changed something".to_string());
    }
    Ok(())
}

impl Run {
    /// Whether the line brings a message that was never sent.
    fn is_forged(&self, line: &[u8]) -> bool {
        let Some(Ok(Event::At(_, Input::Got(bytes)))) = Event::parse(line, self.net.count()) else {
            return false;
        };
        Message::decode(&bytes, self.net.count()).is_some_and(|message| !self.net.sent.contains(&message))
    }

    fn test(&mut self, played: &Played) -> Result<(), String> {
        let matters = self.watch.matters(&self.net);
        if let Some(what) = self.watch.broken(&self.net, &matters) {
            return Err(what);
        }
        if is_collectors(&self.net, played) && matters != self.matters {
            return Err("a step of the collector changed what matters".to_string());
        }
        self.matters = matters;
        Ok(())
    }

    fn test_settling(&self) -> Result<(), String> {
        let mut net = self.net.clone();
        let Some(settled) = settle(&mut net) else {
            return Ok(());
        };
        settled?;
        let mut watch = self.watch.clone();
        let matters = watch.matters(&net);
        if let Some(what) = watch.broken(&net, &matters) {
            return Err(format!("after settling, {what}"));
        }
        if matters != self.matters {
            return Err("settling changed what matters".to_string());
        }
        for house in &net.houses {
            for object in house.objects.keys() {
                if !matters.iter().any(|(_, mattering)| mattering == object) {
                    return Err(format!("{object} does not matter and is left after settling"));
                }
            }
        }
        Ok(())
    }
}

/// Whether what was played is a call or a message of the collector.
fn is_collectors(net: &Net, played: &Played) -> bool {
    let programs = |message: &Message| matches!(message, Message::Ask { .. } | Message::Give { .. });
    match &played.event {
        None | Some(Event::View(_) | Event::Settle) => true,
        Some(Event::Deliver(_, number)) => !net.message(*number).is_some_and(programs),
        Some(Event::At(_, Input::Got(bytes))) => !Message::decode(bytes, net.count()).as_ref().is_some_and(programs),
        Some(Event::At(_, input)) => {
            matches!(input, Input::Collect | Input::Word(_) | Input::Join(_) | Input::Tell | Input::Round)
        }
    }
}

/// Prints a script that breaks the promise, made as small as it can be.
pub fn print_shrunk(script: &Script) {
    let fails = |script: &Script| check(script, &mut Stats::default()).is_err();
    let small = shrink(script, fails);
    println!("houses {}", small.houses);
    print!("{}", String::from_utf8_lossy(&small.text()));
    if let Err(violation) = check(&small, &mut Stats::default()) {
        println!("# line {}: {}", violation.line, violation.what);
    }
}
