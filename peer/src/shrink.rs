//! Makes a script that shows something smaller, while it still shows it.

use crate::generator::Script;
use crate::names::HouseId;
use crate::net::{Event, Net};
use std::collections::BTreeMap;
use std::time::{Duration, Instant};

/// One line of the script that is made smaller.
enum Piece {
    Plain(Vec<u8>),
    /// Delivers the message that the piece `source` sent as its `offset`-th, whatever its number.
    Delivery {
        at: Option<HouseId>,
        source: usize,
        offset: usize,
    },
}

/// Longer than this is not spent on one script.
const PATIENCE: Duration = Duration::from_secs(60);

/// Deletes lines, in ever smaller pieces, as long as `shows` stays true of what is left.
pub fn shrink(script: &Script, mut shows: impl FnMut(&Script) -> bool) -> Script {
    let pieces = cut(script);
    let begun = Instant::now();
    let mut kept: Vec<usize> = (0..pieces.len()).collect();
    let mut size = kept.len().div_ceil(2).max(1);
    loop {
        let before = kept.len();
        let try_without = |kept: &[usize]| begun.elapsed() < PATIENCE && shows(&join(script.houses, &pieces, kept));
        kept = pass(kept, size, try_without);
        if size > 1 {
            size = size.div_ceil(2);
        } else if kept.len() == before {
            return join(script.houses, &pieces, &kept);
        }
    }
}

/// Tries once to do without each run of `size` pieces, the last ones first.
fn pass(mut kept: Vec<usize>, size: usize, mut shows: impl FnMut(&[usize]) -> bool) -> Vec<usize> {
    let mut end = kept.len();
    while end > 0 {
        let start = end.saturating_sub(size);
        let fewer = [&kept[..start], &kept[end..]].concat();
        if shows(&fewer) {
            kept = fewer;
        }
        end = start;
    }
    kept
}

fn cut(script: &Script) -> Vec<Piece> {
    let mut net = Net::new(script.houses);
    let mut origins = Vec::new();
    let mut pieces = Vec::new();
    for (source, line) in script.lines.iter().enumerate() {
        let piece = match net_delivery(line, script.houses, &origins) {
            Some((at, (source, offset))) => Piece::Delivery { at, source, offset },
            None => Piece::Plain(line.clone()),
        };
        pieces.push(piece);
        let sent_before = net.sent.len();
        net.play(line);
        origins.extend((0..net.sent.len() - sent_before).map(|offset| (source, offset)));
    }
    pieces
}

/// Where the line delivers to, and which piece sent what it delivers.
fn net_delivery(line: &[u8], houses: u8, origins: &[(usize, usize)]) -> Option<(Option<HouseId>, (usize, usize))> {
    let Event::Deliver(at, number) = Event::parse(line, houses)?.ok()? else {
        return None;
    };
    let place = usize::try_from(number).ok()?.checked_sub(1)?;
    Some((at, *origins.get(place)?))
}

/// The script of some of the pieces, with the numbers that messages get in it. A delivery of what
/// is not sent any more is left out.
fn join(houses: u8, pieces: &[Piece], kept: &[usize]) -> Script {
    let mut net = Net::new(houses);
    let mut numbers = BTreeMap::new();
    let mut lines = Vec::new();
    for place in kept {
        let line = match &pieces[*place] {
            Piece::Plain(line) => line.clone(),
            Piece::Delivery { at, source, offset } => match numbers.get(&(*source, *offset)) {
                None => continue,
                Some(number) => delivery_line(*at, *number),
            },
        };
        let sent_before = net.sent.len();
        net.play(&line);
        numbers.extend((sent_before..net.sent.len()).enumerate().map(|(offset, sent)| ((*place, offset), sent + 1)));
        lines.push(line);
    }
    Script { houses, lines }
}

fn delivery_line(at: Option<HouseId>, number: usize) -> Vec<u8> {
    match at {
        Some(house) => format!("{house} deliver {number}").into_bytes(),
        None => format!("deliver {number}").into_bytes(),
    }
}
