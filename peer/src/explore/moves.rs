//! What can be done in a state.

use super::settings::Setting;
use crate::message::Message;
use crate::names::{HouseId, Name};
use crate::net::Net;
use std::collections::BTreeSet;

#[derive(Clone, Copy, Debug)]
pub enum Move {
    Join(HouseId),
    Round,
    Tell(HouseId),
    Drop(HouseId, Name),
    /// Asks for a root to be handed on, with both messages coming at once.
    Hand(HouseId, Name, HouseId),
    /// Sends a word, which is heard at once.
    Word(HouseId, HouseId),
    Deliver(HouseId, usize),
}

/// The moves in a state, within the setting's bounds.
pub fn moves(setting: &Setting, net: &Net) -> Vec<Move> {
    let mut moves = deliveries(setting, net);
    let census = setting.census();
    let joiners = net.ids().filter(|house| setting.all_join || house.0 == 0);
    moves.extend(joiners.filter(|house| net.house(*house).census < census).map(Move::Join));
    if net.houses[0].census == census && may_ask(setting, net) {
        moves.push(Move::Round);
    }
    moves.extend(net.ids().filter(|house| net.house(*house).census == census).map(Move::Tell));
    if setting.programs {
        moves.extend(program_moves(setting, net));
    }
    moves
}

fn may_ask(setting: &Setting, net: &Net) -> bool {
    let rounds = &net.houses[0].survey.rounds;
    let open = rounds.last().is_some_and(|said| said.len() < net.houses.len());
    !open && rounds.len() < setting.rounds
}

/// Each message once, wherever it is for. What comes in one piece with its sending is left out.
fn deliveries(setting: &Setting, net: &Net) -> Vec<Move> {
    let mut seen = BTreeSet::new();
    let mut moves = Vec::new();
    for (place, message) in net.sent.iter().enumerate() {
        let at_once = match message {
            Message::Word { .. } => true,
            Message::Reply { .. } => setting.replies_at_once,
            Message::Ask { object, to, .. } => net.house(object.home()).stamps_of(*to).given >= setting.gives,
            _ => false,
        };
        if !at_once && seen.insert(message) {
            moves.extend(net.targets(message).into_iter().map(|house| Move::Deliver(house, place + 1)));
        }
    }
    moves
}

fn program_moves(setting: &Setting, net: &Net) -> Vec<Move> {
    let mut moves = Vec::new();
    for house in &net.houses {
        for root in &house.roots {
            moves.push(Move::Drop(house.me, *root));
            let room = |to: &HouseId| *to != house.me && net.house(root.home()).stamps_of(*to).given < setting.gives;
            moves.extend(net.ids().filter(room).map(|to| Move::Hand(house.me, *root, to)));
        }
        moves.extend(net.ids().filter(|to| *to != house.me).map(|to| Move::Word(house.me, to)));
    }
    moves
}

/// Plays a move; the lines that it takes.
pub fn play(setting: &Setting, net: &mut Net, by: Move) -> Vec<String> {
    let follow = match by {
        Move::Hand(..) | Move::Word(..) => |_: &Message| true,
        _ if setting.replies_at_once => |message: &Message| matches!(message, Message::Reply { .. }),
        _ => |_: &Message| false,
    };
    let mut lines = vec![line(setting, by)];
    let mut played = 0;
    while played < lines.len() {
        let before = net.sent.len();
        net.play(lines[played].as_bytes());
        let sent = net.sent[before..].iter().enumerate().filter(|(_, message)| follow(message));
        lines.extend(sent.map(|(place, _)| format!("deliver {}", before + place + 1)));
        played += 1;
    }
    lines
}

fn line(setting: &Setting, by: Move) -> String {
    match by {
        Move::Join(house) => format!("{house} join {}", setting.census()),
        Move::Round => "0 round".to_string(),
        Move::Tell(house) => format!("{house} tell"),
        Move::Drop(house, root) => format!("{house} drop {root}"),
        Move::Hand(house, root, to) => format!("{house} ask {root} {to}"),
        Move::Word(house, to) => format!("{house} word {to}"),
        Move::Deliver(house, number) => format!("{house} deliver {number}"),
    }
}
