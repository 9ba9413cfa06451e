//! The proved code, from its static library.

use crate::message::Message;
use crate::refusal::Refusal;

/// What bytes say, as the library lays it out: the number of a refusal, or 0 and the parts of a
/// message, with 0 for each part that it does not have.
#[repr(C)]
#[derive(Clone, Copy, Debug, Default, PartialEq, Eq)]
pub struct Said {
    pub refusal: u8,
    pub kind: u8,
    pub by: u8,
    pub from: u8,
    pub to: u8,
    pub calm: bool,
    pub count: u16,
    pub object: u32,
    pub stamp: u32,
    pub census: u32,
    pub round: u32,
    pub tally: u32,
}

extern "C" {
    fn exports_read(bytes: *const u8, length: usize, houses: u8) -> Said;
}

/// What the proved reader makes of these bytes.
pub fn read(bytes: &[u8], houses: u8) -> Said {
    // a slice crosses as its pointer and its length; the reader only reads it
    unsafe { exports_read(bytes.as_ptr(), bytes.len(), houses) }
}

impl Said {
    /// What the model's reader makes of these bytes.
    pub fn by_model(bytes: &[u8], houses: u8) -> Said {
        match Message::decode(bytes, houses) {
            None => Said { refusal: Refusal::Malformed.number() as u8, ..Said::default() },
            Some(message) => Said::of(&message),
        }
    }

    fn of(message: &Message) -> Said {
        let none = Said::default();
        match message {
            Message::Ask { object, by, to } => Said { kind: 1, object: object.0, by: by.0, to: to.0, ..none },
            Message::Give { object, to, stamp } => Said { kind: 2, object: object.0, to: to.0, stamp: *stamp, ..none },
            Message::Word { from, to, stamp, objects } => {
                Said { kind: 3, from: from.0, to: to.0, stamp: *stamp, count: objects.len() as u16, ..none }
            }
            Message::Telling { census, object, from } => {
                Said { kind: 4, census: *census, object: object.0, from: from.0, ..none }
            }
            Message::Answer { census, object, from } => {
                Said { kind: 5, census: *census, object: object.0, from: from.0, ..none }
            }
            Message::Round { census, round } => Said { kind: 6, census: *census, round: *round, ..none },
            Message::Reply { census, round, from, calm, tally } => {
                Said { kind: 7, census: *census, round: *round, from: from.0, calm: *calm, tally: *tally, ..none }
            }
            Message::Complete { census } => Said { kind: 8, census: *census, ..none },
        }
    }
}
