//! Messages between houses, and how they are written as bytes.

use crate::names::{HouseId, Name};

#[derive(Clone, Debug, PartialEq, Eq, PartialOrd, Ord, Hash)]
pub enum Message {
    /// `by` asks the object's home to hand it to `to`.
    Ask { object: Name, by: HouseId, to: HouseId },
    /// The object's home hands it to `to`.
    Give { object: Name, to: HouseId, stamp: u32 },
    /// What `from` holds of house `to`, and how far it has taken what `to` handed out.
    Word { from: HouseId, to: HouseId, stamp: u32, objects: Vec<Name> },
    /// The object is in use at `from`.
    Telling { census: u32, object: Name, from: HouseId },
    /// The home has noted that telling.
    Answer { census: u32, object: Name, from: HouseId },
    /// Is every house calm?
    Round { census: u32, round: u32 },
    /// What one house says to a round.
    Reply { census: u32, round: u32, from: HouseId, calm: bool, tally: u32 },
    /// The census has reached everything.
    Complete { census: u32 },
}

/// Where a message is to go.
#[derive(Clone, Copy, Debug, PartialEq, Eq)]
pub enum Recipient {
    One(HouseId),
    Everybody,
}

impl Message {
    pub fn recipient(&self) -> Recipient {
        match self {
            Message::Ask { object, .. } | Message::Telling { object, .. } => Recipient::One(object.home()),
            Message::Give { to, .. } | Message::Word { to, .. } => Recipient::One(*to),
            Message::Answer { from, .. } => Recipient::One(*from),
            Message::Reply { .. } => Recipient::One(HouseId(0)),
            Message::Round { .. } | Message::Complete { .. } => Recipient::Everybody,
        }
    }

    pub fn encode(&self) -> Vec<u8> {
        match self {
            Message::Ask { object, by, to } => [vec![1], four(object.0), vec![by.0, to.0]].concat(),
            Message::Give { object, to, stamp } => [vec![2], four(object.0), vec![to.0], four(*stamp)].concat(),
            Message::Word { from, to, stamp, objects } => {
                let count = (objects.len() as u16).to_be_bytes().to_vec();
                let names = objects.iter().flat_map(|name| four(name.0)).collect();
                [vec![3, from.0, to.0], four(*stamp), count, names].concat()
            }
            Message::Telling { census, object, from } => {
                [vec![4], four(*census), four(object.0), vec![from.0]].concat()
            }
            Message::Answer { census, object, from } => [vec![5], four(*census), four(object.0), vec![from.0]].concat(),
            Message::Round { census, round } => [vec![6], four(*census), four(*round)].concat(),
            Message::Reply { census, round, from, calm, tally } => {
                [vec![7], four(*census), four(*round), vec![from.0, u8::from(*calm)], four(*tally)].concat()
            }
            Message::Complete { census } => [vec![8], four(*census)].concat(),
        }
    }

    /// The message that these bytes are among `houses` houses, if they are one.
    pub fn decode(bytes: &[u8], houses: u8) -> Option<Message> {
        let mut reader = Reader { rest: bytes.iter().copied().collect(), houses };
        let message = reader.message()?;
        reader.rest.is_empty().then_some(message)
    }
}

fn four(number: u32) -> Vec<u8> {
    number.to_be_bytes().to_vec()
}

/// Bytes that are still to be read.
struct Reader {
    rest: std::collections::VecDeque<u8>,
    houses: u8,
}

impl Reader {
    fn message(&mut self) -> Option<Message> {
        let kind = self.byte()?;
        Some(match kind {
            1 => Message::Ask { object: self.name()?, by: self.house()?, to: self.house()? },
            2 => Message::Give { object: self.name()?, to: self.house()?, stamp: self.number()? },
            3 => self.word()?,
            4 => Message::Telling { census: self.number()?, object: self.name()?, from: self.house()? },
            5 => Message::Answer { census: self.number()?, object: self.name()?, from: self.house()? },
            6 => Message::Round { census: self.number()?, round: self.number()? },
            7 => Message::Reply {
                census: self.number()?,
                round: self.number()?,
                from: self.house()?,
                calm: self.flag()?,
                tally: self.number()?,
            },
            8 => Message::Complete { census: self.number()? },
            _ => return None,
        })
    }

    fn word(&mut self) -> Option<Message> {
        let (from, to, stamp) = (self.house()?, self.house()?, self.number()?);
        let count = u16::from_be_bytes([self.byte()?, self.byte()?]);
        let objects = (0..count).map(|_| self.name()).collect::<Option<Vec<Name>>>()?;
        let rising = objects.windows(2).all(|pair| pair[0] < pair[1]);
        let all_of_to = objects.iter().all(|name| name.home() == to);
        (rising && all_of_to).then_some(Message::Word { from, to, stamp, objects })
    }

    fn byte(&mut self) -> Option<u8> {
        self.rest.pop_front()
    }

    fn number(&mut self) -> Option<u32> {
        (0..4).try_fold(0, |sum: u32, _| Some(sum << 8 | u32::from(self.byte()?)))
    }

    fn name(&mut self) -> Option<Name> {
        let raw = self.number()?;
        Name::among(u64::from(raw), self.houses)
    }

    fn house(&mut self) -> Option<HouseId> {
        let raw = self.byte()?;
        HouseId::among(u64::from(raw), self.houses)
    }

    fn flag(&mut self) -> Option<bool> {
        match self.byte()? {
            0 => Some(false),
            1 => Some(true),
            _ => None,
        }
    }
}
