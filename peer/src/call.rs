//! What one house can be told to do, read from the words of a line.

use crate::names::{HouseId, Name};
use crate::refusal::Refusal;
use crate::text;

/// A call, or a message that came.
#[derive(Clone, Debug, PartialEq, Eq)]
pub enum Input {
    Make(u64),
    Link(Name, Name),
    Unlink(Name, Name),
    Load(Name, Name),
    Drop(Name),
    Ask(Name, HouseId),
    Collect,
    Word(HouseId),
    Join(u64),
    Tell,
    Round,
    Got(Vec<u8>),
}

impl Input {
    /// What these words say, among `houses` houses.
    pub fn parse(words: &[&[u8]], houses: u8) -> Result<Input, Refusal> {
        Input::read(words, houses).ok_or(Refusal::Malformed)
    }

    fn read(words: &[&[u8]], houses: u8) -> Option<Input> {
        let (command, rest) = words.split_first()?;
        let name = |word: &[u8]| Name::among(text::decimal(word)?, houses);
        let house = |word: &[u8]| HouseId::among(text::decimal(word)?, houses);
        Some(match (*command, rest) {
            (b"make", [number]) => Input::Make(text::decimal(number).filter(|number| *number > 0)?),
            (b"link", [object, field]) => Input::Link(name(object)?, name(field)?),
            (b"unlink", [object, field]) => Input::Unlink(name(object)?, name(field)?),
            (b"load", [object, field]) => Input::Load(name(object)?, name(field)?),
            (b"drop", [object]) => Input::Drop(name(object)?),
            (b"ask", [object, to]) => Input::Ask(name(object)?, house(to)?),
            (b"collect", []) => Input::Collect,
            (b"word", [to]) => Input::Word(house(to)?),
            (b"join", [census]) => Input::Join(text::decimal(census)?),
            (b"tell", []) => Input::Tell,
            (b"round", []) => Input::Round,
            (b"got", [digits]) => Input::Got(text::from_hexadecimal(digits)?),
            _ => return None,
        })
    }
}
