//! Why a call or a message changed nothing.

#[derive(Clone, Copy, Debug, PartialEq, Eq, PartialOrd, Ord)]
pub enum Refusal {
    Malformed = 1,
    NotForThisHouse,
    NotARoot,
    NoSuchField,
    NotPresent,
    NotAHolder,
    StaleStamp,
    OtherCensus,
    NoRoom,
    OutOfNumbers,
    WrongHouse,
}

impl Refusal {
    /// The number that programs print.
    pub fn number(self) -> usize {
        self as usize
    }

    /// What programs print beside it on request.
    pub fn name(self) -> &'static str {
        match self {
            Refusal::Malformed => "not of the right form",
            Refusal::NotForThisHouse => "not for this house",
            Refusal::NotARoot => "not a root, or not of this house",
            Refusal::NoSuchField => "no such field",
            Refusal::NotPresent => "the object is not here",
            Refusal::NotAHolder => "the asking house has no line of this census, or at home no root",
            Refusal::StaleStamp => "the stamp is not above the highest seen",
            Refusal::OtherCensus => "of another census",
            Refusal::NoRoom => "no room for an object, field, root or line",
            Refusal::OutOfNumbers => "a number that does not rise, or a counter at its end",
            Refusal::WrongHouse => "not a call for this house",
        }
    }
}

/// Refuses unless the condition holds.
pub fn require(condition: bool, otherwise: Refusal) -> Result<(), Refusal> {
    if condition {
        Ok(())
    } else {
        Err(otherwise)
    }
}
