//! Houses and the names of objects.

use std::fmt;

/// A machine that takes part; machines are counted from 0, and there are at most sixteen.
#[derive(Clone, Copy, Debug, PartialEq, Eq, PartialOrd, Ord, Hash)]
pub struct HouseId(pub u8);

/// What stands for an object anywhere: sixteen times its number plus its home.
#[derive(Clone, Copy, Debug, PartialEq, Eq, PartialOrd, Ord, Hash)]
pub struct Name(pub u32);

impl HouseId {
    /// The house with this number, if it is one of `houses`.
    pub fn among(number: u64, houses: u8) -> Option<HouseId> {
        (number < u64::from(houses)).then_some(HouseId(number as u8))
    }
}

impl Name {
    /// The name that this number is, if it can be one of an object in one of `houses` houses.
    pub fn among(raw: u64, houses: u8) -> Option<Name> {
        let name = Name(u32::try_from(raw).ok()?);
        (name.number() >= 1 && name.home().0 < houses).then_some(name)
    }

    /// The name of the object made with this number at this home, unless it would be too large.
    pub fn made(number: u64, home: HouseId) -> Option<Name> {
        let raw = number.checked_mul(16)?.checked_add(u64::from(home.0))?;
        u32::try_from(raw).ok().map(Name)
    }

    pub fn home(self) -> HouseId {
        HouseId((self.0 % 16) as u8)
    }

    pub fn number(self) -> u32 {
        self.0 / 16
    }
}

impl fmt::Display for HouseId {
    fn fmt(&self, out: &mut fmt::Formatter) -> fmt::Result {
        write!(out, "{}", self.0)
    }
}

impl fmt::Display for Name {
    fn fmt(&self, out: &mut fmt::Formatter) -> fmt::Result {
        write!(out, "{}", self.0)
    }
}
