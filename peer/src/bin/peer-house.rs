//! One house, by lines on standard input.

use peer::help::HOUSE;
use peer::house::House;
use peer::house_lines::play;
use peer::names::HouseId;
use peer::program::{self, Wanted};
use std::process::ExitCode;

const USAGE: &str = "usage: peer-house [--names] [--framed] I N, with N from 1 to 16 houses and I below N";

fn main() -> ExitCode {
    match Wanted::of_this_run() {
        Wanted::Help => program::say(HOUSE),
        Wanted::Version => program::say("peer-house of Rillwyfan\n"),
        Wanted::Nothing => program::wrong_arguments(USAGE),
        Wanted::Play(form, numbers) => match house(&numbers) {
            Some(mut house) => program::play(false, |line| play(&mut house, line, form)),
            None => program::wrong_arguments(USAGE),
        },
    }
}

fn house(numbers: &[u64]) -> Option<House> {
    let [me, houses] = numbers else {
        return None;
    };
    let houses = u8::try_from(*houses).ok().filter(|houses| (1..=16).contains(houses))?;
    Some(House::new(HouseId::among(*me, houses)?, houses))
}
