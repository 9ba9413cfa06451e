//! Reads byte strings by the proved reader and by the model's, and tells where they differ.

use peer::byte_strings::{around, noise, samples, shortest, word};
use peer::random::Random;
use peer::rattle::{read, Said};
use std::process::ExitCode;

/// How many random strings are read for each count of houses.
const RANDOM: u64 = 40_000;

#[derive(Default)]
struct Reading {
    strings: u64,
    /// How many were read as each kind of message; those that were none stand at 0.
    kinds: [u64; 9],
    difference: Option<String>,
}

impl Reading {
    fn try_on(&mut self, bytes: &[u8], houses: u8) {
        let (found, expected) = (read(bytes, houses), Said::by_model(bytes, houses));
        self.strings += 1;
        self.kinds[usize::from(expected.kind)] += 1;
        if found != expected && self.difference.is_none() {
            self.difference = Some(format!("{houses} houses, {bytes:?}: expected {expected:?}, found {found:?}"));
        }
    }

    fn among(&mut self, houses: u8) {
        shortest(|bytes| self.try_on(bytes, houses));
        for message in samples(houses) {
            around(&message.encode(), |bytes| self.try_on(bytes, houses));
        }
        let mut random = Random::new(u64::from(houses));
        for turn in 0..RANDOM {
            self.try_on(&noise(&mut random), houses);
            let most = if turn % 100 == 0 { 9000 } else { 12 };
            self.try_on(&word(&mut random, houses, most), houses);
        }
    }
}

fn main() -> ExitCode {
    let mut reading = Reading::default();
    for houses in 1..=16 {
        reading.among(houses);
    }
    if let Some(difference) = reading.difference {
        println!("{difference}");
        return ExitCode::from(2);
    }
    let [none, messages @ ..] = reading.kinds;
    println!("{} byte strings read alike: {none} are no message, and of each kind {messages:?}", reading.strings);
    if none == 0 || messages.contains(&0) {
        return ExitCode::from(3);
    }
    ExitCode::SUCCESS
}
