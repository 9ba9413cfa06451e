//! Byte strings that are messages, nearly messages, or anything.

use crate::message::Message;
use crate::names::{HouseId, Name};
use crate::random::Random;

/// Numbers whose bytes are all different, or at a limit.
const NUMBERS: [u32; 6] = [0, 1, 0x0102_0304, 0x7fff_ffff, 0x8000_0000, u32::MAX];

/// Calls `each` with every string of at most two bytes.
pub fn shortest(mut each: impl FnMut(&[u8])) {
    each(&[]);
    for first in 0..=255 {
        each(&[first]);
        for second in 0..=255 {
            each(&[first, second]);
        }
    }
}

/// Calls `each` with the bytes, with every beginning of them, with every byte changed to every
/// other value, and with each byte added at the end.
pub fn around(bytes: &[u8], mut each: impl FnMut(&[u8])) {
    for length in 0..=bytes.len() {
        each(&bytes[..length]);
    }
    let mut changed = bytes.to_vec();
    for place in 0..bytes.len() {
        for difference in 1..=255 {
            changed[place] = bytes[place] ^ difference;
            each(&changed);
        }
        changed[place] = bytes[place];
    }
    for last in 0..=255 {
        each(&[bytes, &[last]].concat());
    }
}

/// Messages of every kind among `houses` houses, with parts at their limits.
pub fn samples(houses: u8) -> Vec<Message> {
    let last = HouseId(houses - 1);
    let mut messages = Vec::new();
    for (place, number) in NUMBERS.into_iter().enumerate() {
        let object = name(number, last);
        let (from, to) = if place % 2 == 0 { (HouseId(0), last) } else { (last, HouseId(0)) };
        messages.extend([
            Message::Ask { object, by: from, to },
            Message::Give { object, to, stamp: number },
            Message::Telling { census: number, object, from },
            Message::Answer { census: number, object, from },
            Message::Round { census: number, round: !number },
            Message::Reply { census: number, round: !number, from, calm: place % 2 == 0, tally: number },
            Message::Complete { census: number },
        ]);
        let objects = (0..place as u32).map(|more| Name(name(number / 2, to).0 + 16 * more)).collect();
        messages.push(Message::Word { from, to, stamp: number, objects });
    }
    messages
}

/// A name of an object in this house, near `number`.
fn name(number: u32, home: HouseId) -> Name {
    Name((number / 16).max(1) * 16 + u32::from(home.0))
}

/// A string of random bytes, which often begins as a message does.
pub fn noise(random: &mut Random) -> Vec<u8> {
    let length = match random.below(4) {
        0 => random.below(40),
        _ => *random.pick(&[5, 7, 9, 10, 13, 15, 17, 21]).expect("some lengths"),
    };
    let small = random.percent(50);
    let byte = |random: &mut Random| if small { random.below(18) as u8 } else { random.below(256) as u8 };
    let mut bytes: Vec<u8> = (0..length).map(|_| byte(random)).collect();
    if let Some(first) = bytes.first_mut().filter(|_| random.percent(90)) {
        *first = random.below(10) as u8;
    }
    bytes
}

/// The bytes of a word of up to `most` objects, of which some may not rise, or live elsewhere.
pub fn word(random: &mut Random, houses: u8, most: u64) -> Vec<u8> {
    let to = HouseId(random.below(u64::from(houses)) as u8);
    let slips = if random.percent(50) { 0 } else { 1 };
    let mut low = random.below(1000) as u32;
    let count = random.below(most + 1);
    let objects = (0..count).map(|_| {
        low = low.wrapping_add(random.between(1, 3) as u32).wrapping_sub(if random.percent(slips) { 2 } else { 0 });
        let elsewhere = u32::from(random.percent(slips));
        Name(low.wrapping_mul(16).wrapping_add(u32::from(to.0) + elsewhere))
    });
    let objects = objects.collect();
    Message::Word { from: HouseId(0), to, stamp: random.draw() as u32, objects }.encode()
}
