//! Work that is measured: what a house is told first, and what then comes again and again.

use crate::byte_strings::{samples, word};
use crate::generator::{long_script, Flood, Script};
use crate::house::{MOST_FIELDS, MOST_OBJECTS, MOST_ROOTS};
use crate::message::Message;
use crate::names::{HouseId, Name};
use crate::random::Random;
use crate::text;

/// The house that is measured, and how many there are.
pub const ME: HouseId = HouseId(0);
pub const HOUSES: u8 = 4;

fn name(number: usize) -> Name {
    Name(16 * number as u32)
}

/// Some roots, and the other objects in their fields.
pub fn wide() -> Vec<String> {
    let mut lines = Vec::new();
    let mut root = 1;
    for number in 1..=MOST_OBJECTS {
        lines.push(format!("make {number}"));
        if number % MOST_FIELDS == 1 {
            root = number;
        } else {
            lines.push(format!("link {} {}", name(root), name(number)));
            lines.push(format!("drop {}", name(number)));
        }
    }
    lines
}

/// A chain from the first object to the last.
pub fn rising_chain() -> Vec<String> {
    let mut lines = vec!["make 1".to_string()];
    for number in 2..=MOST_OBJECTS {
        lines.push(format!("make {number}"));
        lines.push(format!("link {} {}", name(number - 1), name(number)));
        if number > 2 {
            lines.push(format!("drop {}", name(number - 1)));
        }
    }
    lines.push(format!("drop {}", name(MOST_OBJECTS)));
    lines
}

/// A chain from the last object to the first.
pub fn falling_chain() -> Vec<String> {
    let mut lines = vec!["make 1".to_string()];
    for number in 2..=MOST_OBJECTS {
        lines.push(format!("make {number}"));
        lines.push(format!("link {} {}", name(number), name(number - 1)));
        lines.push(format!("drop {}", name(number - 1)));
    }
    lines
}

/// Objects that refer to each other at random, all met from a few roots.
pub fn tangle() -> Vec<String> {
    let mut random = Random::new(1);
    let mut lines = vec!["make 1".to_string()];
    let mut roots = vec![1];
    let mut fields = vec![0; MOST_OBJECTS + 1];
    for number in 2..=MOST_OBJECTS {
        lines.push(format!("make {number}"));
        for _ in 0..3 {
            let other = *random.pick(&roots).expect("some roots");
            let (from, to) = if random.percent(50) { (other, number) } else { (number, other) };
            if fields[from] + 1 < MOST_FIELDS {
                fields[from] += 1;
                lines.push(format!("link {} {}", name(from), name(to)));
            }
        }
        lines.push(format!("link {} {}", name(number), name(*roots.last().expect("some roots"))));
        roots.push(number);
        if roots.len() + 1 == MOST_ROOTS {
            let place = random.below(roots.len() as u64 - 1) as usize;
            lines.push(format!("drop {}", name(roots.remove(place))));
        }
    }
    let last = roots.pop();
    lines.extend(roots.into_iter().filter(|root| Some(*root) != last).map(|root| format!("drop {}", name(root))));
    lines
}

/// As many objects as there may be, each handed to two houses, so that the list is full.
pub fn full_list() -> Vec<String> {
    let mut lines = Vec::new();
    for number in 1..=MOST_OBJECTS {
        lines.push(format!("make {number}"));
        for to in [HouseId(1), HouseId(2)] {
            let ask = Message::Ask { object: name(number), by: ME, to };
            lines.push(format!("got {}", text::to_hexadecimal(&ask.encode())));
        }
        lines.push(format!("drop {}", name(number)));
    }
    lines
}

/// A word of house 1 that has so many objects, those of the full list among them.
pub fn long_word(count: usize) -> Vec<u8> {
    let objects = (1..=count).map(name).collect();
    Message::Word { from: HouseId(1), to: ME, stamp: u32::MAX, objects }.encode()
}

/// Messages of every kind, mixed.
pub fn mixed(count: usize) -> Vec<Vec<u8>> {
    let mut random = Random::new(2);
    let samples: Vec<Vec<u8>> = samples(HOUSES).iter().map(Message::encode).collect();
    let mut next = || match random.below(8) {
        0 => word(&mut random, HOUSES, 12),
        _ => random.pick(&samples).expect("some messages").clone(),
    };
    (0..count).map(|_| next()).collect()
}

/// Holder 1 asks that house 2 has the newest object of the full list, which has it already.
pub fn ask_again() -> Vec<u8> {
    Message::Ask { object: name(MOST_OBJECTS), by: HouseId(1), to: HouseId(2) }.encode()
}

/// As many objects as there may be, on the list, with fields of house 1, no two the same.
pub fn far(mixed: bool) -> Vec<String> {
    let mut random = Random::new(3);
    let mut numbers: Vec<u32> = (1..=(MOST_OBJECTS * MOST_FIELDS) as u32).collect();
    if mixed {
        (1..numbers.len()).for_each(|place| numbers.swap(place, random.below(place as u64 + 1) as usize));
    }
    let mut lines = Vec::new();
    for (place, number) in numbers.into_iter().enumerate() {
        let (object, field) = (name(place / MOST_FIELDS + 1), Name(16 * number + 1));
        if place % MOST_FIELDS == 0 {
            lines.push(format!("make {}", object.number()));
        }
        let give = Message::Give { object: field, to: ME, stamp: place as u32 + 1 };
        lines.push(format!("got {}", text::to_hexadecimal(&give.encode())));
        lines.push(format!("link {object} {field}"));
        lines.push(format!("drop {field}"));
        if place % MOST_FIELDS == MOST_FIELDS - 1 {
            lines.extend(keep_listed(object));
        }
    }
    lines
}

/// The object is held by house 2, and is a root no longer.
fn keep_listed(object: Name) -> [String; 2] {
    let ask = Message::Ask { object, by: ME, to: HouseId(2) };
    [format!("got {}", text::to_hexadecimal(&ask.encode())), format!("drop {object}")]
}

/// A rehearsal of four houses in so many lines, with a table filled at the beginning.
pub fn rehearsal(lines: usize, flood: Flood) -> Script {
    long_script(18, HOUSES, lines, flood)
}
