//! Lines and bytes that are wrong, numbers at their limits, and odd ways to write what is right.

use super::writer::Writer;
use crate::message::Message;
use crate::text;

/// Wrong or at a limit, but never a message; after a house's number.
const CALLS: [&str; 46] = [
    "make 0",
    "make 268435456",
    "make 4294967296",
    "make 99999999999999999999999999999999999999",
    "make 000000000000000000000000000000000000000",
    "make",
    "make 5 5",
    "make -5",
    "make +5",
    "make 5x",
    "Make 5",
    "link 16",
    "link 15 16",
    "link 16 15",
    "link 4294967296 16",
    "link 16 99999999999999999999999",
    "link 4294967295 16",
    "unlink 16 0",
    "load 0 16",
    "load 16 16 16",
    "drop 0",
    "drop",
    "drop 18446744073709551632",
    "ask 16 16",
    "ask 16 256",
    "ask 16 18446744073709551616",
    "ask 16",
    "collect 1",
    "word",
    "word 4",
    "word 255",
    "word 256",
    "join",
    "join 0",
    "join 4294967296",
    "join 99999999999999999999999999999999999999999",
    "join -1",
    "tell 1",
    "tell 0 0",
    "round 1",
    "round 0 1",
    "show",
    "status",
    "help",
    "deliver",
    "got",
];

const LINES: [&str; 25] = [
    "",
    "   \t\r",
    "# a remark",
    "\t# 0 make 5",
    "#0 make 5",
    "0",
    "4 collect",
    "16 collect",
    "256 collect",
    "99999999999999999999999999 collect",
    "-0 collect",
    "collect",
    "show 1",
    "show show",
    "status 0",
    "help me",
    "Help",
    "deliver",
    "deliver 0",
    "deliver 4294967297",
    "deliver 99999999999999999999999999",
    "deliver 1 1",
    "deliver x",
    "0 0 collect",
    "make 1",
];

impl Writer {
    pub fn at_limits(&mut self) {
        let house = self.any_house();
        let line = match self.random.below(400) {
            0 => format!("{house} make 268435455"),
            1 => format!("{house} join 4294967295"),
            2 => format!("{house} join {}", self.random.between(1000, 4_294_967_290)),
            3..=20 => format!("{house} word {house}"),
            21..=40 => format!("{house} make {}", self.net.house(house).made),
            41..=60 => format!("{house} join {}", self.net.house(house).census),
            _ => format!("{house} {}", self.random.pick(&CALLS).expect("some calls")),
        };
        self.write(line);
    }

    pub fn garbled(&mut self) {
        let line = match self.random.below(3) {
            0 => self.random.pick(&LINES).expect("some lines").as_bytes().to_vec(),
            1 => self.noise(),
            _ => self.mangled(),
        };
        self.write(line);
    }

    fn noise(&mut self) -> Vec<u8> {
        let length = self.random.below(30);
        let byte = |random: &mut crate::random::Random| match random.below(4) {
            0 => b' ',
            1 => random.between(u64::from(b'0'), u64::from(b'9')) as u8,
            2 => random.between(u64::from(b'a'), u64::from(b'z')) as u8,
            _ => random.below(256) as u8,
        };
        (0..length).map(|_| byte(&mut self.random)).map(|byte| if byte == b'\n' { b'~' } else { byte }).collect()
    }

    /// An earlier line, with a character changed, doubled or left out. Messages stay as they were.
    fn mangled(&mut self) -> Vec<u8> {
        let mut line = self.random.pick(&self.lines.clone()).cloned().unwrap_or_default();
        let brings_bytes = line.windows(3).any(|part| part == b"got");
        if line.is_empty() || brings_bytes {
            return line;
        }
        let place = self.random.below(line.len() as u64) as usize;
        match self.random.below(4) {
            0 => drop(line.remove(place)),
            1 => line.insert(place, line[place]),
            2 => line[place] = *self.random.pick(b"019 xA\t-\x80\x00").expect("some characters"),
            _ => line.extend(b" 1"),
        }
        line
    }

    /// Bytes that come: of a message that was sent, or of none.
    pub fn got(&mut self) {
        let mut bytes = self.random.pick(&self.net.sent).map_or(vec![1, 0, 0, 0, 16, 0, 0], Message::encode);
        let house = self.any_house();
        if self.random.percent(70) {
            self.distort(&mut bytes);
            let forged =
                Message::decode(&bytes, self.net.count()).is_some_and(|message| !self.net.sent.contains(&message));
            if forged && self.mood.honest {
                bytes.push(0);
            }
        }
        let mut digits = text::to_hexadecimal(&bytes);
        match self.random.below(20) {
            0 => drop(digits.pop()),
            1 => digits.push('g'),
            2 => digits.insert(0, ' '),
            3..=6 => digits = digits.to_uppercase(),
            _ => {}
        }
        self.write(format!("{house} got {digits}"));
    }

    /// Changes, adds or takes away some bytes.
    fn distort(&mut self, bytes: &mut Vec<u8>) {
        for _ in 0..self.random.between(1, 2) {
            let place = self.random.below(bytes.len().max(1) as u64) as usize;
            let byte = match self.random.below(4) {
                0 => self.random.below(256) as u8,
                1 => 0xff,
                _ => self.random.below(18) as u8,
            };
            match self.random.below(6) {
                0 => bytes.push(byte),
                1 => drop(bytes.pop()),
                _ if place < bytes.len() => bytes[place] = byte,
                _ => {}
            }
        }
    }

    /// Now and then another way to write the same line.
    pub fn decorated(&mut self, line: Vec<u8>) -> Vec<u8> {
        if !self.random.percent(3) || text::is_passed_over(&text::words(&line)) {
            return line;
        }
        match self.random.below(5) {
            0 => [line, b"\r".to_vec()].concat(),
            1 => [b"  ".to_vec(), line].concat(),
            2 => [line, b" \t ".to_vec()].concat(),
            3 => line.iter().map(|byte| if *byte == b' ' { b'\t' } else { *byte }).collect(),
            _ if line[0].is_ascii_digit() => [b"000".to_vec(), line].concat(),
            _ => line,
        }
    }
}
