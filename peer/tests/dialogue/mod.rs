//! Rehearsals written out by hand: lines that begin with `> ` are told to the houses, the lines
//! after each are what must be printed.

use peer::form::Form;
use peer::net::Net;

pub fn rehearse(houses: u8, dialogue: &str) {
    let mut net = Net::new(houses);
    for exchange in dialogue.split("> ").skip(1) {
        let (told, expected) = exchange.split_once('\n').unwrap_or((exchange, ""));
        let expected: String =
            expected.lines().map(|line| line.trim().to_string() + "\n").filter(|line| line != "\n").collect();
        assert_eq!(net.play(told.as_bytes()).output(Form::Plain), expected, "after: {told}");
    }
}
