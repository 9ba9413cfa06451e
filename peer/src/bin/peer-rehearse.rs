//! Plays up to four houses, by lines on standard input.

use peer::form::Form;
use peer::help::REHEARSE;
use peer::net::Net;
use peer::program::{self, Wanted};
use std::process::ExitCode;

const USAGE: &str = "usage: peer-rehearse [--names] N, with N from 1 to 4 houses";

fn main() -> ExitCode {
    match Wanted::of_this_run() {
        Wanted::Help => program::say(REHEARSE),
        Wanted::Version => program::say("peer-rehearse of Rillwyfan\n"),
        Wanted::Play(form @ (Form::Plain | Form::Named), numbers) => match numbers.as_slice() {
            [houses @ 1..=4] => {
                let mut net = Net::new(*houses as u8);
                program::play(true, |line| net.play(line).output(form))
            }
            _ => program::wrong_arguments(USAGE),
        },
        Wanted::Play(..) | Wanted::Nothing => program::wrong_arguments(USAGE),
    }
}
