//! How programs print what comes of a line.

use crate::message::{Message, Recipient};
use crate::refusal::Refusal;
use crate::text;

#[derive(Clone, Copy, Debug, PartialEq, Eq)]
pub enum Form {
    /// A message by its digits, a refusal by its number.
    Plain,
    /// A refusal by its number and its name.
    Named,
    /// For programs: whom a message is sent to, and a last line for each line that came.
    Framed,
}

impl Form {
    /// The options with which a program prints so.
    pub fn options(self) -> Vec<String> {
        match self {
            Form::Plain => Vec::new(),
            Form::Named => vec!["--names".to_string()],
            Form::Framed => vec!["--framed".to_string()],
        }
    }

    pub fn refusal(self, refusal: Refusal) -> String {
        match self {
            Form::Plain => format!("no {}\n", refusal.number()),
            Form::Named | Form::Framed => format!("no {} {}\n", refusal.number(), refusal.name()),
        }
    }

    /// A message that one of so many houses sends.
    pub fn message(self, message: &Message, houses: u8) -> String {
        let digits = text::to_hexadecimal(&message.encode());
        match (self, message.recipient()) {
            (Form::Plain | Form::Named, _) => format!("{digits}\n"),
            (Form::Framed, Recipient::One(house)) => format!("send {house} {digits}\n"),
            (Form::Framed, Recipient::Everybody) => {
                (0..houses).map(|house| format!("send {house} {digits}\n")).collect()
            }
        }
    }

    /// What comes after all that a line led to, if it was not refused.
    pub fn end(self) -> &'static str {
        match self {
            Form::Plain | Form::Named => "",
            Form::Framed => "ok\n",
        }
    }
}
