//! Several houses in one process, and all that was ever sent between them.

use crate::call::Input;
use crate::form::Form;
use crate::help;
use crate::house::{Answer, House};
use crate::message::{Message, Recipient};
use crate::names::HouseId;
use crate::refusal::Refusal;
use crate::settle::settle;
use crate::text;
use crate::view::{self, View};

/// What one line of a rehearsal says.
#[derive(Clone, Debug, PartialEq, Eq)]
pub enum Event {
    At(HouseId, Input),
    /// The message with this number comes to one house, or to those that it is for.
    Deliver(Option<HouseId>, u64),
    View(View),
    /// The collector frees all that does not matter.
    Settle,
}

/// What came of an event at one house: the messages sent, with their numbers, or a refusal.
pub type Outcome = Result<Vec<(usize, Message)>, Refusal>;

/// What came of one line.
#[derive(Clone, Debug)]
pub struct Played {
    /// What the line says, if it says anything.
    pub event: Option<Event>,
    pub outcomes: Vec<Outcome>,
    /// What it asks to be printed, if it does.
    pub shown: String,
}

impl Played {
    /// What is printed for the line.
    pub fn output(&self, form: Form) -> String {
        let outcomes = self.outcomes.iter().map(|outcome| print(outcome, form));
        std::iter::once(self.shown.clone()).chain(outcomes).collect()
    }
}

#[derive(Clone, Debug)]
pub struct Net {
    pub houses: Vec<House>,
    pub sent: Vec<Message>,
}

impl Event {
    /// What a line says; nothing if it is passed over.
    pub fn parse(line: &[u8], houses: u8) -> Option<Result<Event, Refusal>> {
        let words = text::words(line);
        if text::is_passed_over(&words) {
            return None;
        }
        Some(Event::read(&words, houses))
    }

    fn read(words: &[&[u8]], houses: u8) -> Result<Event, Refusal> {
        if let Some(view) = View::parse(words) {
            return Ok(Event::View(view));
        }
        match words {
            [b"settle"] => return Ok(Event::Settle),
            [b"deliver", number] => return Event::deliver(None, number),
            _ => {}
        }
        let (first, rest) = words.split_first().ok_or(Refusal::Malformed)?;
        let number = text::decimal(first).ok_or(Refusal::Malformed)?;
        let house = HouseId::among(number, houses).ok_or(Refusal::Malformed)?;
        match rest {
            [b"deliver", number] => Event::deliver(Some(house), number),
            _ => Input::parse(rest, houses).map(|input| Event::At(house, input)),
        }
    }

    fn deliver(house: Option<HouseId>, number: &[u8]) -> Result<Event, Refusal> {
        let number = text::decimal(number).ok_or(Refusal::Malformed)?;
        Ok(Event::Deliver(house, number))
    }
}

impl Net {
    pub fn new(houses: u8) -> Net {
        Net { houses: (0..houses).map(|me| House::new(HouseId(me), houses)).collect(), sent: Vec::new() }
    }

    pub fn count(&self) -> u8 {
        self.houses.len() as u8
    }

    pub fn house(&self, id: HouseId) -> &House {
        &self.houses[usize::from(id.0)]
    }

    pub fn house_mut(&mut self, id: HouseId) -> &mut House {
        &mut self.houses[usize::from(id.0)]
    }

    pub fn ids(&self) -> impl Iterator<Item = HouseId> {
        (0..self.count()).map(HouseId)
    }

    /// The message that was sent as the `number`-th.
    pub fn message(&self, number: u64) -> Option<&Message> {
        let place = usize::try_from(number).ok()?.checked_sub(1)?;
        self.sent.get(place)
    }

    /// Does what an event says; one outcome for each house that it reaches.
    pub fn perform(&mut self, event: &Event) -> Vec<Outcome> {
        match event {
            Event::View(_) => Vec::new(),
            Event::Settle => vec![self.settle()],
            Event::At(house, input) => {
                let answer = self.house_mut(*house).perform(input);
                vec![self.keep(answer)]
            }
            Event::Deliver(at, number) => match self.message(*number).cloned() {
                None => vec![Err(Refusal::Malformed)],
                Some(message) => {
                    let targets = at.map_or_else(|| self.targets(&message), |house| vec![house]);
                    targets.into_iter().map(|house| self.deliver(house, &message)).collect()
                }
            },
        }
    }

    /// The collector's own steps; all that was sent in them.
    fn settle(&mut self) -> Outcome {
        let begun = self.sent.len();
        // whether the census becomes complete is for the check to say
        let _ = settle(self).ok_or(Refusal::OutOfNumbers)?;
        Ok((begun + 1..).zip(self.sent[begun..].iter().cloned()).collect())
    }

    pub fn deliver(&mut self, house: HouseId, message: &Message) -> Outcome {
        let answer = self.house_mut(house).arrive(message);
        self.keep(answer)
    }

    /// The houses that a message is for.
    pub fn targets(&self, message: &Message) -> Vec<HouseId> {
        match message.recipient() {
            Recipient::One(house) => vec![house],
            Recipient::Everybody => self.ids().collect(),
        }
    }

    /// Keeps what is sent, under the next numbers.
    fn keep(&mut self, answer: Answer) -> Outcome {
        let number = |sent: &mut Vec<Message>, message: Message| {
            sent.push(message.clone());
            (sent.len(), message)
        };
        answer.map(|messages| messages.into_iter().map(|message| number(&mut self.sent, message)).collect())
    }

    /// Plays one line of a rehearsal.
    pub fn play(&mut self, line: &[u8]) -> Played {
        let (event, outcomes) = match Event::parse(line, self.count()) {
            None => (None, Vec::new()),
            Some(Err(refusal)) => (None, vec![Err(refusal)]),
            Some(Ok(event)) => {
                let outcomes = self.perform(&event);
                (Some(event), outcomes)
            }
        };
        let shown = match event {
            Some(Event::View(View::Show)) => self.show(),
            Some(Event::View(View::Status)) => self.houses.iter().map(view::status).collect(),
            Some(Event::View(View::Help)) => help::REHEARSE.to_string(),
            _ => String::new(),
        };
        Played { event, outcomes, shown }
    }

    /// All houses as text.
    pub fn show(&self) -> String {
        self.houses.iter().map(view::show).collect()
    }
}

fn print(outcome: &Outcome, form: Form) -> String {
    match outcome {
        Err(refusal) => form.refusal(*refusal),
        Ok(sent) => {
            let line = |(number, message): &(usize, Message)| {
                format!("{number} {}\n", text::to_hexadecimal(&message.encode()))
            };
            sent.iter().map(line).collect()
        }
    }
}
