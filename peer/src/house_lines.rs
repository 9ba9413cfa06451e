//! What one house of a rehearsal is told, as lines for the program of one house.

use crate::call::Input;
use crate::form::Form;
use crate::generator::Script;
use crate::help;
use crate::house::House;
use crate::names::HouseId;
use crate::net::{Event, Net};
use crate::refusal::Refusal;
use crate::text;
use crate::view::{self, View};

/// Lines for one house.
#[derive(Clone, Debug, Default)]
pub struct HouseLines(pub Vec<Vec<u8>>);

impl HouseLines {
    /// What house `me` is told in a script, wrong lines included.
    pub fn of(script: &Script, me: u8) -> HouseLines {
        let mut net = Net::new(script.houses);
        let mut lines = Vec::new();
        for line in &script.lines {
            lines.extend(told(&net, line, HouseId(me)));
            net.play(line);
        }
        HouseLines(lines)
    }

    /// The lines as one input.
    pub fn text(&self) -> Vec<u8> {
        self.0.iter().flat_map(|line| [line.as_slice(), b"\n"].concat()).collect()
    }
}

/// What a line of a rehearsal tells one house. What is passed over, or asks for something to be printed, every house is told.
fn told(net: &Net, line: &[u8], me: HouseId) -> Option<Vec<u8>> {
    if matches!(Event::parse(line, net.count()), None | Some(Ok(Event::View(_)))) {
        return Some(line.to_vec());
    }
    if let Some(Ok(Event::Deliver(at, number))) = Event::parse(line, net.count()) {
        let message = net.message(number)?;
        let comes = at.map_or_else(|| net.targets(message).contains(&me), |house| house == me);
        return comes.then(|| format!("got {}", text::to_hexadecimal(&message.encode())).into_bytes());
    }
    let words = text::words(line);
    let (first, rest) = words.split_first()?;
    let for_me = text::decimal(first) == Some(u64::from(me.0));
    for_me.then(|| rest.join(&b' '))
}

/// What a house prints for a line.
pub fn play(house: &mut House, line: &[u8], form: Form) -> String {
    match answer(house, &text::words(line), form) {
        Ok(printed) => printed + form.end(),
        Err(refusal) => form.refusal(refusal),
    }
}

fn answer(house: &mut House, words: &[&[u8]], form: Form) -> Result<String, Refusal> {
    if text::is_passed_over(words) {
        return Ok(String::new());
    }
    if let Some(view) = View::parse(words) {
        return Ok(match view {
            View::Show => view::show(house),
            View::Status => view::status(house),
            View::Help => help::HOUSE.to_string(),
        });
    }
    let sent = house.perform(&Input::parse(words, house.houses)?)?;
    Ok(sent.iter().map(|message| form.message(message, house.houses)).collect())
}

/// What the model prints for these lines.
pub fn house_output(me: u8, houses: u8, lines: &HouseLines, form: Form) -> Vec<u8> {
    let mut house = House::new(HouseId(me), houses);
    lines.0.iter().flat_map(|line| play(&mut house, line, form).into_bytes()).collect()
}
