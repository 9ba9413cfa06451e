//! Visits every state that can be reached from small beginnings, and tests the promise in each.

use peer::check::print_shrunk;
use peer::explore::{explore, Setting, SETTINGS};
use std::process::ExitCode;

fn main() -> ExitCode {
    let arguments: Vec<String> = std::env::args().skip(1).collect();
    let wanted = match arguments.as_slice() {
        [most] => most.parse().ok().map(|most| (most, "")),
        [most, name] => most.parse().ok().map(|most| (most, name.as_str())),
        _ => None,
    };
    let Some((most, name)) = wanted else {
        eprintln!("usage: explore MOST [NAME]: the most states to visit from each beginning, or from one of them");
        return ExitCode::from(1);
    };
    let settings = SETTINGS.iter().filter(|setting| name.is_empty() || setting.name == name);
    let broken = settings.filter(|setting| !keeps(setting, most)).count();
    if broken == 0 {
        ExitCode::SUCCESS
    } else {
        ExitCode::from(2)
    }
}

fn keeps(setting: &Setting, most: usize) -> bool {
    let findings = explore(setting, most);
    let extent = if findings.exhausted { "all" } else { "the first" };
    println!("{}: {extent} {} states, {} ways to complete", setting.name, findings.states, findings.completed);
    let Some(violation) = findings.violation else {
        return true;
    };
    print_shrunk(&violation);
    false
}
