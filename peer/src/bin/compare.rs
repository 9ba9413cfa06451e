//! Compares another `rehearse` or `house` with the model over the scripts of many seeds.

use peer::compare::{Difference, Other};
use peer::form::Form;
use peer::generator::{flooded_script, script, Flood, Script};
use peer::net::Net;
use peer::shrink::shrink;
use peer::stats::Stats;
use std::collections::BTreeMap;
use std::process::ExitCode;

fn main() -> ExitCode {
    let arguments: Vec<String> = std::env::args().skip(1).collect();
    let Some((other, from, count)) = wanted(&arguments) else {
        eprintln!("usage: compare rehearse|house PATH FROM COUNT: the program, the first seed and how many");
        return ExitCode::from(1);
    };
    let mut stats = Stats::default();
    let mut runs = 0;
    let mut by_houses: BTreeMap<u8, u64> = BTreeMap::new();
    let mut by_form = vec![0; other.forms().len()];
    for seed in from..from + count {
        let script = script_of(&other, seed);
        let turn = seed as usize % by_form.len();
        let form = other.forms()[turn];
        if let Some(difference) = other.difference(&script, form) {
            report(&other, seed, &script, form, &difference);
            return ExitCode::from(2);
        }
        note(&script, &mut stats);
        by_form[turn] += other.runs(&script);
        runs += other.runs(&script);
        *by_houses.entry(script.houses).or_default() += 1;
        if (seed - from) % 100 == 99 {
            println!("to seed {seed}: runs {runs} lines {} completed {}", stats.lines, stats.completed);
        }
    }
    println!("equal: runs {runs} {stats}; scripts by count of houses {by_houses:?}");
    let forms: Vec<String> =
        other.forms().iter().zip(&by_form).map(|(form, runs)| format!("{form:?} {runs}").to_lowercase()).collect();
    println!("runs by form: {}", forms.join(", "));
    finish(&stats, by_form.contains(&0))
}

fn wanted(arguments: &[String]) -> Option<(Other, u64, u64)> {
    let [kind, path, from, count] = arguments else {
        return None;
    };
    let other = match kind.as_str() {
        "rehearse" => Other::Rehearse(path.into()),
        "house" => Other::House(path.into()),
        _ => return None,
    };
    Some((other, from.parse().ok()?, count.parse().ok()?))
}

/// Every fourth script also has messages that nobody sent; some begin with a table that is filled.
fn script_of(other: &Other, seed: u64) -> Script {
    let most = match other {
        Other::Rehearse(_) => 4,
        Other::House(_) => 16,
    };
    let honest = !seed.is_multiple_of(4);
    match seed % 100 {
        25 => flooded_script(seed, honest, most, Flood::Roots),
        50 => flooded_script(seed, honest, most, Flood::Objects),
        75 => flooded_script(seed, honest, most, Flood::Lines),
        _ => script(seed, honest, most),
    }
}

fn note(script: &Script, stats: &mut Stats) {
    let mut net = Net::new(script.houses);
    stats.scripts += 1;
    for line in &script.lines {
        stats.play(&mut net, line);
    }
}

fn report(other: &Other, seed: u64, script: &Script, form: Form, difference: &Difference) {
    println!("seed {seed}, {form:?}: {}", told(difference));
    let small = shrink(script, |script| other.difference(script, form).is_some());
    println!("houses {}, made smaller:", small.houses);
    print!("{}", String::from_utf8_lossy(&small.text()));
    if let Some(difference) = other.difference(&small, form) {
        println!("# {}", told(&difference));
    }
}

fn told(difference: &Difference) -> String {
    let Difference { line, expected, found } = difference;
    format!("output line {line}: expected {expected:?}, found {found:?}")
}

/// A comparison that never met one of the numbers, or something else, has not compared enough.
fn finish(stats: &Stats, form_left_out: bool) -> ExitCode {
    let (unreached, mut unmet) = (stats.unreached(), stats.unmet());
    if form_left_out {
        unmet.push("one of the forms");
    }
    if unreached.is_empty() && unmet.is_empty() {
        return ExitCode::SUCCESS;
    }
    println!("never met: numbers {unreached:?}, {unmet:?}; take more seeds");
    ExitCode::from(3)
}
