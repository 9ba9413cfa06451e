//! The tools themselves: scripts, the check and the making smaller.

use peer::byte_strings::{around, samples};
use peer::call::Input;
use peer::check::check;
use peer::compare::{first_difference, rehearsed};
use peer::explore::{explore, SETTINGS};
use peer::form::Form;
use peer::generator::{flooded_script, script, Flood, Script};
use peer::house::{House, MOST_LINES, MOST_OBJECTS};
use peer::house_lines;
use peer::message::Message;
use peer::net::Net;
use peer::shrink::shrink;
use peer::stats::Stats;
use peer::workloads::{self, HOUSES, ME};

fn lines(houses: u8, text: &str) -> Script {
    Script { houses, lines: text.lines().map(|line| line.as_bytes().to_vec()).collect() }
}

#[test]
fn a_seed_always_gives_the_same_script() {
    assert_eq!(script(7, true, 4), script(7, true, 4));
    assert_ne!(script(7, true, 4), script(8, true, 4));
}

#[test]
fn the_promise_is_kept_over_some_scripts_that_reach_every_number() {
    let mut stats = Stats::default();
    for seed in 0..150 {
        check(&script(seed, true, 4), &mut stats).unwrap_or_else(|violation| panic!("seed {seed}: {violation:?}"));
    }
    assert_eq!(stats.unreached(), Vec::<usize>::new());
    assert!(stats.completed > 0 && stats.swept > 0);
}

#[test]
fn a_forged_message_ends_the_check() {
    let forged = lines(2, "0 make 1\n0 ask 16 1\ndeliver 1\ndeliver 2\n0 drop 16\n0 got 030100000000010000\n0 collect");
    assert!(check(&forged, &mut Stats::default()).is_ok());
}

#[test]
fn a_script_is_made_smaller_and_its_deliveries_get_new_numbers() {
    let long = lines(2, "0 make 1\n0 make 2\n0 ask 32 1\n0 ask 16 1\ndeliver 1\ndeliver 2\nshow");
    let small = shrink(&long, |script| {
        String::from_utf8_lossy(&rehearsed(script, Form::Plain)).contains("02000000100100000001")
    });
    assert_eq!(small, lines(2, "0 make 1\n0 ask 16 1\ndeliver 1"));
}

#[test]
fn the_first_line_that_differs_is_found() {
    assert_eq!(first_difference(b"a\nb\n", &Ok(b"a\nb\n".to_vec())), None);
    let difference = first_difference(b"a\nb\n", &Ok(b"a\nc\n".to_vec())).expect("they differ");
    assert_eq!((difference.line, difference.expected.as_str(), difference.found.as_str()), (2, "b", "c"));
    let difference = first_difference(b"a\nb\n", &Ok(b"a\n".to_vec())).expect("they differ");
    assert_eq!((difference.line, difference.found.as_str()), (2, "(no line)"));
}

#[test]
fn small_beginnings_keep_the_promise() {
    for setting in &SETTINGS {
        let findings = explore(setting, 2000);
        assert!(findings.violation.is_none(), "{}", setting.name);
        assert!(findings.states >= 2000 || findings.exhausted, "{}", setting.name);
    }
}

#[test]
fn a_flood_fills_its_table() {
    for (flood, name) in [(Flood::Roots, "256 roots"), (Flood::Objects, "1024 objects"), (Flood::Lines, "2048 lines")] {
        let script = flooded_script(3, true, 4, flood);
        let (mut net, mut stats) = (Net::new(script.houses), Stats::default());
        for line in &script.lines {
            stats.play(&mut net, line);
        }
        assert!(!stats.unmet().contains(&name), "{name}");
    }
}

#[test]
fn strings_around_a_message_are_each_beginning_and_each_other_byte() {
    let message = Message::Complete { census: 7 };
    let mut strings = Vec::new();
    around(&message.encode(), |bytes| strings.push(bytes.to_vec()));
    assert_eq!(strings.len(), 6 + 5 * 255 + 256);
    assert!(samples(2).iter().all(|message| Message::decode(&message.encode(), 2).as_ref() == Some(message)));
}

/// A house that was told lines, none of which it refused.
fn told(lines: &[String]) -> House {
    let mut house = House::new(ME, HOUSES);
    for line in lines {
        assert!(!house_lines::play(&mut house, line.as_bytes(), Form::Plain).starts_with("no"), "{line}");
    }
    house
}

#[test]
fn heaps_that_are_measured_are_full_and_stay_so() {
    let heaps = [workloads::wide(), workloads::rising_chain(), workloads::falling_chain(), workloads::tangle()];
    for lines in heaps.into_iter().chain([workloads::far(true)]) {
        let mut house = told(&lines);
        assert_eq!(house.perform(&Input::Collect), Ok(Vec::new()));
        assert_eq!(house.objects.len(), MOST_OBJECTS);
    }
}

#[test]
fn lists_that_are_measured_are_full_and_stay_so() {
    let mut house = told(&workloads::full_list());
    assert_eq!(house.perform(&Input::Got(workloads::long_word(2000))), Ok(Vec::new()));
    assert!(house.perform(&Input::Got(workloads::ask_again())).is_ok());
    assert_eq!(house.list.len(), MOST_LINES);
}
