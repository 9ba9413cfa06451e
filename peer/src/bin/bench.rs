//! Measures the proved code beside the second program. Without arguments it prints a table. To be
//! counted from outside: `names` prints the name of each row and a number of times that is enough,
//! a name with `rattle` or `peer` and a number does that work so many times, and `script` prints the
//! lines of the first rehearsal.

use peer::call::Input;
use peer::form::Form;
use peer::generator::{Flood, Script};
use peer::house::House;
use peer::house_lines::play;
use peer::measures::{self, Done, Told};
use peer::message::Message;
use peer::rattle;
use peer::text;
use peer::workloads::{self, HOUSES, ME};
use std::fs::File;
use std::hint::black_box;
use std::io::Write;
use std::process::{Command, ExitCode, Stdio};
use std::time::{Duration, Instant};

/// Of so many measurements the best counts.
const TRIALS: usize = 9;
/// How many lines a whole rehearsal has.
const REHEARSAL: usize = 100_000;

#[derive(Clone, Copy, PartialEq, Eq)]
enum Side {
    Rattle,
    Peer,
}

const SIDES: [Side; 2] = [Side::Rattle, Side::Peer];

/// One kind of work: its name, and how many times it is done for one measurement.
struct Row {
    name: &'static str,
    what: &'static str,
    times: u32,
    work: Work,
}

enum Work {
    /// Messages, read or read and written.
    Read(Vec<Vec<u8>>),
    Copy(Vec<Vec<u8>>),
    /// A house is told lines, and then this message comes again and again.
    Hear(Vec<String>, Vec<u8>),
    /// A house is told lines, and then this one again and again.
    Call(Vec<String>, &'static str),
}

fn rows() -> Vec<Row> {
    let row = |name, what, times, work| Row { name, what, times, work };
    let hear = |name, what, times, bytes| row(name, what, times, Work::Hear(workloads::full_list(), bytes));
    let collect = |name, what, times, lines| row(name, what, times, Work::Call(lines, "collect"));
    vec![
        row("read", "a message is read, of a mixed million", 1_000_000, Work::Read(workloads::mixed(4096))),
        row("copy", "a message is read and written, of a mixed million", 1_000_000, Work::Copy(workloads::mixed(4096))),
        hear("hear", "a word of 2,000 objects is heard on a list of 2,048 lines", 2000, workloads::long_word(2000)),
        hear("ask", "an ask for the newest of 2,048 lines", 200_000, workloads::ask_again()),
        collect("wide", "1,024 objects are collected: 128 roots with 7 fields each", 2000, workloads::wide()),
        collect("rising", "the same, a chain from the oldest to the newest", 2000, workloads::rising_chain()),
        collect("falling", "the same, a chain from the newest to the oldest", 200, workloads::falling_chain()),
        collect("tangle", "the same, fields at random, one root", 1000, workloads::tangle()),
        row(
            "word",
            "`word` of 8,192 references, taken in rising order",
            500,
            Work::Call(workloads::far(false), "word 1"),
        ),
        row("word-mixed", "the same, taken in any order", 50, Work::Call(workloads::far(true), "word 1")),
        row("tell", "`tell` of 8,192 references", 100, Work::Call(workloads::far(false), "tell")),
    ]
}

impl Work {
    /// Does the work so many times; what came of it, which is the same on either side.
    fn perform(&self, side: Side, times: u32) -> Done {
        match (self, side) {
            (Work::Read(messages), Side::Rattle) => {
                each(messages, times, |bytes| u64::from(black_box(rattle::read(bytes, HOUSES)).refusal))
            }
            (Work::Read(messages), Side::Peer) => {
                each(messages, times, |bytes| u64::from(black_box(Message::decode(bytes, HOUSES)).is_none()))
            }
            (Work::Copy(messages), Side::Rattle) => each(messages, times, |bytes| measures::copy(bytes, HOUSES)),
            (Work::Copy(messages), Side::Peer) => each(messages, times, |bytes| {
                Message::decode(bytes, HOUSES).map_or(0, |message| black_box(message.encode()).len() as u64)
            }),
            (Work::Hear(lines, word), Side::Rattle) => measures::hear(&Told::new(lines), word, times),
            (Work::Hear(lines, word), Side::Peer) => {
                let (mut house, refused) = told(lines);
                let word = Input::Got(word.clone());
                let left = (0..times).filter(|_| house.perform(&word).is_err()).count() as u64;
                Done { refused, left }
            }
            (Work::Call(lines, again), Side::Rattle) => measures::call(&Told::new(lines), again, times),
            (Work::Call(lines, again), Side::Peer) => {
                let (mut house, refused) = told(lines);
                for _ in 0..times {
                    let words = text::words(again.as_bytes());
                    let input = Input::parse(&words, HOUSES).expect("a call");
                    black_box(house.perform(&input).is_ok());
                }
                Done { refused, left: house.objects.len() as u64 }
            }
        }
    }

    fn time(&self, side: Side, times: u32) -> Duration {
        let begun = Instant::now();
        black_box(self.perform(side, times));
        begun.elapsed()
    }

    /// How long the work takes once: the best time for all of it, less the best for what comes before.
    fn best(&self, times: u32) -> [Duration; 2] {
        let (all, before) = (best(|side| self.time(side, times)), best(|side| self.time(side, 0)));
        [0, 1].map(|side| all[side].saturating_sub(before[side]) / times)
    }
}

fn each(messages: &[Vec<u8>], times: u32, mut one: impl FnMut(&[u8]) -> u64) -> Done {
    let left = messages.iter().cycle().take(times as usize).map(|bytes| one(bytes)).sum();
    Done { refused: 0, left }
}

/// A house that was told these lines, and how many it refused.
fn told(lines: &[String]) -> (House, u64) {
    let mut house = House::new(ME, HOUSES);
    let refused = lines.iter().filter(|line| play(&mut house, line.as_bytes(), Form::Plain).starts_with("no")).count();
    (house, refused as u64)
}

/// The best of some measurements on each side, taken in turns.
fn best(mut measure: impl FnMut(Side) -> Duration) -> [Duration; 2] {
    let mut best = [Duration::MAX; 2];
    for _ in 0..TRIALS {
        for (side, least) in SIDES.into_iter().zip(&mut best) {
            *least = measure(side).min(*least);
        }
    }
    best
}

fn print_row(what: &str, [rattle, peer]: [Duration; 2]) {
    let ratio = rattle.as_secs_f64() / peer.as_secs_f64();
    println!("| {what} | {} | {} | {ratio:.2} |", shown(rattle), shown(peer));
}

fn shown(time: Duration) -> String {
    let nanoseconds = time.as_nanos();
    match nanoseconds {
        0..=9_999 => format!("{nanoseconds} ns"),
        10_000..=9_999_999 => format!("{:.1} µs", nanoseconds as f64 / 1e3),
        _ => format!("{:.1} ms", nanoseconds as f64 / 1e6),
    }
}

/// How long a program takes for all of a rehearsal, from a file to nowhere.
fn rehearsal_time(program: &str, file: &str) -> Duration {
    let input = File::open(file).expect("the script is there");
    let begun = Instant::now();
    let status = Command::new(program).arg(HOUSES.to_string()).stdin(input).stdout(Stdio::null()).status();
    assert!(status.is_ok_and(|status| status.success()), "{program} fails");
    begun.elapsed()
}

fn print_rehearsal(what: &str, script: &Script) {
    let file = std::env::temp_dir().join(format!("rehearsal-{}", std::process::id()));
    std::fs::write(&file, script.text()).expect("the script can be written");
    let path = file.to_str().expect("a path in plain text");
    let program =
        |side| if side == Side::Rattle { "crates/rehearse/out/rehearse" } else { "peer/target/release/peer-rehearse" };
    let what = format!("the program `rehearse`, four houses, {} lines, {what}", script.lines.len());
    print_row(&what, best(|side| rehearsal_time(program(side), path)));
    let _ = std::fs::remove_file(&file);
}

fn print_table() -> bool {
    println!("| what | Rattle | second program | ratio |\n|---|---|---|---|");
    for Row { what, times, work, .. } in rows() {
        if work.perform(Side::Rattle, 10) != work.perform(Side::Peer, 10) {
            println!("the two differ: {what}");
            return false;
        }
        print_row(what, work.best(times));
    }
    print_rehearsal("small tables", &workloads::rehearsal(REHEARSAL, Flood::None));
    print_rehearsal("one list filled first", &workloads::rehearsal(REHEARSAL, Flood::Lines));
    true
}

fn main() -> ExitCode {
    let arguments: Vec<String> = std::env::args().skip(1).collect();
    let words: Vec<&str> = arguments.iter().map(String::as_str).collect();
    let ok = match words.as_slice() {
        [] => print_table(),
        ["names"] => {
            rows().iter().for_each(|row| println!("{} {}", row.name, (row.times / 20).clamp(5, 2000)));
            true
        }
        ["script"] => {
            let script = workloads::rehearsal(REHEARSAL, Flood::None);
            std::io::stdout().write_all(&script.text()).is_ok()
        }
        [name, side, times] => {
            let side = if *side == "rattle" { Side::Rattle } else { Side::Peer };
            let row = rows().into_iter().find(|row| row.name == *name);
            row.zip(times.parse().ok()).map(|(row, times)| black_box(row.work.perform(side, times))).is_some()
        }
        _ => false,
    };
    ExitCode::from(u8::from(!ok))
}
