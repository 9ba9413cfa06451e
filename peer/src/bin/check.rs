//! Tests the promise over the scripts of many seeds.

use peer::check::{check, print_shrunk};
use peer::generator::script;
use peer::stats::Stats;
use std::process::ExitCode;

fn main() -> ExitCode {
    let arguments: Vec<u64> = std::env::args().skip(1).filter_map(|word| word.parse().ok()).collect();
    let [from, count] = arguments.as_slice() else {
        eprintln!("usage: check FROM COUNT, the first seed and how many");
        return ExitCode::from(1);
    };
    let mut stats = Stats::default();
    for seed in *from..from + count {
        let script = script(seed, true, 16);
        if let Err(violation) = check(&script, &mut stats) {
            println!("seed {seed} line {}: {}", violation.line, violation.what);
            print_shrunk(&script);
            return ExitCode::from(2);
        }
        if (seed - from) % 1000 == 999 {
            println!("to seed {seed}: {stats}");
        }
    }
    println!("kept: {stats}");
    ExitCode::SUCCESS
}
