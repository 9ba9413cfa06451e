//! Prints the script of a seed.

use peer::generator::script;
use std::io::Write;
use std::process::ExitCode;

fn main() -> ExitCode {
    let arguments: Vec<u64> = std::env::args().skip(1).filter_map(|word| word.parse().ok()).collect();
    let [seed] = arguments.as_slice() else {
        eprintln!("usage: show-script SEED");
        return ExitCode::from(1);
    };
    let script = script(*seed, true, 16);
    let first = format!("# {} houses\n", script.houses).into_bytes();
    match std::io::stdout().write_all(&[first, script.text()].concat()) {
        Ok(()) => ExitCode::SUCCESS,
        Err(_) => ExitCode::from(1),
    }
}
