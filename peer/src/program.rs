//! What both programs do with their arguments, with standard input and standard output.

use crate::form::Form;
use crate::streams;
use crate::text;
use std::fmt::Display;
use std::io::{self, BufRead, IsTerminal, Write};
use std::process::ExitCode;

/// What the arguments ask for.
#[derive(Clone, Debug, PartialEq, Eq)]
pub enum Wanted {
    Help,
    Version,
    Play(Form, Vec<u64>),
    /// They are wrong.
    Nothing,
}

impl Wanted {
    /// What the arguments of this program ask for; one that is no text is wrong, whatever the others say.
    pub fn of_this_run() -> Wanted {
        let arguments: Result<Vec<String>, _> = std::env::args_os().skip(1).map(|word| word.into_string()).collect();
        arguments.map_or(Wanted::Nothing, |arguments| Wanted::read(&arguments))
    }

    pub fn read(arguments: &[String]) -> Wanted {
        let has = |option: &str| arguments.iter().any(|argument| argument == option);
        if has("--help") {
            return Wanted::Help;
        }
        if has("--version") {
            return Wanted::Version;
        }
        let rest = arguments.iter().filter(|argument| !["--names", "--framed"].contains(&argument.as_str()));
        let Some(numbers) = rest.map(|argument| text::decimal(argument.as_bytes())).collect() else {
            return Wanted::Nothing;
        };
        let form = match (has("--framed"), has("--names")) {
            (true, _) => Form::Framed,
            (false, true) => Form::Named,
            (false, false) => Form::Plain,
        };
        Wanted::Play(form, numbers)
    }
}

/// One line on standard error, and the status of a failure.
pub fn wrong_arguments(usage: &str) -> ExitCode {
    let _ = writeln!(io::stderr(), "{usage}");
    ExitCode::FAILURE
}

/// Prints a text, and nothing is read.
pub fn say(text: &str) -> ExitCode {
    ended(write(&mut io::stdout().lock(), text))
}

/// Answers each line of standard input before the next is read. At a terminal there is a prompt, if one is wanted.
pub fn play(prompts: bool, answer: impl FnMut(&[u8]) -> String) -> ExitCode {
    let prompts = prompts && io::stdin().is_terminal() && io::stdout().is_terminal();
    ended(lines(if prompts { "> " } else { "" }, answer))
}

fn lines(prompt: &str, mut answer: impl FnMut(&[u8]) -> String) -> io::Result<()> {
    streams::was_open(0)?;
    let (mut input, mut output) = (io::stdin().lock(), io::stdout().lock());
    let mut line = Vec::new();
    loop {
        write(&mut output, prompt)?;
        line.clear();
        if input.read_until(b'\n', &mut line)? == 0 {
            break;
        }
        write(&mut output, &answer(line.strip_suffix(b"\n").unwrap_or(&line)))?;
    }
    write(&mut output, if prompt.is_empty() { "" } else { "\n" })
}

fn write(output: &mut impl Write, text: &str) -> io::Result<()> {
    if text.is_empty() {
        return Ok(());
    }
    streams::was_open(1)?;
    output.write_all(text.as_bytes())?;
    output.flush()
}

/// What cannot be read or written ends the program with a line that says so.
fn ended(result: Result<(), impl Display>) -> ExitCode {
    match result {
        Ok(()) => ExitCode::SUCCESS,
        Err(error) => {
            let _ = writeln!(io::stderr(), "Error: {error}");
            ExitCode::FAILURE
        }
    }
}
