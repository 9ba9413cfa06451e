//! Another program, run on the same lines as the model.

use crate::form::Form;
use crate::generator::Script;
use crate::house_lines::{house_output, HouseLines};
use crate::net::Net;
use crate::text;
use std::io::{Read, Write};
use std::path::{Path, PathBuf};
use std::process::{Child, Command, Stdio};
use std::sync::mpsc;
use std::time::Duration;

const PATIENCE: Duration = Duration::from_secs(120);

/// The first line of output in which two programs differ, counted from 1.
#[derive(Clone, Debug, PartialEq, Eq)]
pub struct Difference {
    pub line: usize,
    pub expected: String,
    pub found: String,
}

/// The program that is compared with the model.
#[derive(Clone, Debug)]
pub enum Other {
    Rehearse(PathBuf),
    House(PathBuf),
}

impl Other {
    /// Where the other program's output for a script first differs from the model's.
    pub fn difference(&self, script: &Script, form: Form) -> Option<Difference> {
        match self {
            Other::Rehearse(path) => {
                let arguments = [form.options(), vec![script.houses.to_string()]].concat();
                first_difference(&rehearsed(script, form), &run(path, &arguments, script.text()))
            }
            Other::House(path) => (0..script.houses).find_map(|me| {
                let lines = HouseLines::of(script, me);
                let arguments = [form.options(), vec![me.to_string(), script.houses.to_string()]].concat();
                first_difference(&house_output(me, script.houses, &lines, form), &run(path, &arguments, lines.text()))
            }),
        }
    }
}

impl Other {
    /// The forms that the program prints in.
    pub fn forms(&self) -> &'static [Form] {
        match self {
            Other::Rehearse(_) => &[Form::Plain, Form::Named],
            Other::House(_) => &[Form::Plain, Form::Named, Form::Framed],
        }
    }

    /// How many runs of the program a script asks for.
    pub fn runs(&self, script: &Script) -> u64 {
        match self {
            Other::Rehearse(_) => 1,
            Other::House(_) => u64::from(script.houses),
        }
    }
}

/// What the model prints for a script.
pub fn rehearsed(script: &Script, form: Form) -> Vec<u8> {
    let mut net = Net::new(script.houses);
    script.lines.iter().flat_map(|line| net.play(line).output(form).into_bytes()).collect()
}

/// Where two outputs first differ.
pub fn first_difference(expected: &[u8], found: &Result<Vec<u8>, String>) -> Option<Difference> {
    let shown =
        |line: Option<&&[u8]>| line.map_or("(no line)".to_string(), |line| String::from_utf8_lossy(line).into_owned());
    let expected_lines = text::lines(expected);
    let found = match found {
        Err(what) => return Some(Difference { line: 0, expected: "a normal end".to_string(), found: what.clone() }),
        Ok(found) => found,
    };
    if found == expected {
        return None;
    }
    let found_lines = text::lines(found);
    let longest = expected_lines.len().max(found_lines.len());
    let place = (0..longest).find(|place| expected_lines.get(*place) != found_lines.get(*place)).unwrap_or(longest);
    Some(Difference {
        line: place + 1,
        expected: shown(expected_lines.get(place)),
        found: shown(found_lines.get(place)),
    })
}

/// All that the program prints for this input, or how it failed.
fn run(path: &Path, arguments: &[String], input: Vec<u8>) -> Result<Vec<u8>, String> {
    let child =
        Command::new(path).args(arguments).stdin(Stdio::piped()).stdout(Stdio::piped()).stderr(Stdio::null()).spawn();
    let mut child = child.map_err(|error| format!("it does not start: {error}"))?;
    let output = exchange(&mut child, input);
    if output.is_none() {
        let _ = child.kill();
    }
    let status = child.wait().map_err(|error| error.to_string())?;
    let output = output.ok_or("it does not end")?;
    if status.success() {
        Ok(output)
    } else {
        Err(format!("it ends with {status}"))
    }
}

/// Writes the input while the output is read; nothing if that takes too long.
fn exchange(child: &mut Child, input: Vec<u8>) -> Option<Vec<u8>> {
    let mut standard_input = child.stdin.take()?;
    let mut standard_output = child.stdout.take()?;
    std::thread::spawn(move || {
        let _ = standard_input.write_all(&input);
    });
    let (sender, receiver) = mpsc::channel();
    std::thread::spawn(move || {
        let mut output = Vec::new();
        let _ = standard_output.read_to_end(&mut output);
        let _ = sender.send(output);
    });
    receiver.recv_timeout(PATIENCE).ok()
}
