//! Runs the panel program on a capture and holds what it prints against what is expected.

use super::asked::{checked, client_of_marked, found, Ended, NOTHING_TO_CHECK, NOT_CHECKED};
use super::capture::{listed, shown, Shown};
use super::joined::{Sides, FIRST_LINE};
use super::refused::WORDS;
use super::seen::{self, Seen};
use crate::entries::path_to;
use crate::rng::Rng;
use second::message::{CLIENT, SERVER};
use std::io::{self, Write};
use std::path::Path;
use std::process::{Command, Stdio};
use std::thread;

/// Words that all mean standard input: no file, a dash, and those after two dashes.
const STANDARD_INPUT: [&[&str]; 4] = [&[], &["-"], &["--"], &["--", "-"]];

/// What the program prints with these arguments and a capture on its standard input, without the
/// words of refusals, and its status. It must end by itself.
pub fn printed(panel: &Path, arguments: &[&str], capture: &[u8]) -> Result<Ended, String> {
    let trouble = |error: io::Error| format!("{}: {error}", panel.display());
    let mut child = Command::new(panel)
        .args(arguments)
        .stdin(Stdio::piped())
        .stdout(Stdio::piped())
        .stderr(Stdio::piped())
        .spawn()
        .map_err(trouble)?;
    let mut input = child.stdin.take().expect("a pipe");
    let output = thread::scope(|scope| {
        // Both pipes hold less than a long capture. Who has found what it looks for reads no further.
        scope.spawn(move || input.write_all(capture));
        child.wait_with_output()
    })
    .map_err(trouble)?;
    let lines = |bytes: Vec<u8>| -> Result<Vec<String>, String> {
        let text = String::from_utf8(bytes).map_err(|_| "it prints no UTF-8")?;
        Ok(text.lines().map(without_words).collect())
    };
    let (lines, errors) = (lines(output.stdout)?, lines(output.stderr)?);
    match output.status.code() {
        Some(status) => Ok(Ended {
            lines,
            errors,
            status,
        }),
        None => Err(format!("{}: {errors:?}", output.status)),
    }
}

fn without_words(line: &str) -> String {
    let trimmed = line.trim_start();
    let rest = trimmed.strip_prefix("refused with ");
    match rest.and_then(|rest| rest.split_once(": ")) {
        Some((number, _)) => {
            let indent = &line[..line.len() - trimmed.len()];
            format!("{indent}refused with {number}: {WORDS}")
        }
        None => line.into(),
    }
}

/// Whether the program prints of a capture what the second program comes to, with each command:
/// `find` on some elements and paths that lead nowhere. What was the same is counted.
pub fn same(panel: &Path, capture: &[u8], rng: &mut Rng, seen: &mut Seen) -> Result<(), String> {
    let sides = Sides::of(capture, SERVER);
    let shown = shown(&sides);
    let asking = Asking { panel, capture };
    asking.show(&shown, rng)?;
    shown
        .values
        .iter()
        .for_each(|value| seen.count_value(*value));
    shown.cuts.iter().for_each(|name| seen.count(name));
    asking.check(&shown, rng, seen)?;
    for _ in 0..2 {
        asking.find(&shown, rng, seen)?;
    }
    asking.as_client(rng, seen)
}

/// Whether both come to the same with `show`.
pub fn same_shown(panel: &Path, capture: &[u8]) -> Result<(), String> {
    let expected = Ended::good(shown(&Sides::of(capture, SERVER)).lines);
    Asking { panel, capture }.agree(&["show"], expected)
}

/// Whether both come to the same with `find` of each row.
pub fn same_found(panel: &Path, capture: &[u8]) -> Result<(), String> {
    let sides = Sides::of(capture, SERVER);
    let shown = shown(&sides);
    let asking = Asking { panel, capture };
    for row in 1..=shown.rows.len() {
        let arguments = ["find", "-", &row.to_string()];
        asking.agree(&arguments, found(&shown, row, &[]))?;
    }
    Ok(())
}

/// A capture that the program is asked about.
struct Asking<'a> {
    panel: &'a Path,
    capture: &'a [u8],
}

impl Asking<'_> {
    fn agree(&self, arguments: &[&str], expected: Ended) -> Result<(), String> {
        let printed = printed(self.panel, arguments, self.capture)?;
        agree(&arguments.join(" "), &printed, &expected)
    }

    fn show(&self, shown: &Shown, rng: &mut Rng) -> Result<(), String> {
        let arguments = [&["show"][..], rng.pick(&STANDARD_INPUT)].concat();
        self.agree(&arguments, Ended::good(shown.lines.clone()))?;
        self.agree(&["follow"], Ended::good(shown.lines.clone()))
    }

    fn check(&self, shown: &Shown, rng: &mut Rng, seen: &mut Seen) -> Result<(), String> {
        let arguments = [&["check"][..], rng.pick(&STANDARD_INPUT)].concat();
        let expected = checked(shown);
        let outcome = match expected.lines.last().expect("a sum").as_str() {
            _ if expected.status == 0 => seen::CHECKED_GOOD,
            line if line == NOTHING_TO_CHECK => seen::CHECKED_NOTHING,
            line if line.starts_with(NOT_CHECKED) => seen::CHECKED_UNDESCRIBED,
            _ => seen::CHECKED_REFUSED,
        };
        self.agree(&arguments, expected)?;
        seen.count(outcome);
        Ok(())
    }

    fn find(&self, shown: &Shown, rng: &mut Rng, seen: &mut Seen) -> Result<(), String> {
        let (row, path) = asked(shown, rng);
        let words: Vec<String> = path.iter().map(u32::to_string).collect();
        let (row_word, path_word) = (row.to_string(), words.join("."));
        let dashes: &[&str] = rng.pick(&[&[], &["--"]]);
        let arguments = [&["find"][..], dashes, &["-", &row_word, &path_word]].concat();
        let expected = found(shown, row, &path);
        let is_described = shown
            .rows
            .get(row - 1)
            .is_none_or(|row| row.by.known().is_ok());
        let outcome = match expected.status {
            0 => seen::FOUND,
            _ if is_described => seen::NOT_FOUND,
            _ => seen::NOT_DESCRIBED,
        };
        self.agree(&arguments, expected)?;
        seen.count(outcome);
        Ok(())
    }

    /// The capture as the client's bytes, with one of the commands.
    fn as_client(&self, rng: &mut Rng, seen: &mut Seen) -> Result<(), String> {
        let sides = Sides::of(self.capture, CLIENT);
        let shown = shown(&sides);
        let commands: [(&[&str], Ended); 4] = [
            (&["show", "--client"], Ended::good(shown.lines.clone())),
            (&["follow", "--client"], Ended::good(shown.lines.clone())),
            (&["check", "--client"], checked(&shown)),
            (&["find", "--client", "-", "1"], found(&shown, 1, &[])),
        ];
        let number = rng.below(commands.len());
        let (arguments, expected) = commands.into_iter().nth(number).expect("one of them");
        let (expected, outcome) = match self.capture.starts_with(FIRST_LINE) {
            true => (client_of_marked(), seen::CLIENT_REFUSED),
            false if checked(&shown).status == 0 => (expected, seen::CLIENT_GOOD),
            false => (expected, seen::CLIENT_READ),
        };
        self.agree(arguments, expected)?;
        seen.count(outcome);
        Ok(())
    }
}

/// A row, or one more than there are, and a path: mostly to an element that is there.
fn asked(shown: &Shown, rng: &mut Rng) -> (usize, Vec<u32>) {
    let one_more = usize::from(rng.once_in(4));
    let row = 1 + rng.below(shown.rows.len().max(1) + one_more);
    let at = shown.rows.get(row - 1);
    let entries = at
        .and_then(|at| listed(at.by.known().ok()?, at.bytes).ok())
        .unwrap_or_default();
    let mut path = match entries.len() {
        0 => Vec::new(),
        count => path_to(&entries, rng.below(count)),
    };
    if rng.once_in(4) {
        path.push(rng.below(3) as u32);
    }
    (row, path)
}

fn agree(what: &str, printed: &Ended, expected: &Ended) -> Result<(), String> {
    agree_on(what, &printed.errors, &expected.errors)?;
    agree_on(what, &printed.lines, &expected.lines)?;
    match (printed.status, expected.status) {
        (printed, expected) if printed == expected => Ok(()),
        (printed, expected) => Err(format!("{what}: status {printed} and not {expected}")),
    }
}

fn agree_on(what: &str, printed: &[String], expected: &[String]) -> Result<(), String> {
    let most = printed.len().max(expected.len());
    let line = |of: &[String], at: usize| of.get(at).cloned().unwrap_or("(no line)".into());
    match (0..most).find(|&at| printed.get(at) != expected.get(at)) {
        None => Ok(()),
        Some(at) => Err(format!(
            "{what}, line {}\n  printed:  {}\n  expected: {}",
            at + 1,
            line(printed, at),
            line(expected, at)
        )),
    }
}
