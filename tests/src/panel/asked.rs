//! What `panel check` and `panel find` print, and how they end.

use super::capture::{listed, RowAt, Shown};
use super::described::Described;
use super::refused::{self, Within, WORDS};
use super::seen::Outcome;
use super::texts::{self, Extent};
use super::tree::Tree;
use crate::crossed;
use second::crossing::{find, find_number, Answer};
use second::descriptor::{self, Descriptor};
use second::message::SERVER;
use second::refusal::{Refusal, ABSENT_ELEMENT, NO_ENTRY};

/// What a command prints, what it prints as errors, and its exit status.
#[derive(Default)]
pub struct Ended {
    pub lines: Vec<String>,
    pub errors: Vec<String>,
    pub status: i32,
}

/// How `check` ends where nothing was refused but not all is good.
pub const NOTHING_TO_CHECK: &str = "there was nothing to check";
pub const NOT_CHECKED: &str = "not checked, as no description of them was met";

const GOOD: i32 = 0;
const REFUSED: i32 = 1;
const NOT_UNDERSTOOD: i32 = 2;

impl Ended {
    pub fn good(lines: Vec<String>) -> Ended {
        let (errors, status) = (Vec::new(), GOOD);
        Ended {
            lines,
            errors,
            status,
        }
    }

    fn refused(lines: Vec<String>) -> Ended {
        let status = REFUSED;
        Ended {
            status,
            ..Ended::good(lines)
        }
    }
}

/// A side-marked capture says itself who sent what, so that `--client` is an error.
pub fn client_of_marked() -> Ended {
    let why = "panel: --client is for one side's bytes, and this capture is side-marked";
    Ended {
        lines: Vec::new(),
        errors: vec![why.into(), "Try `panel --help`.".into()],
        status: NOT_UNDERSTOOD,
    }
}

fn is_refusal(line: &str) -> bool {
    line.starts_with("    refused with ")
}

/// The first message with a refusal and the first refusal in it; if there is none, what is unfinished
/// first; else the sum, and how many values could not be checked.
pub fn checked(shown: &Shown) -> Ended {
    let lines = &shown.lines;
    let ends = ["the capture ends ", "unfinished: "];
    let is_end = |line: &String| ends.iter().any(|end| line.starts_with(end));
    let first = lines
        .iter()
        .position(|line| is_refusal(line) || is_end(line));
    let Some(first) = first else {
        return unrefused(shown);
    };
    if is_end(&lines[first]) {
        return Ended::refused(vec![lines[first].clone()]);
    }
    let is_head = |line: &String| line.starts_with("message ");
    let head = lines[..first].iter().rposition(is_head).expect("a message");
    let goes_on = |line: &&String| line.starts_with("    ") && !is_refusal(line);
    let refusal = lines[first + 1..].iter().take_while(goes_on).count();
    let mut printed = vec![lines[head].clone()];
    printed.extend_from_slice(&lines[first..=first + refusal]);
    Ended::refused(printed)
}

/// Nothing was refused, so no description was lost: values that are not described never were.
fn unrefused(shown: &Shown) -> Ended {
    let sum = shown.lines.last().expect("a sum").clone();
    let not_described = |(_, outcome): &&(_, Outcome)| *outcome == Outcome::NeverDescribed;
    match shown.values.iter().filter(not_described).count() {
        _ if shown.messages == 0 => Ended::refused(vec![sum, NOTHING_TO_CHECK.into()]),
        0 => Ended::good(vec![sum]),
        count => {
            let plural = if count == 1 { "" } else { "s" };
            let line = format!("{NOT_CHECKED}: {count} value{plural}");
            Ended::refused(vec![sum, line])
        }
    }
}

/// The element of a row, counted from 1, that a path leads to.
pub fn found(shown: &Shown, row: usize, path: &[u32]) -> Ended {
    let refused = |line| Ended::refused(vec![line]);
    let Some(at) = row.checked_sub(1).and_then(|row| shown.rows.get(row)) else {
        let rows = shown.rows.len();
        return refused(format!("there is no row {row}: the capture has {rows}"));
    };
    let by = match at.by.known() {
        Ok(by) => by,
        Err(why) => return refused(format!("row {row} is not described, {why}")),
    };
    let plan = descriptor::compile(by.descriptor, by.id, usize::MAX).expect("accepted");
    let (plan, path_bytes) = (crossed::list(&plan), crossed::list(path));
    let answer = find(&plan, at.bytes, &path_bytes);
    if answer.number != 0 {
        return Ended::refused(not_found(answer, at));
    }
    let (size, start) = (texts::size(answer.second as usize), answer.first);
    let place = refused::in_side(SERVER, at.at + start as usize);
    let mut lines = vec![format!("{size} at {start} of row {row} {place}")];
    lines.extend(element(by, at, answer, path));
    let number = find_number(&plan, at.bytes, &path_bytes);
    if number.number == 0 {
        let (format, bits) = (number.format, number.bits);
        lines.push(format!("as one number: format {format}, bits {bits:016x}"));
    }
    Ended::good(lines)
}

fn not_found(answer: Answer, row: &RowAt) -> Vec<String> {
    let Answer { number, place, .. } = answer;
    if number == NO_ENTRY || number == ABSENT_ELEMENT {
        return vec![format!("refused with {number}: {WORDS}")];
    }
    let within = Within::of_server("row", row.bytes, row.at);
    let lines = refused::lines(Refusal { number, place }, &within);
    lines.iter().map(|line| line[4..].to_string()).collect()
}

/// The element as a tree; its bytes where the value has too many entries to be listed.
fn element(by: Described, row: &RowAt, found: Answer, path: &[u32]) -> Vec<String> {
    let Ok(entries) = listed(by, row.bytes) else {
        let bytes = &row.bytes[found.first as usize..][..found.second as usize];
        return vec![texts::hex(bytes, Extent::Whole)];
    };
    match descriptor::read(by.descriptor, by.id).expect("accepted") {
        Descriptor::NoType => Vec::new(),
        Descriptor::Typed { blocks, root } => {
            Tree::lines(&blocks.list, root, row.bytes, &entries, path, Extent::Whole)
        }
    }
}
