//! Which number a case tries in which place, and how often a run must have met each of them.

use super::numbers::EDGES;
use super::timed::Timed;
use crate::entries::{entries, parents};
use crate::tally::{Counted, Tally};

/// How often a run must have met local times in all, each of the numbers, and each of the places.
const LEAST: u64 = 10_000;
const LEAST_OF_NUMBER: u64 = 500;
const LEAST_OF_PLACE: u64 = 200;

/// What is counted of the cases that try a local_time: these are in every run.
pub const COUNTED: Counted = Counted::Always("local_time", &ROWS);

const ALL: &str = "all cases";
const WITHIN: &str = "another within the day";
const OUTSIDE: &str = "another outside of the day";
const ALONE: &str = "alone";
const DEEP: &str = "in two containers or more";

const ROWS: [(&str, u64); 28] = [
    (ALL, LEAST),
    (EDGES[0].1, LEAST_OF_NUMBER),
    (EDGES[1].1, LEAST_OF_NUMBER),
    (EDGES[2].1, LEAST_OF_NUMBER),
    (EDGES[3].1, LEAST_OF_NUMBER),
    (EDGES[4].1, LEAST_OF_NUMBER),
    (EDGES[5].1, LEAST_OF_NUMBER),
    (WITHIN, LEAST_OF_NUMBER),
    (OUTSIDE, LEAST_OF_NUMBER),
    (ALONE, LEAST_OF_PLACE),
    ("set or array, first", LEAST_OF_PLACE),
    ("set or array, middle", LEAST_OF_PLACE),
    ("set or array, last", LEAST_OF_PLACE),
    ("array in a set, first", LEAST_OF_PLACE),
    ("array in a set, middle", LEAST_OF_PLACE),
    ("array in a set, last", LEAST_OF_PLACE),
    ("tuple, first", LEAST_OF_PLACE),
    ("tuple, middle", LEAST_OF_PLACE),
    ("tuple, last", LEAST_OF_PLACE),
    ("output object, first", LEAST_OF_PLACE),
    ("output object, middle", LEAST_OF_PLACE),
    ("output object, last", LEAST_OF_PLACE),
    ("sparse object, first", LEAST_OF_PLACE),
    ("sparse object, middle", LEAST_OF_PLACE),
    ("sparse object, last", LEAST_OF_PLACE),
    ("range, lower bound", LEAST_OF_PLACE),
    ("range, upper bound", LEAST_OF_PLACE),
    (DEEP, LEAST_OF_PLACE),
];

/// What a case tries: the places of its rows.
#[derive(Clone)]
pub struct Tried(Vec<u32>);

/// A case that may try one.
pub trait Trying {
    fn time(&mut self) -> &mut Option<Tried>;
}

impl Tried {
    pub fn of(timed: &Timed) -> Tried {
        let mut names = places(timed);
        names.extend([ALL.to_string(), number(timed).to_string()]);
        let row = |name: String| {
            let place = ROWS.iter().position(|(row, _)| *row == name);
            place.expect("every number and place has a row") as u32
        };
        Tried(names.into_iter().map(row).collect())
    }
}

/// Counts a case that was compared, if it tries a local_time.
pub fn count(time: &Option<Tried>, tally: &mut Tally) {
    let rows = time.iter().flat_map(|Tried(rows)| rows);
    rows.for_each(|row| tally.count(*row));
}

/// The row of its number.
fn number(timed: &Timed) -> &'static str {
    let edge = EDGES.iter().find(|(edge, _)| *edge == timed.microseconds);
    match edge {
        Some((_, name)) => name,
        None if timed.is_accepted() => WITHIN,
        None => OUTSIDE,
    }
}

/// The rows of its place, as the list of the value has it: one that is first and last has both.
fn places(timed: &Timed) -> Vec<String> {
    let listed = entries(&timed.template.words);
    let parents = parents(&listed);
    let kind = |number: usize| timed.template.plan[listed[number].node as usize];
    let Some(parent) = parents[timed.entry] else {
        return vec![ALONE.to_string()];
    };
    // The kinds of R4.2.
    let container = match (kind(parent), parents[parent].map(kind)) {
        (2, Some(3)) => "array in a set",
        (2, _) => "set or array",
        (4, _) => "tuple",
        (5, _) => "output object",
        (6, _) => "sparse object",
        _ => "range",
    };
    let beside: Vec<usize> = (0..listed.len())
        .filter(|number| parents[*number] == Some(parent))
        .collect();
    let positions = match container {
        "range" if listed[timed.entry].index == 0 => vec!["lower bound"],
        "range" => vec!["upper bound"],
        _ => positions(&beside, timed.entry),
    };
    let name = |position| format!("{container}, {position}");
    let mut names: Vec<String> = positions.into_iter().map(name).collect();
    if parents[parent].is_some() {
        names.push(DEEP.to_string());
    }
    names
}

/// Where an entry stands among those beside it.
fn positions(beside: &[usize], entry: usize) -> Vec<&'static str> {
    let first = beside.first() == Some(&entry);
    let last = beside.last() == Some(&entry);
    match (first, last) {
        (true, true) => vec!["first", "last"],
        (true, false) => vec!["first"],
        (false, true) => vec!["last"],
        (false, false) => vec!["middle"],
    }
}
