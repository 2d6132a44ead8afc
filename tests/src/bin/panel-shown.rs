//! Holds what the panel program prints against the second program, and against the table of values
//! and their texts:
//!
//!     panel-shown PANEL TABLE CASES CAPTURE..
//!
//! Each CAPTURE and so many random ones are shown by both; each row of TABLE too, and both must
//! print its text. Every code point and the floats about each power of two are shown too. A run
//! that has hardly seen something that it is to compare has failed.

use compare::panel::capture::shown;
use compare::panel::compare::{printed, same, same_found, same_shown};
use compare::panel::joined::Sides;
use compare::panel::seen::Seen;
use compare::panel::{made, sweep, table};
use compare::rng::Rng;
use second::message::SERVER;
use std::env;
use std::fs;
use std::path::Path;
use std::process::ExitCode;

/// The seed of the random captures.
const SEED: u64 = 1;

#[derive(Default)]
struct Count {
    passed: usize,
    failed: usize,
}

impl Count {
    fn add(&mut self, name: &str, outcome: Result<(), String>) {
        match outcome {
            Ok(()) => self.passed += 1,
            Err(why) => {
                self.failed += 1;
                println!("failed: {name}: {why}");
            }
        }
    }
}

fn main() -> ExitCode {
    let words: Vec<String> = env::args().skip(1).collect();
    let [panel, table, cases, captures @ ..] = &words[..] else {
        return usage();
    };
    let Ok(cases) = cases.parse() else {
        return usage();
    };
    if captures.is_empty() {
        return usage();
    }
    let panel = Path::new(panel);
    let (mut count, mut seen) = (Count::default(), Seen::default());
    hold_captures(panel, captures, &mut count, &mut seen);
    if let Err(why) = hold_table(panel, table, &mut count) {
        count.add(table, Err(why));
    }
    for (name, capture) in sweep::captures(&mut Rng::new(SEED)) {
        count.add(name, same_shown(panel, &capture));
    }
    count.add("long texts, show", same_shown(panel, &sweep::long()));
    count.add("long texts, find", same_found(panel, &sweep::long()));
    for number in 0..cases {
        let mut rng = Rng::of_case(SEED, number);
        let capture = made::capture(&mut rng);
        let outcome = same(panel, &capture, &mut rng, &mut seen);
        count.add(&format!("random capture {number}"), outcome);
    }
    print!("{seen}");
    for (name, demand) in seen.scarce(cases) {
        let why = format!("seen fewer than {demand} times");
        count.add(&name, Err(why));
    }
    println!("{} passed, {} failed", count.passed, count.failed);
    ExitCode::from(u8::from(count.failed > 0))
}

fn usage() -> ExitCode {
    eprintln!("usage: panel-shown PANEL TABLE CASES CAPTURE..");
    eprintln!("CASES is a number, and at least one CAPTURE is needed");
    ExitCode::from(2)
}

/// Holds both programs against each other on captures in files.
fn hold_captures(panel: &Path, captures: &[String], count: &mut Count, seen: &mut Seen) {
    for name in captures {
        let capture = fs::read(name).map_err(|error| error.to_string());
        let mut rng = Rng::new(SEED);
        let outcome = capture.and_then(|capture| same(panel, &capture, &mut rng, seen));
        count.add(name, outcome);
    }
}

/// Holds both programs against each row of the table.
fn hold_table(panel: &Path, name: &str, count: &mut Count) -> Result<(), String> {
    let text = fs::read_to_string(name).map_err(|error| error.to_string())?;
    let rows = table::rows(&text)?;
    if rows.is_empty() {
        return Err("the table has no rows".into());
    }
    let capture = table::capture(&rows)?;
    let printed = printed(panel, &["show"], &capture)?;
    let second = shown(&Sides::of(&capture, SERVER)).lines;
    for (whose, lines) in [("panel", printed.lines), ("second", second)] {
        let trees = table::trees(&lines);
        if trees.len() != rows.len() {
            return Err(format!("{whose}: {} rows of {}", trees.len(), rows.len()));
        }
        for (row, tree) in rows.iter().zip(trees) {
            let outcome = match tree == row.tree() {
                true => Ok(()),
                false => Err(format!(
                    "\n  printed: {tree:#?}\n  expected: {:#?}",
                    row.tree()
                )),
            };
            count.add(&format!("{whose}, {}", row.kind), outcome);
        }
    }
    Ok(())
}
