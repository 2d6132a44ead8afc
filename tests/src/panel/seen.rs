//! What a run has compared, and whether that was enough to mean something.

use super::described::{Description, Way};
use super::joined::Ending;
use second::message::{CLIENT, SERVER};
use std::collections::BTreeMap;
use std::fmt;

/// What a value is of.
#[derive(Clone, Copy, PartialEq, Eq)]
pub enum Kind {
    Row,
    State,
}

impl Kind {
    const ALL: [Kind; 2] = [Kind::Row, Kind::State];

    pub fn name(self) -> &'static str {
        match self {
            Kind::Row => "row",
            Kind::State => "state data",
        }
    }
}

/// What came of a value.
#[derive(Clone, Copy, PartialEq, Eq)]
pub enum Outcome {
    Accepted,
    /// Accepted by a description that was met before some refused message, which could not lose it.
    AcceptedAfterRefused,
    Refused,
    NeverDescribed,
    Lost(Way),
}

impl Outcome {
    /// Of a value by what is known of its description, and what reading it by that came to.
    pub fn of<T, R, W>(by: Description, read: &Result<Result<T, R>, W>) -> Outcome {
        match (by, read) {
            (Description::NeverMet, _) => Outcome::NeverDescribed,
            (Description::Lost(loss), _) => Outcome::Lost(loss.way),
            (Description::Known(_), Ok(Err(_))) => Outcome::Refused,
            (Description::Known(by), _) if by.kept => Outcome::AcceptedAfterRefused,
            (Description::Known(_), _) => Outcome::Accepted,
        }
    }
}

const ACCEPTED: &str = "accepted";
const ACCEPTED_AFTER_REFUSED: &str = "accepted after a refused message";
const REFUSED: &str = "refused";
const NEVER_DESCRIBED: &str = "never described";
const LOST: &str = "lost";

/// What each run must have seen of the commands, besides values.
pub const FOUND: &str = "find: found";
pub const NOT_FOUND: &str = "find: not found";
pub const NOT_DESCRIBED: &str = "find: not described";
pub const CHECKED_GOOD: &str = "check: nothing refused";
pub const CHECKED_REFUSED: &str = "check: refused";
pub const CHECKED_UNDESCRIBED: &str = "check: not described";
pub const CHECKED_NOTHING: &str = "check: nothing to check";
pub const CLIENT_GOOD: &str = "--client: nothing refused";
pub const CLIENT_READ: &str = "--client: refused, or nothing to read";
pub const CLIENT_REFUSED: &str = "--client: side-marked";
const COMMANDS: [&str; 10] = [
    FOUND,
    NOT_FOUND,
    NOT_DESCRIBED,
    CHECKED_GOOD,
    CHECKED_REFUSED,
    CHECKED_UNDESCRIBED,
    CHECKED_NOTHING,
    CLIENT_GOOD,
    CLIENT_READ,
    CLIENT_REFUSED,
];

/// What each run must have seen of messages that records cut.
const CUT_IN_HEAD: &str = "message: cut in its head";
const CUT_BEHIND_HEAD: &str = "message: cut behind its head";

/// Which of these a message is, that is cut in its head or not, and behind that or not.
pub fn cut([in_head, behind_head]: [bool; 2]) -> impl Iterator<Item = String> {
    let names = [(in_head, CUT_IN_HEAD), (behind_head, CUT_BEHIND_HEAD)];
    names
        .into_iter()
        .filter(|(is_so, _)| *is_so)
        .map(|(_, name)| name.into())
}

/// And of how captures end.
pub const END_IN_RECORD: &str = "end: inside a record";
pub const END_IN_RECORD_HEAD: &str = "end: inside the head of a record";
const ENDS_OF_SEVERAL: &str = "end: of several sides";

/// How a side ends, where there is something to say of it.
#[derive(Clone, Copy)]
pub enum End {
    InHead,
    InBody,
    NotRead,
}

impl End {
    const ALL: [End; 3] = [End::InHead, End::InBody, End::NotRead];

    /// Of a side with this number.
    fn name(self, side: u32) -> String {
        let whose = match side {
            CLIENT => "client",
            SERVER => "server",
            _ => "other side",
        };
        let how = match self {
            End::InHead => "unfinished head",
            End::InBody => "unfinished message",
            End::NotRead => "not read",
        };
        format!("end: {whose}, {how}")
    }
}

/// A client, a server, and any other side.
const SIDES: [u32; 3] = [CLIENT, SERVER, SERVER + 1];

/// The names of how the sides of a capture end.
pub fn ends(endings: &[(u32, Ending)]) -> Vec<String> {
    let name = |(side, ending): &(u32, Ending)| ending.kind().name(*side);
    let mut names: Vec<String> = endings.iter().map(name).collect();
    if endings.len() > 1 {
        names.push(ENDS_OF_SEVERAL.into());
    }
    names
}

/// In so many random captures each of the common outcomes must have been seen once: 1,000 times in
/// the gate's 5,000.
const CAPTURES_TO_A_COMMON_ONE: u64 = 5;
/// Each way of losing a description, each outcome of a command, and each way to end: 100 times in the
/// gate's 5,000.
const CAPTURES_TO_A_RARE_ONE: u64 = 50;

/// How often each outcome was seen and was the same in both programs.
pub struct Seen {
    counts: BTreeMap<String, u64>,
    /// The names of what must have been seen, with how few captures may have one.
    demanded: Vec<(String, u64)>,
}

/// What a run must have seen of values of a kind.
fn demanded_of(kind: &str) -> Vec<(String, u64)> {
    let common = [ACCEPTED, REFUSED, NEVER_DESCRIBED, LOST];
    let common = common.map(|outcome| (format!("{kind}: {outcome}"), CAPTURES_TO_A_COMMON_ONE));
    let kept = format!("{kind}: {ACCEPTED_AFTER_REFUSED}");
    let rare = Way::ALL
        .map(|way| lost(kind, way))
        .into_iter()
        .chain([kept]);
    let rare = rare.map(|name| (name, CAPTURES_TO_A_RARE_ONE));
    common.into_iter().chain(rare).collect()
}

/// And of commands, cuts and ends.
fn demanded_besides() -> Vec<(String, u64)> {
    let common = [CUT_IN_HEAD, CUT_BEHIND_HEAD].map(String::from);
    let common = common.map(|name| (name, CAPTURES_TO_A_COMMON_ONE));
    let ends_of = |side| End::ALL.map(|end| end.name(side));
    let ends = [END_IN_RECORD, END_IN_RECORD_HEAD, ENDS_OF_SEVERAL];
    let rare = COMMANDS.into_iter().chain(ends).map(String::from);
    let rare = rare.chain(SIDES.into_iter().flat_map(ends_of));
    let rare = rare.map(|name| (name, CAPTURES_TO_A_RARE_ONE));
    common.into_iter().chain(rare).collect()
}

impl Default for Seen {
    fn default() -> Seen {
        let of_values = Kind::ALL.map(Kind::name).into_iter().flat_map(demanded_of);
        let demanded: Vec<_> = of_values.chain(demanded_besides()).collect();
        let counts = demanded.iter().map(|(name, _)| (name.clone(), 0)).collect();
        Seen { counts, demanded }
    }
}

impl Seen {
    pub fn count(&mut self, name: &str) {
        *self.counts.entry(name.into()).or_default() += 1;
    }

    pub fn count_value(&mut self, (kind, outcome): (Kind, Outcome)) {
        let kind = kind.name();
        self.count(&match outcome {
            Outcome::Accepted => format!("{kind}: {ACCEPTED}"),
            Outcome::AcceptedAfterRefused => format!("{kind}: {ACCEPTED_AFTER_REFUSED}"),
            Outcome::Refused => format!("{kind}: {REFUSED}"),
            Outcome::NeverDescribed => format!("{kind}: {NEVER_DESCRIBED}"),
            Outcome::Lost(_) => format!("{kind}: {LOST}"),
        });
        if let Outcome::Lost(way) = outcome {
            self.count(&lost(kind, way));
        }
    }

    /// What was seen less often than a run with so many random captures must have seen it, with how
    /// often that is: once at the least.
    pub fn scarce(&self, captures: u64) -> Vec<(String, u64)> {
        let demands = self
            .demanded
            .iter()
            .map(|(name, to_one)| (name.clone(), (captures / to_one).max(1)));
        demands
            .filter(|(name, demand)| self.counts[name] < *demand)
            .collect()
    }
}

fn lost(kind: &str, way: Way) -> String {
    format!("{kind}: {LOST} with {}", way.name())
}

impl fmt::Display for Seen {
    fn fmt(&self, f: &mut fmt::Formatter) -> fmt::Result {
        for (name, count) in &self.counts {
            writeln!(f, "  {name:<56}{count:>8}")?;
        }
        Ok(())
    }
}
