//! What a run must have met often: a run in which little happens cannot pass.

use crate::message::draft::{KINDS, SIDES};
use crate::tally::{Counted, Tally};
use second::intake::{Delivery, Intake};
use second::message::HEAD;
use second::refusal::OUTPUT_ROOM;

/// What is counted, by the place of its tally: answers of calls that could take something, from states
/// that a start and calls led to and from those of random numbers; events; and messages given.
pub const COUNTED: [Counted; 4] = [
    Counted::Answers("take", &[2, 3, 4, 5, 6, 32]),
    Counted::Answers("take, from states of random numbers", &[2, 3, 4, 5, 6, 32]),
    Counted::Events("conversations", &NAMES),
    Counted::Events("messages given", &MESSAGES),
];
const REACHABLE: usize = 0;
const FOREIGN: usize = 1;
const EVENTS: usize = 2;
const GIVEN: usize = 3;

/// The place of its name in [`NAMES`].
#[derive(Clone, Copy)]
pub enum Event {
    RoomUnderHead,
    LargerThanRoom,
    OtherRoom,
    OtherRoomAfterRefusal,
    Again,
    Reset,
    OtherSide,
    NoBytes,
    OneByte,
    Given,
    GivenFillsRoom,
    Unfinished,
    Foreign,
    ForeignGiven,
}

const NAMES: [&str; Event::ForeignGiven as usize + 1] = [
    "32 for a room under 5",
    "32 for a message larger than the room",
    "32 for another room length",
    "32 for another room length after a refusal",
    "refusal given again",
    "reset",
    "start for a side that knows no type",
    "empty delivery",
    "delivery of one byte",
    "message given",
    "message given that fills the room",
    "unfinished message at an end",
    "call from a state of random numbers",
    "message given there with nothing taken",
];

/// The messages in the order of [`KINDS`].
const MESSAGES: [&str; KINDS.len()] = [
    "server E", "server L", "server Z", "server C", "server T", "client V", "server s", "server D",
    "server S", "client S",
];

/// The tallies of a run.
pub struct Counts<'a>(pub &'a mut [Tally]);

impl Counts<'_> {
    pub fn met(&mut self, event: Event) {
        self.0[EVENTS].count(event as u32);
    }

    pub fn started(&mut self, side: u32) {
        if !SIDES.contains(&side) {
            self.met(Event::OtherSide);
        }
    }

    /// A message that was given, which is one of the ten.
    pub fn given(&mut self, side: u32, message: &[u8]) {
        let kind = KINDS.iter().position(|kind| *kind == (side, message[0]));
        self.0[GIVEN].count(kind.expect("one of the ten") as u32);
    }

    /// A call that takes, from a state to which a start and calls led.
    pub fn took(&mut self, before: Intake, room: usize, answer: Delivery) {
        if let Some(event) = not_new(before, room) {
            return self.met(event);
        }
        self.0[REACHABLE].count(answer.number);
        if answer.number == OUTPUT_ROOM {
            self.met(match room {
                ..HEAD => Event::RoomUnderHead,
                _ => Event::LargerThanRoom,
            });
        }
        if answer.length > 0 {
            self.met(Event::Given);
        }
        if answer.length > 0 && answer.length as usize == room {
            self.met(Event::GivenFillsRoom);
        }
    }

    /// A call from another state.
    pub fn took_from_foreign(&mut self, before: Intake, room: usize, answer: Delivery) {
        self.met(Event::Foreign);
        if not_new(before, room).is_none() {
            self.0[FOREIGN].count(answer.number);
        }
        if answer.length > 0 && answer.taken == 0 {
            self.met(Event::ForeignGiven);
        }
    }
}

/// Why a call looks at no bytes: it has another room, or the intake has ended.
fn not_new(before: Intake, room: usize) -> Option<Event> {
    match (room as u64 == before.room, before.number) {
        (true, 0) => None,
        (true, _) => Some(Event::Again),
        (false, 0) => Some(Event::OtherRoom),
        (false, _) => Some(Event::OtherRoomAfterRefusal),
    }
}
