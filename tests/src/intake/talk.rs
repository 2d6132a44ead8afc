//! A conversation with both programs. Besides each call, what it came to is compared with the second
//! program's reading of the joined bytes, at the end and before each reset (R10.8).

use super::both::{self, Rooms, Take};
use super::case::{Case, End, Step};
use super::counts::{Counts, Event};
use crate::fence::{Input, Room};
use crate::report::{report, Hex};
use second::intake::{self, Delivery, Intake};
use second::joined::{self, End as Ending, Joined};
use second::refusal::{Refusal, NOT_WHOLE};
use std::ops::Range;

/// The memory of a conversation.
pub struct Lent<'a> {
    pub source: &'a mut Input,
    pub rooms: Rooms<'a>,
    /// For calls with another room, and what it then holds.
    pub other: &'a mut Room,
    pub pattern: &'a [u8],
}

pub struct Talk<'a> {
    case: &'a Case,
    lent: Lent<'a>,
    counts: Counts<'a>,
    intake: Intake,
    /// Whether a start and calls alone led to state and room.
    reachable: bool,
    /// What has come of the stream since the start or the last reset.
    came: Range<usize>,
    /// The messages given since then, and how many were before.
    given: Vec<Vec<u8>>,
    given_before: usize,
    /// What the last call answered, and since then the last with the room of the start.
    last: Delivery,
    last_taking: Option<Delivery>,
}

impl<'a> Talk<'a> {
    pub fn start(case: &'a Case, lent: Lent<'a>, mut counts: Counts<'a>) -> Result<Self, String> {
        counts.started(case.side);
        Ok(Talk {
            case,
            lent,
            counts,
            intake: both::start(case.side, case.room)?,
            reachable: true,
            came: 0..0,
            given: Vec::new(),
            given_before: 0,
            last: Delivery::default(),
            last_taking: None,
        })
    }

    pub fn step(&mut self, step: &Step) -> Result<(), String> {
        match step {
            Step::Deliver(length) => self.deliver(*length)?,
            Step::Reset => self.reset()?,
            Step::OtherRoom(room) => self.take_with_other_room(*room)?,
            Step::WriteRoom(bytes) => {
                self.lent.rooms.write(bytes);
                self.reachable = false;
            }
            Step::WriteState(intake) => {
                self.intake = *intake;
                self.reachable = false;
            }
        }
        Ok(())
    }

    pub fn end(mut self) -> Result<End, String> {
        self.hold_joined()?;
        Ok(End {
            messages: self.given_before + self.given.len(),
            held: self.intake.held,
            number: self.last.number,
            place: self.last.place,
            lacks: self.last.lacks,
        })
    }

    /// Hands in what comes as the header's loop does: until no message is given.
    fn deliver(&mut self, length: usize) -> Result<(), String> {
        let mut src = &self.case.stream[self.came.end..][..length];
        self.came.end += length;
        match length {
            0 => self.counts.met(Event::NoBytes),
            1 => self.counts.met(Event::OneByte),
            _ => {}
        }
        loop {
            let answer = self.take(src)?;
            src = &src[answer.taken as usize..];
            if answer.length == 0 {
                return self.hold_taken(answer, src);
            }
            let message = &self.lent.rooms.bytes()[..answer.length as usize];
            self.counts.given(answer.intake.side, message);
            self.given.push(message.to_vec());
        }
    }

    /// Where the loop ends without a refusal, nothing of the delivery is left.
    fn hold_taken(&self, answer: Delivery, left: &[u8]) -> Result<(), String> {
        if answer.number != 0 || left.is_empty() {
            return Ok(());
        }
        let what = "a delivery is not taken whole, and no message is given";
        Err(report(what, &Hex(left), &[("both", answer)]))
    }

    fn take(&mut self, src: &[u8]) -> Result<Delivery, String> {
        let take = Take {
            intake: self.intake,
            src,
            edge: self.case.lending.edge,
        };
        let answer = take.answer(self.lent.source, &mut self.lent.rooms)?;
        self.last_taking = Some(answer);
        self.answered(&take, answer, self.case.room)?;
        Ok(answer)
    }

    /// Offers all that is still to come, of which nothing may be taken.
    fn take_with_other_room(&mut self, room: usize) -> Result<(), String> {
        let edge = self.case.lending.edge;
        let take = Take {
            intake: self.intake,
            src: &self.case.stream[self.came.end..],
            edge,
        };
        let fenced = self.lent.other.lend(room, edge);
        let mut rooms = Rooms::new(fenced, &self.lent.pattern[..room]);
        let answer = take.answer(self.lent.source, &mut rooms)?;
        self.answered(&take, answer, room)
    }

    /// Goes on with the state that was answered. Number 1 is never given (R10.4), but a state from
    /// elsewhere may have it.
    fn answered(&mut self, take: &Take, answer: Delivery, room: usize) -> Result<(), String> {
        self.intake = answer.intake;
        self.last = answer;
        if !self.reachable {
            self.counts.took_from_foreign(take.intake, room, answer);
        } else if answer.number == NOT_WHOLE {
            return Err(report("number 1 is given", take, &[("both", answer)]));
        } else {
            self.counts.took(take.intake, room, answer);
        }
        Ok(())
    }

    /// A reset state is one of a start, whatever it was before, if it has the length of this room.
    fn reset(&mut self) -> Result<(), String> {
        self.hold_joined()?;
        self.intake = both::reset(self.intake)?;
        self.reachable = self.intake.room == self.case.room as u64;
        self.came.start = self.came.end;
        self.given_before += self.given.len();
        self.given.clear();
        self.last_taking = None;
        self.counts.met(Event::Reset);
        Ok(())
    }

    /// Compares what was given, and the state, with the joined bytes since the start or last reset.
    fn hold_joined(&mut self) -> Result<(), String> {
        if !self.reachable {
            return Ok(());
        }
        let (side, room) = (self.intake.side, self.case.room);
        let came = &self.case.stream[self.came.clone()];
        let due = Due::of(side, room, came);
        let lacks = self.last_taking.map_or(due.lacks, |last| last.lacks);
        let same_state = self.intake == due.state && lacks == due.lacks;
        let same_room = self.lent.rooms.bytes().starts_with(due.held);
        if !same_state || !same_room || self.given != due.messages {
            let what = "this is not what the joined bytes come to";
            let call = format!("  side {side}, room {room}, joined: {}", Hex(came));
            let both = (self.given.len(), self.intake, lacks);
            let due = (due.messages.len(), due.state, due.lacks);
            return Err(report(what, &call, &[("both", both), ("joined", due)]));
        }
        if !due.held.is_empty() {
            self.counts.met(Event::Unfinished);
        }
        Ok(())
    }
}

/// What joined bytes come to: messages, state, what it holds, and how many bytes it lacks.
struct Due<'a> {
    messages: Vec<&'a [u8]>,
    state: Intake,
    held: &'a [u8],
    lacks: u32,
}

impl Due<'_> {
    fn of(side: u32, room: usize, bytes: &[u8]) -> Due<'_> {
        let Joined { messages, end } = joined::read(side, room, bytes);
        let start = intake::start(side, room);
        match end {
            Ending::Unfinished { left, lacks } => Due {
                messages,
                state: Intake {
                    held: left.len() as u32,
                    ..start
                },
                held: left,
                lacks: lacks as u32,
            },
            Ending::Refused(Refusal { number, place }) => Due {
                messages,
                state: Intake {
                    number,
                    place,
                    ..start
                },
                held: &[],
                lacks: 0,
            },
        }
    }
}
