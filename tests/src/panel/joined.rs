//! The sides of a capture: the bytes of each, joined over its records, and what they are, in the
//! order of host/README.md, "Captures". All of the capture is looked at before anything is told.

use super::seen::End;
use second::message::{read_message, Read};
use second::refusal::{self, Refusal};
use std::collections::BTreeMap;

/// The first line of a side-marked capture.
pub const FIRST_LINE: &[u8] = b"rembulfose-capture 1\n";

/// Words of a list or plan that can cross to a host.
pub const MOST_WORDS: usize = 8_192;

const RECORD_HEAD: usize = 5;
const MESSAGE_HEAD: usize = 5;

/// What one side sent.
#[derive(Default)]
struct Joined {
    bytes: Vec<u8>,
    /// For each record that has bytes: where they start here, and in the capture.
    records: Vec<(usize, usize)>,
}

/// A capture that ends inside a record, or inside its head: how many bytes that has, and how many
/// of them are there.
pub struct Cut {
    pub is_head: bool,
    pub whole: usize,
    pub there: usize,
}

/// All sides by number.
#[derive(Default)]
pub struct Sides {
    sides: BTreeMap<u32, Joined>,
    pub cut: Option<Cut>,
}

/// Something that a side has sent.
pub enum Event<'a> {
    Message(Message<'a>),
    /// Bytes behind a length that is not permitted.
    Unread(u32),
}

pub struct Message<'a> {
    pub side: u32,
    /// Of one whose length is not permitted, the head alone.
    pub bytes: &'a [u8],
    /// How many bytes its side sent before it.
    pub at: usize,
    pub read: Result<Read, Refusal>,
    /// Whether records cut it, in its head and behind that.
    pub is_cut: [bool; 2],
}

/// How a side ends, if there is something to say.
pub enum Ending {
    Unfinished {
        type_byte: u8,
        at: usize,
        held: usize,
        lacking: usize,
    },
    NotRead(usize),
}

impl Ending {
    pub fn kind(&self) -> End {
        match self {
            Ending::Unfinished { held, .. } if *held < MESSAGE_HEAD => End::InHead,
            Ending::Unfinished { .. } => End::InBody,
            Ending::NotRead(_) => End::NotRead,
        }
    }
}

/// What there is in a capture, in the order in which it became whole, and how its sides end.
#[derive(Default)]
pub struct Told<'a> {
    /// With the place in the capture that each has its turn by.
    events: Vec<(usize, Event<'a>)>,
    pub endings: Vec<(u32, Ending)>,
}

impl<'a> Told<'a> {
    pub fn in_turn(&mut self) -> impl Iterator<Item = Event<'a>> + use<'a> {
        let mut events = std::mem::take(&mut self.events);
        events.sort_by_key(|(place, _)| *place);
        events.into_iter().map(|(_, event)| event)
    }
}

impl Sides {
    /// Of a capture; `one_side` is whose bytes one without marks has.
    pub fn of(capture: &[u8], one_side: u32) -> Sides {
        let mut sides = Sides::default();
        match capture.strip_prefix(FIRST_LINE) {
            Some(records) => sides.cut = sides.join(records, FIRST_LINE.len()),
            None => sides.add(one_side, capture, 0),
        }
        sides
    }

    /// Joins records, of which the first stands at this place of the capture.
    fn join(&mut self, mut records: &[u8], mut at: usize) -> Option<Cut> {
        while !records.is_empty() {
            let Some((&[side, a, b, c, d], rest)) = records.split_first_chunk() else {
                return Some(Cut {
                    is_head: true,
                    whole: RECORD_HEAD,
                    there: records.len(),
                });
            };
            let whole = u32::from_be_bytes([a, b, c, d]) as usize;
            let there = whole.min(rest.len());
            self.add(side.into(), &rest[..there], at + RECORD_HEAD);
            if there < whole {
                return Some(Cut {
                    is_head: false,
                    whole,
                    there,
                });
            }
            records = &rest[whole..];
            at += RECORD_HEAD + whole;
        }
        None
    }

    fn add(&mut self, side: u32, bytes: &[u8], at: usize) {
        if !bytes.is_empty() {
            let joined = self.sides.entry(side).or_default();
            joined.records.push((joined.bytes.len(), at));
            joined.bytes.extend(bytes);
        }
    }

    pub fn told(&self) -> Told<'_> {
        let mut told = Told::default();
        for (side, joined) in &self.sides {
            joined.tell(*side, &mut told);
        }
        told
    }
}

impl Joined {
    /// The record that has the byte at this place.
    fn record(&self, at: usize) -> usize {
        self.records.partition_point(|(start, _)| *start <= at) - 1
    }

    /// The byte's place in the capture.
    fn place(&self, at: usize) -> usize {
        let (start, place) = self.records[self.record(at)];
        place + at - start
    }

    /// Message after message, as far as they can be told from each other.
    fn tell<'a>(&'a self, side: u32, told: &mut Told<'a>) {
        let mut at = 0;
        while at < self.bytes.len() {
            let rest = &self.bytes[at..];
            let read = read_message(side, rest, MOST_WORDS);
            let number = read.as_ref().err().map(|refusal| refusal.number);
            if number == Some(refusal::NOT_WHOLE) {
                told.endings.push((side, unfinished(rest, at)));
                return;
            }
            let ends_side = number == Some(refusal::BAD_LENGTH);
            let length = if ends_side { MESSAGE_HEAD } else { whole(rest) };
            let message = Message {
                side,
                bytes: &rest[..length],
                at,
                read,
                is_cut: self.is_cut(at, length),
            };
            let turn = self.place(at + length - 1);
            told.events.push((turn, Event::Message(message)));
            at += length;
            if ends_side {
                return self.leave(side, at, told);
            }
        }
    }

    /// Whether the head of a message lies in several records, and whether what is behind it does,
    /// or starts in another one.
    fn is_cut(&self, at: usize, length: usize) -> [bool; 2] {
        let head_end = at + MESSAGE_HEAD - 1;
        let differ = |from, to| self.record(from) != self.record(to);
        [differ(at, head_end), differ(head_end, at + length - 1)]
    }

    /// What is not read, from here on: each record has its turn with the first of these bytes.
    fn leave<'a>(&self, side: u32, from: usize, told: &mut Told<'a>) {
        if from == self.bytes.len() {
            return;
        }
        let ending = Ending::NotRead(self.bytes.len() - from);
        told.endings.push((side, ending));
        for (start, _) in &self.records[self.record(from)..] {
            let turn = self.place(from.max(*start));
            told.events.push((turn, Event::Unread(side)));
        }
    }
}

/// How many bytes a message has, by its head.
fn whole(message: &[u8]) -> usize {
    1 + u32::from_be_bytes([message[1], message[2], message[3], message[4]]) as usize
}

fn unfinished(rest: &[u8], at: usize) -> Ending {
    let wanted = match rest.len() {
        0..MESSAGE_HEAD => MESSAGE_HEAD,
        _ => whole(rest),
    };
    Ending::Unfinished {
        type_byte: rest[0],
        at,
        held: rest.len(),
        lacking: wanted - rest.len(),
    }
}
