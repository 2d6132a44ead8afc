//! The intake, which joins the deliveries of one side: docs/RULES.md, section 10. No words cross
//! here, so this is what a C host sees, and both structs are laid out as the header's.

use crate::message::{read_message, whole_length, HEAD};
use crate::refusal::{self, Refusal};

/// The state (R10.1).
#[repr(C)]
#[derive(Clone, Copy, Debug, Default, PartialEq, Eq)]
pub struct Intake {
    /// Bytes of the room that was lent at the start.
    pub room: u64,
    pub side: u32,
    /// Bytes that wait at the front of the room.
    pub held: u32,
    /// The refusal that ended the intake, or 0 and 0.
    pub number: u32,
    pub place: u32,
}

/// What a call answers (R10.4, R10.5).
#[repr(C)]
#[derive(Clone, Copy, Debug, Default, PartialEq, Eq)]
pub struct Delivery {
    pub intake: Intake,
    pub number: u32,
    pub place: u32,
    pub taken: u32,
    pub length: u32,
    pub lacks: u32,
}

/// `rembulfose_intake_start`.
pub fn start(side: u32, room: usize) -> Intake {
    Intake {
        room: room as u64,
        side,
        ..Intake::default()
    }
}

/// `rembulfose_intake_reset`: room and side stay (R10.2).
pub fn reset(intake: Intake) -> Intake {
    Intake {
        held: 0,
        number: 0,
        place: 0,
        ..intake
    }
}

/// `rembulfose_intake_take`.
pub fn take(intake: Intake, src: &[u8], room: &mut [u8]) -> Delivery {
    let Intake { number, place, .. } = intake;
    // R10.6, and then R10.5: the state comes back as it was.
    if room.len() as u64 != intake.room {
        return refused(intake, Refusal::at_start(refusal::OUTPUT_ROOM));
    }
    if number != 0 {
        return refused(intake, Refusal { number, place });
    }
    // R10.10: a state from elsewhere may hold more than there is room.
    let held = room.len().min(intake.held as usize);
    let empty = reset(intake);
    match outcome(intake.side, held, src, room) {
        Ok(Outcome::Lacks(lacks)) => lacking(empty, held, src.len(), lacks),
        Ok(Outcome::Gives(length)) => given(empty, held, length),
        Err(refusal) => refused(ended(empty, refusal), refusal),
    }
}

/// All of the source is taken and held.
fn lacking(empty: Intake, held: usize, taken: usize, lacks: usize) -> Delivery {
    Delivery {
        intake: Intake {
            held: (held + taken) as u32,
            ..empty
        },
        taken: taken as u32,
        lacks: lacks as u32,
        ..Delivery::default()
    }
}

/// A message is given: nothing is held, so that a whole head is lacking.
fn given(empty: Intake, held: usize, length: usize) -> Delivery {
    Delivery {
        intake: empty,
        taken: needed(length, held) as u32,
        length: length as u32,
        lacks: HEAD as u32,
        ..Delivery::default()
    }
}

/// The state that a refusal ends.
fn ended(empty: Intake, Refusal { number, place }: Refusal) -> Intake {
    Intake {
        number,
        place,
        ..empty
    }
}

/// A refusal, with the state that goes with it.
fn refused(intake: Intake, Refusal { number, place }: Refusal) -> Delivery {
    Delivery {
        intake,
        number,
        place,
        ..Delivery::default()
    }
}

/// What comes of bytes at hand that are not refused.
enum Outcome {
    /// So many bytes are lacking, of a head or of the message.
    Lacks(usize),
    /// A message of so many bytes stands at the front of the room.
    Gives(usize),
}

/// The rows of R10.3, for the bytes that are held in the room and those of the source. What R10.7
/// puts into the room is put there.
fn outcome(side: u32, held: usize, src: &[u8], room: &mut [u8]) -> Result<Outcome, Refusal> {
    let too_large = Refusal::at_start(refusal::OUTPUT_ROOM);
    let at_hand = held + src.len();
    // Rows 1 and 2.
    if at_hand > 0 && room.len() < HEAD {
        return Err(too_large);
    }
    // Rows 1 and 3.
    if at_hand < HEAD {
        hold(held, src, room);
        return Ok(Outcome::Lacks(HEAD - at_hand));
    }
    // Rows 4 and 5.
    let length = whole_length(&head(&room[..held], src))?;
    if length > room.len() {
        return Err(too_large);
    }
    // Row 6.
    if at_hand < length {
        hold(held, src, room);
        return Ok(Outcome::Lacks(length - at_hand));
    }
    // Rows 7 and 8. Nothing is listed, so there is no 31.
    hold(held, &src[..needed(length, held)], room);
    read_message(side, &room[..length], usize::MAX)?;
    Ok(Outcome::Gives(length))
}

/// What a message lacks of which so many bytes are held: none if they are more (R10.10).
fn needed(length: usize, held: usize) -> usize {
    length.saturating_sub(held)
}

/// Puts bytes behind those that are held.
fn hold(held: usize, bytes: &[u8], room: &mut [u8]) {
    room[held..held + bytes.len()].copy_from_slice(bytes);
}

/// The first five of the bytes at hand, which are at least as many.
fn head(held: &[u8], src: &[u8]) -> [u8; HEAD] {
    let mut head = [0; HEAD];
    let at_hand = held.iter().chain(src);
    for (byte, &next) in head.iter_mut().zip(at_hand) {
        *byte = next;
    }
    head
}
