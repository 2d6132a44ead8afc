//! Makes each call twice, on the library and on the second program, and compares all that can be
//! seen of it: the four numbers of the answer and every byte of the room. The bytes that a call
//! reads are lent where it cannot write.

use super::case::{Call, Case, ReadCall, WriteCall};
use crate::ffi;
use crate::lending::Lending;
use crate::memory::{Lent, Memory};
use crate::program::Judge;
use crate::report::report;
use crate::tally::{Counted, Tally};
use second::crossing::{self, Answer};

/// The comparison of the message calls.
pub struct Messages {
    reading: Memory<1>,
    writing: Memory<2>,
}

impl Judge for Messages {
    type Case = Case;
    type Answer = Answer;
    const COUNTED: &'static [Counted] = &[
        Counted::Answers("reader", &[1, 2, 3, 4, 5, 6, 31]),
        Counted::Answers("writer", &[2, 3, 6, 32]),
    ];

    fn new(seed: u64) -> Messages {
        Messages {
            reading: Memory::new(seed),
            writing: Memory::new(seed),
        }
    }

    fn judge(&mut self, case: &Case, tallies: &mut [Tally]) -> Result<Answer, String> {
        let (answer, place) = match &case.call {
            Call::Read(call) => (self.read(call, case.lending)?, 0),
            Call::Write(call) => (self.write(call, case.lending)?, 1),
        };
        if let Some(expected) = case.expected.filter(|expected| *expected != answer) {
            let what = "both programs differ from the answer worked out by hand";
            let answers = [("both", answer), ("by hand", expected)];
            return Err(report(what, &case.call, &answers));
        }
        tallies[place].count(answer.number);
        Ok(answer)
    }
}

impl Messages {
    /// Compares a reading; an accepted message, written from its list, must come back.
    fn read(&mut self, call: &ReadCall, lending: Lending) -> Result<Answer, String> {
        let answer = self.compare_read(call, lending)?;
        if answer.number != 0 {
            return Ok(answer);
        }
        let message = &call.src[..answer.first as usize];
        let back = WriteCall {
            side: call.side,
            type_byte: message[0],
            list: self.reading.left()[..4 * answer.second as usize].to_vec(),
            src: call.src.clone(),
            room: message.len(),
        };
        let written = self.compare_write(&back, lending)?;
        if written.number != 0 || self.writing.left() != message {
            let what = "an accepted message does not come back from its list";
            return Err(report(what, &back, &[("both", written)]));
        }
        Ok(answer)
    }

    /// Compares a writing; a written message must be accepted and hold the named bytes in order.
    fn write(&mut self, call: &WriteCall, lending: Lending) -> Result<Answer, String> {
        let answer = self.compare_write(call, lending)?;
        if answer.number != 0 {
            return Ok(answer);
        }
        let back = ReadCall {
            side: call.side,
            src: self.writing.left()[..answer.first as usize].to_vec(),
            room: call.list.len(),
        };
        let read = self.compare_read(&back, lending)?;
        let whole = read.number == 0 && read.first == answer.first;
        if !whole || !same_fields((&call.list, &call.src), (self.reading.left(), &back.src)) {
            let what = "a written message is not read back as it was asked for";
            return Err(report(what, &back, &[("both", read)]));
        }
        Ok(answer)
    }

    fn compare_read(&mut self, call: &ReadCall, lending: Lending) -> Result<Answer, String> {
        let ReadCall {
            side,
            ref src,
            room,
        } = *call;
        let lent = Lent {
            inputs: [src],
            room,
            lending,
        };
        let library = |[src]: [&[u8]; 1], list: &mut [u8]| ffi::read_message(side, src, list);
        let second = |[src]: [&[u8]; 1], list: &mut [u8]| crossing::read_message(side, src, list);
        self.reading.compare(call, lent, library, second)
    }

    fn compare_write(&mut self, call: &WriteCall, lending: Lending) -> Result<Answer, String> {
        let (side, kind) = (call.side, call.type_byte);
        let lent = Lent {
            inputs: [&call.list, &call.src],
            room: call.room,
            lending,
        };
        let library = |[list, src]: [&[u8]; 2], out: &mut [u8]| {
            ffi::write_message(side, kind, list, src, out)
        };
        let second = |[list, src]: [&[u8]; 2], out: &mut [u8]| {
            crossing::write_message(side, kind, list, src, out)
        };
        self.writing.compare(call, lent, library, second)
    }
}

/// Whether two lists name the same bytes, pair by pair, each in its own source.
fn same_fields(one: (&[u8], &[u8]), other: (&[u8], &[u8])) -> bool {
    one.0.len() == other.0.len() && fields(one.0, one.1).eq(fields(other.0, other.1))
}

/// The bytes that the pairs of a list, known to be inside the source, name.
fn fields<'a>(list: &'a [u8], src: &'a [u8]) -> impl Iterator<Item = &'a [u8]> {
    let word = |bytes: &[u8]| {
        bytes
            .iter()
            .fold(0, |sum, &byte| sum << 8 | usize::from(byte))
    };
    list.chunks_exact(8).map(move |pair| {
        let (start, length) = (word(&pair[..4]), word(&pair[4..]));
        &src[start..start + length]
    })
}
