//! Every value of what has few of them: type bytes, named bytes, D's number, the bytes of one
//! letter of a text, and the places of one letter among plain ones. Chance would leave some out.

use super::bytes::whole;
use super::case::{Call, Case, ReadCall, WriteCall};
use crate::crossed::list;
use crate::fence::Edge;
use crate::lending::{Lending, FILLS};
use crate::text;
use second::message::{read_message, CLIENT, SERVER};

/// Enough for the lists here.
const LIST_ROOM: usize = 64;

pub fn cases() -> Vec<Case> {
    let mut calls = Vec::new();
    type_bytes(&mut calls);
    // E and L: severity. Z: state. T: cardinality. D: both bytes of its 1.
    vary(&mut calls, &whole(0x45, &[&[0x78], &[0; 10]]), 5);
    vary(&mut calls, &whole(0x4c, &[&[0x14], &[0; 10]]), 5);
    vary(&mut calls, &whole(0x5a, &[&[0; 2], &[0x49]]), 7);
    vary(&mut calls, &whole(0x54, &[&[0; 10], &[0x41], &[0; 40]]), 15);
    vary(&mut calls, &whole(0x44, &[&[0, 1], &[0; 4]]), 5);
    vary(&mut calls, &whole(0x44, &[&[0, 1], &[0; 4]]), 6);
    letters(&mut calls);
    calls.extend(text::stepped().iter().map(|text| read_text(text)));
    calls.extend(text::rows().iter().map(|text| read_text(text)));
    calls.into_iter().enumerate().map(case).collect()
}

fn case((index, call): (usize, Call)) -> Case {
    Case {
        call,
        lending: Lending {
            edge: Edge::Back,
            fill: index % FILLS,
        },
        expected: None,
    }
}

/// Each type byte, of each side and of one that knows none, with an empty body.
fn type_bytes(calls: &mut Vec<Call>) {
    for side in [CLIENT, SERVER, 2] {
        for type_byte in 0..=0xff {
            calls.push(read(side, whole(type_byte, &[])));
            calls.push(Call::Write(WriteCall {
                side,
                type_byte,
                list: Vec::new(),
                src: Vec::new(),
                room: 5,
            }));
        }
    }
}

/// A server's message with each value of one byte, read, and written from the good one's list.
fn vary(calls: &mut Vec<Call>, good: &[u8], at: usize) {
    let words = read_message(SERVER, good, LIST_ROOM)
        .expect("a good message")
        .words;
    for value in 0..=0xff {
        let mut message = good.to_vec();
        message[at] = value;
        calls.push(read(SERVER, message.clone()));
        calls.push(Call::Write(WriteCall {
            side: SERVER,
            type_byte: message[0],
            list: list(&words),
            room: message.len(),
            src: message,
        }));
    }
}

/// Table 3-7: each first byte over 7f with each second byte, then each third and fourth byte.
fn letters(calls: &mut Vec<Call>) {
    for first in 0x80..=0xff {
        for second in 0..=0xff {
            let letter = [first, second, 0x80, 0x80];
            let length = match first {
                ..0xe0 => 2,
                0xe0..0xf0 => 3,
                0xf0.. => 4,
            };
            calls.push(read_text(&letter[..length]));
        }
    }
    for byte in 0..=0xff {
        calls.push(read_text(&[0xe2, 0x82, byte]));
        calls.push(read_text(&[0xf1, 0x82, byte, 0x80]));
        calls.push(read_text(&[0xf1, 0x82, 0x80, byte]));
    }
}

/// Z with one annotation: this text and an empty one.
fn read_text(text: &[u8]) -> Call {
    let length = (text.len() as u32).to_be_bytes();
    read(
        SERVER,
        whole(0x5a, &[&[0, 1], &length, text, &[0; 4], &[0x49]]),
    )
}

fn read(side: u32, src: Vec<u8>) -> Call {
    Call::Read(ReadCall {
        side,
        src,
        room: LIST_ROOM,
    })
}
