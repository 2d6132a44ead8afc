//! Reading and writing messages beside the second program: through its own crossing, which does
//! what a C call has to, and its inner functions on words without one.

use crate::race::race;
use crate::table;
use compare::ffi;
use second::crossing;
use second::message::{self, CLIENT, SERVER};
use std::hint::black_box;

pub fn print() {
    table::head("Message");
    rows("V, 400 texts of 20 letters", CLIENT, &handshake());
    rows("T, a descriptor of 20,000 bytes", SERVER, &description());
}

/// V with 200 parameters and no extension.
fn handshake() -> Vec<u8> {
    let text: &[u8] = &[&20_u32.to_be_bytes()[..], b"abcdefghijklmnopqrst"].concat();
    let texts = text.repeat(400);
    whole(
        0x56,
        &[&[0, 1, 0, 0], &200_u16.to_be_bytes(), &texts, &[0, 0]],
    )
}

/// T without annotations and arguments.
fn description() -> Vec<u8> {
    let descriptor: Vec<u8> = (0..=255).cycle().take(20_000).collect();
    let (uuid, no_bytes) = ([7; 16], [0; 4]);
    let length = 20_000_u32.to_be_bytes();
    whole(
        0x54,
        &[
            &[0; 10],
            &[0x41],
            &uuid,
            &no_bytes,
            &uuid,
            &length,
            &descriptor,
        ],
    )
}

fn whole(type_byte: u8, body: &[&[u8]]) -> Vec<u8> {
    let body = body.concat();
    let length = (4 + body.len() as u32).to_be_bytes();
    [&[type_byte], &length[..], &body].concat()
}

fn rows(name: &str, side: u32, message: &[u8]) {
    let read = message::read_message(side, message, 8_192).expect("a good message");
    let mut list = vec![0; 4 * read.words.len()];
    assert_eq!(crossing::read_message(side, message, &mut list).number, 0);
    table::row(&format!("{name}, read"), read_times(side, message));
    table::row(
        &format!("{name}, written"),
        write_times(side, message, &list, &read.words),
    );
}

fn read_times(side: u32, message: &[u8]) -> [f64; 3] {
    let (mut ours, mut theirs) = (vec![0; 32_768], vec![0; 32_768]);
    race([
        &mut || {
            let answer = ffi::read_message(side, black_box(message), &mut ours);
            assert_eq!(answer.number, 0);
        },
        &mut || {
            let answer = crossing::read_message(side, black_box(message), &mut theirs);
            assert_eq!(answer.number, 0);
        },
        &mut || {
            let read = message::read_message(side, black_box(message), 8_192);
            assert!(black_box(read).is_ok());
        },
    ])
}

fn write_times(side: u32, message: &[u8], list: &[u8], words: &[u32]) -> [f64; 3] {
    let (mut ours, mut theirs) = (vec![0; 65_536], vec![0; 65_536]);
    let kind = message[0];
    race([
        &mut || {
            let answer = ffi::write_message(side, kind, list, black_box(message), &mut ours);
            assert_eq!(answer.number, 0);
        },
        &mut || {
            let answer = crossing::write_message(side, kind, list, black_box(message), &mut theirs);
            assert_eq!(answer.number, 0);
        },
        &mut || {
            let written = message::write_message(side, kind, words, black_box(message), 65_536);
            assert!(black_box(written).is_ok());
        },
    ])
}
