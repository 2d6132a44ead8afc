//! Cases by construction, at the largest sizes of R1.4 and beside them, with answers worked out by
//! hand. Each is run with either end of its buffers fenced.

use super::bytes::{data, handshake, whole};
use super::case::{Call, Case, ReadCall, WriteCall};
use crate::crossed::{accepted, list, refused};
use crate::fence::Edge;
use crate::text;
use second::crossing::Answer;
use second::message::{CLIENT, SERVER};

pub fn cases() -> Vec<Case> {
    Cases::of(&[
        Cases::shortest,
        Cases::longest,
        Cases::most_words,
        Cases::order_of_reading,
        Cases::order_of_writing,
        Cases::ends_of_source,
    ])
}

type Cases = crate::fixed::Cases<Case>;

impl Cases {
    fn read(&mut self, side: u32, src: &[u8], room: usize, expected: Answer) {
        self.both_edges(expected, || {
            Call::Read(ReadCall {
                side,
                src: src.to_vec(),
                room,
            })
        });
    }

    fn write(&mut self, kind: (u32, u8), list: &[u8], src: &[u8], room: usize, expected: Answer) {
        self.both_edges(expected, || {
            Call::Write(WriteCall {
                side: kind.0,
                type_byte: kind.1,
                list: list.to_vec(),
                src: src.to_vec(),
                room,
            })
        });
    }

    fn both_edges(&mut self, expected: Answer, call: impl Fn() -> Call) {
        for edge in [Edge::Front, Edge::Back] {
            let lending = self.lending(edge);
            self.0.push(Case {
                call: call(),
                lending,
                expected: Some(expected),
            });
        }
    }

    /// Length field 4 and under.
    fn shortest(&mut self) {
        self.read(CLIENT, &[], 0, refused(1, 0));
        self.read(CLIENT, &[0x53, 0, 0, 0], 64, refused(1, 0));
        self.read(CLIENT, &[0x53, 0, 0, 0, 4], 0, accepted(5, 0));
        self.read(SERVER, &[0x53, 0, 0, 0, 4], 64, refused(4, 5));
        self.read(CLIENT, &[0x53, 0, 0, 0, 3], 64, refused(2, 0));
        self.write((CLIENT, 0x53), &[], &[], 5, accepted(5, 0));
        self.write((CLIENT, 0x53), &[], &[], 9, accepted(5, 0));
        self.write((CLIENT, 0x53), &[], &[], 4, refused(32, 0));
        self.write((CLIENT, 0x53), &[], &[], 0, refused(32, 0));
    }

    /// Length field 65,535 and 65,536: D has 10 bytes of it besides its content.
    fn longest(&mut self) {
        let (longest, too_long) = (data(65_525), data(65_526));
        self.read(SERVER, &longest, 16, accepted(65_536, 4));
        self.read(SERVER, &longest, 15, refused(31, 0));
        self.read(SERVER, &longest[..65_535], 16, refused(1, 0));
        self.read(SERVER, &too_long, 16, refused(2, 0));
        let pairs = |length| list(&[5, 2, 11, length]);
        let kind = (SERVER, 0x44);
        self.write(kind, &pairs(65_525), &longest, 65_536, accepted(65_536, 0));
        self.write(kind, &pairs(65_525), &longest, 70_000, accepted(65_536, 0));
        self.write(kind, &pairs(65_525), &longest, 65_535, refused(32, 0));
        self.write(kind, &pairs(65_526), &too_long, 65_537, refused(2, 0));
        self.write(kind, &pairs(65_526), &too_long, 0, refused(2, 0));
    }

    /// Lists of 8,192 words and of the next counts that a layout can have: 8,196 for V, whose
    /// pairs are even in number, and 8,194 for C.
    fn most_words(&mut self) {
        let (fits, over) = (handshake(2_046), handshake(2_047));
        for room in [32_768, 32_771, 40_000, 150_000] {
            self.read(CLIENT, &fits, room, accepted(16_381, 8_192));
        }
        self.read(CLIENT, &fits, 32_767, refused(31, 0));
        for room in [0, 32_768, 32_784, 150_000] {
            self.read(CLIENT, &over, room, refused(31, 0));
            self.read(SERVER, &complete(2_046), room, refused(31, 0));
        }
        self.read(SERVER, &complete(2_045), 32_768, accepted(16_399, 8_190));
        let (client, server) = ((CLIENT, 0x56), (SERVER, 0x43));
        let list = handshake_list(2_046);
        self.write(client, &list, &fits, 16_381, accepted(16_381, 0));
        self.write(client, &list, &fits, 16_380, refused(32, 0));
        self.write(client, &handshake_list(2_047), &over, 20_000, refused(6, 0));
        self.write(
            server,
            &complete_list(2_045),
            &complete(2_045),
            16_399,
            accepted(16_399, 0),
        );
        self.write(
            server,
            &complete_list(2_046),
            &complete(2_046),
            20_000,
            refused(6, 0),
        );
    }

    /// 1, 2, 1, 3, then fields from left to right, then 5, then 31.
    fn order_of_reading(&mut self) {
        self.read(9, &[0x00, 0, 0, 0, 3], 0, refused(2, 0));
        self.read(9, &[0x00, 0, 0, 0, 5], 0, refused(1, 0));
        for side in [2, 256, u32::MAX] {
            self.read(side, &[0x53, 0, 0, 0, 4], 0, refused(3, 0));
        }
        // D with 2 for 1 and its bytes cut off.
        self.read(SERVER, &[0x44, 0, 0, 0, 6, 0, 2], 0, refused(6, 5));
        self.read(SERVER, &[0x44, 0, 0, 0, 6, 0, 1], 0, refused(4, 7));
        // Z with a huge count and nothing after it.
        self.read(SERVER, &[0x5a, 0, 0, 0, 6, 0xff, 0xff], 0, refused(4, 7));
        // Z with an unknown state and a byte left over, then a good one with a byte left over.
        self.read(SERVER, &[0x5a, 0, 0, 0, 8, 0, 0, 0x48, 9], 0, refused(6, 7));
        self.read(SERVER, &[0x5a, 0, 0, 0, 8, 0, 0, 0x49, 9], 0, refused(5, 8));
        self.read(
            SERVER,
            &[0x5a, 0, 0, 0, 7, 0, 0, 0x49, 9],
            0,
            refused(31, 0),
        );
        self.read(
            SERVER,
            &[0x5a, 0, 0, 0, 7, 0, 0, 0x49, 9],
            16,
            accepted(8, 4),
        );
        // A cut text is 4 even where the bytes there are not UTF-8; whole it is 6.
        let mut log = vec![0x4c, 0, 0, 0, 14, 0x14, 0, 0, 0, 0, 0, 0, 0, 2, 0xff];
        self.read(SERVER, &log, 0, refused(4, 10));
        log[13] = 1;
        self.read(SERVER, &log, 0, refused(6, 10));
    }

    /// 3, 6, 2, 32, crossing faults included.
    fn order_of_writing(&mut self) {
        let five = [0; 5];
        for (side, type_byte) in [(CLIENT, 0x54), (SERVER, 0x56), (2, 0x53), (u32::MAX, 0x53)] {
            self.write((side, type_byte), &five, &[], 0, refused(3, 0));
        }
        self.write((CLIENT, 0x53), &five, &[], 0, refused(6, 0));
        self.write((CLIENT, 0x53), &[0; 32_768], &[], 5, refused(6, 0));
        self.write((CLIENT, 0x53), &[0; 32_769], &[], 5, refused(6, 0));
        self.write((CLIENT, 0x53), &[0; 32_772], &[], 5, refused(6, 0));
        // L with a text of 70,000 bytes, then with the same not UTF-8.
        let mut src = vec![0x14, 0, 0];
        src.extend(text::letters(70_000));
        let list = list(&[0, 1, 1, 4, 3, 70_000, 1, 2]);
        self.write((SERVER, 0x4c), &list, &src, 0, refused(2, 0));
        *src.last_mut().expect("70,003 bytes") = 0xc3;
        self.write((SERVER, 0x4c), &list, &src, 0, refused(6, 0));
    }

    /// Pairs of S at and past the end of a source of one byte.
    fn ends_of_source(&mut self) {
        let kind = (SERVER, 0x53);
        let mut pair = |start, length, expected| {
            self.write(kind, &list(&[0, 1, start, length]), &[7], 14, expected);
        };
        pair(1, 0, accepted(14, 0));
        pair(0, 0, accepted(14, 0));
        pair(2, 0, refused(6, 0));
        pair(1, 1, refused(6, 0));
        pair(0, 2, refused(6, 0));
        pair(u32::MAX, 0, refused(6, 0));
        pair(u32::MAX, 1, refused(6, 0));
        pair(1, u32::MAX, refused(6, 0));
        pair(0, 1, refused(32, 0));
    }
}

/// The list of `handshake`: 8 + 4 * count words.
fn handshake_list(count: u16) -> Vec<u8> {
    let texts = (0..2 * u32::from(count)).flat_map(|index| [15 + 4 * index, 0]);
    let last = [11 + 8 * u32::from(count), 2];
    let words: Vec<u32> = [5, 2, 7, 2, 9, 2]
        .into_iter()
        .chain(texts)
        .chain(last)
        .collect();
    list(&words)
}

/// C with so many annotations of two empty texts, and all else zero: 5 + 34 + 8 * count bytes.
fn complete(count: u16) -> Vec<u8> {
    whole(
        0x43,
        &[
            &count.to_be_bytes(),
            &vec![0; 8 * usize::from(count)],
            &[0; 32],
        ],
    )
}

/// The list of `complete`: 10 + 4 * count words.
fn complete_list(count: u16) -> Vec<u8> {
    let texts = (0..2 * u32::from(count)).flat_map(|index| [11 + 4 * index, 0]);
    let after = 7 + 8 * u32::from(count);
    let last = [after, 8, after + 12, 0, after + 12, 16, after + 32, 0];
    let words: Vec<u32> = [5, 2].into_iter().chain(texts).chain(last).collect();
    list(&words)
}
