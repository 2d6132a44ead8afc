//! Every cut of short streams, in rooms that fit them and do not, and every value of what has few.
//! Chance would leave some out.

use super::case::{Case, Step};
use super::cutting;
use crate::crossed::hex;
use crate::fence::Edge;
use crate::message::bytes::whole;
use second::message::{CLIENT, HEAD, SERVER};

pub fn cases() -> Vec<Case> {
    Cases::of(&[
        Cases::short_streams,
        Cases::of_each_server_message,
        Cases::of_each_client_message,
        Cases::type_bytes,
        Cases::length_fields,
    ])
}

type Cases = crate::fixed::Cases<Case>;

/// Every room up to this one is lent to short streams: under a head, just that, and one byte more.
const MOST_SMALL: usize = HEAD + 1;

impl Cases {
    /// Either end of the buffers in turn.
    fn cut(&mut self, side: u32, room: usize, stream: &[u8], steps: Vec<Step>) {
        let edge = match self.0.len() % 2 {
            0 => Edge::Back,
            _ => Edge::Front,
        };
        self.0.push(Case {
            side,
            room,
            stream: stream.to_vec(),
            steps,
            lending: self.lending(edge),
            expected: None,
        });
    }

    /// Two Syncs; one and an unknown type; one with length 3; an unknown type with one byte more; Z
    /// and a part of the next; D, good and with 2 for 1; Z with a byte too many, and without its last
    /// field; a length of 65,536; a side that knows no type.
    fn short_streams(&mut self) {
        for (side, stream, largest) in [
            (CLIENT, "5300000004 5300000004", 5),
            (CLIENT, "5300000004 9900000004", 5),
            (CLIENT, "5300000003 5300000004", 5),
            (CLIENT, "990000000507 53000000", 6),
            (SERVER, "5a00000007000049 5a0000", 8),
            (SERVER, "440000000a000100000000", 11),
            (SERVER, "440000000a000200000000", 11),
            (SERVER, "5a0000000800004909", 9),
            (SERVER, "5a000000060000 5a00", 7),
            (SERVER, "5a00010000000049", 8),
            (7, "5300000004 5300", 5),
        ] {
            self.in_every_room(side, &hex(stream), largest);
        }
    }

    /// The small rooms, and those about the largest message.
    fn in_every_room(&mut self, side: u32, stream: &[u8], largest: usize) {
        let about = [largest - 1, largest, largest + 3];
        let larger = about.into_iter().filter(|room| *room > MOST_SMALL);
        for room in (0..=MOST_SMALL).chain(larger) {
            self.every_cut(side, room, stream);
        }
    }

    /// Each set of places to cut at, and the same with an empty delivery before each and at the end.
    fn every_cut(&mut self, side: u32, room: usize, stream: &[u8]) {
        let last = stream.len() - 1;
        for set in 0_u32..1 << last {
            let places: Vec<usize> = (1..=last).filter(|at| set >> (at - 1) & 1 == 1).collect();
            let twice = places.iter().flat_map(|place| [*place; 2]);
            let with_empty: Vec<usize> =
                [0].into_iter().chain(twice).chain([stream.len()]).collect();
            self.cut(side, room, stream, cutting::at(&places, stream.len()));
            self.cut(side, room, stream, cutting::at(&with_empty, stream.len()));
        }
    }

    /// T is the largest with 56 bytes.
    fn of_each_server_message(&mut self) {
        let stream = [
            whole(0x45, &[&[0x78], &[0; 10]]),
            whole(0x4c, &[&[0x14], &[0; 10]]),
            whole(0x5a, &[&[0; 2], &[0x49]]),
            whole(0x43, &[&[0; 34]]),
            whole(0x54, &[&[0; 10], &[0x41], &[0; 40]]),
            whole(0x73, &[&[0; 20]]),
            whole(0x44, &[&[0, 1], &[0; 4]]),
            whole(0x53, &[&[0; 8]]),
        ]
        .concat();
        for room in [55, 56, 60] {
            self.every_two_cuts(SERVER, room, &stream);
        }
    }

    /// V has 21 bytes.
    fn of_each_client_message(&mut self) {
        let handshake = whole(0x56, &[&[0, 1, 0, 0, 0, 1], &[0; 8], &[0; 2]]);
        let stream = [handshake, whole(0x53, &[])].concat();
        for room in [20, 21, 30] {
            self.every_two_cuts(CLIENT, room, &stream);
        }
    }

    /// Three deliveries, of which some are empty.
    fn every_two_cuts(&mut self, side: u32, room: usize, stream: &[u8]) {
        let length = stream.len();
        let pairs = (0..=length).flat_map(|one| (one..=length).map(move |other| [one, other]));
        for places in pairs {
            self.cut(side, room, stream, cutting::at(&places, length));
        }
    }

    /// Each type byte, of each side and of one that knows none, with an empty body.
    fn type_bytes(&mut self) {
        let of_side = |side| (0..=0xff).map(move |kind| (side, kind));
        for (side, kind) in [CLIENT, SERVER, 2].into_iter().flat_map(of_side) {
            self.cut(side, 5, &whole(kind, &[]), vec![Step::Deliver(5)]);
        }
    }

    /// Lengths about the least and the greatest, with just that room and about it.
    fn length_fields(&mut self) {
        let (small, large) = (0..10, 65_533..65_539);
        let signed = [0x7fff_ffff, 0x8000_0000, 0x8000_0004, 0xffff_ffff];
        let rooms = [4, 5, 9, 10, 65_535, 65_536, 65_537];
        let in_rooms = |length: u32| rooms.map(|room| (length, room));
        for (length, room) in small.chain(large).chain(signed).flat_map(in_rooms) {
            let head = [&[0x53][..], &length.to_be_bytes()].concat();
            self.cut(CLIENT, room, &head, vec![Step::Deliver(5)]);
        }
    }
}
