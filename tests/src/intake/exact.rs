//! Conversations by construction, with ends worked out by hand. Each is run with either end of its
//! buffers fenced.

use super::case::{Case, End, Step};
use super::cutting;
use crate::crossed::hex;
use crate::fence::Edge;
use crate::message::bytes::{data, handshake};
use second::intake::{self, Intake};
use second::message::{CLIENT, SERVER};

pub fn cases() -> Vec<Case> {
    Cases::of(&[
        Cases::bytes_that_lack,
        Cases::messages_in_a_row,
        Cases::refused_with_the_head,
        Cases::refused_when_whole,
        Cases::room_under_a_head,
        Cases::longest,
        Cases::longest_list,
        Cases::resets,
        Cases::other_rooms,
        Cases::held_from_elsewhere,
        Cases::numbers_from_elsewhere,
    ])
}

/// No refusal: so many messages, bytes held and bytes that lack.
fn open(messages: usize, held: u32, lacks: u32) -> End {
    End {
        messages,
        held,
        lacks,
        ..End::default()
    }
}

/// A refusal after so many messages.
fn refused(messages: usize, number: u32, place: u32) -> End {
    End {
        messages,
        number,
        place,
        ..End::default()
    }
}

type Cases = crate::fixed::Cases<Case>;

impl Cases {
    /// Deliveries in hex.
    fn come(&mut self, side: u32, room: usize, deliveries: &[&str], expected: End) {
        let deliveries: Vec<Vec<u8>> = deliveries.iter().map(|bytes| hex(bytes)).collect();
        let lengths = deliveries.iter().map(Vec::len);
        let steps = lengths.map(Step::Deliver).collect::<Vec<_>>();
        self.talk((side, room), &deliveries.concat(), &steps, expected);
    }

    fn talk(&mut self, (side, room): (u32, usize), stream: &[u8], steps: &[Step], expected: End) {
        for edge in [Edge::Front, Edge::Back] {
            self.0.push(Case {
                side,
                room,
                stream: stream.to_vec(),
                steps: steps.to_vec(),
                lending: self.lending(edge),
                expected: Some(expected),
            });
        }
    }

    fn bytes_that_lack(&mut self) {
        self.come(CLIENT, 5, &[], End::default());
        self.come(CLIENT, 5, &[""], open(0, 0, 5));
        self.come(CLIENT, 5, &["53"], open(0, 1, 4));
        self.come(CLIENT, 5, &["53", "", "0000", ""], open(0, 3, 2));
        self.come(CLIENT, 5, &["53000000"], open(0, 4, 1));
        // D of 11 bytes.
        self.come(SERVER, 11, &["440000000a"], open(0, 5, 6));
        self.come(
            SERVER,
            11,
            &["44", "0000000a", "0001000000"],
            open(0, 10, 1),
        );
        // A type that nobody knows lacks bytes as any other.
        self.come(SERVER, 6, &["9900000005"], open(0, 5, 1));
    }

    fn messages_in_a_row(&mut self) {
        self.come(CLIENT, 5, &["5300000004"], open(1, 0, 5));
        self.come(CLIENT, 5, &["5300000004 5300000004"], open(2, 0, 5));
        self.come(
            CLIENT,
            5,
            &["530000000453", "00000004", "5300"],
            open(2, 2, 3),
        );
        let deliveries = [
            "5a00000007000049 44",
            "0000000a 0001 0000",
            "0000 5a00000007",
        ];
        self.come(SERVER, 11, &deliveries, open(2, 5, 3));
    }

    /// 2 before 32, and both before 3. Then the refusal again.
    fn refused_with_the_head(&mut self) {
        self.come(CLIENT, 5, &["5300000003"], refused(0, 2, 0));
        self.come(CLIENT, 5, &["53000000", "03", "", "53"], refused(0, 2, 0));
        self.come(CLIENT, 5, &["5300010000"], refused(0, 2, 0));
        self.come(CLIENT, 5, &["9900000005"], refused(0, 32, 0));
        self.come(
            CLIENT,
            5,
            &["5300000004 99", "000000", "05"],
            refused(1, 32, 0),
        );
        self.come(SERVER, 10, &["440000000a"], refused(0, 32, 0));
        self.come(9, 5, &["440000000a 0001"], refused(0, 32, 0));
    }

    /// Places count from the type byte of the message.
    fn refused_when_whole(&mut self) {
        self.come(CLIENT, 6, &["9900000005", "00"], refused(0, 3, 0));
        self.come(7, 5, &["5300000004"], refused(0, 3, 0));
        self.come(SERVER, 5, &["5300000004"], refused(0, 4, 5));
        let good = "5a00000007000049";
        self.come(SERVER, 8, &[good, "5a0000000600", "00"], refused(1, 4, 7));
        self.come(SERVER, 9, &[good, "5a0000000800004909"], refused(1, 5, 8));
        self.come(SERVER, 9, &[good, "5a00000007000048"], refused(1, 6, 7));
        self.come(
            SERVER,
            11,
            &["440000000a0002", "00000000", ""],
            refused(0, 6, 5),
        );
    }

    /// 32 at the first byte, also where 2 would follow; without bytes no refusal.
    fn room_under_a_head(&mut self) {
        for room in 0..5 {
            self.come(CLIENT, room, &["", ""], open(0, 0, 5));
            self.come(CLIENT, room, &["53"], refused(0, 32, 0));
            self.come(SERVER, room, &["", "5300000003", ""], refused(0, 32, 0));
        }
    }

    /// D of 65,536 bytes, and one byte more, as they come off a network.
    fn longest(&mut self) {
        let (longest, too_long) = (data(65_525), data(65_526));
        let steps = cutting::at(&[1, 4, 1_448, 2_896, 65_535], longest.len());
        for room in [65_536, 65_537, 200_000] {
            self.talk((SERVER, room), &longest, &steps, open(1, 0, 5));
            self.talk((SERVER, room), &longest, &steps[..5], open(0, 65_535, 1));
            self.talk((SERVER, room), &too_long, &steps, refused(0, 2, 0));
        }
        self.talk((SERVER, 65_535), &longest, &steps, refused(0, 32, 0));
    }

    /// V whose list is longer than can cross: an intake lists nothing, so there is no 31.
    fn longest_list(&mut self) {
        let message = handshake(2_047);
        let steps = [Step::Deliver(message.len())];
        let lent = (CLIENT, message.len());
        self.talk(lent, &message, &steps, open(1, 0, 5));
    }

    /// What is dropped by them: bytes that are held, and a refusal. What was given stands.
    fn resets(&mut self) {
        use Step::{Deliver, Reset};
        let lent = (CLIENT, 5);
        let sync = hex("5300000004 530000 5300000004");
        let steps = [Deliver(8), Reset, Deliver(5)];
        self.talk(lent, &sync, &steps, open(2, 0, 5));
        let steps = [Reset, Deliver(8), Reset, Reset, Deliver(0)];
        self.talk(lent, &sync, &steps, open(1, 0, 5));
        let bad = hex("5300000003 53 5300000004 53");
        let steps = [Deliver(5), Deliver(1), Reset, Deliver(6)];
        self.talk(lent, &bad, &steps, open(1, 1, 4));
        let steps = [Deliver(1), Reset, Deliver(0)];
        self.talk((CLIENT, 4), &bad, &steps, open(0, 0, 5));
    }

    /// They are 32 and end nothing; the refusal of an intake that has ended comes back after them.
    fn other_rooms(&mut self) {
        use Step::{Deliver, OtherRoom};
        let lent = (CLIENT, 5);
        let sync = hex("5300000004");
        for other in [0, 4, 6, 65_536] {
            let mut steps = vec![Deliver(3), OtherRoom(other)];
            let held = End {
                held: 3,
                ..refused(0, 32, 0)
            };
            self.talk(lent, &sync, &steps, held);
            steps.push(Deliver(2));
            self.talk(lent, &sync, &steps, open(1, 0, 5));
            let mut steps = vec![Deliver(5), OtherRoom(other)];
            let bad = hex("5300000003");
            self.talk(lent, &bad, &steps, refused(0, 32, 0));
            steps.push(Deliver(0));
            self.talk(lent, &bad, &steps, refused(0, 2, 0));
        }
    }

    /// The held bytes are no more than the room has; what is behind a message in the room is dropped.
    fn held_from_elsewhere(&mut self) {
        use Step::{Deliver, WriteRoom, WriteState};
        let lent = (CLIENT, 9);
        let sync = hex("5300000004");
        let start = intake::start(CLIENT, 9);
        for held in [5, 9, 10, u32::MAX] {
            let state = Intake { held, ..start };
            let steps = [WriteRoom(sync.clone()), WriteState(state), Deliver(5)];
            self.talk(lent, &sync, &steps, open(2, 0, 5));
        }
        let without_room = Intake {
            held: 7,
            ..intake::start(CLIENT, 0)
        };
        let steps = [WriteState(without_room), Deliver(0)];
        self.talk((CLIENT, 0), &[], &steps, open(0, 0, 5));
    }

    /// Any number is given again.
    fn numbers_from_elsewhere(&mut self) {
        use Step::{Deliver, WriteState};
        let (sync, start) = (hex("5300000004"), intake::start(CLIENT, 9));
        for (number, place) in [(1, 0), (77, 3), (u32::MAX, u32::MAX)] {
            let state = Intake {
                number,
                place,
                ..start
            };
            let steps = [WriteState(state), Deliver(5)];
            self.talk((CLIENT, 9), &sync, &steps, refused(0, number, place));
        }
    }
}
