//! Makes a call by two programs and compares all that can be seen of it: the answer and every byte
//! of the room. What a call reads is lent where it cannot write.

use crate::fence::{Input, Room};
use crate::lending::{Lending, FILLS};
use crate::report::compare;
use crate::rng::Rng;
use std::fmt::{Debug, Display};

/// The largest run that a case lends.
const CAPACITY: usize = 262_144;

/// Memory for calls that read so many runs of bytes and write to a room.
pub struct Memory<const N: usize> {
    fenced: Fenced<N>,
    /// The room as the second program leaves it.
    left: Vec<u8>,
}

/// The part of it that is fenced, and what rooms hold before a call.
struct Fenced<const N: usize> {
    inputs: [Input; N],
    room: Room,
    pattern: Vec<u8>,
}

/// What a call is lent.
pub struct Lent<'a, const N: usize> {
    pub inputs: [&'a [u8]; N],
    /// Bytes of room.
    pub room: usize,
    pub lending: Lending,
}

/// A program's name and its call.
pub type Named<'a, F> = (&'a str, F);

impl<const N: usize> Memory<N> {
    pub fn new(seed: u64) -> Memory<N> {
        let fenced = Fenced {
            inputs: std::array::from_fn(|_| Input::new(CAPACITY)),
            room: Room::new(CAPACITY),
            pattern: Rng::new(seed).bytes(CAPACITY + FILLS),
        };
        let left = Vec::new();
        Memory { fenced, left }
    }

    /// The room as both programs left it.
    pub fn left(&self) -> &[u8] {
        &self.left
    }

    /// The answer that the library and the second program both give, or else a report of how they
    /// differ.
    pub fn compare<A: Copy + PartialEq + Debug>(
        &mut self,
        call: &impl Display,
        lent: Lent<N>,
        library: impl Fn([&[u8]; N], &mut [u8]) -> A,
        second: impl Fn([&[u8]; N], &mut [u8]) -> A,
    ) -> Result<A, String> {
        let (library, second) = (("library", library), ("second program", second));
        self.compare_named(call, lent, library, second)
    }

    /// The answer that both programs give; the first is lent fenced memory.
    pub fn compare_named<A: Copy + PartialEq + Debug>(
        &mut self,
        call: &impl Display,
        lent: Lent<N>,
        (name, tested): Named<impl Fn([&[u8]; N], &mut [u8]) -> A>,
        (other, second): Named<impl Fn([&[u8]; N], &mut [u8]) -> A>,
    ) -> Result<A, String> {
        let before = &self.fenced.pattern[lent.lending.fill..][..lent.room];
        self.left.clear();
        self.left.extend(before);
        let second = second(lent.inputs, &mut self.left);
        let (answer, room) = self.fenced.call(&lent, tested);
        compare(call, (name, (answer, room)), (other, (second, &self.left)))
    }

    /// A call on fenced memory alone: its answer, and the room as it left it.
    pub fn fenced<A>(
        &mut self,
        lent: &Lent<N>,
        call: impl Fn([&[u8]; N], &mut [u8]) -> A,
    ) -> (A, &[u8]) {
        self.fenced.call(lent, call)
    }
}

impl<const N: usize> Fenced<N> {
    fn call<A>(&mut self, lent: &Lent<N>, call: impl Fn([&[u8]; N], &mut [u8]) -> A) -> (A, &[u8]) {
        let Lending { edge, fill } = lent.lending;
        let mut contents = lent.inputs.into_iter();
        let inputs = self.inputs.each_mut().map(|input| {
            let content = contents.next().expect("as many as there are inputs");
            input.lend(content, edge)
        });
        let room = self.room.lend(lent.room, edge);
        room.copy_from_slice(&self.pattern[fill..][..lent.room]);
        (call(inputs, room), room)
    }
}
