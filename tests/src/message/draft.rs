//! A message before it is put together: the contents of its fields, in layout order.

use super::bytes::count_all;
use crate::rng::Rng;
use crate::text;
use second::message::{layout, Field, CLIENT, SERVER};

/// The ten messages, those that have a run first.
pub const KINDS: [(u32, u8); 10] = [
    (SERVER, b'E'),
    (SERVER, b'L'),
    (SERVER, b'Z'),
    (SERVER, b'C'),
    (SERVER, b'T'),
    (CLIENT, b'V'),
    (SERVER, b's'),
    (SERVER, b'D'),
    (SERVER, b'S'),
    (CLIENT, b'S'),
];
const WITH_RUN: usize = 6;

/// The sides that have any.
pub const SIDES: [u32; 2] = [CLIENT, SERVER];

pub struct Draft {
    pub side: u32,
    pub type_byte: u8,
    pub parts: Vec<Part>,
}

/// One field and its content; for a run, its count.
#[derive(Clone)]
pub struct Part {
    pub field: &'static Field,
    pub content: Vec<u8>,
}

/// How large a draft is to be.
#[derive(Clone, Copy)]
enum Size {
    /// A few items in each run, and contents of up to so many bytes.
    Few(usize),
    /// So many items in each outer run, nearly all of them empty.
    Many(usize),
}

impl Draft {
    /// A good message of some kind and of ordinary size.
    pub fn make(rng: &mut Rng) -> Draft {
        Draft::make_among(rng, &KINDS)
    }

    /// One of a side, which is one of the two.
    pub fn make_of(rng: &mut Rng, side: u32) -> Draft {
        let of_side = KINDS.into_iter().filter(|kind| kind.0 == side);
        Draft::make_among(rng, &of_side.collect::<Vec<_>>())
    }

    fn make_among(rng: &mut Rng, kinds: &[(u32, u8)]) -> Draft {
        let most = rng.pick(&[0, 3, 20, 20, 20, 150]);
        let (side, type_byte) = rng.pick(kinds);
        Draft::of(rng, side, type_byte, Size::Few(most))
    }

    /// One whose list has about 8,192 words, or far more.
    pub fn make_long(rng: &mut Rng) -> Draft {
        let items = match rng.below(4) {
            // With both runs of V, or with the single run of the others, at the limit.
            0 => rng.between(1_020, 1_026),
            1 | 2 => rng.between(2_040, 2_050),
            _ => rng.below(4_500),
        };
        let (side, type_byte) = rng.pick(&KINDS[..WITH_RUN]);
        Draft::of(rng, side, type_byte, Size::Many(items))
    }

    /// One whose length field is about 65,535, or well over it.
    pub fn make_large(rng: &mut Rng) -> Draft {
        let mut draft = Draft::make(rng);
        let length = match rng.below(4) {
            0 => rng.between(66_000, 72_000),
            1 => 65_535,
            _ => rng.between(65_530, 65_540),
        };
        draft.grow(rng, length);
        draft
    }

    fn of(rng: &mut Rng, side: u32, type_byte: u8, size: Size) -> Draft {
        let fields = layout(side, type_byte).expect("one of the ten");
        let mut parts = Vec::new();
        fill(rng, fields, size, &mut parts);
        Draft {
            side,
            type_byte,
            parts,
        }
    }

    /// Adds letters to a text or bytes field, where there is one, for this length field.
    fn grow(&mut self, rng: &mut Rng, length: usize) {
        let missing = length.saturating_sub(self.message().len() - 1);
        if let Some(part) = self.pick(rng, Field::has_length) {
            part.content.extend(text::letters(missing));
        }
    }

    /// Some part whose field is as asked.
    pub fn pick(&mut self, rng: &mut Rng, asked: impl Fn(&Field) -> bool) -> Option<&mut Part> {
        let mut fitting: Vec<_> = self
            .parts
            .iter_mut()
            .filter(|part| asked(part.field))
            .collect();
        match fitting.len() {
            0 => None,
            count => Some(fitting.swap_remove(rng.below(count))),
        }
    }

    /// The message, with a true length field even where that is not permitted.
    pub fn message(&self) -> Vec<u8> {
        let mut message = vec![self.type_byte, 0, 0, 0, 0];
        for part in &self.parts {
            if part.field.has_length() {
                message.extend((part.content.len() as u32).to_be_bytes());
            }
            message.extend(&part.content);
        }
        count_all(&mut message);
        message
    }

    /// Where each part's field starts in the message.
    pub fn starts(&self) -> Vec<usize> {
        let mut at = 5;
        let mut starts = Vec::with_capacity(self.parts.len());
        for part in &self.parts {
            starts.push(at);
            at += part.content.len() + if part.field.has_length() { 4 } else { 0 };
        }
        starts
    }
}

fn fill(rng: &mut Rng, fields: &'static [Field], size: Size, parts: &mut Vec<Part>) {
    for field in fields {
        let content = content(rng, field, size);
        let count = content.first_chunk().copied();
        parts.push(Part { field, content });
        if let (Field::Run(item), Some(count)) = (field, count) {
            // What many items hold in turn is to be little.
            let size = match size {
                Size::Few(most) => Size::Few(most),
                Size::Many(_) => Size::Many(usize::from(rng.once_in(64))),
            };
            for _ in 0..u16::from_be_bytes(count) {
                fill(rng, item, size, parts);
            }
        }
    }
}

fn content(rng: &mut Rng, field: &Field, size: Size) -> Vec<u8> {
    let most = match size {
        Size::Few(most) => most,
        Size::Many(_) => 2 * usize::from(rng.once_in(8)),
    };
    match (field, size) {
        (Field::Fixed(width), _) => rng.bytes(*width),
        (Field::OneOf(allowed), _) => vec![rng.pick(allowed)],
        (Field::One, _) => vec![0, 1],
        (Field::Text, _) => text::good(rng, most),
        (Field::Bytes, _) => {
            let length = rng.below(most + 1);
            rng.bytes(length)
        }
        (Field::Run(_), Size::Few(_)) => vec![0, rng.pick(&[0, 0, 1, 1, 2, 3])],
        (Field::Run(_), Size::Many(items)) => (items as u16).to_be_bytes().to_vec(),
    }
}
