//! Captures of every code point in texts and in names, and of floats about each power of two.

use super::human::NAMES;
use super::table::{capture, data, named, Row};
use crate::rng::Rng;

/// Bytes of a text, so that `show` does not cut it.
const TEXT_BYTES: usize = 150;
/// Names in an object, so that its description is no longer than a message may be.
const NAMES_OF_ONE: usize = 200;
/// So many floats of each width are of random bits.
const RANDOM_FLOATS: usize = 3_000;

/// What is in each capture, and its bytes.
pub fn captures(rng: &mut Rng) -> [(&'static str, Vec<u8>); 4] {
    let float64 = about_powers(0x7ff, 52).map(u64::to_be_bytes);
    let float32 = about_powers(0xff, 23).map(|bits| (bits as u32).to_be_bytes());
    [
        ("every code point", of("str", texts())),
        ("every code point in a name", names()),
        ("float64", of("float64", float64.chain(random(rng)))),
        ("float32", of("float32", float32.chain(random(rng)))),
    ]
}

/// Values about as long as `show` prints whole, and longer ones, for `show` and `find`.
pub fn long() -> Vec<u8> {
    let mut rows = Vec::new();
    for length in [39, 40, 41, 42, 157, 158, 159, 160, 161, 162, 400, 5_000] {
        for letter in ["a", "\u{e4}", "\u{3164}", "\u{1f642}", "\""] {
            let text = "a".repeat(length % letter.len()) + &letter.repeat(length / letter.len());
            for (kind, before) in [("str", ""), ("bytes", ""), ("json", "\u{1}")] {
                let value = (before.to_owned() + &text).into();
                let (kind, text) = (kind.into(), String::new());
                rows.push(Row { kind, value, text });
            }
        }
    }
    capture(&rows).expect("known kinds")
}

/// A description of one scalar, and a row of each value.
fn of<V: AsRef<[u8]>>(kind: &str, values: impl Iterator<Item = V>) -> Vec<u8> {
    assert!(NAMES.contains(&kind));
    let mut values = values.peekable();
    let first = Row {
        kind: kind.into(),
        value: values.peek().expect("a value").as_ref().to_vec(),
        text: String::new(),
    };
    let mut all = capture(&[first]).expect("a known kind");
    for value in values {
        all.extend(data(value.as_ref()));
    }
    all
}

/// All letters in their order, some to a text.
fn texts() -> impl Iterator<Item = String> {
    let mut letters = ('\0'..=char::MAX).peekable();
    std::iter::from_fn(move || {
        letters.peek()?;
        let mut text = String::new();
        while text.len() < TEXT_BYTES {
            text.extend(letters.next());
            if letters.peek().is_none() {
                break;
            }
        }
        Some(text)
    })
}

/// Descriptions with all letters in their elements' names.
fn names() -> Vec<u8> {
    let texts: Vec<String> = texts().collect();
    texts.chunks(NAMES_OF_ONE).flat_map(named).collect()
}

/// The bits of each power of two, and of the numbers next to it, from the smallest up to infinity.
fn about_powers(exponents: u64, width: u32) -> impl Iterator<Item = u64> {
    let subnormal = (1..width).map(|power| 1 << power);
    let normal = (1..=exponents).map(move |exponent| exponent << width);
    let powers = subnormal.chain(normal);
    powers.flat_map(|bits| [bits - 1, bits, bits + 1])
}

fn random<const N: usize>(rng: &mut Rng) -> impl Iterator<Item = [u8; N]> + use<'_, N> {
    (0..RANDOM_FLOATS).map(|_| rng.bytes(N).try_into().expect("so many"))
}
