//! Texts, well formed and not, by Table 3-7 of the Unicode Standard.

use crate::rng::Rng;

/// The first and last letters of the table's rows, and letters that some readers wrongly refuse.
const EDGES: [char; 20] = [
    '\u{0}',
    '\u{1f}',
    '\u{7f}',
    '\u{80}',
    '\u{7ff}',
    '\u{800}',
    '\u{fff}',
    '\u{1000}',
    '\u{cfff}',
    '\u{d000}',
    '\u{d7ff}',
    '\u{e000}',
    '\u{feff}',
    '\u{fffe}',
    '\u{ffff}',
    '\u{10000}',
    '\u{3ffff}',
    '\u{40000}',
    '\u{fffff}',
    '\u{10ffff}',
];

/// Ill formed wherever a letter may start: no row begins so, or the sequence is cut.
const BAD: [&[u8]; 24] = [
    // Longer than they need be.
    &[0xc0, 0x80],
    &[0xc1, 0xbf],
    &[0xe0, 0x80, 0x80],
    &[0xe0, 0x9f, 0xbf],
    &[0xf0, 0x80, 0x80, 0x80],
    &[0xf0, 0x8f, 0xbf, 0xbf],
    // Surrogates.
    &[0xed, 0xa0, 0x80],
    &[0xed, 0xbf, 0xbf],
    // Above 10ffff.
    &[0xf4, 0x90, 0x80, 0x80],
    &[0xf5, 0x80, 0x80, 0x80],
    &[0xf7, 0xbf, 0xbf, 0xbf],
    &[0xf8, 0x88, 0x80, 0x80, 0x80],
    &[0xfe],
    &[0xff],
    // Bytes that only continue a letter.
    &[0x80],
    &[0xbf],
    // Cut letters.
    &[0xc2],
    &[0xdf],
    &[0xe0],
    &[0xe2, 0x82],
    &[0xef, 0xbf],
    &[0xf0],
    &[0xf0, 0x9f],
    &[0xf4, 0x8f, 0xbf],
];

/// Lengths about those at which a step over plain bytes may go another way: words of 8 bytes and 16
/// bytes one by one, blocks of 64 after a word, and blocks of 128 after that, with words behind them.
const LENGTHS: [std::ops::Range<usize>; 5] = [0..26, 62..76, 134..140, 198..212, 326..330];

/// Bytes at the edges of the table's columns.
const NEAR: [u8; 8] = [0x7f, 0x80, 0x8f, 0x90, 0x9f, 0xa0, 0xbf, 0xc0];

/// A well-formed text of at most so many bytes.
pub fn good(rng: &mut Rng, most: usize) -> Vec<u8> {
    let length = rng.below(most + 1);
    let mut text = String::with_capacity(length + 16);
    while text.len() < length {
        match rng.below(4) {
            0 => text.push(rng.pick(&EDGES)),
            1 => text.extend(char::from_u32(rng.below(0x11_0000) as u32)),
            _ => plain(rng, &mut text),
        }
    }
    text.truncate(text.floor_char_boundary(length));
    text.into_bytes()
}

/// Some plain letters: readers that take many bytes at once pass over these.
fn plain(rng: &mut Rng, text: &mut String) {
    let first = rng.pick(b"aAz~ 0");
    for _ in 0..rng.below(20) {
        text.push(first.into());
    }
}

/// So many plain letters.
pub fn letters(count: usize) -> Vec<u8> {
    (b'a'..=b'z').cycle().take(count).collect()
}

/// Plain letters of each of these lengths; with a letter of each size, cut or whole, and a byte that
/// starts none, at each place.
pub fn stepped() -> Vec<Vec<u8>> {
    let others: [&[u8]; 7] = [
        &[0x80],
        &[0xff],
        &[0xc3],
        &[0xc3, 0xa9],
        &[0xe2, 0x82],
        &[0xe2, 0x82, 0xac],
        &[0xf0, 0x9f, 0x98, 0x80],
    ];
    let mut texts = Vec::new();
    for length in LENGTHS.into_iter().flatten() {
        let plain = letters(length);
        for at in 0..length {
            for other in others.iter().filter(|other| at + other.len() <= length) {
                let mut text = plain.clone();
                text[at..at + other.len()].copy_from_slice(other);
                texts.push(text);
            }
        }
        texts.push(plain);
    }
    texts
}

/// Letters of one row of the table, one to five of them, with a letter of another row behind them:
/// whole, cut at each place, and with each byte at each edge.
pub fn rows() -> Vec<Vec<u8>> {
    let mut texts = Vec::new();
    for (index, letter) in EDGES.iter().enumerate() {
        for count in 1..=5 {
            let mut text = letter.to_string().repeat(count);
            text.push(EDGES[(index + 7 * count) % EDGES.len()]);
            let text = text.into_bytes();
            for at in 0..text.len() {
                texts.push(text[..at].to_vec());
                texts.extend(NEAR.map(|byte| {
                    let mut changed = text.clone();
                    changed[at] = byte;
                    changed
                }));
            }
            texts.push(text);
        }
    }
    texts
}

/// Makes a well-formed text ill formed; another is changed somehow.
pub fn spoil(rng: &mut Rng, text: &mut Vec<u8>) {
    let mut at = rng.below(text.len() + 1);
    while at > 0 && text.get(at).is_some_and(|byte| byte & 0xc0 == 0x80) {
        at -= 1;
    }
    let bad = rng.pick(&BAD);
    text.splice(at..at, bad.iter().copied());
}

/// Puts one sequence at the table's edges, well formed or not, into a text.
pub fn brush(rng: &mut Rng, text: &mut Vec<u8>) {
    let at = rng.below(text.len() + 1);
    let lead = rng.between(0xc0, 0xff) as u8;
    let follow = [rng.pick(&NEAR), rng.pick(&NEAR), rng.pick(&NEAR)];
    let count = rng.below(4);
    text.splice(
        at..at,
        [lead].into_iter().chain(follow.into_iter().take(count)),
    );
}

#[cfg(test)]
mod tests {
    use super::*;

    /// Both kinds are there, and as many as the text says.
    #[test]
    fn swept_texts_are_well_formed_and_not() {
        for (texts, least) in [(stepped(), 30_000), (rows(), 8_000)] {
            assert!(texts.len() > least);
            let good = texts
                .iter()
                .filter(|text| std::str::from_utf8(text).is_ok());
            let good = good.count();
            assert!(good > least / 10 && texts.len() - good > least / 10);
        }
    }

    #[test]
    fn good_texts_are_well_formed_and_spoilt_ones_are_not() {
        let mut rng = Rng::new(1);
        for _ in 0..20_000 {
            let mut text = good(&mut rng, 60);
            assert!(text.len() <= 60 && std::str::from_utf8(&text).is_ok());
            spoil(&mut rng, &mut text);
            assert!(std::str::from_utf8(&text).is_err());
        }
    }
}
