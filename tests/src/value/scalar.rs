//! Scalars of each format, permitted and not.

use crate::rng::Rng;
use crate::text;
use crate::times::numbers;

pub const STR: u32 = 1;
pub const BYTES: u32 = 2;
pub const INT64: u32 = 5;
pub const DECIMAL: u32 = 8;
pub const BOOL: u32 = 9;
pub const LOCAL_TIME: u32 = 13;
pub const DURATION: u32 = 14;
pub const JSON: u32 = 15;
pub const BIGINT: u32 = 16;
pub const FORMATS: u32 = 20;

/// int64, float64, datetime, local_datetime and memory: eight bytes, of which any pass (R5.15).
pub const FREE: [u32; 5] = [INT64, 7, 10, 11, 19];

/// The size of each format that has but one, in the order of their numbers.
const SIZES: [Option<usize>; FORMATS as usize] = [
    Some(16),
    None,
    None,
    Some(2),
    Some(4),
    Some(8),
    Some(4),
    Some(8),
    None,
    Some(1),
    Some(8),
    Some(8),
    Some(4),
    Some(8),
    Some(16),
    None,
    None,
    Some(16),
    Some(16),
    Some(8),
];

/// The bytes of the smallest scalar; a format that is not known counts none.
pub fn least(format: u32) -> usize {
    match (SIZES.get(format as usize), format) {
        (Some(Some(size)), _) => *size,
        (_, DECIMAL | BIGINT) => 8,
        (_, JSON) => 1,
        _ => 0,
    }
}

/// A permitted scalar of at most so many bytes, or the least possible.
pub fn good(rng: &mut Rng, format: u32, most: usize) -> Vec<u8> {
    match format {
        STR => text::good(rng, most),
        BYTES => {
            let length = rng.below(most + 1);
            rng.bytes(length)
        }
        JSON => {
            let mut content = vec![1];
            content.extend(text::good(rng, most.saturating_sub(1)));
            content
        }
        BOOL => vec![rng.below(2) as u8],
        DECIMAL => decimal(rng, most),
        BIGINT => bigint(rng, most),
        LOCAL_TIME => numbers::within(rng).to_be_bytes().to_vec(),
        DURATION => {
            let mut content = rng.bytes(8);
            content.extend([0; 8]);
            content
        }
        _ => number(rng, least(format)),
    }
}

/// Any bytes, at times all alike.
fn number(rng: &mut Rng, size: usize) -> Vec<u8> {
    match rng.below(8) {
        0 => vec![0; size],
        1 => vec![0xff; size],
        _ => rng.bytes(size),
    }
}

/// Any weight and display scale pass.
fn decimal(rng: &mut Rng, most: usize) -> Vec<u8> {
    let digits = digits(rng, most);
    let weight = match rng.below(3) {
        0 => rng.word() as u16,
        _ => (rng.below(9) as u16).wrapping_sub(4),
    };
    let scale = rng.pick(&[0, 1, 7, 0xffff]);
    numeric(weight, sign(rng), scale, &digits)
}

/// As many digits as the weight allows, or fewer; without digits any weight passes.
fn bigint(rng: &mut Rng, most: usize) -> Vec<u8> {
    let digits = digits(rng, most);
    let enough = (digits.len() as u16).wrapping_sub(1);
    let weight = match rng.below(4) {
        0 if digits.is_empty() => rng.word() as u16,
        0 => 0x7fff,
        1 => enough.wrapping_add(1),
        _ => enough,
    };
    numeric(weight, sign(rng), 0, &digits)
}

fn sign(rng: &mut Rng) -> u16 {
    rng.pick(&[0, 0x4000])
}

fn digits(rng: &mut Rng, most: usize) -> Vec<u16> {
    let most = most.saturating_sub(8) / 2;
    let count = if rng.once_in(8) {
        rng.below(most.min(40) + 1)
    } else {
        rng.below(most.min(4) + 1)
    };
    let digit = |rng: &mut Rng| match rng.below(4) {
        0 => 9_999,
        1 => 0,
        _ => rng.below(10_000) as u16,
    };
    (0..count).map(|_| digit(rng)).collect()
}

/// The fields of a decimal or bigint.
pub fn numeric(weight: u16, sign: u16, fourth: u16, digits: &[u16]) -> Vec<u8> {
    let mut content = Vec::with_capacity(8 + 2 * digits.len());
    for word in [digits.len() as u16, weight, sign, fourth] {
        content.extend(word.to_be_bytes());
    }
    content.extend(digits.iter().flat_map(|digit| digit.to_be_bytes()));
    content
}

/// Makes a permitted scalar one that is not, but for a byte string, of which there is none. One
/// that has too few bytes already stays as it is.
pub fn spoil(rng: &mut Rng, format: u32, content: &mut Vec<u8>) {
    match format {
        BYTES => {}
        _ if content.len() < least(format) => {}
        STR => text::spoil(rng, content),
        JSON => spoil_json(rng, content),
        DECIMAL => spoil_numeric(rng, content),
        BIGINT => spoil_bigint(rng, content),
        BOOL if rng.once_in(2) => content[0] = rng.between(2, 255) as u8,
        LOCAL_TIME if rng.below(4) > 0 => *content = numbers::outside(rng).to_be_bytes().to_vec(),
        DURATION if rng.once_in(2) => content[rng.between(8, 15)] ^= 1 << rng.below(8),
        _ => resize(rng, content),
    }
}

/// A byte more or fewer, none at all, twice as many, or some other size.
fn resize(rng: &mut Rng, content: &mut Vec<u8>) {
    let size = content.len();
    let other = match rng.below(6) {
        0 | 1 => size - 1,
        2 | 3 => size + 1,
        4 => rng.pick(&[0, 2 * size]),
        _ => size + rng.between(1, 20),
    };
    content.resize(other, 0);
}

fn spoil_json(rng: &mut Rng, content: &mut Vec<u8>) {
    match rng.below(4) {
        0 => content.clear(),
        1 => content[0] = rng.pick(&[0, 2, b'{', 0x81, 0xff]),
        2 => {
            content.remove(0);
            if content.first() == Some(&1) {
                content.clear();
            }
        }
        _ => {
            let mut rest = content.split_off(1);
            text::spoil(rng, &mut rest);
            content.append(&mut rest);
        }
    }
}

/// A fault that decimals and bigints share.
fn spoil_numeric(rng: &mut Rng, content: &mut Vec<u8>) {
    let digits = (content.len() - 8) / 2;
    match rng.below(7) {
        0 => content[4..6].copy_from_slice(&rng.pick(&[
            [0x80, 0],
            [0xc0, 0],
            [0, 1],
            [0x40, 1],
            [0x20, 0],
            [0, 0x40],
        ])),
        1 | 2 if digits > 0 => {
            let at = 8 + 2 * rng.below(digits);
            let digit = rng.pick(&[10_000_u16, 10_001, 0x7fff, 0x8000, 0xffff, 0x2710]);
            content[at..at + 2].copy_from_slice(&digit.to_be_bytes());
        }
        3 => content.push(0),
        4 => content.extend([0, 0]),
        5 => {
            let count = rng.pick(&[digits as u16 + 1, digits as u16 + 256, 0xffff]);
            content[..2].copy_from_slice(&count.to_be_bytes());
        }
        _ => content.truncate(rng.below(content.len())),
    }
}

fn spoil_bigint(rng: &mut Rng, content: &mut Vec<u8>) {
    let digits = (content.len() - 8) / 2;
    match rng.below(3) {
        0 => content[6 + rng.below(2)] = rng.between(1, 255) as u8,
        1 if digits > 0 => {
            let short = (digits as u16).wrapping_sub(2);
            let weight = rng.pick(&[short, short.wrapping_sub(1), 0xffff, 0x8000, 0x8001]);
            content[2..4].copy_from_slice(&weight.to_be_bytes());
        }
        _ => spoil_numeric(rng, content),
    }
}

#[cfg(test)]
mod tests {
    use super::*;
    use second::scalar::Format;

    #[test]
    fn good_scalars_are_permitted_and_spoilt_ones_are_not() {
        let mut rng = Rng::new(1);
        for _ in 0..5_000 {
            for number in 0..FORMATS {
                let format = Format::numbered(number).expect("one of the twenty");
                let most = rng.below(60);
                let mut content = good(&mut rng, number, most);
                assert!(content.len() <= most.max(least(number)));
                assert!(format.permits(&content), "{format:?} {content:?}");
                spoil(&mut rng, number, &mut content);
                let refused = !format.permits(&content);
                assert_eq!(refused, number != BYTES, "{format:?} {content:?}");
            }
        }
    }
}
