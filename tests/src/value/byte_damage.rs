//! Damages the bytes of a value that was put together.

use super::draft::Laid;
use crate::rng::Rng;

/// Damages the bytes of a whole value, whatever they stand for.
pub fn value(rng: &mut Rng, laid: &mut Laid) {
    let bytes = &mut laid.bytes;
    match rng.below(8) {
        0..3 if !bytes.is_empty() => {
            let at = rng.below(bytes.len());
            bytes[at] ^= 1 << rng.below(8);
        }
        3 if !bytes.is_empty() => bytes.truncate(bytes.len() - 1),
        4 if !bytes.is_empty() => {
            // Often just where an element's head or data begins.
            let places: Vec<u32> = laid.words.iter().skip(2).step_by(5).copied().collect();
            let at = match places.is_empty() || rng.once_in(2) {
                true => rng.below(bytes.len()),
                false => rng.pick(&places) as usize,
            };
            bytes.truncate(at.saturating_sub(rng.pick(&[0, 0, 4, 8])));
        }
        5 if bytes.len() >= 4 => {
            let at = rng.below(bytes.len() - 3);
            let word = rng.pick(&[0, 0xffff_ffff, 0xffff_fffe, 0x7fff_ffff, 0x8000_0000]);
            bytes[at..at + 4].copy_from_slice(&u32::to_be_bytes(word));
        }
        6 => {
            let at = rng.below(bytes.len() + 1);
            let count = rng.pick(&[1, 1, 4, 8]);
            bytes.splice(at..at, rng.bytes(count));
        }
        7 => noise(rng, bytes),
        _ => bytes.push(0),
    }
}

/// Random bytes, mostly small ones, so that counts and lengths are now and then met.
fn noise(rng: &mut Rng, bytes: &mut Vec<u8>) {
    bytes.clear();
    for _ in 0..rng.below(60) {
        bytes.push(match rng.below(4) {
            0 => rng.byte(),
            1 => rng.below(5) as u8,
            _ => 0,
        });
    }
}
