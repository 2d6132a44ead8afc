//! Damages the bytes of a descriptor that was put together.

use super::draft::Laid;
use crate::rng::Rng;

/// Cuts the descriptor inside a block. Gives the place of that block's tag: with all before it
/// good, the answer is 10 there.
pub fn cut(rng: &mut Rng, laid: &mut Laid) -> Option<usize> {
    if laid.tags.is_empty() {
        return None;
    }
    let block = rng.below(laid.tags.len());
    let start = laid.tags[block];
    let end = *laid.tags.get(block + 1).unwrap_or(&laid.bytes.len());
    laid.bytes.truncate(rng.between(start + 1, end - 1));
    Some(start)
}

/// Damages the bytes of a whole descriptor, whatever they stand for.
pub fn any(rng: &mut Rng, bytes: &mut Vec<u8>) {
    match rng.below(8) {
        0..3 if !bytes.is_empty() => {
            let at = rng.below(bytes.len());
            bytes[at] ^= 1 << rng.below(8);
        }
        3 if !bytes.is_empty() => bytes.truncate(rng.below(bytes.len())),
        4 if bytes.len() >= 2 => {
            let at = rng.below(bytes.len() - 1);
            let short = rng.pick(&[0, 1, 2, 0xffff, 0x8000, 0x0200, 0x0201]);
            bytes[at..at + 2].copy_from_slice(&u16::to_be_bytes(short));
        }
        5 => {
            let at = rng.below(bytes.len() + 1);
            let count = rng.pick(&[1, 1, 2, 4, 16]);
            bytes.splice(at..at, rng.bytes(count));
        }
        6 if !bytes.is_empty() => {
            let at = rng.below(bytes.len());
            let end = (at + rng.pick(&[1, 2, 4, 16])).min(bytes.len());
            bytes.drain(at..end);
        }
        7 => noise(rng, bytes),
        _ => bytes.push(rng.below(15) as u8),
    }
}

/// Random bytes, mostly small ones, so that tags and counts are now and then met.
fn noise(rng: &mut Rng, bytes: &mut Vec<u8>) {
    bytes.clear();
    for _ in 0..rng.between(1, 60) {
        bytes.push(match rng.below(4) {
            0 => rng.byte(),
            1 => rng.below(14) as u8,
            _ => 0,
        });
    }
}
