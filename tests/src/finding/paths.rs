//! Makes paths from the list that a value has if it is good.

use crate::crossed::list;
use crate::entries::path_to;
use crate::rng::Rng;
use second::entry::Entry;

/// A path as it crosses, and what it names in the list.
pub struct Path {
    pub bytes: Vec<u8>,
    pub names: Names,
}

#[derive(Clone, Copy, Debug, PartialEq, Eq)]
pub enum Names {
    /// The entry of this number.
    Entry(usize),
    Nothing,
    Unknown,
}

/// Indexes that some readers take for others.
const ODD_INDEXES: [u32; 6] = [
    0x8000_0000,
    0x8000_0001,
    0xffff_ffff,
    0x7fff_ffff,
    0x0100_0000,
    0x1_0000,
];

/// So many words name nothing whatever they are: nothing is more than 31 steps below the top.
const TOO_MANY: usize = 32;

/// A path to some entry, or one that was changed and may name another or none. Under "no type"
/// there are no entries, and no path names one.
pub fn make(rng: &mut Rng, entries: &[Entry]) -> Path {
    if entries.is_empty() {
        let count = rng.pick(&[0, 0, 0, 4, 4, 8, 1, 5]);
        let bytes = rng.bytes(count);
        let names = Names::Nothing;
        return Path { bytes, names };
    }
    let number = pick(rng, entries);
    let mut words = path_to(entries, number);
    let names = match rng.below(16) {
        0..9 => Names::Entry(number),
        9 | 10 => {
            words.push(index(rng, 0));
            match entries[number].below {
                0 => Names::Nothing,
                _ => Names::Unknown,
            }
        }
        _ => change(rng, &mut words),
    };
    let mut bytes = list(&words);
    if rng.once_in(32) {
        leave_over(rng, &mut bytes);
        let names = Names::Nothing;
        return Path { bytes, names };
    }
    Path { bytes, names }
}

/// Some entry: one that is absent or the last one more often than others.
fn pick(rng: &mut Rng, entries: &[Entry]) -> usize {
    let absent = |number: &usize| entries[*number].is_absent();
    match rng.below(6) {
        0 => entries.len() - 1,
        1 => {
            let absent: Vec<usize> = (0..entries.len()).filter(absent).collect();
            match absent.len() {
                0 => rng.below(entries.len()),
                _ => rng.pick(&absent),
            }
        }
        _ => rng.below(entries.len()),
    }
}

/// An index that is near this one, or far from all.
fn index(rng: &mut Rng, index: u32) -> u32 {
    match rng.below(10) {
        0 | 1 => index ^ 1,
        2 => index.wrapping_add(1),
        3 => index.wrapping_sub(1),
        4 | 5 => rng.below(12) as u32,
        6 => index | rng.pick(&[0x8000_0000, 0x1_0000, 0x100]),
        7 => rng.word(),
        8 => index,
        _ => rng.pick(&ODD_INDEXES),
    }
}

/// Another path: an index changed, words taken away, put in or exchanged, or far too many.
fn change(rng: &mut Rng, words: &mut Vec<u32>) -> Names {
    let count = words.len();
    match rng.below(8) {
        0..3 if count > 0 => {
            let at = match rng.below(2) {
                0 => count - 1,
                _ => rng.below(count),
            };
            words[at] = index(rng, words[at]);
        }
        3 if count > 0 => words.truncate(rng.below(count)),
        4 if count > 1 => words.swap(rng.below(count), rng.below(count)),
        5 => words.insert(rng.below(count + 1), index(rng, 0)),
        6 => {
            let more = rng.pick(&[0, 1, 8, 68, 68]);
            words.resize(TOO_MANY.max(count) + more, rng.below(2) as u32);
            return Names::Nothing;
        }
        _ => *words = (0..rng.below(6)).map(|_| index(rng, 0)).collect(),
    }
    Names::Unknown
}

/// No whole number of words, or now and then more than can cross.
fn leave_over(rng: &mut Rng, bytes: &mut Vec<u8>) {
    if rng.once_in(16) {
        bytes.resize(
            rng.pick(&[32_764, 32_767, 32_768, 32_769, 32_772, 100_000]),
            0,
        );
    } else if bytes.is_empty() || rng.once_in(2) {
        let more = rng.between(1, 3);
        bytes.extend(rng.bytes(more));
    } else {
        bytes.truncate(bytes.len() - rng.between(1, 3));
    }
}
