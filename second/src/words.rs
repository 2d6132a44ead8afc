//! Lists of 32-bit words as they cross to and from C: R9.3, R9.4, R9.6.

/// The most words of a run that crosses (R1.4).
const MOST_WORDS: usize = 8_192;

/// The words of lent bytes, four to a word; `None` for bytes left over or more than 8,192 words.
pub fn from_bytes(bytes: &[u8]) -> Option<Vec<u32>> {
    if !bytes.len().is_multiple_of(4) || bytes.len() / 4 > MOST_WORDS {
        return None;
    }
    let word = |four: &[u8]| u32::from_be_bytes([four[0], four[1], four[2], four[3]]);
    Some(bytes.chunks_exact(4).map(word).collect())
}

/// A room counts in whole words, up to the most; a larger or odd one is no fault (R9.6).
pub fn room(bytes: &[u8]) -> usize {
    (bytes.len() / 4).min(MOST_WORDS)
}

/// Puts the words at the front of the room. Bytes past them keep their contents.
pub fn put(words: &[u32], room: &mut [u8]) {
    for (four, word) in room.chunks_exact_mut(4).zip(words) {
        four.copy_from_slice(&word.to_be_bytes());
    }
}
