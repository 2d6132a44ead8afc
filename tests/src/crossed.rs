//! Words, bytes and answers as they are written in cases.

use second::crossing::Answer;

/// Words as they cross: four bytes to a word, big-endian.
pub fn list(words: &[u32]) -> Vec<u8> {
    words.iter().flat_map(|word| word.to_be_bytes()).collect()
}

/// The words of bytes that crossed.
pub fn words(list: &[u8]) -> Vec<u32> {
    let word = |four: &[u8]| u32::from_be_bytes([four[0], four[1], four[2], four[3]]);
    list.chunks_exact(4).map(word).collect()
}

pub fn accepted(first: u32, second: u32) -> Answer {
    Answer {
        number: 0,
        place: 0,
        first,
        second,
    }
}

pub fn refused(number: u32, place: u32) -> Answer {
    Answer {
        number,
        place,
        first: 0,
        second: 0,
    }
}

/// The bytes of a text in hex; spaces are for the eye only.
pub fn hex(text: &str) -> Vec<u8> {
    let digits: Vec<u32> = text
        .chars()
        .filter(|letter| *letter != ' ')
        .map(|letter| letter.to_digit(16).expect("a hex digit"))
        .collect();
    digits
        .chunks_exact(2)
        .map(|pair| (pair[0] << 4 | pair[1]) as u8)
        .collect()
}
