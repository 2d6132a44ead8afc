//! Texts and bytes as they stand on a line.

use super::unseen::is_unseen;

/// Of a text `show` prints so many bytes, and the rest of the last letter.
const MOST_TEXT: usize = 160;
const MOST_BYTES: usize = 40;

/// How much is printed of what is long.
#[derive(Clone, Copy)]
pub enum Extent {
    /// As in `show`: a start, and how many bytes were cut off.
    Cut,
    /// As in `find`.
    Whole,
}

impl Extent {
    /// Of so many bytes, at most so many where they are cut.
    fn of(self, bytes: usize, most: usize) -> usize {
        match self {
            Extent::Cut => bytes.min(most),
            Extent::Whole => bytes,
        }
    }
}

/// In quotation marks; those inside and backslashes are escaped.
pub fn quoted(text: &str, extent: Extent) -> String {
    written(text, "\"", &['"', '\\'], extent)
}

/// Without quotation marks, where a space at either end could not be seen.
pub fn bare(text: &str, extent: Extent) -> String {
    written(text, "", &['\\', ' '], extent)
}

/// JSON has escapes of its own.
pub fn as_it_is(text: &str, extent: Extent) -> String {
    written(text, "", &[], extent)
}

fn written(text: &str, mark: &str, escaped: &[char], extent: Extent) -> String {
    let mut end = extent.of(text.len(), MOST_TEXT);
    while !text.is_char_boundary(end) {
        end += 1;
    }
    let letters: String = text[..end]
        .chars()
        .map(|letter| shown(letter, escaped))
        .collect();
    format!("{mark}{letters}{mark}{}", cut(text.len() - end))
}

/// How many bytes were cut off.
fn cut(bytes: usize) -> String {
    match bytes {
        0 => String::new(),
        _ => format!(" ... and {} more", size(bytes)),
    }
}

/// So many bytes, in words.
pub fn size(bytes: usize) -> String {
    format!("{bytes} byte{}", if bytes == 1 { "" } else { "s" })
}

fn shown(letter: char, escaped: &[char]) -> String {
    match letter {
        '\n' => "\\n".into(),
        '\t' => "\\t".into(),
        _ if is_unseen(letter) || (letter == ' ' && escaped.contains(&' ')) => {
            format!("\\u{{{:x}}}", letter as u32)
        }
        _ if escaped.contains(&letter) => format!("\\{letter}"),
        _ => letter.into(),
    }
}

pub fn hex(bytes: &[u8], extent: Extent) -> String {
    if bytes.is_empty() {
        return "no bytes".into();
    }
    let end = extent.of(bytes.len(), MOST_BYTES);
    let pairs: Vec<String> = bytes[..end].iter().map(pair).collect();
    pairs.join(" ") + &cut(bytes.len() - end)
}

fn pair(byte: &u8) -> String {
    format!("{byte:02x}")
}

pub fn uuid(bytes: &[u8]) -> String {
    let digits: String = bytes.iter().map(pair).collect();
    let parts = [
        &digits[..8],
        &digits[8..12],
        &digits[12..16],
        &digits[16..20],
        &digits[20..],
    ];
    parts.join("-")
}
