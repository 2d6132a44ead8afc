//! Refusals: number, place, and the bytes around it. The words are tested elsewhere, and stand here
//! as [`WORDS`].

use super::fields::side_name;
use second::message::SERVER;
use second::refusal::Refusal;

/// Stands for the meaning of a refusal number.
pub const WORDS: &str = "..";

const PER_LINE: usize = 16;
const LINES_AROUND: usize = 2;

/// Bytes that something was refused in.
pub struct Within<'a> {
    /// What they are: "message", "row".
    pub what: &'a str,
    pub bytes: &'a [u8],
    /// Who sent them, and how many bytes before.
    pub side: u32,
    pub at: usize,
}

impl<'a> Within<'a> {
    /// A part of a message of the server, as the client's have none.
    pub fn of_server(what: &'a str, bytes: &'a [u8], at: usize) -> Within<'a> {
        let side = SERVER;
        Within {
            what,
            bytes,
            side,
            at,
        }
    }
}

pub fn lines(refusal: Refusal, within: &Within) -> Vec<String> {
    let place = refusal.place as usize;
    let Within { what, bytes, .. } = within;
    let in_side = in_side(within.side, within.at + place);
    let mut lines = vec![
        format!("    refused with {}: {WORDS}", refusal.number),
        format!("    at byte {place} of the {what} {in_side}"),
    ];
    let marked = place / PER_LINE;
    let first = marked.saturating_sub(LINES_AROUND);
    for number in first..=marked + LINES_AROUND {
        let start = number * PER_LINE;
        if start < bytes.len() || number == marked {
            let end = bytes.len().min(start + PER_LINE);
            lines.push(format!("    {}", hex_line(start, &bytes[start..end])));
        }
        if number == marked {
            let end = if place < bytes.len() { "" } else { " the end" };
            lines.push(format!(
                "    {}^^{end}",
                " ".repeat(column(place % PER_LINE))
            ));
        }
    }
    lines
}

/// A place in all that a side has sent.
pub fn in_side(side: u32, at: usize) -> String {
    format!("(byte {at} from the {})", side_name(side))
}

/// Address, two spaces, three columns a byte and one more after eight.
fn column(position: usize) -> usize {
    10 + 3 * position + position / 8
}

fn hex_line(start: usize, bytes: &[u8]) -> String {
    let mut line = format!("{start:08x}  ");
    for (position, byte) in bytes.iter().enumerate() {
        line += &" ".repeat(column(position) - line.len());
        line += &format!("{byte:02x}");
    }
    line += &" ".repeat(column(PER_LINE) - line.len());
    let letter = |byte: &u8| match byte {
        b' '..=b'~' => char::from(*byte),
        _ => '.',
    };
    let letters: String = bytes.iter().map(letter).collect();
    format!("{line}|{letters}|")
}
