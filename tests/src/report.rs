//! Telling how two programs differ.

use std::fmt::{self, Debug, Display};

/// Compares two outcomes, the answer and the room after the call, each with the name of the program
/// that it is of.
pub fn compare<A: Copy + PartialEq + Debug>(
    call: &impl Display,
    (one, (answer, room)): (&str, (A, &[u8])),
    (other, (second, left)): (&str, (A, &[u8])),
) -> Result<A, String> {
    if answer == second && room == left {
        return Ok(answer);
    }
    let what = match room.iter().zip(left).position(|(one, other)| one != other) {
        None => "the answers differ".to_string(),
        Some(at) => format!(
            "byte {at} of the room differs: {one} {:02x}, {other} {:02x}",
            room[at], left[at]
        ),
    };
    Err(report(&what, call, &[(one, answer), (other, second)]))
}

pub fn report<A: Debug>(what: &str, call: &impl Display, answers: &[(&str, A)]) -> String {
    let mut report = format!("{what}\n{call}");
    for (whose, answer) in answers {
        report += &format!("\n  {whose}: {answer:?}");
    }
    report
}

/// Bytes in hex, the first few thousand of them.
pub struct Hex<'a>(pub &'a [u8]);

const SHOWN: usize = 4_096;

impl Display for Hex<'_> {
    fn fmt(&self, f: &mut fmt::Formatter) -> fmt::Result {
        let shown = &self.0[..self.0.len().min(SHOWN)];
        shown.iter().try_for_each(|byte| write!(f, "{byte:02x}"))?;
        match self.0.len() - shown.len() {
            0 => Ok(()),
            more => write!(f, " and {more} more"),
        }
    }
}
