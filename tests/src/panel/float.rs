//! Floats with the fewest digits that read back.
//!
//! The digits are had from the number's exact decimal expansion, which is finite, by cutting it off
//! after one digit, after two, and so on. The number cut off and the one above it are the only two
//! of so many digits that can be the nearest. Which of them read back is asked of the standard
//! library, whose parsing rounds to the nearest. Its own shortest digits are not taken: of two
//! equally near numbers they are the larger, and not the even one.

use super::human::with_point;
use std::cmp::Ordering;
use std::fmt::LowerExp;

/// No float has more digits that are not zero: the longest is a float64 of 767.
const EXACT_DIGITS: usize = 800;

/// Without an exponent from 0.00001 up to so many digits before the point.
const LEAST_EXPONENT: i32 = -5;
const MOST_WHOLE_32: i32 = 7;
const MOST_WHOLE_64: i32 = 15;

pub fn float64(number: f64) -> String {
    if number.is_nan() {
        return format!("nan (bits {:016x})", number.to_bits());
    }
    float(number, MOST_WHOLE_64, |written| {
        written.parse() == Ok(number)
    })
}

pub fn float32(number: f32) -> String {
    if number.is_nan() {
        return format!("nan (bits {:08x})", number.to_bits());
    }
    float(number, MOST_WHOLE_32, |written| {
        written.parse() == Ok(number)
    })
}

/// A number above zero, or zero: its digits, of which the first stands before the point, and the
/// power of ten that they count.
#[derive(Clone)]
struct Written {
    digits: Vec<u8>,
    exponent: i32,
}

impl Written {
    fn text(&self) -> String {
        let digits = String::from_utf8(self.digits.clone()).expect("digits");
        format!("{}.{}e{}", &digits[..1], &digits[1..], self.exponent)
    }

    /// The next number of as many digits.
    fn above(mut self) -> Written {
        let nines = self.digits.iter().rev().take_while(|&&digit| digit == b'9');
        let kept = self.digits.len() - nines.count();
        self.digits[kept..].fill(b'0');
        if kept > 0 {
            self.digits[kept - 1] += 1;
        } else {
            self.digits[0] = b'1';
            self.exponent += 1;
        }
        self
    }

    fn is_even(&self) -> bool {
        self.digits.last().is_some_and(|digit| digit % 2 == 0)
    }
}

/// Of numbers of so many digits that read back, the nearest, and of two equally near ones the one
/// whose last digit is even.
fn nearest(
    exact: &Written,
    count: usize,
    reads_back: impl Fn(&Written) -> bool,
) -> Option<Written> {
    let (kept, rest) = exact.digits.split_at(count);
    let below = Written {
        digits: kept.to_vec(),
        exponent: exact.exponent,
    };
    let above = below.clone().above();
    let half = [b"5", &vec![b'0'; rest.len()][1..]].concat();
    let above_is_first = match rest.cmp(&half[..]) {
        Ordering::Equal => above.is_even(),
        order => order.is_gt(),
    };
    let in_order = if above_is_first {
        [above, below]
    } else {
        [below, above]
    };
    in_order.into_iter().find(reads_back)
}

fn float<F: LowerExp>(number: F, most_whole: i32, reads_back: impl Fn(&str) -> bool) -> String {
    let written = format!("{number:.EXACT_DIGITS$e}");
    let (sign, positive) = match written.strip_prefix('-') {
        Some(rest) => ("-", rest),
        None => ("", &written[..]),
    };
    let Some((digits, exponent)) = positive.split_once('e') else {
        return written; // inf
    };
    let exact = Written {
        digits: digits.bytes().filter(u8::is_ascii_digit).collect(),
        exponent: exponent.parse().expect("a number"),
    };
    let reads_back = |other: &Written| reads_back(&format!("{sign}{}", other.text()));
    let found = (1..EXACT_DIGITS).find_map(|count| nearest(&exact, count, reads_back));
    let found = found.expect("all digits read back");
    format!("{sign}{}", with_exponent(&found, most_whole))
}

/// With an exponent of two digits or more, or without one.
fn with_exponent(number: &Written, most_whole: i32) -> String {
    let digits = String::from_utf8_lossy(&number.digits);
    let exponent = number.exponent;
    if (LEAST_EXPONENT..most_whole).contains(&exponent) {
        return with_point(&digits, 1 + i64::from(exponent));
    }
    let sign = if exponent < 0 { '-' } else { '+' };
    format!("{}e{sign}{:02}", with_point(&digits, 1), exponent.abs())
}
