//! What stands at the start of containers and of the arrays in a set.

use super::container::Container;
use crate::refusal::{self, Refusal};

const EMPTY: u8 = 0x01;
const LOWER_INCLUDED: u8 = 0x02;
const UPPER_INCLUDED: u8 = 0x04;
const LOWER_INFINITE: u8 = 0x08;
const UPPER_INFINITE: u8 = 0x10;

/// The head of a set or array, field by field (R5.4). Gives the number of elements.
pub fn dimension(set: &mut Container) -> Result<u32, Refusal> {
    let ndims = set.number()?;
    set.demand(ndims == 0 || ndims == 1)?;
    set.take(8)?;
    if ndims == 0 {
        return Ok(0);
    }
    let upper = set.number()?;
    set.demand(upper >= 1)?;
    let lower = set.number()?;
    set.demand(lower == 1)?;
    Ok(upper as u32)
}

/// The head of an array in a set, its checks in the order of R5.6. Gives the inner length.
pub fn envelope(set: &mut Container) -> Result<i32, Refusal> {
    let [outer, one, _, inner] = set.numbers()?;
    set.demand(one == 1)?;
    if inner < 0 {
        return set.refuse(refusal::BAD_ELEMENT_LENGTH);
    }
    set.demand(i64::from(outer) == 12 + i64::from(inner))?;
    Ok(inner)
}

/// A tuple or an object has as many elements as its node, else 22 (R5.7).
pub fn full_count(container: &mut Container, elements: usize) -> Result<u32, Refusal> {
    let count = container.number()?;
    container.demand(usize::try_from(count) == Ok(elements))?;
    Ok(count as u32)
}

/// A range's flags, of which a missing byte is 20 (R5.12). Gives the indexes of the bounds on the
/// wire.
pub fn bounds(range: &mut Container) -> Result<impl Iterator<Item = u32>, Refusal> {
    let flags = range.take(1)?[0];
    range.demand(are_permitted(flags))?;
    Ok(bounds_on_wire(flags))
}

/// The bounds that the flags do not leave out (R5.13). Gives their indexes.
pub fn bounds_on_wire(flags: u8) -> impl Iterator<Item = u32> {
    let present = [(0, LOWER_INFINITE), (1, UPPER_INFINITE)]
        .into_iter()
        .filter(move |(_, infinite)| flags & (EMPTY | infinite) == 0);
    present.map(|(index, _)| index)
}

/// 01 stands alone, and a bound that is not there is not included (R5.12).
pub fn are_permitted(flags: u8) -> bool {
    let any_of = LOWER_INCLUDED | UPPER_INCLUDED | LOWER_INFINITE | UPPER_INFINITE;
    let both = |bits: u8| flags & bits == bits;
    flags == EMPTY
        || flags & !any_of == 0
            && !both(LOWER_INCLUDED | LOWER_INFINITE)
            && !both(UPPER_INCLUDED | UPPER_INFINITE)
}
