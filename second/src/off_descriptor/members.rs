//! What a block says of its node and of its members.

use crate::descriptor::block::{Block, Body};

/// A member of a tuple or shape.
#[derive(Clone, Copy)]
pub struct Member {
    pub block: u16,
    pub absence: Absence,
}

/// What length -1 means for a member.
#[derive(Clone, Copy, PartialEq, Eq)]
pub enum Absence {
    /// In a tuple: 23 (R5.7).
    Never,
    /// With cardinality 41 or 4d: 27 (R5.11).
    Required,
    /// With any other cardinality (R5.11).
    Permitted,
}

/// Where the node of each block would start: after two words, and the nodes before it (R4.12).
pub fn node_words(blocks: &[Block]) -> Vec<u32> {
    let mut before = 0;
    let mut node_word = |block: &Block| {
        let word = 2 + before;
        before += node_length(&block.body);
        word
    };
    blocks.iter().map(&mut node_word).collect()
}

/// The number of words in a block's node; blocks without values have none.
fn node_length(body: &Body) -> u32 {
    match body {
        Body::Object { .. } | Body::Compound { .. } | Body::Record { .. } => 0,
        Body::Enumeration { .. } => 1,
        Body::Scalar { .. } | Body::Set { .. } | Body::Array { .. } | Body::Range { .. } => 2,
        Body::Tuple { .. } | Body::NamedTuple { .. } => 2 + members(body).len() as u32,
        Body::Output { .. } | Body::Input { .. } => 2 + 2 * members(body).len() as u32,
    }
}

/// The members of a tuple or shape; other blocks have none.
pub fn members(body: &Body) -> Vec<Member> {
    match body {
        Body::Tuple { elements, .. } => elements.iter().map(|&block| of_tuple(block)).collect(),
        Body::NamedTuple { elements, .. } => elements
            .iter()
            .map(|element| of_tuple(element.block))
            .collect(),
        Body::Output { elements, .. } => elements
            .iter()
            .map(|element| of_shape(element.block, element.cardinality))
            .collect(),
        Body::Input { elements } => elements
            .iter()
            .map(|element| of_shape(element.block, element.cardinality))
            .collect(),
        _ => Vec::new(),
    }
}

fn of_tuple(block: u16) -> Member {
    Member {
        block,
        absence: Absence::Never,
    }
}

fn of_shape(block: u16, cardinality: u8) -> Member {
    let absence = match cardinality {
        0x41 | 0x4d => Absence::Required,
        _ => Absence::Permitted,
    };
    Member { block, absence }
}
