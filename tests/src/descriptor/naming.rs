//! Ids and names of a descriptor's blocks.

use super::draft::{Content, Field, Id, Role};
use crate::rng::Rng;
use crate::text;
use crate::value::plan::{PlanDraft, Shape};
use std::collections::HashSet;

pub struct Naming {
    /// Ids so far, and those of the plan's scalars.
    taken: HashSet<Id>,
    /// All ids but the known ones are this but for two bytes at `at`; without it they have nothing
    /// in common.
    common: Option<Id>,
    at: usize,
    count: u16,
    /// Texts have at most so many bytes.
    most: usize,
}

impl Naming {
    pub fn new(rng: &mut Rng, plan: &PlanDraft, rich: bool) -> Naming {
        let known = plan.nodes.iter().filter_map(|node| match node.shape {
            Shape::Leaf(format) => Some(id_of(format)),
            _ => None,
        });
        let mut taken: HashSet<Id> = known.collect();
        taken.insert([0; 16]);
        let byte = rng.pick(&[0, 0, 0xff, 0x11]);
        Naming {
            taken,
            common: (!rng.once_in(3)).then_some([byte; 16]),
            at: rng.below(15),
            count: 0,
            most: match rich {
                true => rng.pick(&[0, 3, 10, 10, 40]),
                false => 2,
            },
        }
    }

    pub fn known_id(format: u32) -> Field {
        Field {
            role: Role::Id,
            content: Content::Id(id_of(format)),
        }
    }

    /// A new id. A scalar's is not a known one; another block's is at times, where no scalar of the
    /// plan has it: it means nothing there.
    pub fn id(&mut self, rng: &mut Rng, scalar: bool) -> Field {
        let mut id = self.candidate(rng);
        while is_known(&id) && (scalar || rng.once_in(2)) || !self.taken.insert(id) {
            id = self.candidate(rng);
        }
        Field {
            role: Role::Id,
            content: Content::Id(id),
        }
    }

    fn candidate(&mut self, rng: &mut Rng) -> Id {
        if rng.once_in(16) {
            // Known, or nearly so.
            let mut id = id_of(rng.below(20) as u32);
            if rng.below(4) > 0 {
                id[rng.below(16)] ^= rng.pick(&[1, 2, 0x20, 0x80]);
            }
            return id;
        }
        let mut id = match self.common {
            Some(common) => common,
            None => rng.bytes(16).try_into().unwrap_or([7; 16]),
        };
        self.count += 1;
        id[self.at..self.at + 2].copy_from_slice(&self.count.to_be_bytes());
        id
    }

    pub fn text(&self, rng: &mut Rng) -> Field {
        Field::text(Role::Text, text::good(rng, self.most))
    }

    /// So many names, of which no two are the same.
    pub fn names(&self, rng: &mut Rng, count: usize) -> Vec<Field> {
        let mut taken = HashSet::new();
        let front = text::good(rng, self.most);
        let name = |number: usize| {
            let mut name = match rng.below(3) {
                0 => front.clone(),
                1 => Vec::new(),
                _ => text::good(rng, self.most),
            };
            while !taken.insert(name.clone()) {
                name.extend(format!("{number}").bytes());
            }
            Field::text(Role::Name, name)
        };
        (0..count).map(name).collect()
    }
}

/// Fourteen zeros, 01, and the format's number; of memory 01 30 (R3.15).
fn id_of(format: u32) -> Id {
    let mut id = [0; 16];
    id[14] = 1;
    id[15] = if format == 19 { 0x30 } else { format as u8 };
    id
}

fn is_known(id: &Id) -> bool {
    (0..20).any(|format| id_of(format) == *id)
}
