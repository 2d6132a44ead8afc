//! Values in which one local_time is tried with a number; all others lie within the day.

use super::numbers::{self, is_edge, is_within_day};
use super::{by_hand, drafted};
use crate::entries::{entries, path_to};
use crate::rng::Rng;
use crate::value::plan::PlanDraft;
use crate::value::scalar::LOCAL_TIME;
use second::entry::Entry;

/// A value that is accepted, by its plan, and its list.
#[derive(Clone)]
pub struct Template {
    /// The plan as it is made, from which descriptors are made too.
    pub draft: PlanDraft,
    pub plan: Vec<u32>,
    pub value: Vec<u8>,
    pub words: Vec<u32>,
}

/// The same with a number in the place of one local_time. It is accepted, and has that list, only if
/// the number lies within the day.
pub struct Timed {
    pub template: Template,
    /// The local_time's entry in the list.
    pub entry: usize,
    pub microseconds: i64,
}

/// Of more local times than these in one value only the first, the middle and the last are tried.
const MOST_TRIED: usize = 12;

/// Many numbers in each place of the templates by hand, and some in each of those made at random.
pub fn all() -> Vec<Timed> {
    let mut rng = Rng::new(1);
    let mut all = each(&by_hand::templates(), &numbers::many(&mut rng));
    all.extend(each(&drafted::templates(), &numbers::some(&mut rng)));
    all
}

/// Each number in each place of each template.
fn each(templates: &[Template], numbers: &[i64]) -> Vec<Timed> {
    let mut all = Vec::new();
    for template in templates {
        for entry in template.tried() {
            let timed = |microseconds: &i64| template.with(entry, *microseconds);
            all.extend(numbers.iter().map(timed));
        }
    }
    all
}

impl Template {
    /// The entries of its local times, or some of many.
    fn tried(&self) -> Vec<usize> {
        let is_time = |entry: &Entry| {
            let node = &self.plan[entry.node as usize..];
            !entry.is_absent() && node.starts_with(&[1, LOCAL_TIME])
        };
        let listed = entries(&self.words);
        let times: Vec<usize> = (0..listed.len())
            .filter(|number| is_time(&listed[*number]))
            .collect();
        match times.len() {
            ..=MOST_TRIED => times,
            count => [0, count / 2, count - 1].map(|at| times[at]).to_vec(),
        }
    }

    fn with(&self, entry: usize, microseconds: i64) -> Timed {
        let mut template = self.clone();
        let start = entries(&self.words)[entry].start as usize;
        template.value[start..start + 8].copy_from_slice(&microseconds.to_be_bytes());
        Timed {
            template,
            entry,
            microseconds,
        }
    }
}

impl Timed {
    pub fn is_accepted(&self) -> bool {
        is_within_day(self.microseconds)
    }

    /// Whether it is to be tried with every room and both ends fenced.
    pub fn is_edge(&self) -> bool {
        is_edge(self.microseconds)
    }

    /// Where the local_time starts: the place of 24 if it is refused (R1.3).
    pub fn start(&self) -> u32 {
        entries(&self.template.words)[self.entry].start
    }

    /// The path that leads to the local_time.
    pub fn path(&self) -> Vec<u32> {
        path_to(&entries(&self.template.words), self.entry)
    }
}
