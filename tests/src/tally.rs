//! How often each answer was given, and whatever else a run must have met, and whether that was often
//! enough to mean something.

use std::collections::BTreeMap;
use std::fmt;

/// What a tally counts. A run must have met each of it often.
pub enum Counted {
    /// The name of a call, and the refusals that it can give. That the call accepts is demanded too.
    Answers(&'static str, &'static [u32]),
    /// What is no answer: of what, and the names. They are counted by their place among the names.
    Events(&'static str, &'static [&'static str]),
    /// Events of cases that are in every run, however few random ones it has: of what, and each name
    /// with how often it must have been met.
    Always(&'static str, &'static [(&'static str, u64)]),
}

/// The number of an answer that is no refusal.
const ACCEPTED: u32 = 0;

/// Columns for the names, as they are printed.
const ANSWER_COLUMNS: usize = 12;
const EVENT_COLUMNS: usize = 44;

impl Counted {
    fn title(&self) -> &'static str {
        match self {
            Counted::Answers(title, _) | Counted::Events(title, _) | Counted::Always(title, _) => {
                title
            }
        }
    }

    /// What must have been met: answers by number, events by place.
    fn demanded(&self) -> Vec<u32> {
        match self {
            Counted::Answers(_, refusals) => [&[ACCEPTED], *refusals].concat(),
            Counted::Events(_, names) => (0..names.len() as u32).collect(),
            Counted::Always(_, names) => (0..names.len() as u32).collect(),
        }
    }

    fn name(&self, key: u32) -> String {
        match self {
            Counted::Answers(..) if key == ACCEPTED => "accepted".to_string(),
            Counted::Answers(..) => format!("refused {key}"),
            Counted::Events(_, names) => names[key as usize].to_string(),
            Counted::Always(_, names) => names[key as usize].0.to_string(),
        }
    }

    /// How often it must have been met.
    fn least(&self, key: u32, demand: &Demand) -> u64 {
        match self {
            Counted::Answers(..) if key == ACCEPTED => demand.accepted,
            Counted::Answers(..) | Counted::Events(..) => demand.refused,
            Counted::Always(_, names) => names[key as usize].1,
        }
    }
}

/// The answers of one call by number, or events by place.
pub struct Tally {
    counted: &'static Counted,
    counts: BTreeMap<u32, u64>,
}

impl Tally {
    pub fn new(counted: &'static Counted) -> Tally {
        let demanded = counted.demanded().into_iter();
        Tally {
            counted,
            counts: demanded.map(|key| (key, 0)).collect(),
        }
    }

    /// Counts an answer of this number, or the event in this place.
    pub fn count(&mut self, key: u32) {
        *self.counts.entry(key).or_default() += 1;
    }

    /// What was met less often than it must be, a line each.
    pub fn scarce(&self, demand: &Demand) -> Vec<String> {
        let Tally { counted, counts } = self;
        let least = |key| (key, counted.least(key, demand));
        let keys = counted.demanded().into_iter();
        keys.map(least)
            .filter(|(key, least)| counts[key] < *least)
            .map(|(key, least)| {
                let (title, name) = (counted.title(), counted.name(key));
                format!("{title}: {name} fewer than {least} times")
            })
            .collect()
    }
}

impl fmt::Display for Tally {
    fn fmt(&self, f: &mut fmt::Formatter) -> fmt::Result {
        let title = self.counted.title();
        let width = match self.counted {
            Counted::Answers(..) => {
                let total: u64 = self.counts.values().sum();
                writeln!(f, "{title}: {total} cases")?;
                ANSWER_COLUMNS
            }
            Counted::Events(..) | Counted::Always(..) => {
                writeln!(f, "{title}")?;
                EVENT_COLUMNS
            }
        };
        for (&key, count) in &self.counts {
            writeln!(f, "  {:<width$}{count:>10}", self.counted.name(key))?;
        }
        Ok(())
    }
}

/// How often a run must have met each answer of a call, and each event that its random cases are to
/// come to. Without the first a run in which everything is refused would pass.
pub struct Demand {
    accepted: u64,
    refused: u64,
}

impl Demand {
    /// Of a run of so many cases: accepted 1,000 times in 100,000 cases or more, each refusal and event
    /// 1,000 times in 1,000,000 or more, and proportionally less in fewer.
    pub fn of(cases: u64) -> Demand {
        Demand {
            accepted: (cases / 100).min(1_000),
            refused: (cases / 1_000).min(1_000),
        }
    }
}
