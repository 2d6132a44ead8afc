//! Checking and listing values by plan beside the second program, which is a plain one-pass lister:
//! it reads the plan, goes through the value once, pushes five words an entry into a `Vec` and
//! refuses by `Err`. Through its own crossing it does what a C call has to; its inner function
//! works on words without one.
//!
//! A list of more than 8,192 words cannot cross: such a call is refused by 31 after the whole value
//! was checked. Such rows say so.

use crate::race::race;
use crate::shapes::{
    bools, empty_objects, integers, local_times, mixed_object, nested, rows, sparse_object,
    sparse_times, time_rows, Subject,
};
use crate::table;
use compare::crossed::list;
use compare::ffi;
use second::crossing;
use second::value;
use std::hint::black_box;

/// Words of list room in every call.
const ROOM: usize = 8_192;

pub fn print() {
    table::head("Value");
    for subject in [
        integers(1_600),
        local_times(1_600),
        integers(4_000),
        mixed_object(50),
        rows(180),
        time_rows(180),
        rows(700),
        sparse_object(500),
        sparse_times(500),
        nested(30),
        empty_objects(8_189),
    ] {
        table::row(&subject.label(), subject.times());
    }
    println!();
    print_entry_costs();
}

/// How the cost of an entry changes with their number.
fn print_entry_costs() {
    table::head("Nanoseconds an entry");
    for (subject, entries) in [
        (integers(10), 11),
        (integers(100), 101),
        (integers(1_000), 1_001),
        (integers(1_600), 1_601),
        (integers(5_000), 5_001),
        (bools(10_000), 10_001),
    ] {
        let times = subject.times().map(|time| 1e3 * time / f64::from(entries));
        table::row(&subject.label(), times);
    }
}

impl Subject {
    /// 31 where the list has more than 8,192 words, else 0.
    fn number(&self) -> u32 {
        match value::run(&self.plan, &self.value, usize::MAX) {
            Ok(words) if words.len() <= ROOM => 0,
            Ok(_) => 31,
            Err(refusal) => panic!("{} is refused by {}", self.name, refusal.number),
        }
    }

    fn label(&self) -> String {
        match self.number() {
            0 => self.name.clone(),
            number => format!("{}, refused {number}", self.name),
        }
    }

    /// Microseconds of the library, of the second program's crossing and of its inner function.
    fn times(&self) -> [f64; 3] {
        let Subject { plan, value, .. } = self;
        let (crossed, number) = (list(plan), self.number());
        let (mut ours, mut theirs) = (vec![0; 4 * ROOM], vec![0; 4 * ROOM]);
        let answers = [
            ffi::run(&crossed, value, &mut ours),
            crossing::run(&crossed, value, &mut theirs),
        ];
        assert_eq!(answers[0], answers[1], "{}", self.name);
        assert!(ours == theirs, "{}: the lists differ", self.name);
        race([
            &mut || {
                let answer = ffi::run(&crossed, black_box(value), &mut ours);
                assert_eq!(answer.number, number);
            },
            &mut || {
                let answer = crossing::run(&crossed, black_box(value), &mut theirs);
                assert_eq!(answer.number, number);
            },
            &mut || {
                let words = value::run(black_box(plan), black_box(value), ROOM);
                assert_eq!(black_box(words).is_ok(), number == 0);
            },
        ])
    }
}
