//! Writing values from their own lists beside the second program, which takes the entries in turn
//! and pushes bytes into a `Vec`. Through its own crossing it does what a C call has to; its inner
//! function reads the plan and works on words.

use crate::race::race;
use crate::shapes::{
    integers, local_times, mixed_object, nested, rows, sparse_object, sparse_times, time_rows,
    Subject,
};
use crate::table;
use compare::crossed::list;
use compare::ffi;
use second::plan::Plan;
use second::{crossing, supply, value};
use std::hint::black_box;

pub fn print() {
    table::head("Value written");
    for subject in [
        integers(1_600),
        local_times(1_600),
        mixed_object(50),
        rows(180),
        time_rows(180),
        sparse_object(500),
        sparse_times(500),
        nested(30),
    ] {
        table::row(&subject.name, times(&subject));
    }
}

/// Microseconds of the library, of the second program's crossing and of its inner function.
fn times(subject: &Subject) -> [f64; 3] {
    let Subject { name, plan, value } = subject;
    let words = value::run(plan, value, 8_192).expect("a good value whose list can cross");
    let (crossed, listed) = (list(plan), list(&words));
    let (mut ours, mut theirs) = (vec![0; value.len()], vec![0; value.len()]);
    let answers = [
        ffi::write_value(&crossed, &listed, value, &mut ours),
        crossing::write_value(&crossed, &listed, value, &mut theirs),
    ];
    assert_eq!(answers[0], answers[1], "{name}");
    assert!(
        ours == *value && theirs == *value,
        "{name}: the values differ"
    );
    race([
        &mut || {
            let answer = ffi::write_value(&crossed, &listed, black_box(value), &mut ours);
            assert_eq!(answer.number, 0);
        },
        &mut || {
            let answer = crossing::write_value(&crossed, &listed, black_box(value), &mut theirs);
            assert_eq!(answer.number, 0);
        },
        &mut || {
            let plan = Plan::read(black_box(plan)).expect("a plan that is well formed");
            let written = supply::write_value(&plan, &words, black_box(value), value.len());
            assert!(black_box(written).is_ok());
        },
    ])
}
