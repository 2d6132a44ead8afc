//! Finding elements beside the second program, which lists the whole value into a `Vec` and follows
//! the path down the list. Through its own crossing it does what a C call has to; its inner function
//! works on words.

use crate::race::race;
use crate::shapes::{integers, local_times, nested, sparse_object, sparse_times, Subject};
use crate::table;
use compare::crossed::list;
use compare::ffi;
use second::crossing;
use second::find;
use std::hint::black_box;

pub fn print() {
    table::head("Element found");
    for (what, subject, path) in [
        ("last of", integers(1_600), vec![1_599]),
        ("last of", local_times(1_600), vec![1_599]),
        ("last of", integers(5_000), vec![4_999]),
        ("last of", sparse_object(500), vec![493]),
        ("last of", sparse_times(500), vec![493]),
        ("30 levels down a", nested(31), vec![0; 30]),
    ] {
        let name = format!("{what} {}", subject.name);
        table::row(&name, times(&subject, &path));
    }
}

/// Microseconds of the library, of the second program's crossing and of its inner function.
fn times(subject: &Subject, path: &[u32]) -> [f64; 3] {
    let Subject { name, plan, value } = subject;
    let (crossed, steps) = (list(plan), list(path));
    let found = ffi::find(&crossed, value, &steps);
    assert_eq!(found, crossing::find(&crossed, value, &steps), "{name}");
    race([
        &mut || {
            let answer = ffi::find(&crossed, black_box(value), &steps);
            assert_eq!(answer, found);
        },
        &mut || {
            let answer = crossing::find(&crossed, black_box(value), &steps);
            assert_eq!(answer, found);
        },
        &mut || {
            let entry = find::find(black_box(plan), black_box(value), path);
            assert!(black_box(entry).is_ok());
        },
    ])
}
