//! Cases at and past each size, and where two refusals meet.

use super::case::WriteCall;
use super::fixed::Cases;
use crate::crossed::list;
use crate::expected::Expected;
use crate::fence::Edge;
use crate::value::exact::SET;
use crate::value::scalar::{BYTES, STR};

pub fn add(cases: &mut Cases) {
    order(cases);
    bytes(cases);
    shared(cases);
    long_lists(cases);
    ranges(cases);
}

/// The order of R1.10; what cannot cross has its number's turn (R9.5).
fn order(cases: &mut Cases) {
    let (good_plan, bad_plan) = (list(&SET), list(&[6, 4, 1, 20, 2, 2]));
    let good_list = list(&[4, 0, 0, 12, 0]);
    let mut push = |plan: &[u8], list: &[u8], room: usize, number: u32| {
        let call = WriteCall {
            plan: plan.to_vec(),
            list: list.to_vec(),
            src: Vec::new(),
            room,
        };
        cases.push(call, Edge::Back, Expected::Refused(number, 0));
    };
    for length in [
        0, 1, 3, 4, 16, 19, 21, 24, 32_760, 32_768, 32_769, 32_772, 200_000,
    ] {
        let mut bad_list = good_list.clone();
        bad_list.resize(length, 0);
        push(&bad_plan, &bad_list, 0, 33);
        push(&good_plan[..23], &bad_list, 0, 33);
        push(&[&good_plan[..], &[0]].concat(), &bad_list, 0, 33);
        push(&good_plan, &bad_list, 0, 34);
        push(&good_plan, &bad_list, 400, 34);
    }
    push(&bad_plan, &good_list, 400, 33);
    push(&[], &good_list, 400, 33);
    push(&good_plan, &good_list, 11, 32);
}

/// A value that would be too large is 34 (R8.10), while a source may be of any size (R9.7).
fn bytes(cases: &mut Cases) {
    let src = vec![b'a'; 200_000];
    for format in [STR, BYTES] {
        let plan = [4, 2, 1, format];
        for length in [65_534, 65_535] {
            let supplied = [2, 0, 200_000 - length, length, 0];
            cases.good((&plan, &supplied, &src), &src[..length as usize]);
        }
        for length in [65_536, 65_537, 131_072, 200_000] {
            cases.bad((&plan, &[2, 0, 0, length, 0], &src), 34);
        }
    }
}

/// Leaves that all claim the same bytes.
fn shared(cases: &mut Cases) {
    let plan = [6, 4, 1, BYTES, 2, 2];
    let src = vec![0xff; 40_000];
    for (lengths, fits) in [
        ([32_753, 32_754], true),
        ([32_754, 32_754], false),
        ([40_000, 40_000], false),
        ([65_000, 0], false),
    ] {
        let [one, other] = lengths;
        let words = [4, 0, 0, 0, 2, 2, 0, 0, one, 0, 2, 1, 0, other, 0];
        if fits {
            let part = |length: u32| [&list(&[length])[..], &src[..length as usize]].concat();
            let value = [list(&[1, 0, 0, 2, 1]), part(one), part(other)].concat();
            assert_eq!(value.len(), 65_535, "as large as a value can be");
            cases.good((&plan, &words, &src), &value);
        } else {
            cases.bad((&plan, &words, &src), 34);
        }
    }
    // Each of many claims nearly all that there is.
    let mut words = vec![4, 0, 0, 0, 1_637];
    words.extend((0..1_637).flat_map(|index| [2, index, 0, 40_000, 0]));
    cases.bad((&plan, &words, &src), 34);
}

/// 8,190 words are the most that five an entry can have from C; a value with more exists.
fn long_lists(cases: &mut Cases) {
    let plan = [6, 4, 1, STR, 2, 2];
    for count in [1_637, 1_638, 3_000] {
        let mut words = vec![4, 0, 0, 0, count];
        words.extend((0..count).flat_map(|index| [2, index, 0, 0, 0]));
        if count == 1_637 {
            let mut value = list(&[1, 0, 0, count, 1]);
            value.resize(20 + 4 * count as usize, 0);
            cases.good((&plan, &words, &[]), &value);
        } else {
            cases.bad((&plan, &words, &[]), 34);
        }
    }
}

/// Each flags byte of a range of bool, with each choice of bounds: a bound is given if, and only if,
/// the flags say so.
fn ranges(cases: &mut Cases) {
    let plan = [6, 4, 1, 9, 7, 2];
    let choices: [&[u32]; 6] = [&[], &[0], &[1], &[0, 1], &[1, 0], &[0, 0]];
    for flags in 0..=0xff {
        let (lower, upper) = (flags & 0x09 == 0, flags & 0x11 == 0);
        let permitted =
            flags == 0x01 || flags & !0x1e == 0 && flags & 0x0a != 0x0a && flags & 0x14 != 0x14;
        for bounds in choices {
            let entry = |index: &u32| [2, *index, 0, 1, 0];
            let mut words = vec![4, 0, 1, 0, bounds.len() as u32];
            words.extend(bounds.iter().flat_map(entry));
            let given: Vec<u32> = (0..2)
                .filter(|index| [lower, upper][*index as usize])
                .collect();
            if permitted && bounds == given {
                let bound = [0, 0, 0, 1, 1].repeat(bounds.len());
                let value = [&[flags][..], &bound].concat();
                cases.good((&plan, &words, &[1, flags]), &value);
                for wrong in [words[4].wrapping_add(1), words[4].wrapping_sub(1)] {
                    words[4] = wrong;
                    cases.bad((&plan, &words, &[1, flags]), 34);
                }
            } else {
                cases.bad((&plan, &words, &[1, flags]), 34);
            }
        }
    }
    // Flags that are not there, and an absent range.
    for start in [0, 1, 0x8000_0000, 0xffff_ffff] {
        cases.bad((&plan, &[4, 0, start, 1, 0], &[]), 34);
    }
    cases.bad((&plan, &[4, 0, 2, 1, 0], &[1, 1]), 34);
    cases.bad((&plan, &[4, 0, 0, 0xffff_ffff, 0], &[1]), 34);
    cases.good((&plan, &[4, 0, 1, 0xffff_fffe, 0], &[0, 1]), &[1]);
}
