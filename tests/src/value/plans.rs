//! Plans of a few words, worked out by hand.

use super::fixed::Cases;

pub fn add(cases: &mut Cases) {
    no_type(cases);
    short(cases);
    kinds(cases);
}

/// No bytes, and an empty list; any other value is 21 at 0 (R4.6).
fn no_type(cases: &mut Cases) {
    cases.good(&[2, 0], &[], &[]);
    cases.bad(&[2, 0], &[0], 21, 0);
    cases.bad(&[2, 0], &[0; 12], 21, 0);
    cases.bad(&[2, 0], &[0; 65_535], 21, 0);
    cases.bad(&[2, 0], &[0; 65_536], 28, 0);
}

/// Total, root, formats, and words left over or missing (R4.4). Where there is a leaf it would
/// accept the value.
fn short(cases: &mut Cases) {
    let refused: [&[u32]; 24] = [
        &[],
        &[0],
        &[1],
        &[2],
        &[2, 1],
        &[2, 2],
        &[0, 0],
        &[3, 0],
        &[2, 0, 0],
        &[3, 0, 8],
        &[3, 1, 8],
        &[3, 3, 8],
        &[4, 2, 8],
        &[2, 2, 8],
        &[3, 2, 1],
        &[4, 3, 1, 2],
        &[4, 2, 1, 20],
        &[4, 2, 2, 2],
        &[5, 2, 2, 4, 8],
        &[4, 2, 8, 9],
        &[4, 2, 8, 0],
        &[5, 2, 8, 4, 1],
        &[6, 2, 8, 5, 1, 2],
        &[7, 2, 8, 6, 1, 2, 0x40],
    ];
    for plan in refused {
        cases.bad(plan, &[], 33, 0);
    }
    cases.good(&[3, 2, 8], &[], &[2, 0, 0, 0, 0]);
    cases.good(&[5, 2, 8, 4, 0], &[], &[2, 0, 0, 0, 0]);
    cases.good(&[7, 2, 8, 6, 1, 2, 0x41], &[], &[2, 0, 0, 0, 0]);
}

/// Which refs a kind may have (R4.3): a leaf at 2, a set at 4, a set of arrays at 6, an empty tuple
/// at 8, a range at 10, an enumeration at 12, and a node over one of them.
fn kinds(cases: &mut Cases) {
    let nodes = [1, 2, 2, 2, 3, 4, 4, 0, 7, 2, 8];
    for element in [2, 4, 6, 8, 10, 12] {
        for kind in [2, 3, 7] {
            let plan = [&[15, 12][..], &nodes, &[kind, element]].concat();
            let permitted = match kind {
                2 => element != 4 && element != 6,
                3 => element == 4,
                _ => element == 2,
            };
            if permitted {
                cases.good(&plan, &[], &[12, 0, 0, 0, 0]);
            } else {
                cases.bad(&plan, &[], 33, 0);
            }
        }
        let tuple = [&[16, 12][..], &nodes, &[4, 1, element]].concat();
        cases.good(&tuple, &[], &[12, 0, 0, 0, 0]);
    }
}
