//! Jobs whose smallest allowances are known beforehand.

use super::*;
use rbatl_tests::jobs::with_one_resource;
use rbatl_tests::layout::*;

const U: u8 = UNLIMITED;

/// One agent goes up so many steps, each paid by one of these costs. From the top and
/// from the last state it does not move; where it idles below the top it falls to the
/// last. Proposition 0 holds everywhere but there, and proposition 1 at the top. Row 2
/// of the kind asks for proposition 1 (next), 0 (always), or 0 until 1.
fn ladder(kind: u8, steps: usize, costs: &[[u8; 2]], bounds: [u8; 2]) -> Vec<u8> {
    let (top, last) = (steps, steps + 1);
    let mut job = jobs::smallest(1, 2, steps + 2, 2, 3);
    for state in 0..=top {
        job[mask(state)] = if state == top { 3 } else { 1 };
        job[next(state, 0)] = if state == top { top } else { last } as u8;
    }
    job[next(last, 0)] = last as u8;
    for state in 0..top {
        job[count(state, 0)] = 1 + costs.len() as u8;
        for (k, spent) in costs.iter().enumerate() {
            let place = cost(state, 0, k + 1, 0);
            job[place..place + 2].copy_from_slice(spent);
            job[next(state, k + 1)] = state as u8 + 1;
        }
    }
    job[row(1, LEFT)] = 1;
    let (left, right) = (u8::from(kind == NEXT), u8::from(kind == UNTIL));
    let fields = [kind, left, right, 1, bounds[0], bounds[1]];
    job[row(2, KIND)..row(2, PADDING)].copy_from_slice(&fields);
    job
}

/// The allowances of row 2 in the states from 0 on.
fn expect(job: &[u8], due: &[&[[u8; 2]]]) {
    let asked = Asked::patterned(job, "a ladder");
    for (state, due) in due.iter().enumerate() {
        assert_eq!(asked.allowances(2, state as u8), *due, "state {state}");
    }
}

/// The allowances of a ladder in state 0, whatever the limited bounds of its row are.
fn expect_ladder(kinds: &[u8], steps: usize, costs: &[[u8; 2]], due: &[[u8; 2]]) {
    for &kind in kinds {
        for bounds in [[0, 0], [15, 15], [0, 15], [7, 3]] {
            expect(&ladder(kind, steps, costs, bounds), &[due]);
        }
    }
}

/// Each step takes a unit of either: what one resource lacks the other pays.
#[test]
fn stairs() {
    let stairs = |sum: u8| (0..=15).filter_map(move |x| Some([x, sum.checked_sub(x)?]));
    let within = |sum| stairs(sum).filter(|&[_, y]| y <= 15).collect::<Vec<_>>();
    for steps in [0, 1, 14, 15, 16, 22] {
        let due = within(steps);
        expect_ladder(&[ALWAYS, UNTIL], steps.into(), &[[1, 0], [0, 1]], &due);
    }
    let due: Vec<Vec<[u8; 2]>> = (0..=15).rev().map(within).collect();
    assert_eq!(due[0].len(), 16);
    let due: Vec<&[[u8; 2]]> = due.iter().map(|pairs| &pairs[..]).collect();
    for bounds in [[0, 0], [15, 15]] {
        expect(&ladder(UNTIL, 15, &[[1, 0], [0, 1]], bounds), &due);
    }
}

/// One move of three, of which none makes another needless, one does, or one does all.
#[test]
fn one_step() {
    let all = [NEXT, ALWAYS, UNTIL];
    expect_ladder(
        &all,
        1,
        &[[14, 1], [1, 14], [7, 8]],
        &[[1, 14], [7, 8], [14, 1]],
    );
    expect_ladder(&all, 1, &[[3, 4], [2, 5], [3, 5]], &[[2, 5], [3, 4]]);
    expect_ladder(&all, 1, &[[3, 4], [3, 2], [3, 3]], &[[3, 2]]);
    expect_ladder(&all, 1, &[[4, 3], [2, 3], [3, 3]], &[[2, 3]]);
    expect_ladder(&all, 1, &[[9, 9], [15, 15], [8, 15]], &[[8, 15], [9, 9]]);
    expect_ladder(&all, 1, &[[0, 0]], &[[0, 0]]);
    expect_ladder(&all, 1, &[[15, 15]], &[[15, 15]]);
}

/// What takes 16 of one resource is in no range.
#[test]
fn none() {
    let both = [ALWAYS, UNTIL];
    expect_ladder(&both, 2, &[[8, 0]], &[]);
    expect_ladder(&both, 2, &[[0, 8]], &[]);
    expect_ladder(&both, 2, &[[15, 15]], &[]);
    expect_ladder(&both, 15, &[[2, 0], [0, 2]], &[]);
    expect_ladder(&both, 2, &[[7, 8], [8, 7]], &[[15, 15]]);
    // Above the range, an unlimited bound is enough.
    expect(&ladder(UNTIL, 2, &[[8, 0]], [U, 0]), &[&[[U, 0]]]);
}

/// What a row leaves unlimited stays so; the other number is as small as it can be.
#[test]
fn unlimited() {
    for kind in [ALWAYS, UNTIL] {
        for (costs, bounds, due) in [
            (&[[1, 2]][..], [U, 0], [U, 6]),
            (&[[1, 2]], [0, U], [3, U]),
            (&[[1, 2]], [U, U], [U, U]),
            (&[[1, 0], [0, 1]], [U, 15], [U, 0]),
            (&[[1, 0], [0, 1]], [15, U], [0, U]),
            (&[[15, 5]], [U, 15], [U, 15]),
        ] {
            expect(&ladder(kind, 3, costs, bounds), &[&[due]]);
        }
        for bounds in [[U, 15], [U, U], [15, U]] {
            let at_the_top = bounds.map(|bound| if bound == U { U } else { 0 });
            let job = ladder(kind, 1, &[[0, 0]], bounds);
            expect(&job, &[&[at_the_top], &[at_the_top], &[]]);
        }
        expect(&ladder(kind, 2, &[[0, 8]], [U, 15]), &[&[]]);
    }
}

/// The second number of one resource is 0.
#[test]
fn one_resource() {
    for kind in [ALWAYS, UNTIL] {
        for bound in [0, 5, 15] {
            let job = ladder(kind, 5, &[[3, 1], [4, 0]], [bound, 0]);
            let due = [&[[15, 0]][..], &[[12, 0]], &[[9, 0]], &[[6, 0]]];
            expect(&with_one_resource(job), &due);
            let job = ladder(kind, 4, &[[4, 9]], [bound, 0]);
            let due = [&[][..], &[[12, 0]], &[[8, 0]], &[[4, 0]], &[[0, 0]], &[]];
            expect(&with_one_resource(job), &due);
        }
        let job = ladder(kind, 4, &[[4, 9]], [U, 0]);
        let due = [
            &[[U, 0]][..],
            &[[U, 0]],
            &[[U, 0]],
            &[[U, 0]],
            &[[U, 0]],
            &[],
        ];
        expect(&with_one_resource(job), &due);
    }
    let job = with_one_resource(ladder(NEXT, 1, &[[15, 0]], [0, 0]));
    expect(&job, &[&[[15, 0]], &[[0, 0]], &[]]);
}

/// Catch: agent 0 alone, the two together within 5 and within 4, and agent 1.
#[test]
fn catch() {
    let job = jobs::catch_with_always();
    let asked = Asked::patterned(&job, "Catch");
    for (row, due) in [
        (3, [&[][..], &[[3, 0]], &[[0, 0]]]),
        (4, [&[[5, 0]], &[[3, 0]], &[[0, 0]]]),
        (5, [&[[5, 0]], &[[3, 0]], &[[0, 0]]]),
        (6, [&[[0, 0]], &[], &[]]),
    ] {
        let found = [0, 1, 2].map(|state| asked.allowances(row, state));
        assert_eq!(found, due.map(<[_]>::to_vec), "row {row}");
    }
}
