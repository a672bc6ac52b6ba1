//! The hall through the calls of the feature `compare`.

use super::*;

fn sweep_of<'a>(plan: &'a Plan, side: Side, v: &'a [f64]) -> Sweep<'a> {
    Sweep {
        side,
        chunk_len: plan.chunk_len(),
        spans: plan.spans(side),
        v,
    }
}

#[test]
fn case_3_inverse() {
    assert_eq!(apply_eliminated_inverse(HALL, &[6.0, 20.0], &INVERSES).unwrap(), [3.0, 5.0]);
}

// The middle of case 3, sweep by sweep: rows 2, 4, 0, 6, 8 and, after u, -1, 1, 0, -4, 3.
#[test]
fn case_3_sweeps() {
    let plan = plan(2);
    let mut rows = [9.0; 5];
    let progress = sweep(HALL, sweep_of(&plan, Side::Kept, &[2.0]), &mut rows, &[0, 1, 2]).unwrap();
    assert_eq!(rows, [2.0, 4.0, 0.0, 6.0, 8.0]);
    assert_eq!(progress, [1, 1, 1]);
    let eliminated = sweep_of(&plan, Side::Eliminated, &[3.0, 5.0]);
    let mut progress = [0; 3];
    for chunk in [1, 2, 0] {
        step(HALL, eliminated, &mut rows, &mut progress, chunk).unwrap();
    }
    assert_eq!(rows, [-1.0, 1.0, 0.0, -4.0, 3.0]);
    assert_eq!(progress, [1, 1, 1]);
    let again = step(HALL, eliminated, &mut rows, &mut progress, 1);
    assert_eq!(again, Err(Refusal::BadSchedule { place: 0 }.into()));
}

#[test]
fn case_4_couplings() {
    assert_eq!(coupling_times(HALL, &[1.0, 2.0]).unwrap(), [23.0]);
    assert_eq!(coupling_transpose_times(HALL, &[2.0]).unwrap(), [6.0, 20.0]);
}

#[test]
fn case_5_dots_and_diagonal() {
    assert_eq!(column_dot(COLUMNS, 0, 1), Ok(3.0));
    assert_eq!(column_dot(COLUMNS, 0, 2), Ok(10.0));
    assert_eq!(diag_jt_j(COLUMNS).unwrap(), [30.0, 2.0, 5.0]);
    let mut blocks = [0.0; 2];
    gather_from_jacobian(HALL, &mut blocks).unwrap();
    assert_eq!(blocks, [2.0, 5.0]);
    damp(HALL, Damping::identity(0.5), &mut blocks).unwrap();
    assert_eq!(blocks, [2.5, 5.5]);
    assert_eq!(block_place(&blocks, SIDES.eliminated, 1), Ok(1..2));
    assert_eq!(block(&blocks, SIDES.eliminated, 1).unwrap(), [5.5]);
    assert!(block(&blocks, SIDES.eliminated, 2).unwrap().is_empty());
}

#[test]
fn case_7_orders() {
    let plan = plan(2);
    let tried = |order: &[u32]| {
        let mut rows = [9.0; 5];
        sweep(HALL, sweep_of(&plan, Side::Kept, &[2.0]), &mut rows, order).map(|_| rows)
    };
    let refused = |place| Err(Refusal::BadSchedule { place }.into());
    assert_eq!(tried(&[2, 0, 1]), Ok([2.0, 4.0, 0.0, 6.0, 8.0]));
    assert_eq!(tried(&[0, 0, 1]), refused(1));
    assert_eq!(tried(&[0, 1]), refused(2));
    assert_eq!(tried(&[3]), refused(0));
}

#[test]
fn case_8_bad_row() {
    let bad = with_rows(&[0, 1, 1, 4, 0, 1, 3, 4]);
    let refused = Refusal::BadRow { column: 0, place: 2 };
    assert_eq!(check_columns(bad.columns), Err(refused.into()));
}

// The other calls, by hand: row sums with v of ones over the rows, 1+2+3+4, 1+1, 2+1; J times ones is 2, 3, 0, 5, 5.
#[test]
fn other_calls() {
    assert_eq!(jt_vec(COLUMNS, &[1.0; 5]).unwrap(), [10.0, 2.0, 3.0]);
    assert_eq!(jt_j_vec_product(COLUMNS, &[1.0; 3]).unwrap(), [43.0, 5.0, 15.0]);
    assert_eq!(check_blocks(HALL).unwrap(), [0, 1, 2]);
    let damping = Damping {
        lambda: 2.0,
        min: 1.0,
        max: 3.0,
    };
    assert_eq!(diagonal_term(damping, 5.0), Ok(6.0));
    assert_eq!(slot(SIDES, 0), Ok(Some(Slot::Kept { local: 0 })));
    assert_eq!(slot(SIDES, 2), Ok(Some(Slot::Eliminated { block: 1, offset: 0 })));
    assert_eq!(slot(SIDES, 3), Ok(None));
    assert_eq!(kept_local(SIDES.kept, 1), Ok(None));
    assert_eq!(
        eliminated_local(SIDES.eliminated, 1),
        Ok(Some(Slot::Eliminated { block: 0, offset: 0 }))
    );
}

// Wild numbers: nothing is counted past the limits, and the call refuses.
#[test]
fn wild_input() {
    let too_big = Err(Refusal::TooBig.into());
    assert_eq!(check_columns(wild().columns), too_big);
    assert_eq!(jt_j_vec_product(wild().columns, &[1.0; 3]).map(|_| ()), too_big);
    assert_eq!(coupling_times(wild(), &[1.0, 2.0]).map(|_| ()), too_big);
    let with_ptrs = |ptrs| System {
        columns: Columns { ptrs, ..COLUMNS },
        ..HALL
    };
    let ptrs = vec![0; MOST_COLUMNS + 2];
    let many = with_ptrs(&ptrs);
    assert_eq!(diag_jt_j(many.columns).map(|_| ()), too_big);
    assert_eq!(check_blocks(many).map(|_| ()), too_big);
    assert_eq!(check_blocks(with_ptrs(&[])).map(|_| ()), Err(Refusal::BadShape.into()));

    let reach = Err(Refusal::ColumnOutOfRange { column: 3 }.into());
    assert_eq!(coupling_transpose_times(with_sides(HUGE), &[1.0]).map(|_| ()), reach);
    let twice = Sides {
        kept: &[0, 2],
        eliminated: &[1, u32::MAX],
    };
    let past = Err(Refusal::ColumnTwice { column: 1 }.into());
    assert_eq!(apply_eliminated_inverse(with_sides(twice), &[], &[]).map(|_| ()), past);
    let wide = Sides {
        kept: &[0, 2],
        eliminated: HUGE.eliminated,
    };
    let far = Err(Refusal::ColumnOutOfRange { column: u32::MAX.into() }.into());
    assert_eq!(check_blocks(with_sides(wide)).map(|_| ()), far);
    assert_eq!(slot(HUGE, usize::MAX), Ok(None));
    assert_eq!(slot(HUGE, 4_294_967_295), Ok(Some(Slot::Eliminated { block: 0, offset: 0 })));

    let plan = plan(2);
    let kept = Sweep {
        chunk_len: 0,
        ..sweep_of(&plan, Side::Kept, &[2.0])
    };
    let tried = sweep(wild(), kept, &mut [0.0; 5], &[0, 1, 2]);
    assert_eq!(tried, too_big.map(|_: ()| vec![]));
    assert_eq!(
        column_dot(COLUMNS, usize::MAX, 0),
        Err(Refusal::ColumnOutOfRange { column: u64::MAX }.into())
    );
}
