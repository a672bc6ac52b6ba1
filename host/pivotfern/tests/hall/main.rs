//! Document 01's built-in hall, cases 1 to 8 and 10, through the safe calls. The expected figures are the document's. What libedge.a alone
//! answers stands here, the rest in compare.rs.

#[cfg(feature = "compare")]
mod compare;

use pivotfern::*;

const PTRS: [u32; 4] = [0, 4, 6, 8];
const ROWS: [u32; 8] = [0, 1, 3, 4, 0, 1, 3, 4];
const VALUES: [f64; 8] = [1.0, 2.0, 3.0, 4.0, 1.0, 1.0, 2.0, 1.0];
const INVERSES: [f64; 2] = [0.5, 0.25];
const SIDES: Sides = Sides {
    kept: &[0, 1],
    eliminated: &[1, 1, 2, 1],
};
const COLUMNS: Columns = Columns {
    nrows: 5,
    ptrs: &PTRS,
    rows: &ROWS,
    values: &VALUES,
};
const HALL: System = System {
    columns: COLUMNS,
    sides: SIDES,
};

/// The hall with other rows.
fn with_rows(rows: &[u32]) -> System<'_> {
    System {
        columns: Columns { rows, ..COLUMNS },
        ..HALL
    }
}

/// The hall with other blocks.
fn with_sides(sides: Sides) -> System {
    System { sides, ..HALL }
}

/// The hall with more rows than can be.
fn wild() -> System<'static> {
    System {
        columns: Columns {
            nrows: usize::MAX,
            ..COLUMNS
        },
        ..HALL
    }
}

/// Blocks that reach past every column.
const HUGE: Sides = Sides {
    kept: &[0, u32::MAX],
    eliminated: &[u32::MAX, u32::MAX, 1, u32::MAX],
};

fn plan(chunk_len: usize) -> Plan {
    Plan::new(HALL, chunk_len).unwrap()
}

/// Case 3's operands, with the damping `d`.
fn operands<'a>(plan: &'a Plan, d: &'a [f64]) -> Operands<'a> {
    Operands {
        plan,
        v: &[2.0],
        inverses: &INVERSES,
        d,
    }
}

#[test]
fn case_1_owners_and_lists() {
    let plan = plan(2);
    assert_eq!(plan.owners(), [0, 0, MARK, 1, 1]);
    assert_eq!(plan.owner(1), Some(0));
    assert_eq!(plan.owner(2), None);
    assert_eq!(plan.owner(5), None);
    assert_eq!(plan.rows_of(0), [0, 1]);
    assert_eq!(plan.rows_of(1), [3, 4]);
    assert!(plan.rows_of(2).is_empty());
    assert_eq!(plan.visible_to(0), [0, 1]);
    assert!(plan.visible_to(1).is_empty());
    assert!(plan.visible_to(usize::MAX).is_empty());
    assert_eq!(plan.map(), [0, 1, 2]);
    assert_eq!(plan.columns(Side::Kept), [0]);
    assert_eq!(plan.columns(Side::Eliminated), [1, 2]);
    assert_eq!(plan.eliminated_blocks(), [0, 1]);
}

#[test]
fn case_2_spans() {
    let plan = plan(2);
    assert_eq!((plan.chunk_len(), plan.chunks()), (2, 3));
    let kept = Spans {
        starts: &[0, 1, 2, 3],
        lo: &[0, 2, 3],
        hi: &[2, 3, 4],
        local: &[0, 0, 0],
    };
    let eliminated = Spans {
        starts: &[0, 1, 2, 3],
        lo: &[4, 6, 7],
        hi: &[6, 7, 8],
        local: &[0, 1, 1],
    };
    assert_eq!(plan.spans(Side::Kept), kept);
    assert_eq!(plan.spans(Side::Eliminated), eliminated);
}

#[test]
fn case_3_operator() {
    let plan = plan(2);
    let mut work = Work::new(HALL);
    let mut out = [0.0];
    operator(HALL, operands(&plan, &[]), &mut work, &mut out).unwrap();
    assert_eq!(work.t(), [6.0, 20.0]);
    assert_eq!(work.u(), [3.0, 5.0]);
    assert_eq!(work.rows(), [-1.0, 1.0, 0.0, -4.0, 3.0]);
    assert_eq!(out, [1.0]);
    operator(HALL, operands(&plan, &[0.5]), &mut work, &mut out).unwrap();
    assert_eq!(out, [2.0]);
}

#[test]
fn case_6_connected() {
    let moved = with_rows(&[0, 1, 3, 4, 0, 1, 1, 4]);
    let refused = Plan::new(moved, 2).unwrap_err();
    assert_eq!(refused, Refusal::Connected { now: 1, earlier: 0 }.into());
}

#[test]
fn case_8_bad_row() {
    let bad = with_rows(&[0, 1, 1, 4, 0, 1, 3, 4]);
    let refused = Plan::new(bad, 2).unwrap_err();
    assert_eq!(refused, Refusal::BadRow { column: 0, place: 2 }.into());
}

#[test]
fn case_10_chunk_lengths() {
    let tried = |chunk_len| Plan::new(HALL, chunk_len).map(|plan| plan.chunks());
    let bad = Err(Refusal::BadChunk.into());
    assert_eq!(tried(0), bad);
    assert_eq!(tried(1), Ok(5));
    assert_eq!(tried(MOST_CHUNK), Ok(1));
    assert_eq!(tried(MOST_CHUNK + 1), bad);
    assert_eq!(tried(usize::MAX), bad);
}

#[test]
fn the_update() {
    assert_eq!(combine_updates(HALL, &[7.0], &[8.0, 9.0]).unwrap(), [7.0, 8.0, 9.0]);
    let short = Err(Refusal::WrongLength { place: 0, need: 1 }.into());
    assert_eq!(combine_updates(HALL, &[], &[8.0, 9.0]), short);
}

// Wild numbers: nothing is counted past the limits, and the call refuses.
#[test]
fn wild_input() {
    let too_big = Err(Refusal::TooBig.into());
    assert_eq!(Plan::new(wild(), 1).map(|_| ()), too_big);
    assert_eq!(combine_updates(wild(), &[7.0], &[8.0, 9.0]).map(|_| ()), too_big);
    assert_eq!(HUGE.dof(Side::Eliminated), 2 * u32::MAX as usize);
    assert_eq!(value_count(HUGE.eliminated), None);
    assert_eq!(value_count(SIDES.eliminated), Some(2));
    let reach = Err(Refusal::ColumnOutOfRange { column: 3 }.into());
    assert_eq!(Plan::new(with_sides(HUGE), 2).map(|_| ()), reach);
}

// A plan for other rows is refused, and the words say what to look at. So is work room for other columns.
#[test]
fn a_plan_that_does_not_fit() {
    let plan = plan(2);
    let moved = with_rows(&[0, 1, 3, 4, 0, 2, 3, 4]);
    let mut work = Work::new(moved);
    let refused = operator(moved, operands(&plan, &[]), &mut work, &mut [0.0]).unwrap_err();
    assert_eq!(
        refused.to_string(),
        "refusal 13, BadPlan: the eliminated side's spans do not fit these columns and this chunk length"
    );
    let none = System {
        columns: Columns { ptrs: &[0], ..COLUMNS },
        ..HALL
    };
    let refused = operator(HALL, operands(&plan, &[]), &mut Work::new(none), &mut [0.0]).unwrap_err();
    assert_eq!(refused, Refusal::NoRoom { buffer: 0, need: 3 }.into());
}
