//! For each slip a small plan that refutes it, and plans whose bounds are met exactly.

use super::Slip;
use super::rows::RowSlip;
use crate::plan::Plan;
use crate::worst::Worst;

/// A plan that refutes a slip at flow f: its right T, its slipped T, and a wait that is reached.
pub struct Refuted {
    pub slip: Slip,
    pub plan: Plan,
    pub f: usize,
    pub window: i64,
    pub slipped: i64,
    pub wait: i64,
}

/// For each slip a small plan that refutes it.
pub fn refuted() -> Vec<Refuted> {
    let row = |slip, plan, f, [window, slipped, wait]: [i64; 3]| Refuted {
        slip,
        plan,
        f,
        window,
        slipped,
        wait,
    };
    let of_rows = |slip, plan, numbers| row(Slip::Rows(slip), plan, 0, numbers);
    let turn_and_column =
        Plan::of(2, 2, &[[0, 0, 0, 0, 1, 2], [1, 0, 0, 1, 3, 1], [0, 1, 0, 0, 3, 1]]);
    let exit_shared = Plan::of(5, 2, &[[2, 1, 2, 1, 1, 2], [0, 1, 2, 1, 2, 1]]);
    let over_the_last_row =
        Plan::of(2, 2, &[[0, 0, 0, 0, 1, 1], [1, 0, 0, 0, 4, 1], [1, 1, 0, 0, 2, 1]]);
    let turned_by_f = Plan::of(2, 4, &[[0, 2, 1, 2, 1, 1], [0, 0, 1, 2, 5, 1]]);
    vec![
        row(Slip::NoSpread, turn_and_column, 0, [10, 7, 7]),
        row(Slip::LastRowSpared, exit_shared.clone(), 0, [3, 1, 2]),
        row(
            Slip::OtherPortIgnored,
            Plan::of(3, 3, &[[2, 0, 1, 2, 4, 1], [2, 0, 2, 0, 1, 1]]),
            1,
            [3, 1, 2],
        ),
        row(
            Slip::TurningIgnored,
            Plan::of(2, 2, &[[0, 0, 1, 1, 1, 2], [1, 0, 0, 0, 2, 1]]),
            0,
            [3, 1, 2],
        ),
        row(
            Slip::OtherRowsIgnored,
            Plan::of(2, 5, &[[0, 3, 1, 3, 2, 1], [1, 2, 1, 4, 3, 1]]),
            0,
            [3, 1, 2],
        ),
        row(
            Slip::SyForSx,
            Plan::of(3, 2, &[[0, 0, 0, 0, 1, 2], [2, 1, 0, 0, 3, 1], [1, 0, 0, 1, 4, 1]]),
            0,
            [9, 8, 8],
        ),
        row(Slip::EqualAllowed, exit_shared.clone(), 0, [3, 1, 2]),
        row(Slip::FloorForCeiling, exit_shared, 0, [3, 2, 2]),
        of_rows(
            RowSlip::SouthOneRowLess,
            Plan::of(4, 2, &[[0, 1, 0, 1, 1, 1], [2, 1, 0, 1, 4, 1], [0, 0, 0, 1, 3, 1]]),
            [9, 7, 8],
        ),
        of_rows(
            RowSlip::EastOneRowLess,
            Plan::of(2, 3, &[[1, 2, 0, 2, 1, 3], [0, 0, 0, 2, 3, 1], [1, 1, 0, 1, 2, 1]]),
            [4, 3, 3],
        ),
        of_rows(RowSlip::RowForSourceColumn, turned_by_f.clone(), [3, 1, 2]),
        of_rows(RowSlip::OwnFlowLeftOut, turned_by_f, [3, 1, 2]),
        of_rows(RowSlip::SourceColumnCounted, over_the_last_row.clone(), [13, 9, 12]),
        of_rows(
            RowSlip::FromSourceRow,
            Plan::of(3, 2, &[[0, 1, 0, 0, 1, 1], [0, 0, 0, 1, 3, 2], [1, 1, 0, 1, 2, 1]]),
            [25, 19, 22],
        ),
        of_rows(
            RowSlip::Northward,
            Plan::of(2, 3, &[[0, 0, 0, 1, 1, 1], [0, 2, 0, 0, 2, 2], [1, 0, 0, 0, 3, 1]]),
            [25, 19, 22],
        ),
        of_rows(RowSlip::NoWrap, over_the_last_row, [13, 9, 12]),
    ]
}

/// A plan whose flow 0 can wait as long as its bound allows (T 17, wait 16), and a list that makes
/// its last packet do so: the flows offered before each step, as a digit each.
pub fn met_exactly() -> (Plan, Worst) {
    let flows = [[1, 3, 1, 1, 1, 2], [1, 0, 0, 1, 6, 2], [0, 3, 1, 3, 4, 1], [0, 2, 1, 1, 2, 2]];
    let list = ",3,2,3,,3,,023,,23,3,,,23,3,,23,3,3,,23,,,";
    let digits = |cycle: &str| cycle.chars().map(|digit| digit.to_digit(10).unwrap()).collect();
    let offers = list.split(',').map(digits).collect();
    (Plan::of(2, 4, &flows), Worst { wait: 16, offers })
}

/// A flow whose bursts take as many cycles to enter as their windows allow, in the worst of all lists.
pub struct MetBurst {
    pub plan: Plan,
    pub f: usize,
    /// B of 1, 2 and so on to σ packets. Each is met.
    pub windows: Vec<i64>,
}

/// Bursts behind another flow of their client; and at port S and at port E among packets that are deflected, with spread 2.
pub fn met_bursts() -> Vec<MetBurst> {
    let row = |plan, f, windows: &[i64]| MetBurst { plan, f, windows: windows.to_vec() };
    vec![
        row(Plan::of(2, 1, &[[0, 0, 1, 0, 4, 1], [0, 0, 1, 0, 30, 4]]), 1, &[3, 4, 5, 7]),
        row(
            Plan::of(2, 3, &[[0, 1, 0, 1, 1, 3], [0, 2, 0, 1, 2, 1], [1, 1, 0, 0, 4, 2]]),
            0,
            &[17, 21, 25],
        ),
        row(
            Plan::of(2, 3, &[[1, 1, 0, 2, 1, 4], [0, 2, 0, 1, 2, 3], [1, 0, 0, 0, 1, 4]]),
            0,
            &[9, 11, 13, 15],
        ),
    ]
}

/// A column of two slow flows in which flow 0 can wait as long as its bound allows (P 65,536, T 3, wait
/// 65,537), and a list that makes its last packet do so: its token comes at the end of a whole period,
/// and then two packets of flow 1 pass.
pub fn met_late() -> (Plan, Worst) {
    let flows = [[0, 0, 0, 1, 65_536, 1], [0, 1, 0, 0, 65_536, 1]];
    let mut offers = vec![Vec::new(); 131_075];
    for (cycle, flow) in [(65_535, 0), (65_536, 0), (65_537, 0), (131_071, 1), (131_072, 1)] {
        offers[cycle].push(flow);
    }
    (Plan::of(1, 2, &flows), Worst { wait: 65_537, offers })
}
