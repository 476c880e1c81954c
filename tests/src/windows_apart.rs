//! What 2026-05 makes of a plan, told without windows: that of each window's jobs as a table of their
//! own, put together again.

use crate::reference::plan::{plan_of, Plan, Totals};
use crate::reference::{Table, ABSENT};
use crate::report::{same, Outcome};

/// That a plan is put together from those of the windows apart.
pub fn check(table: &Table, plan: &Plan) -> Outcome {
    let nothing = Totals {
        pairs: 0,
        singles: 0,
        visits: 0,
    };
    let mut whole = Plan {
        partners: vec![ABSENT; table.jobs()],
        uppers: vec![ABSENT; table.jobs()],
        printed: vec![ABSENT; table.jobs()],
        totals: nothing,
    };
    for window in table.windows_used() {
        add_window(&mut whole, table, window);
    }
    same("the plan of the windows apart", plan, &whole)
}

/// Adds the plan of a window's jobs. Their numbers keep their order, so their places do too.
fn add_window(whole: &mut Plan, table: &Table, window: u8) {
    let is_own = |&job: &usize| table.windows[job] == window;
    let own: Vec<usize> = (0..table.jobs()).filter(is_own).collect();
    let mut apart = Table {
        parents: table.parents.clone(),
        ..Table::default()
    };
    for &job in &own {
        apart.add_job(table.tops[job], table.bottoms[job], table.marks[job]);
    }
    let plan = plan_of(&apart);
    for (at, &job) in own.iter().enumerate() {
        let partner = own.get(usize::from(plan.partners[at]));
        whole.partners[job] = partner.map_or(ABSENT, |&other| other as u16);
        whole.uppers[job] = plan.uppers[at];
        whole.printed[job] = plan.printed[at];
    }
    whole.totals.pairs += plan.totals.pairs;
    whole.totals.singles += plan.totals.singles;
    whole.totals.visits += plan.totals.visits;
}
