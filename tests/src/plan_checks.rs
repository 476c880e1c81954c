//! *Plan* beside the quadratic implementation, and its pairs beside exhaustive search at every cut and
//! every rival plan (document 01, "What each operation turns away" and "Rival plans and the cut"; 2026-05,
//! printing windows; 2026-14, the earlier job). The planner is a parameter, so that the checks can be
//! tried on wrong ones.

use crate::both_ends;
use crate::earlier_paired;
use crate::examples::{in_turn, lent, marked, telling, Example, Pair, Passes, Said};
use crate::forbidden::Search;
use crate::lent::Lent;
use crate::made::borders::borders;
use crate::made::damage::window_beyond;
use crate::made::small::parent_lists;
use crate::made::tables::{
    any_parents, path, table, table_for_search, table_of_size, table_with_rivals, tables_spread,
};
use crate::made::tables::{Reach, Size};
use crate::made::windows::{any_spread, every_spread, spread, spread_solo_jobs, Spread};
use crate::made::Generator;
use crate::reference::plan::{plan, Plan, Results, Room, Totals};
use crate::reference::rivals::{keeps_rules, most_before_cuts, pairs_before_cuts, pairs_of};
use crate::reference::tree::ancestors;
use crate::reference::{Refusal, Table, ABSENT, JOB_LIMIT, LAYOUT_LIMIT, WINDOW_LIMIT, WORK_CELLS};
use crate::report::{same, AnswerCounts, Outcome, Report};
use crate::windows_apart;

/// *Plan*: a table, the results for partners, upper and printed layouts, the work cells.
pub type Planner<'a> =
    &'a dyn Fn(&Table, &mut [u16], &mut [u16], &mut [u16], &mut [u16]) -> Result<Totals, Refusal>;

/// Every group of checks.
pub fn run(report: &mut Report, planner: Planner) {
    let search = Search::default();
    let planner: Planner = &|table, partners, uppers, printed, work| {
        let answer = planner(table, partners, uppers, printed, work);
        if answer.is_ok() {
            let results = Results {
                partners: used(partners, table),
                uppers: used(uppers, table),
                printed: used(printed, table),
            };
            search.plan(table, results);
        }
        answer
    };
    let mut answers = AnswerCounts::default();
    report.listed("tables worked by hand", examples(), |example| {
        check_example(planner, &example)
    });
    report.listed("every number of windows", in_turn(), |example| {
        check_example(planner, &example)
    });
    report.listed("every spread over windows", every_spread(), |spread| {
        tables_spread(spread).try_for_each(|table| spread_as_planned(planner, table, spread))
    });
    report.listed("borders of the code", borders(), |table| {
        planned_apart(planner, &table, &mut Generator::new(0))
    });
    report.listed("all jobs in each window", 0..WINDOW_LIMIT as u8, |window| {
        (0..20).try_for_each(|seed| same_in_window(planner, window, &mut Generator::new(seed)))
    });
    report.listed("short and long results", examples(), |example| {
        check_lengths(planner, &example)
    });
    report.listed("columns of unequal length", examples(), |example| {
        check_columns(planner, &example)
    });
    report.listed("every small table", small_tables(), |table| {
        check_beside_rivals(planner, &table, &mut Generator::new(0))
    });
    report.listed("every small table with windows", small_windows(), |table| {
        check_beside_rivals(planner, &table, &mut Generator::new(0))
    });
    report.made("every rival, at every cut", 20_000, |generator| {
        check_beside_rivals(planner, &table_for_search(generator), generator)
    });
    report.made("many rivals", 10_000, |generator| {
        check_beside_rivals(planner, &table_with_rivals(generator), generator)
    });
    let mut counted = |table: &Table, room: Room, generator: &mut Generator| -> Outcome {
        answers.add(&call(planner, table, room, generator)?);
        Ok(())
    };
    report.made("made tables", 10_000, |generator| {
        let table = vary_solo_jobs(table(generator), generator);
        counted(&table, room(&table, generator), generator)
    });
    report.made("tables at the limits", 60, |generator| {
        let table = table_of_size(limit_size(generator), generator);
        let table = vary_solo_jobs(table, generator);
        counted(&table, Room::exact(&table), generator)
    });
    report.made("refused tables", 20_000, |generator| {
        let table = wrong_table(generator);
        counted(&table, room(&table, generator), generator)
    });
    report.made("tables over a limit", 200, |generator| {
        let table = large_table(generator);
        counted(&table, room(&table, generator), generator)
    });
    report.answer_counts(&answers, &[0, 3, 4, 5, 6, 8, 9], 50);
    report.nothing_forbidden(&search);
}

fn examples() -> impl Iterator<Item = Example> {
    marked().into_iter().chain(telling()).chain(lent())
}

/// The result cells that belong to jobs.
fn used<'a>(cells: &'a [u16], table: &Table) -> &'a [u16] {
    cells.get(..table.jobs()).unwrap_or_default()
}

/// One call, with everything lent, beside the reference: the partner cells or the refusal, or what
/// differs.
fn call(
    planner: Planner,
    table: &Table,
    room: Room,
    generator: &mut Generator,
) -> Result<Result<Vec<u16>, Refusal>, String> {
    let mut partners = Lent::new(room.partners, generator);
    let mut uppers = Lent::new(room.uppers, generator);
    let mut printed = Lent::new(room.printed, generator);
    let mut work = Lent::new(room.work, generator);
    let answer = planner(
        table,
        partners.cells(),
        uppers.cells(),
        printed.cells(),
        work.cells(),
    );
    let expected = plan(table, room);
    let expected_answer = expected.as_ref().map(|plan| plan.totals);
    if answer.as_ref() != expected_answer.as_ref().map_err(|refusal| *refusal) {
        return Err(format!("the answer is {answer:?}, not {expected_answer:?}"));
    }
    match expected {
        Ok(plan) => {
            holds_over(&partners, "partners", &plan.partners)?;
            holds_over(&uppers, "uppers", &plan.uppers)?;
            holds_over(&printed, "printed", &plan.printed)?;
            holds_over(&work, "work", &[0; WORK_CELLS])?;
            both_ends::check(table, plan.results())?;
            Ok(Ok(partners.cells().to_vec()))
        }
        Err(refusal) => {
            partners.untouched("partners")?;
            uppers.untouched("uppers")?;
            printed.untouched("printed")?;
            work.untouched("work")?;
            Ok(Err(refusal))
        }
    }
}

/// That the first cells were written and the later ones left.
fn holds_over(lent: &Lent<u16>, name: &str, written: &[u16]) -> Outcome {
    let mut expected = lent.entry().to_vec();
    expected[..written.len()].copy_from_slice(written);
    lent.holds(name, &expected)
}

/// The pairs given back keep the rules, no rival has more in front of any cut, and none has an earlier job
/// paired that they leave single.
fn check_beside_rivals(planner: Planner, table: &Table, generator: &mut Generator) -> Outcome {
    let answer = call(planner, table, Room::exact(table), generator)?;
    let partners = answer.map_err(|refusal| format!("refused: {refusal:?}"))?;
    let pairs = pairs_of(&partners);
    keeps_rules(table, &pairs)?;
    let ours = pairs_before_cuts(table, &pairs);
    let most = most_before_cuts(table);
    if ours != most {
        return Err(format!(
            "pairs in front of the cuts are {ours:?}, not {most:?}"
        ));
    }
    earlier_paired::check(table, &pairs)
}

/// A table worked by hand, against what is said of it and against the reference.
pub fn check_example(planner: Planner, example: &Example) -> Outcome {
    let table = &example.table;
    let said = match example.said {
        Said::Planned(ref passes) => Ok(plan_said(table, passes)),
        Said::Refused(number, place, _) => Err(Refusal { number, place }),
    };
    same(example.name, plan_by(planner, table), said)?;
    call(planner, table, Room::exact(table), &mut Generator::new(0)).map(|_| ())
}

/// What result cells hold before the call: no number of a job or layout, and not FFFF.
const UNWRITTEN: u16 = 0xA5A5;

/// A plan with the room that it asks for.
pub fn plan_by(planner: Planner, table: &Table) -> Result<Plan, Refusal> {
    let mut partners = vec![UNWRITTEN; table.jobs()];
    let (mut uppers, mut printed) = (partners.clone(), partners.clone());
    let mut work = [1; WORK_CELLS];
    let totals = planner(table, &mut partners, &mut uppers, &mut printed, &mut work)?;
    Ok(Plan {
        partners,
        uppers,
        printed,
        totals,
    })
}

/// As it is read, with the solo jobs in window 0, and with these spread like the others.
fn spread_as_planned(planner: Planner, mut table: Table, spread: Spread) -> Outcome {
    let generator = &mut Generator::new(2);
    planned_apart(planner, &table, generator)?;
    spread_solo_jobs(&mut table, spread, generator);
    planned_apart(planner, &table, generator)
}

/// Accepted, as the reference plans it, and with the plan that its windows apart come to.
fn planned_apart(planner: Planner, table: &Table, generator: &mut Generator) -> Outcome {
    let answer = call(planner, table, Room::exact(table), generator)?;
    same("accepted", answer.is_ok(), true)?;
    let plan = plan_by(planner, table).map_err(|refusal| format!("refused: {refusal:?}"))?;
    windows_apart::check(table, &plan)
}

/// With all jobs in one window, whichever, the plan is that of the table without windows.
fn same_in_window(planner: Planner, window: u8, generator: &mut Generator) -> Outcome {
    let mut table = table(generator);
    let plans = [window, 0].map(|window| {
        table.windows.fill(window);
        plan_by(planner, &table)
    });
    let [moved, plan] = plans;
    same(&format!("plan in window {window}"), moved, plan)
}

/// The plan that is said of a table.
fn plan_said(table: &Table, passes: &Passes) -> Plan {
    let pairs = passes.pairs.len();
    let mut plan = Plan {
        partners: vec![ABSENT; table.jobs()],
        uppers: vec![ABSENT; table.jobs()],
        printed: vec![ABSENT; table.jobs()],
        totals: Totals {
            pairs: pairs as u16,
            singles: (table.jobs() - 2 * pairs) as u16,
            visits: passes.visits,
        },
    };
    for &pair in &passes.pairs {
        write_pair(&mut plan, pair);
    }
    plan
}

/// Both jobs find their partner and both ends of what they share.
fn write_pair(plan: &mut Plan, (job, other, upper, printed): Pair) {
    for (member, partner) in [(job, other), (other, job)] {
        let member = usize::from(member);
        plan.partners[member] = partner;
        plan.uppers[member] = upper;
        plan.printed[member] = printed;
    }
}

/// Each of the results, and the work cells, alone a cell too short: refused with 8, whatever else is
/// wrong with the table. Alone longer: the cells past the jobs are left, which `call` sees to.
fn check_lengths(planner: Planner, example: &Example) -> Outcome {
    let table = &example.table;
    let lengths: [fn(&mut Room) -> &mut usize; 4] = [
        |room| &mut room.partners,
        |room| &mut room.uppers,
        |room| &mut room.printed,
        |room| &mut room.work,
    ];
    for length in lengths {
        let (mut short, mut long) = (Room::exact(table), Room::exact(table));
        *length(&mut long) += 3;
        call(planner, table, long, &mut Generator::new(0))?.ok();
        if let Some(less) = length(&mut short).checked_sub(1) {
            *length(&mut short) = less;
            let answer = call(planner, table, short, &mut Generator::new(0))?;
            let refusal = answer.err().map(|refusal| (refusal.number, refusal.place));
            same(example.name, refusal, Some((8, 0)))?;
        }
    }
    Ok(())
}

/// Each of the columns of jobs alone a cell shorter or longer than the others: refused with 8, whatever
/// else is wrong with the table.
fn check_columns(planner: Planner, example: &Example) -> Outcome {
    for change in COLUMN_CHANGES {
        let mut table = example.table.clone();
        let cells = |table: &Table| {
            let wide = table.tops.len() + table.bottoms.len();
            wide + table.marks.len() + table.windows.len()
        };
        change(&mut table);
        if cells(&table) != cells(&example.table) {
            let answer = call(planner, &table, Room::exact(&table), &mut Generator::new(0))?;
            let refusal = answer.err().map(|refusal| (refusal.number, refusal.place));
            same(example.name, refusal, Some((8, 0)))?;
        }
    }
    Ok(())
}

/// One column of jobs a cell shorter, as far as it has cells, or longer.
const COLUMN_CHANGES: [fn(&mut Table); 8] = [
    |table| shorten(&mut table.tops),
    |table| shorten(&mut table.bottoms),
    |table| shorten(&mut table.marks),
    |table| shorten(&mut table.windows),
    |table| table.tops.push(0),
    |table| table.bottoms.push(0),
    |table| table.marks.push(0),
    |table| table.windows.push(0),
];

fn shorten<T>(cells: &mut Vec<T>) {
    cells.truncate(cells.len().saturating_sub(1));
}

/// Mostly the room asked for or more; now and then too little of one.
fn room(table: &Table, generator: &mut Generator) -> Room {
    Room {
        partners: near(table.jobs(), generator),
        uppers: near(table.jobs(), generator),
        printed: near(table.jobs(), generator),
        work: near(WORK_CELLS, generator),
    }
}

fn near(length: usize, generator: &mut Generator) -> usize {
    match generator.below(32) {
        0 => length.saturating_sub(1),
        1 => generator.between(0, length),
        2..=15 => length + generator.between(1, 40),
        _ => length,
    }
}

fn limit_size(generator: &mut Generator) -> Size {
    let few = generator.between(1, LAYOUT_LIMIT);
    Size {
        layouts: generator.choice(&[LAYOUT_LIMIT, LAYOUT_LIMIT, few]),
        jobs: generator.choice(&[JOB_LIMIT, JOB_LIMIT, JOB_LIMIT - 1, 2049, 2048]),
    }
}

/// A table with wrong numbers, or with lists of unequal lengths.
fn wrong_table(generator: &mut Generator) -> Table {
    let mut table = table_of_size(
        Size {
            layouts: generator.between(1, 12),
            jobs: generator.between(0, 12),
        },
        generator,
    );
    for _ in 0..generator.between(1, 3) {
        make_wrong(&mut table, generator);
    }
    table
}

fn make_wrong(table: &mut Table, generator: &mut Generator) {
    let number = generator.between(0, 14) as u16;
    let number = generator.choice(&[number, number, number, ABSENT, 0x0100, LAYOUT_LIMIT as u16]);
    let cells = match generator.below(10) {
        0 | 1 => &mut table.parents,
        2 | 3 => &mut table.tops,
        4 | 5 => &mut table.bottoms,
        6 => return shorten_or_lengthen(table, generator),
        7 => return set_any(&mut table.marks, generator.bits() as u8, generator),
        _ => return set_any(&mut table.windows, window_beyond(generator), generator),
    };
    if !cells.is_empty() {
        let at = generator.below(cells.len());
        cells[at] = number;
    }
}

fn shorten_or_lengthen(table: &mut Table, generator: &mut Generator) {
    if generator.one_in(8) {
        return table.parents.clear();
    }
    generator.choice(&COLUMN_CHANGES)(table);
}

fn set_any(cells: &mut [u8], value: u8, generator: &mut Generator) {
    if !cells.is_empty() {
        cells[generator.below(cells.len())] = value;
    }
}

/// A mark other than 0 counts as solo, whichever it is, and a solo job may be in any window.
fn vary_solo_jobs(mut table: Table, generator: &mut Generator) -> Table {
    for mark in table.marks.iter_mut().filter(|mark| **mark != 0) {
        *mark = generator.choice(&[1, 2, 0x80, 0xFF]);
    }
    let windows = any_spread(generator);
    spread_solo_jobs(&mut table, windows, generator);
    table
}

/// A table over one limit or both, or just at it, with a wrong number now and then.
fn large_table(generator: &mut Generator) -> Table {
    let layouts = LAYOUT_LIMIT - 1 + generator.below(3);
    let jobs = JOB_LIMIT - 1 + generator.below(3);
    let (few, some) = (generator.between(1, 9), generator.between(0, 9));
    let size = generator.choice(&[(layouts, jobs), (layouts, some), (few, jobs)]);
    let mut table = Table {
        parents: any_parents(size.0, generator),
        ..Table::default()
    };
    for _ in 0..size.1 {
        let (top, bottom) = path(&table.parents, Reach::Short, generator);
        table.add_job(top, bottom, 0);
    }
    let windows = any_spread(generator);
    spread(&mut table, windows, generator);
    if generator.one_in(3) {
        make_wrong(&mut table, generator);
    }
    table
}

/// Every table of at most four layouts and three jobs, solo or not.
pub fn small_tables() -> Vec<Table> {
    tables_of(4, &[(0, 0), (0, 1)])
}

/// Every table of at most three layouts and three jobs, solo or not, in two windows, but for those with
/// all jobs in window 0.
pub fn small_windows() -> Vec<Table> {
    let mut tables = tables_of(3, &[(0, 0), (0, 1), (5, 0), (5, 1)]);
    tables.retain(|table| table.windows.contains(&5));
    tables
}

/// Every table of at most so many layouts and three jobs, each with one of these windows and marks.
fn tables_of(layouts: u16, kinds: &[(u8, u8)]) -> Vec<Table> {
    let mut tables = Vec::new();
    for parents in (1..=layouts).flat_map(parent_lists) {
        let table = Table {
            parents,
            ..Table::default()
        };
        add_jobs(&table, 3, kinds, &mut tables);
    }
    tables
}

/// The table itself, and with up to `jobs` jobs more of every kind.
fn add_jobs(table: &Table, jobs: usize, kinds: &[(u8, u8)], tables: &mut Vec<Table>) {
    tables.push(table.clone());
    if jobs == 0 {
        return;
    }
    for bottom in 0..table.layouts() as u16 {
        for top in ancestors(&table.parents, bottom) {
            for &(window, mark) in kinds {
                let mut more = table.clone();
                more.add_job_in(window, top, bottom, mark);
                add_jobs(&more, jobs - 1, kinds, tables);
            }
        }
    }
}
