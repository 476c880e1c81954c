//! The second implementation against document 01's words and tables worked by hand, so that what the
//! other programs compare with is itself checked; the checks of *Plan* against wrong planners, and those
//! of the second whole run against wrong groupers; and the whole run by hand beside the second
//! implementation.

use std::fs;
use std::path::PathBuf;
use std::process::ExitCode;
use tests::both_ends::{self, downward};
use tests::by_hand;
use tests::earlier_checks::{
    caught_where_other_jobs, compared_as_said, leaves_earlier, EARLIER_LEFT,
};
use tests::earlier_paired::{self, Told};
use tests::examples::{
    bakehouse, in_turn, lent, marked, named, telling, Begins, Said, Stretch, BAKEHOUSE_BYTES,
    BAKEHOUSE_LOOKUPS, BAKEHOUSE_ORDER, BAKEHOUSE_PLAN, COMPARISONS, PRINTINGS, READINGS,
    STRETCHES,
};
use tests::forbidden::Search;
use tests::group_checks;
use tests::made::mixtures::any_lines;
use tests::made::tables::{table, table_for_search, table_of_size, table_with_rivals, Size};
use tests::made::windows::{any_spread, spread_solo_jobs};
use tests::made::Generator;
use tests::plan_checks::{check_example, small_tables, small_windows, Planner};
use tests::reference::groups;
use tests::reference::paths::{depth_of_highest, highest, is_bare, own_paths, BARE_SHEET};
use tests::reference::plan::{plan, plan_of, running_order, Plan, Results, Room, Totals};
use tests::reference::rivals::{keeps_rules, most_before_cuts, pairs_before_cuts, pairs_of};
use tests::reference::run::{run, run_into};
use tests::reference::shelf::{Answer, Shelf};
use tests::reference::stretch::shared_stretch;
use tests::reference::sweep::{plan_of_turns, turns, Event, Turn, Verdict};
use tests::reference::table::{read, table_lines};
use tests::reference::tree::{leaves_of_each, settled, Settled};
use tests::reference::visits::{visits, Slots};
use tests::reference::{Refusal, Table, ABSENT, WINDOW_LIMIT, WORK_CELLS};
use tests::report::{same, Outcome, Report};
use tests::run_checks;
use tests::windows_apart;
use tests::wrong_groupers::{wrong_groupers, WRONG_CALLS};
use tests::wrong_planners::{wrong_planners, WrongPlanner};

fn main() -> ExitCode {
    let mut report = Report::new("reference");
    let search = Search::default();
    report.listed("the bakehouse table", [()], |()| bakehouse_as_printed());
    let examples = marked().into_iter().chain(telling()).chain(in_turn());
    report.listed("tables worked by hand", examples, |example| {
        check_example(&reference_planner, &example)?;
        read_as_said(&table_lines(&example.table).concat(), &example.said)
    });
    report.listed("numbers that no reader gives", lent(), |example| {
        check_example(&reference_planner, &example)
    });
    report.listed("example tables", EXAMPLE_FILES, planned_as_stored);
    report.listed("groups of example tables", GROUPED_FILES, grouped_as_stored);
    report.listed("document 01's refusals", READINGS, |(bytes, refusal)| {
        same("refusal", read(bytes).err(), refusal)
    });
    report.listed("tables as printed", PRINTINGS, |(bytes, printed)| {
        same("lines", run(bytes), printed.to_vec())
    });
    report.listed("rivals worked by hand", COMPARISONS, |comparison| {
        compared_as_said(&comparison)
    });
    report.listed("stretches worked by hand", STRETCHES, |stretch| {
        stretch_as_said(&stretch)
    });
    report.made("stretches of two paths", 3_000, |generator| {
        stretches_of_paths(&table_of_size(medium_size(generator), generator))
    });
    report.listed("visits of every span", spans(), visits_within_bound);
    report.made("a shelf beside a plain list", 2_000, shelf_as_list);
    let tables = small_tables().into_iter().chain(small_windows());
    report.listed("every rival of every small table", tables, |table| {
        let plan = searched_plan(&search, &table);
        both_ends::check(&table, plan.results())?;
        best_beside_rivals(&table, &plan)
    });
    report.made("both ends of what pairs share", 3_000, |generator| {
        let table = table(generator);
        both_ends::check(&table, plan_of(&table).results())
    });
    report.made("every rival, at every cut", 20_000, |generator| {
        let table = table_for_search(generator);
        best_beside_rivals(&table, &searched_plan(&search, &table))
    });
    let mut told = Told::default();
    report.made("many rivals", 10_000, |generator| {
        let table = table_with_rivals(generator);
        let plan = searched_plan(&search, &table);
        told.add(&table, &pairs_of(&plan.partners));
        best_beside_rivals(&table, &plan)
    });
    report.listed("rivals of each kind", [()], |()| {
        println!("reference: {told}");
        told.some_of_each()
    });
    report.made("unbroken spans", 2_000, |generator| {
        unbroken_spans(&table(generator).parents)
    });
    report.made("sharing by spans and depths", 3_000, |generator| {
        sharing_by_spans(&table_of_size(medium_size(generator), generator))
    });
    report.listed("jobs 0-0 pass the test and do not share", [()], |()| {
        sharing_by_spans(&named("two jobs")?.table)
    });
    report.made("the sweep turn by turn", 3_000, |generator| {
        let table = table_of_size(medium_size(generator), generator);
        sweep_by_turns(&table, &searched_plan(&search, &table))
    });
    report.made("windows apart", 3_000, |generator| {
        let table = with_windows(generator);
        windows_apart::check(&table, &plan_of(&table))
    });
    report.made("windows renamed", 1_000, |generator| {
        same_in_other_windows(with_windows(generator), generator)
    });
    report.made("read after writing", 3_000, |generator| {
        let table = table(generator);
        let bytes = any_lines(&table, generator).concat();
        same("table", read(&bytes), Ok(table))
    });
    report.listed("wrong planners", wrong_planners(), |planner| {
        caught(&planner)
    });
    report.listed("an earlier job left single", EARLIER_LEFT, |left| {
        leaves_earlier(&left)
    });
    report.made("who leaves an earlier job single", 3_000, |generator| {
        let table = table_with_rivals(generator);
        EARLIER_LEFT
            .iter()
            .try_for_each(|left| caught_where_other_jobs(left, &table))
    });
    report.nothing_forbidden(&search);
    report.listed("the search for layout 0", [()], |()| search_finds());
    report.listed("the search for pairs of two windows", [()], |()| {
        search_finds_windows()
    });
    group_checks::by_hand(&mut report, &groups::run_into);
    group_checks::beside_search(&mut report, &groups::run_into);
    group_checks::beside_first(&mut report, &groups::run_into, &run_into);
    report.listed("wrong groupers", wrong_groupers(), |grouper| {
        group_checks::caught(&grouper)
    });
    report.listed("wrong calls", WRONG_CALLS, |(name, call)| {
        group_checks::called_rightly(&groups::run_into)?;
        same(name, group_checks::called_rightly(&call).is_err(), true)
    });
    // The whole run that the benchmark measures against.
    run_checks::run(&mut report, &by_hand::run_into);
    report.finish()
}

/// The reference as a planner with lent buffers.
fn reference_planner(
    table: &Table,
    partners: &mut [u16],
    uppers: &mut [u16],
    printed: &mut [u16],
    work: &mut [u16],
) -> Result<Totals, Refusal> {
    let room = Room {
        partners: partners.len(),
        uppers: uppers.len(),
        printed: printed.len(),
        work: work.len(),
    };
    let plan = plan(table, room)?;
    partners[..table.jobs()].copy_from_slice(&plan.partners);
    uppers[..table.jobs()].copy_from_slice(&plan.uppers);
    printed[..table.jobs()].copy_from_slice(&plan.printed);
    work[..WORK_CELLS].fill(0);
    Ok(plan.totals)
}

/// All that 2026-01 and 2026-02 say of the bakehouse table.
fn bakehouse_as_printed() -> Outcome {
    let table = bakehouse().table;
    same(
        "bytes",
        table_lines(&table).concat(),
        BAKEHOUSE_BYTES.to_vec(),
    )?;
    same("plan", run(BAKEHOUSE_BYTES), BAKEHOUSE_PLAN.to_vec())?;
    let order = running_order(&table);
    same("order", order.as_slice(), &BAKEHOUSE_ORDER)?;
    let slots = Slots::new(&table, &order);
    let lookups = BAKEHOUSE_LOOKUPS.map(|(job, _)| (job, slots.visits(job)));
    same("lookups", lookups, BAKEHOUSE_LOOKUPS)
}

/// The tables in `examples`, with their plans beside them.
const EXAMPLE_FILES: [&str; 14] = [
    "added-layout",
    "bakehouse",
    "bare-sheet",
    "both-ends",
    "chain-of-seven",
    "earlier-job",
    "exchanged",
    "first-partner",
    "no-jobs",
    "solo",
    "three-across",
    "two-branches",
    "two-jobs",
    "windows",
];

/// Those with their groups beside them, for so many lanes.
const GROUPED_FILES: [(&str, usize); 2] = [("chain-of-seven", 3), ("three-across", 3)];

fn planned_as_stored(name: &str) -> Outcome {
    let table = example_file(name, "table")?;
    same(name, run(&table), example_file(name, "plan")?)
}

fn grouped_as_stored((name, lanes): (&str, usize)) -> Outcome {
    let table = example_file(name, "table")?;
    let stored = example_file(name, &format!("groups-{lanes}"))?;
    same(name, groups::run(&table, lanes), stored)
}

fn example_file(name: &str, ending: &str) -> Result<Vec<u8>, String> {
    let folder = PathBuf::from(env!("CARGO_MANIFEST_DIR")).join("../examples");
    let path = folder.join(name).with_extension(ending);
    fs::read(path).map_err(|error| format!("{name}.{ending}: {error}"))
}

fn read_as_said(bytes: &[u8], said: &Said) -> Outcome {
    let refusal = match *said {
        Said::Planned(_) => None,
        Said::Refused(number, _, line) => Some(Refusal {
            number,
            place: line,
        }),
    };
    same("refusal", read(bytes).err(), refusal)
}

/// The numbers, and the cell at which they start. Both lists stand in one block of cells, with a cell
/// between them, so that the cell of the block tells the list too, also where the stretch is empty.
fn stretch_as_said(said: &Stretch) -> Outcome {
    let block = [said.first, &[ABSENT], said.second].concat();
    let (first, rest) = block.split_at(said.first.len());
    let second = &rest[1..];
    let found = shared_stretch(first, second);
    same("numbers", found, said.numbers)?;
    let list = match said.begins {
        Begins::First => first,
        Begins::Second => second,
    };
    let cells = |part: &[u16]| (part.as_ptr() as usize - block.as_ptr() as usize) / 2;
    same("cell", cells(found), cells(&list[said.from..]))
}

/// Of the paths of any two jobs from top to bottom the stretch has exactly the shared layouts other
/// than 0, in this order.
fn stretches_of_paths(table: &Table) -> Outcome {
    let jobs = 0..table.jobs();
    let paths: Vec<Vec<u16>> = jobs.map(|job| downward(table, job)).collect();
    for one in &paths {
        for other in &paths {
            let shared = |layout: &u16| *layout != BARE_SHEET && other.contains(layout);
            let expected: Vec<u16> = one.iter().copied().filter(shared).collect();
            same("stretch", shared_stretch(one, other), expected.as_slice())?;
        }
    }
    Ok(())
}

/// Every span of slots of small segment trees, as width, first slot and first slot after it.
fn spans() -> Vec<(usize, usize, usize)> {
    let within = |width: usize| (0..=width).map(move |from| (width, from));
    let widths = [1, 2, 4, 8, 16, 32];
    widths
        .iter()
        .flat_map(|&width| within(width))
        .flat_map(|(width, from)| (from..=width).map(move |to| (width, from, to)))
        .collect()
}

/// One lookup visits at most 4k + 1 nodes, and an empty span ends at the root. A shelf of so many slots
/// visits as many.
fn visits_within_bound((width, from, to): (usize, usize, usize)) -> Outcome {
    let asked: Vec<bool> = (0..width).map(|slot| from <= slot && slot < to).collect();
    let count = visits(&asked);
    let within = count <= 4 * width.trailing_zeros() + 1 && (from < to || count == 1);
    same("within the bound", within, true)?;
    let shelf = Shelf::new((0..width).map(|job| (job, job)));
    same("of a shelf", shelf.lookup(&(from..to)).visits, count)
}

/// A shelf behaves, call by call, as a plain list of slots and places that is asked for its smallest
/// place in a span.
fn shelf_as_list(generator: &mut Generator) -> Outcome {
    let jobs = generator.between(1, 20);
    let mut shelf = Shelf::new((0..jobs).map(|job| (job, job)));
    let mut list: Vec<(usize, usize)> = Vec::new();
    for place in 0..generator.between(1, 60) {
        let slot = generator.below(jobs);
        match list.iter().position(|&(held, _)| held == slot) {
            Some(at) => {
                list.remove(at);
                shelf.take(slot);
            }
            None => {
                list.push((slot, place));
                shelf.put(slot, place);
            }
        }
        let from = generator.between(0, jobs);
        let to = generator.between(from, jobs);
        let held = list.iter().filter(|(slot, _)| (from..to).contains(slot));
        let Answer { place, .. } = shelf.lookup(&(from..to));
        same("place", place, held.map(|&(_, place)| place).min())?;
    }
    Ok(())
}

/// The plan of this implementation, searched for layout 0.
fn searched_plan(search: &Search, table: &Table) -> Plan {
    let plan = plan_of(table);
    search.plan(table, plan.results());
    plan
}

/// Our pairs keep the rules and are the most in front of every cut, and the earlier job gets the partner.
fn best_beside_rivals(table: &Table, plan: &Plan) -> Outcome {
    let pairs = pairs_of(&plan.partners);
    keeps_rules(table, &pairs)?;
    same("pairs", pairs.len(), usize::from(plan.totals.pairs))?;
    let ours = pairs_before_cuts(table, &pairs);
    same("pairs in front of the cuts", ours, most_before_cuts(table))?;
    earlier_paired::check(table, &pairs)
}

/// A table with jobs of all kinds in windows.
fn with_windows(generator: &mut Generator) -> Table {
    let mut table = table_of_size(medium_size(generator), generator);
    let windows = any_spread(generator);
    spread_solo_jobs(&mut table, windows, generator);
    table
}

/// Which window is which does not matter to a plan.
fn same_in_other_windows(mut table: Table, generator: &mut Generator) -> Outcome {
    let plan = plan_of(&table);
    let turn = generator.below(WINDOW_LIMIT) as u8;
    let odd = generator.choice(&[1, 3, 5, 7]);
    for window in &mut table.windows {
        *window = (*window * odd + turn) % WINDOW_LIMIT as u8;
    }
    same("plan", plan_of(&table), plan)
}

fn medium_size(generator: &mut Generator) -> Size {
    Size {
        layouts: generator.between(1, 40),
        jobs: generator.between(0, 40),
    }
}

/// The leaves of a layout are those from its first to its last, with none left out.
fn unbroken_spans(parents: &[u16]) -> Outcome {
    let leaves = leaves_of_each(parents);
    let tree = settled(parents);
    for (layout, own) in leaves.iter().enumerate() {
        let span = usize::from(tree.firsts[layout])..usize::from(tree.lasts[layout]) + 1;
        same("leaves", own.as_slice(), &leaves[0][span])?;
    }
    Ok(())
}

/// Theorem 6 of 000 for earlier i and later j: the test tells whether they share wherever i is not a
/// job 0-0. Where it is, j is one too: they pass the test, and do not share.
fn sharing_by_spans(table: &Table) -> Outcome {
    let tree = settled(&table.parents);
    let paths = own_paths(table);
    let order = running_order(table);
    for (rank, &i) in order.iter().enumerate() {
        for &j in &order[rank + 1..] {
            let shares = paths[i].meets(&paths[j]);
            let passes = fits(table, &tree, i, j);
            let expected = if is_bare(table, i) {
                (true, false)
            } else {
                (shares, shares)
            };
            same("test and sharing", (passes, shares), expected)?;
        }
    }
    Ok(())
}

/// Bottom j's first leaf lies in the span of the highest layout of i, and the depths of the highest
/// layout of j, of that of i and of bottom j ascend. A job 0-0 is tested by layout 0.
fn fits(table: &Table, tree: &Settled, i: usize, j: usize) -> bool {
    let highest_i = usize::from(highest(table, i).unwrap_or(BARE_SHEET));
    let bottom_j = usize::from(table.bottoms[j]);
    let leaf = tree.firsts[bottom_j];
    let depth_i = usize::from(tree.depths[highest_i]);
    tree.firsts[highest_i] <= leaf
        && leaf <= tree.lasts[highest_i]
        && depth_of_highest(table, j) <= depth_i
        && depth_i <= usize::from(tree.depths[bottom_j])
}

/// The turns make the plan, each finds the first free later job of its window that shares, and of the
/// others it says that they would do exactly if they are free, later, of its window and share.
fn sweep_by_turns(table: &Table, plan: &Plan) -> Outcome {
    let turns = turns(table);
    same("plan", &plan_of_turns(table, &turns), plan)?;
    let in_front: Vec<usize> = turns.iter().map(|turn| turn.in_front).collect();
    let before_cuts = pairs_before_cuts(table, &pairs_of(&plan.partners));
    same("pairs in front", in_front.as_slice(), &before_cuts[1..])?;
    let paths = own_paths(table);
    let fits =
        |job: usize, other: usize| table.same_window(job, other) && paths[job].meets(&paths[other]);
    turns
        .iter()
        .try_for_each(|turn| judges(table, turn, &turns, &fits))
}

fn judges(
    table: &Table,
    turn: &Turn,
    turns: &[Turn],
    fits: &dyn Fn(usize, usize) -> bool,
) -> Outcome {
    let asks_nobody = matches!(turn.event, Event::Solo | Event::Bare);
    let expected = table.solo(turn.job) || is_bare(table, turn.job);
    same("asks nobody", asks_nobody, expected)?;
    let Event::Lookup(lookup) = &turn.event else {
        return Ok(());
    };
    let later = |job: usize| turns[turn.place + 1..].iter().any(|turn| turn.job == job);
    let taken = |job: usize| turns[..turn.place].iter().any(|turn| takes(turn, job));
    same("others", lookup.others.len(), table.jobs() - 1)?;
    for &(other, verdict) in &lookup.others {
        let free = later(other) && !taken(other) && !table.solo(other);
        let does = matches!(verdict, Verdict::Found | Verdict::Later(_));
        same("does", does, free && fits(turn.job, other))?;
    }
    Ok(())
}

fn takes(turn: &Turn, job: usize) -> bool {
    matches!(&turn.event, Event::Lookup(lookup) if lookup.found.is_some_and(|(other, _)| other == job))
}

/// That the checks find a wrong planner out on its table, by the cell count alone where nothing else
/// is wrong.
fn caught(planner: &WrongPlanner) -> Outcome {
    let example = named(planner.fails)?;
    if planner.count_alone {
        wrong_in_count(planner, &example.table)?;
    }
    let call: Planner = &|table, partners, uppers, printed, work| {
        planner.call(table, partners, uppers, printed, work)
    };
    match check_example(call, &example) {
        Err(_) => Ok(()),
        Ok(()) => Err(format!(
            "{} gets through on {}",
            planner.name, planner.fails
        )),
    }
}

fn wrong_in_count(planner: &WrongPlanner, table: &Table) -> Outcome {
    let right = plan_of(table);
    let wrong = (planner.plan)(table).map_err(|refusal| format!("refused: {refusal:?}"))?;
    let with_right_count = Plan {
        totals: Totals {
            visits: right.totals.visits,
            ..wrong.totals
        },
        ..wrong.clone()
    };
    same(planner.name, with_right_count, right.clone())?;
    same(
        "a wrong count",
        wrong.totals.visits != right.totals.visits,
        true,
    )
}

/// The search finds layout 0 at either end of what a pair shares where it is there, and only there: in
/// the plans of wrong planners, in a plan's cells and in its lines.
fn search_finds() -> Outcome {
    for planner in wrong_planners() {
        if ["pairs on layout 0", "the upper end a top"].contains(&planner.name) {
            let table = named(planner.fails)?.table;
            let wrong =
                (planner.plan)(&table).map_err(|refusal| format!("refused: {refusal:?}"))?;
            let search = Search::default();
            search.plan(&table, wrong.results());
            same(planner.name, search.seen().on_layout_0.is_some(), true)?;
        }
    }
    for (upper, printed) in [(0, 0), (0, 1), (1, 0), (1, 1)] {
        search_finds_ends(&named("layout 0 alone in common")?.table, upper, printed)?;
    }
    Ok(())
}

/// The search over two jobs in a pair with such ends.
fn search_finds_ends(table: &Table, upper: u16, printed: u16) -> Outcome {
    let (in_cells, in_lines) = (Search::default(), Search::default());
    let results = Results {
        partners: &[1, 0],
        uppers: &[upper; 2],
        printed: &[printed; 2],
    };
    in_cells.plan(table, results);
    let lines = format!("1100000001{upper:04X}{printed:04X}\n1F0001000000000001\n");
    in_lines.lines(&table_lines(table).concat(), lines.as_bytes());
    for seen in [in_cells.seen(), in_lines.seen()] {
        let on_layout_0 = upper == BARE_SHEET || printed == BARE_SHEET;
        same("found", seen.on_layout_0.is_some(), on_layout_0)?;
        same("across windows", seen.across_windows, None)?;
        let counts = (seen.pairs, seen.tops_0, seen.bare_jobs);
        same("pairs, tops 0 and jobs 0-0", counts, (1, 2, 0))?;
    }
    Ok(())
}

/// The search finds a pair of two windows, in cells and in lines, and of one window none.
fn search_finds_windows() -> Outcome {
    for (windows, across) in [([0, 0], false), ([15, 15], false), ([0, 1], true)] {
        let mut table = named("two jobs on layout 1")?.table;
        table.windows = windows.to_vec();
        let (in_cells, in_lines) = (Search::default(), Search::default());
        let results = Results {
            partners: &[1, 0],
            uppers: &[1; 2],
            printed: &[1; 2],
        };
        in_cells.plan(&table, results);
        let bytes = table_lines(&table).concat();
        in_lines.lines(&bytes, b"110000000100010001\n1F0001000000000001\n");
        for seen in [in_cells.seen(), in_lines.seen()] {
            same("found", seen.across_windows.is_some(), across)?;
            let plans = seen.plans.iter().position(|&plans| plans == 1);
            same("windows", plans, Some(1 + usize::from(across)))?;
        }
    }
    Ok(())
}
