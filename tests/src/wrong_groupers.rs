//! Groupers that look fine (2026-07) and are not, each with the table that catches it. The checks of the
//! second whole run are tried on them: a check that accepts one of these checks nothing.

use crate::reference::groups::{
    deepest_common, full_lines, group_lines, groups_of, known_lanes, lines_on, run_into, Group,
    LEAST_LANES,
};
use crate::reference::paths::{depth_of_highest, highest, own_paths, whole_paths, BARE_SHEET};
use crate::reference::plan::running_order;
use crate::reference::run::{refusal_line, write_into};
use crate::reference::table::{read, table_lines};
use crate::reference::{refuse, Refusal, Table, ABSENT, OUTPUT_BYTES};

/// What a grouper prints for a table and so many lanes, or refuses.
type Lines = fn(&Table, usize) -> Result<String, Refusal>;

pub struct WrongGrouper {
    pub name: &'static str,
    /// The grouping worked by hand that it fails, and for how many lanes.
    pub fails: (&'static str, usize),
    pub lines: Lines,
    pub shows: Shows,
}

/// Which checks catch a wrong grouper on its table.
#[derive(Clone, Copy, Debug, PartialEq, Eq)]
pub enum Shows {
    /// The lines alone: it prints a full grouping in the right form, but not the rule's.
    InLines,
    /// The search for any full grouping and the check of what is printed as well.
    InSearch,
}

impl WrongGrouper {
    /// The wrong grouper as a caller meets it. It reads tables and refuses numbers of lanes rightly.
    pub fn call(&self, input: &[u8], output: &mut [u8], lanes: usize) -> usize {
        if !known_lanes(lanes) {
            return run_into(input, output, lanes);
        }
        let lines = read(input).and_then(|table| (self.lines)(&table, lanes));
        let lines = lines.unwrap_or_else(refusal_line);
        write_into(output, || lines.into_bytes())
    }
}

pub fn wrong_groupers() -> Vec<WrongGrouper> {
    [
        groupers_of_the_rule(),
        groupers_of_groups(),
        groupers_of_lines(),
    ]
    .into_iter()
    .flatten()
    .collect()
}

fn wrong(name: &'static str, fails: (&'static str, usize), lines: Lines) -> WrongGrouper {
    WrongGrouper {
        name,
        fails,
        lines,
        shows: Shows::InSearch,
    }
}

/// Those that mistake the rule: who goes first, and whom a job takes.
fn groupers_of_the_rule() -> Vec<WrongGrouper> {
    let in_lines = |grouper| WrongGrouper {
        shows: Shows::InLines,
        ..grouper
    };
    vec![
        wrong(
            "the last partners first",
            ("the first partner", 2),
            last_partners,
        ),
        in_lines(wrong(
            "the last partners first, all alike",
            ("six jobs alike", 3),
            last_partners,
        )),
        wrong(
            "the shallowest first",
            ("two branches", 2),
            shallowest_first,
        ),
        wrong(
            "in the order of job numbers",
            ("two branches", 2),
            by_job_number,
        ),
        wrong(
            "lines by job number",
            ("lines by place", 2),
            lines_by_number,
        ),
        wrong(
            "sharing with the last one taken",
            ("no layout on all three", 3),
            sharing_with_last,
        ),
        wrong(
            "one job too few in a group",
            ("eight jobs alike", 4),
            one_lane_empty,
        ),
        wrong(
            "one job too many in a group",
            ("six jobs alike", 2),
            one_lane_more,
        ),
    ]
}

/// Those that make groups of jobs that are none, or take a grouping that is not full for full.
fn groupers_of_groups() -> Vec<WrongGrouper> {
    vec![
        wrong(
            "a short group printed",
            ("two jobs on layout 1", 3),
            short_printed,
        ),
        wrong(
            "a short group left out",
            ("document 02's chain", 3),
            short_left_out,
        ),
        wrong(
            "full by the number of jobs",
            ("layout 0 alone in common", 2),
            full_by_number,
        ),
        wrong(
            "groups across windows",
            ("a window of one job", 2),
            across_windows,
        ),
        wrong("solo jobs grouped", ("a solo job", 2), solo_grouped),
        wrong(
            "solo jobs left out",
            ("a solo job beside a pair", 2),
            solo_left_out,
        ),
        wrong(
            "jobs 0-0 left out",
            ("a job 0-0 too many", 2),
            bare_left_out,
        ),
        wrong(
            "layout 0 as the common one",
            ("layout 0 alone", 2),
            on_layout_0,
        ),
        wrong("no jobs refused", ("no jobs", 2), no_jobs_refused),
        wrong(
            "refusing each table",
            ("two jobs on layout 1", 2),
            |_, _| refuse(14, 0),
        ),
    ]
}

/// Those that group rightly and print something else.
fn groupers_of_lines() -> Vec<WrongGrouper> {
    vec![
        wrong(
            "the layout of the first two",
            ("the layout of all three", 3),
            layout_of_first_two,
        ),
        wrong(
            "the highest common layout",
            ("two common layouts", 3),
            highest_common,
        ),
        wrong(
            "the bottom of the first job",
            ("the layout of all three", 3),
            bottom_of_first,
        ),
        wrong(
            "jobs of a line by number",
            ("three across", 3),
            members_by_number,
        ),
        wrong(
            "the totals of the first run",
            ("two jobs on layout 1", 2),
            first_totals,
        ),
        wrong("kind 11 for 13", ("two jobs on layout 1", 2), kind_of_pairs),
        wrong("13 for 14", ("a solo job", 2), lanes_refused),
    ]
}

/// A second run that groups rightly and mistakes its output, its lanes or the order of its refusals.
pub type WrongCall = (&'static str, fn(&[u8], &mut [u8], usize) -> usize);

pub const WRONG_CALLS: [WrongCall; 9] = [
    ("lanes of 8 bits", |input, output, lanes| {
        run_into(input, output, lanes % (1 << 8))
    }),
    ("lanes of 16 bits", |input, output, lanes| {
        run_into(input, output, lanes % (1 << 16))
    }),
    ("lanes of 32 bits", |input, output, lanes| {
        run_into(input, output, lanes % (1 << 32))
    }),
    ("nine lanes", |input, output, lanes| {
        run_into(input, output, if lanes == 9 { 8 } else { lanes })
    }),
    ("lanes refused behind the table", |input, output, lanes| {
        let read = read(input).map(|_| ());
        match read {
            Err(_) => run_into(input, output, LEAST_LANES),
            Ok(()) => run_into(input, output, lanes),
        }
    }),
    ("lanes refused before the output", |input, output, lanes| {
        let line = b"1E0D0000\n";
        if known_lanes(lanes) || output.len() < line.len() {
            return run_into(input, output, lanes);
        }
        output.fill(0);
        output[..line.len()].copy_from_slice(line);
        line.len()
    }),
    ("the rest not cleared", |input, output, lanes| {
        let rest = output.to_vec();
        let length = run_into(input, output, lanes);
        output[length..].copy_from_slice(&rest[length..]);
        length
    }),
    ("a short output cleared", |input, output, lanes| {
        let length = run_into(input, output, lanes);
        if length == 0 {
            output.fill(0);
        }
        length
    }),
    ("32,768 bytes enough", |input, output, lanes| {
        let mut long = vec![0; output.len().max(OUTPUT_BYTES)];
        if output.len() < 32_768 {
            return 0;
        }
        let length = run_into(input, &mut long, lanes);
        output.copy_from_slice(&long[..output.len()]);
        length
    }),
];

/// In some order each free job takes later ones that fit the group so far, from the next on or from the
/// last one.
fn greedy(
    table: &Table,
    lanes: usize,
    order: &[usize],
    from_last: bool,
    fits: &dyn Fn(&[usize], usize) -> bool,
) -> Vec<Group> {
    let mut taken = vec![false; table.jobs()];
    let mut groups = Vec::new();
    for (rank, &job) in order.iter().enumerate() {
        if taken[job] {
            continue;
        }
        let mut later = order[rank + 1..].to_vec();
        if from_last {
            later.reverse();
        }
        let mut group = vec![job];
        for other in later {
            if group.len() < lanes && !taken[other] && fits(&group, other) {
                group.push(other);
            }
        }
        group.iter().for_each(|&member| taken[member] = true);
        groups.push(group);
    }
    groups
}

/// Sharing with the first job of the group, in its window, by the rule's words.
fn greedy_by(table: &Table, lanes: usize, order: &[usize], from_last: bool) -> Vec<Group> {
    let paths = own_paths(table);
    greedy(table, lanes, order, from_last, &|group, other| {
        let first = group[0];
        let solo = table.solo(first) || table.solo(other);
        !solo && table.same_window(first, other) && paths[first].meets(&paths[other])
    })
}

/// The jobs of each group as they are printed.
fn in_running_order(table: &Table, groups: &mut [Group]) {
    let order = running_order(table);
    let place = |job: &usize| order.iter().position(|other| other == job);
    for group in groups {
        group.sort_by_key(place);
    }
}

fn last_partners(table: &Table, lanes: usize) -> Result<String, Refusal> {
    let mut groups = greedy_by(table, lanes, &running_order(table), true);
    in_running_order(table, &mut groups);
    full_lines(table, lanes, &groups)
}

fn shallowest_first(table: &Table, lanes: usize) -> Result<String, Refusal> {
    let mut order: Vec<usize> = (0..table.jobs()).collect();
    order.sort_by_key(|&job| depth_of_highest(table, job));
    full_lines(table, lanes, &greedy_by(table, lanes, &order, false))
}

fn by_job_number(table: &Table, lanes: usize) -> Result<String, Refusal> {
    let order: Vec<usize> = (0..table.jobs()).collect();
    full_lines(table, lanes, &greedy_by(table, lanes, &order, false))
}

fn lines_by_number(table: &Table, lanes: usize) -> Result<String, Refusal> {
    let mut groups = groups_of(table, lanes);
    groups.sort();
    full_lines(table, lanes, &groups)
}

fn sharing_with_last(table: &Table, lanes: usize) -> Result<String, Refusal> {
    let paths = own_paths(table);
    let fits = |group: &[usize], other: usize| {
        let last = group[group.len() - 1];
        !table.solo(other) && table.same_window(last, other) && paths[last].meets(&paths[other])
    };
    let groups = greedy(table, lanes, &running_order(table), false, &fits);
    full_lines(table, lanes, &groups)
}

fn one_lane_empty(table: &Table, lanes: usize) -> Result<String, Refusal> {
    full_lines(table, lanes - 1, &groups_of(table, lanes - 1))
}

fn one_lane_more(table: &Table, lanes: usize) -> Result<String, Refusal> {
    full_lines(table, lanes + 1, &groups_of(table, lanes + 1))
}

fn short_printed(table: &Table, lanes: usize) -> Result<String, Refusal> {
    Ok(group_lines(table, &groups_of(table, lanes)))
}

fn short_left_out(table: &Table, lanes: usize) -> Result<String, Refusal> {
    let mut groups = groups_of(table, lanes);
    groups.retain(|group| group.len() == lanes);
    full_lines(table, lanes, &groups)
}

/// The jobs in running order, so many a group.
fn full_by_number(table: &Table, lanes: usize) -> Result<String, Refusal> {
    let order = running_order(table);
    let groups: Vec<Group> = order.chunks(lanes).map(<[usize]>::to_vec).collect();
    full_lines(table, lanes, &groups)
}

fn across_windows(table: &Table, lanes: usize) -> Result<String, Refusal> {
    let mut one = table.clone();
    one.windows.fill(0);
    full_lines(&one, lanes, &groups_of(&one, lanes))
}

fn solo_grouped(table: &Table, lanes: usize) -> Result<String, Refusal> {
    let mut unmarked = table.clone();
    unmarked.marks.fill(0);
    full_lines(&unmarked, lanes, &groups_of(&unmarked, lanes))
}

fn solo_left_out(table: &Table, lanes: usize) -> Result<String, Refusal> {
    let mut groups = groups_of(table, lanes);
    groups.retain(|group| !table.solo(group[0]));
    full_lines(table, lanes, &groups)
}

fn bare_left_out(table: &Table, lanes: usize) -> Result<String, Refusal> {
    let mut groups = groups_of(table, lanes);
    groups.retain(|group| highest(table, group[0]).is_some());
    full_lines(table, lanes, &groups)
}

/// Sharing by whole paths.
fn on_layout_0(table: &Table, lanes: usize) -> Result<String, Refusal> {
    let paths = whole_paths(table);
    let fits = |group: &[usize], other: usize| {
        table.same_window(group[0], other) && paths[group[0]].meets(&paths[other])
    };
    let groups = greedy(table, lanes, &running_order(table), false, &fits);
    full_lines(table, lanes, &groups)?;
    let own = own_paths(table);
    let layout = |group: &Group| deepest_common(table, &own, group).unwrap_or(BARE_SHEET);
    Ok(lines_on(&groups, &layout))
}

fn no_jobs_refused(table: &Table, lanes: usize) -> Result<String, Refusal> {
    match table.jobs() {
        0 => refuse(14, 0),
        _ => full_lines(table, lanes, &groups_of(table, lanes)),
    }
}

/// The right groups on other layouts.
fn on_layouts(
    table: &Table,
    lanes: usize,
    layout: &dyn Fn(&Group) -> Option<u16>,
) -> Result<String, Refusal> {
    let groups = groups_of(table, lanes);
    full_lines(table, lanes, &groups)?;
    Ok(lines_on(&groups, &|group| layout(group).unwrap_or(ABSENT)))
}

fn layout_of_first_two(table: &Table, lanes: usize) -> Result<String, Refusal> {
    let paths = own_paths(table);
    on_layouts(table, lanes, &|group| {
        deepest_common(table, &paths, &group[..2])
    })
}

/// That of the first job, which lies on all paths.
fn highest_common(table: &Table, lanes: usize) -> Result<String, Refusal> {
    on_layouts(table, lanes, &|group| highest(table, group[0]))
}

fn bottom_of_first(table: &Table, lanes: usize) -> Result<String, Refusal> {
    on_layouts(table, lanes, &|group| Some(table.bottoms[group[0]]))
}

fn members_by_number(table: &Table, lanes: usize) -> Result<String, Refusal> {
    let mut groups = groups_of(table, lanes);
    groups.iter_mut().for_each(|group| group.sort());
    full_lines(table, lanes, &groups)
}

/// Pairs, singles and the cell count.
fn first_totals(table: &Table, lanes: usize) -> Result<String, Refusal> {
    let lines = full_lines(table, lanes, &groups_of(table, lanes))?;
    let first = crate::reference::run::run(&table_lines(table).concat());
    let first = String::from_utf8_lossy(&first).into_owned();
    let totals = first.lines().last().unwrap_or_default();
    let (groups, _) = lines.split_once("1F").unwrap_or_default();
    Ok(format!("{groups}{totals}\n"))
}

fn kind_of_pairs(table: &Table, lanes: usize) -> Result<String, Refusal> {
    let lines = full_lines(table, lanes, &groups_of(table, lanes))?;
    let kind = |line: &str| match line.strip_prefix("13") {
        Some(fields) => format!("11{fields}\n"),
        None => format!("{line}\n"),
    };
    Ok(lines.lines().map(kind).collect())
}

/// The number of the refusal for no known lanes.
fn lanes_refused(table: &Table, lanes: usize) -> Result<String, Refusal> {
    full_lines(table, lanes, &groups_of(table, lanes)).or_else(|_| refuse(13, 0))
}
