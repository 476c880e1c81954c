//! The second whole run, for a press with so many lanes (2026-07), by definition: the rule over the
//! running order, the deepest layout on all paths of a group, the lines, and the refusals in their order.

use super::paths::{own_paths, own_walk, Path};
use super::plan::running_order;
use super::run::{refusal_line, write_into};
use super::table::read;
use super::{refuse, Refusal, Table, ABSENT};

pub const LEAST_LANES: usize = 2;
pub const MOST_LANES: usize = 8;

/// The jobs of one pass, in running order.
pub type Group = Vec<usize>;

/// The second whole run into lent output: the length, and what the output holds afterwards.
pub fn run_into(input: &[u8], output: &mut [u8], lanes: usize) -> usize {
    write_into(output, || run(input, lanes))
}

/// The bytes that the second whole run writes.
pub fn run(input: &[u8], lanes: usize) -> Vec<u8> {
    let lines = answer(input, lanes).unwrap_or_else(refusal_line);
    lines.into_bytes()
}

/// 13 comes first, then the reader's refusals, and 14 last.
fn answer(input: &[u8], lanes: usize) -> Result<String, Refusal> {
    if !known_lanes(lanes) {
        return refuse(13, 0);
    }
    let table = read(input)?;
    full_lines(&table, lanes, &groups_of(&table, lanes))
}

pub fn known_lanes(lanes: usize) -> bool {
    (LEAST_LANES..=MOST_LANES).contains(&lanes)
}

/// The rule: each free job in running order takes the first free later jobs that share with it in its
/// window, one for each other lane. A job that finds fewer takes these, and its group is short.
pub fn groups_of(table: &Table, lanes: usize) -> Vec<Group> {
    let order = running_order(table);
    let paths = own_paths(table);
    let mut taken = vec![false; table.jobs()];
    let mut groups = Vec::new();
    for (rank, &job) in order.iter().enumerate() {
        if taken[job] {
            continue;
        }
        let fits = |&other: &usize| !taken[other] && may_join(table, &paths, job, other);
        let later = order[rank + 1..].iter().copied();
        let mut group = vec![job];
        group.extend(later.filter(fits).take(lanes - 1));
        group.iter().for_each(|&member| taken[member] = true);
        groups.push(group);
    }
    groups
}

/// Neither is solo, they are in one window, and they share.
fn may_join(table: &Table, paths: &[Path], job: usize, other: usize) -> bool {
    let solo = table.solo(job) || table.solo(other);
    !solo && table.same_window(job, other) && paths[job].meets(&paths[other])
}

/// The lines of groups that are all full; otherwise 14.
pub fn full_lines(table: &Table, lanes: usize, groups: &[Group]) -> Result<String, Refusal> {
    match groups.iter().all(|group| group.len() == lanes) {
        true => Ok(group_lines(table, groups)),
        false => refuse(14, 0),
    }
}

/// One line a group, and the number of groups.
pub fn group_lines(table: &Table, groups: &[Group]) -> String {
    let paths = own_paths(table);
    let layout = |group: &Group| deepest_common(table, &paths, group).unwrap_or(ABSENT);
    lines_on(groups, &layout)
}

/// The same with these layouts.
pub fn lines_on(groups: &[Group], layout: &dyn Fn(&Group) -> u16) -> String {
    let mut lines = String::new();
    for group in groups {
        let jobs: String = group.iter().map(|job| format!("{job:04X}")).collect();
        lines += &format!("13{jobs}{:04X}\n", layout(group));
    }
    lines + &format!("1F{:04X}\n", groups.len())
}

/// The deepest layout other than 0 on all paths of a group: the first one met going up from the bottom
/// of its first job.
pub fn deepest_common(table: &Table, paths: &[Path], group: &[usize]) -> Option<u16> {
    let on_all = |layout: &u16| group.iter().all(|&job| paths[job].contains(*layout));
    own_walk(table, group[0]).into_iter().find(on_all)
}
