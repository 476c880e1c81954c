//! The lines of a grouping read back, and that they say a full grouping as 2026-07 has it printed: every
//! group is one, each job is in one of them, a line has its jobs in running order and their deepest
//! common layout, and the lines stand by the places of their first jobs.

use crate::reference::full_groupings::Jobs;
use crate::reference::plan::running_order;
use crate::reference::tree::depth;
use crate::reference::Table;
use crate::report::{same, Outcome};

/// A line 13.
struct Printed {
    jobs: Vec<usize>,
    layout: u16,
}

/// That the lines are those of a full grouping, whichever.
pub fn check(table: &Table, lanes: usize, lines: &str) -> Outcome {
    let groups = read_back(lines, lanes)?;
    each_job_once(table, &groups)?;
    let jobs = Jobs::of(table);
    for group in &groups {
        let found = (&group.jobs, jobs.is_group(lanes, &group.jobs));
        same("a group", found, (&group.jobs, true))?;
        let depth = |layout: &u16| depth(&table.parents, *layout);
        let deepest = jobs.common(&group.jobs).into_iter().max_by_key(depth);
        same("layout", Some(group.layout), deepest)?;
    }
    in_running_order(table, &groups)
}

fn each_job_once(table: &Table, groups: &[Printed]) -> Outcome {
    let members = groups.iter().flat_map(|group| group.jobs.iter().copied());
    let mut members: Vec<usize> = members.collect();
    members.sort();
    let all: Vec<usize> = (0..table.jobs()).collect();
    same("jobs in groups", members, all)
}

/// The jobs of each line, and the first jobs of the lines.
fn in_running_order(table: &Table, groups: &[Printed]) -> Outcome {
    let mut places = vec![0; table.jobs()];
    for (place, job) in running_order(table).into_iter().enumerate() {
        places[job] = place;
    }
    let rising = |jobs: Vec<usize>| {
        let rises = jobs.windows(2).all(|two| places[two[0]] < places[two[1]]);
        same("in running order", (&jobs, rises), (&jobs, true))
    };
    for group in groups {
        rising(group.jobs.clone())?;
    }
    rising(groups.iter().map(|group| group.jobs[0]).collect())
}

/// The groups that the lines say, if they are well formed and the last one counts them.
fn read_back(lines: &str, lanes: usize) -> Result<Vec<Printed>, String> {
    let mut lines: Vec<&str> = lines.split_inclusive('\n').collect();
    let last = lines.pop().unwrap_or_default();
    same("last line", last, &format!("1F{:04X}\n", lines.len()))?;
    lines.iter().map(|line| read_group(line, lanes)).collect()
}

fn read_group(line: &str, lanes: usize) -> Result<Printed, String> {
    let field = |at: usize| {
        let digits = line.get(2 + 4 * at..6 + 4 * at).unwrap_or_default();
        u16::from_str_radix(digits, 16).map_err(|error| format!("{line:?}: {error}"))
    };
    let jobs: Vec<u16> = (0..lanes).map(field).collect::<Result<_, _>>()?;
    let layout = field(lanes)?;
    // Kind, digits and length are right if the line is what these numbers are written as.
    let digits: String = jobs.iter().map(|job| format!("{job:04X}")).collect();
    same("line", line, &format!("13{digits}{layout:04X}\n"))?;
    let jobs = jobs.into_iter().map(usize::from).collect();
    Ok(Printed { jobs, layout })
}
