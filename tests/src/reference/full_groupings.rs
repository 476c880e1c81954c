//! Full groupings in the words of 2026-07, and the search for any of them: each job is in one group, and a
//! group has as many jobs as there are lanes, all in one window, none of them solo, with a layout other
//! than 0 on all their paths. Neither the running order nor the rule, nor sharing two by two, nor the
//! number of jobs comes into it.

use super::groups::Group;
use super::paths::{whole_paths, Path, BARE_SHEET};
use super::Table;

/// The jobs of a table with their paths.
pub struct Jobs<'a> {
    table: &'a Table,
    paths: Vec<Path>,
}

impl Jobs<'_> {
    pub fn of(table: &Table) -> Jobs<'_> {
        let paths = whole_paths(table);
        Jobs { table, paths }
    }

    /// Whether these different jobs are a group.
    pub fn is_group(&self, lanes: usize, jobs: &[usize]) -> bool {
        let solo = jobs.iter().any(|&job| self.table.solo(job));
        let one_window = jobs.iter().all(|&job| self.table.same_window(jobs[0], job));
        jobs.len() == lanes && !solo && one_window && !self.common(jobs).is_empty()
    }

    /// The layouts other than 0 on all paths of these jobs, in the order of their numbers.
    pub fn common(&self, jobs: &[usize]) -> Vec<u16> {
        let on_all = |layout: u16| jobs.iter().all(|&job| self.paths[job].contains(layout));
        let layouts = 0..self.table.layouts() as u16;
        layouts
            .filter(|&layout| layout != BARE_SHEET && on_all(layout))
            .collect()
    }

    /// Some group has the first job, and the rest are grouped without its jobs.
    fn divided(&self, lanes: usize, jobs: &[usize]) -> Option<Vec<Group>> {
        let Some((&first, others)) = jobs.split_first() else {
            return Some(Vec::new());
        };
        let mut found = None;
        self.each_group(lanes, first, others, &mut |group, rest| {
            if found.is_none() {
                let groups = self.divided(lanes, rest);
                found = groups.map(|groups| [vec![group.to_vec()], groups].concat());
            }
        });
        found
    }

    /// The first job is in no group, or in some.
    fn most_among(&self, lanes: usize, jobs: &[usize]) -> usize {
        let Some((&first, others)) = jobs.split_first() else {
            return 0;
        };
        let mut most = self.most_among(lanes, others);
        self.each_group(lanes, first, others, &mut |_, rest| {
            most = most.max(1 + self.most_among(lanes, rest));
        });
        most
    }

    /// Hands over every group of a job with some of the others, and the others that remain.
    fn each_group(&self, lanes: usize, job: usize, others: &[usize], hand_over: HandOver) {
        let mut groups_only = |jobs: &[usize], rest: &[usize]| {
            if self.is_group(lanes, jobs) {
                hand_over(jobs, rest);
            }
        };
        each_choice(
            others,
            lanes - 1,
            &mut vec![job],
            &mut Vec::new(),
            &mut groups_only,
        );
    }
}

/// What is done with jobs chosen, and with those that remain.
type HandOver<'a> = &'a mut dyn FnMut(&[usize], &[usize]);

/// Any full grouping of a table's jobs.
pub fn full_grouping(table: &Table, lanes: usize) -> Option<Vec<Group>> {
    Jobs::of(table).divided(lanes, &all_jobs(table))
}

/// The most groups that can be made of a table's jobs, whatever remains.
pub fn most_groups(table: &Table, lanes: usize) -> usize {
    Jobs::of(table).most_among(lanes, &all_jobs(table))
}

fn all_jobs(table: &Table) -> Vec<usize> {
    (0..table.jobs()).collect()
}

/// Hands over the jobs chosen so far with every choice of so many more, and those left so far with all
/// others.
fn each_choice(
    jobs: &[usize],
    count: usize,
    chosen: &mut Vec<usize>,
    left: &mut Vec<usize>,
    hand_over: HandOver,
) {
    if count == 0 {
        let rest = [left.as_slice(), jobs].concat();
        return hand_over(chosen, &rest);
    }
    let Some((&job, others)) = jobs.split_first() else {
        return;
    };
    chosen.push(job);
    each_choice(others, count - 1, chosen, left, hand_over);
    chosen.pop();
    left.push(job);
    each_choice(others, count, chosen, left, hand_over);
    left.pop();
}
