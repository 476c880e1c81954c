//! All small tables, one after the other: every tree of so many layouts, and on it every list of so many
//! jobs, or every choice.

use crate::reference::tree::ancestors;
use crate::reference::{Table, ABSENT};

/// A window and a solo mark.
type Kind = (u8, u8);

/// Which lists of jobs.
#[derive(Clone, Copy, PartialEq, Eq)]
enum Lists {
    Every,
    /// Each choice of jobs in one order alone, and in the opposite one.
    Rising,
    Falling,
}

const PLAIN: &[Kind] = &[(0, 0)];
/// Two windows, and a solo job.
const KINDS: &[Kind] = &[(0, 0), (5, 0), (0, 1)];

/// Every table of at most four layouts and four jobs, none solo, in one window.
pub fn few_jobs() -> impl Iterator<Item = Table> {
    let sizes = (1..=4).flat_map(|layouts| (0..=4).map(move |jobs| (layouts, jobs)));
    sizes.flat_map(|(layouts, jobs)| tables_of(layouts, jobs, PLAIN, Lists::Every))
}

/// Every table of at most three layouts and three jobs, and on two layouts four, in two windows or solo.
pub fn few_jobs_in_windows() -> impl Iterator<Item = Table> {
    let sizes = (1..=3).flat_map(|layouts| (1..=3).map(move |jobs| (layouts, jobs)));
    let sizes = sizes.chain([(1, 4), (2, 4)]);
    sizes.flat_map(|(layouts, jobs)| tables_of(layouts, jobs, KINDS, Lists::Every))
}

/// More jobs, up to nine on four layouts, in every choice, not in every order; with the lanes that are
/// tried.
pub fn more_jobs() -> impl Iterator<Item = (Table, &'static [usize])> {
    type Sweep = (u16, usize, &'static [Kind], Lists, &'static [usize]);
    const SWEEPS: [Sweep; 10] = [
        (4, 5, PLAIN, Lists::Rising, &[2, 3, 4]),
        (4, 6, PLAIN, Lists::Rising, &[2, 3, 4]),
        (4, 6, PLAIN, Lists::Falling, &[2, 3, 4]),
        (4, 7, PLAIN, Lists::Rising, &[3]),
        (4, 8, PLAIN, Lists::Rising, &[2, 4]),
        (4, 8, PLAIN, Lists::Falling, &[4]),
        (4, 9, PLAIN, Lists::Falling, &[3]),
        (3, 4, KINDS, Lists::Rising, &[2, 3, 4]),
        (3, 4, KINDS, Lists::Falling, &[2, 4]),
        (3, 6, &[(0, 0), (5, 0)], Lists::Rising, &[2, 3]),
    ];
    SWEEPS
        .into_iter()
        .flat_map(|(layouts, jobs, kinds, lists, lanes)| {
            tables_of(layouts, jobs, kinds, lists).map(move |table| (table, lanes))
        })
}

/// Every parent list of so many layouts.
pub fn parent_lists(layouts: u16) -> Vec<Vec<u16>> {
    let mut lists = vec![vec![ABSENT]];
    for layout in 1..layouts {
        lists = lists
            .iter()
            .flat_map(|list| (0..layout).map(|parent| [list.as_slice(), &[parent]].concat()))
            .collect();
    }
    lists
}

/// Every table of so many layouts and so many jobs, each of one of these kinds.
fn tables_of(
    layouts: u16,
    jobs: usize,
    kinds: &[Kind],
    lists: Lists,
) -> impl Iterator<Item = Table> + '_ {
    let trees = parent_lists(layouts).into_iter();
    trees.flat_map(move |parents| {
        let choices = every_job(&parents, kinds);
        let numbers = NumberLists::new(jobs, choices.len(), lists != Lists::Every);
        numbers.map(move |mut numbers| {
            if lists == Lists::Falling {
                numbers.reverse();
            }
            with_jobs(&parents, &choices, &numbers)
        })
    })
}

/// Top, bottom and kind.
type Choice = (u16, u16, Kind);

/// Each job that a tree allows.
fn every_job(parents: &[u16], kinds: &[Kind]) -> Vec<Choice> {
    let mut choices = Vec::new();
    for bottom in 0..parents.len() as u16 {
        for top in ancestors(parents, bottom) {
            choices.extend(kinds.iter().map(|&kind| (top, bottom, kind)));
        }
    }
    choices
}

fn with_jobs(parents: &[u16], choices: &[Choice], numbers: &[usize]) -> Table {
    let mut table = Table {
        parents: parents.to_vec(),
        ..Table::default()
    };
    for &number in numbers {
        let (top, bottom, (window, mark)) = choices[number];
        table.add_job_in(window, top, bottom, mark);
    }
    table
}

/// Every list of so many numbers below a limit, the last turning fastest; or those alone that never fall.
struct NumberLists {
    next: Option<Vec<usize>>,
    limit: usize,
    never_fall: bool,
}

impl NumberLists {
    fn new(length: usize, limit: usize, never_fall: bool) -> NumberLists {
        NumberLists {
            next: Some(vec![0; length]),
            limit,
            never_fall,
        }
    }

    /// The last number that can be greater is, and those behind it start again.
    fn after(&self, mut numbers: Vec<usize>) -> Option<Vec<usize>> {
        let at = numbers
            .iter()
            .rposition(|&number| number + 1 < self.limit)?;
        numbers[at] += 1;
        let least = if self.never_fall { numbers[at] } else { 0 };
        numbers[at + 1..].fill(least);
        Some(numbers)
    }
}

impl Iterator for NumberLists {
    type Item = Vec<usize>;

    fn next(&mut self) -> Option<Vec<usize>> {
        let numbers = self.next.take()?;
        self.next = self.after(numbers.clone());
        Some(numbers)
    }
}
