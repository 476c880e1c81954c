//! Ways to spread the jobs of a table over printing windows (2026-05).

use super::Generator;
use crate::reference::{Table, WINDOW_LIMIT};

#[derive(Clone, Copy, Debug, PartialEq, Eq)]
pub enum Spread {
    /// All jobs in one window.
    One(u8),
    /// So many windows, the jobs one after the other in each of them in turn.
    InTurn(usize),
    /// Each job in any of the first windows, so many of them.
    First(usize),
    /// So many windows, whichever they are, and each job in any of them.
    Any(usize),
    /// The same, but nearly all jobs in one of them.
    Uneven(usize),
}

const WINDOWS: u8 = WINDOW_LIMIT as u8;

/// All jobs in each of the windows, and in every number of them, by turns and in any.
pub fn every_spread() -> Vec<Spread> {
    let one = (0..WINDOWS).map(Spread::One);
    let kinds = [Spread::InTurn, Spread::First, Spread::Any, Spread::Uneven];
    let several = (1..=WINDOW_LIMIT).flat_map(|windows| kinds.map(|kind| kind(windows)));
    one.chain(several).collect()
}

/// A spread of any kind; in half of the cases all jobs are in window 0.
pub fn any_spread(generator: &mut Generator) -> Spread {
    let window = generator.below(WINDOW_LIMIT) as u8;
    let windows = generator.between(1, WINDOW_LIMIT);
    let few = generator.between(2, 3);
    match generator.below(10) {
        0..=4 => Spread::One(0),
        5 => Spread::One(window),
        6 => Spread::InTurn(windows),
        7 => Spread::Any(windows),
        8 => Spread::Any(few),
        _ => Spread::Uneven(windows),
    }
}

/// The window of each of so many jobs.
pub fn windows(spread: Spread, jobs: usize, generator: &mut Generator) -> Vec<u8> {
    let jobs = 0..jobs;
    match spread {
        Spread::One(window) => jobs.map(|_| window).collect(),
        Spread::InTurn(windows) => jobs.map(|job| (job % windows) as u8).collect(),
        Spread::First(windows) => jobs.map(|_| generator.below(windows) as u8).collect(),
        Spread::Any(windows) => {
            let chosen = chosen(windows, generator);
            jobs.map(|_| generator.choice(&chosen)).collect()
        }
        Spread::Uneven(windows) => {
            let chosen = chosen(windows, generator);
            let any = |generator: &mut Generator| match generator.one_in(8) {
                true => generator.choice(&chosen),
                false => chosen[0],
            };
            jobs.map(|_| any(generator)).collect()
        }
    }
}

/// So many windows in any order.
fn chosen(count: usize, generator: &mut Generator) -> Vec<u8> {
    let mut windows: Vec<u8> = (0..WINDOWS).collect();
    for place in 0..count {
        let other = generator.between(place, WINDOW_LIMIT - 1);
        windows.swap(place, other);
    }
    windows.truncate(count);
    windows
}

/// Spreads the jobs that lines can name a window for: a solo job's line means window 0.
pub fn spread(table: &mut Table, spread: Spread, generator: &mut Generator) {
    table.windows = windows(spread, table.jobs(), generator);
    for (window, &mark) in table.windows.iter_mut().zip(&table.marks) {
        if mark != 0 {
            *window = 0;
        }
    }
}

/// Gives solo jobs windows of their own, as numbers lent to *Plan* may have them.
pub fn spread_solo_jobs(table: &mut Table, spread: Spread, generator: &mut Generator) {
    let windows = windows(spread, table.jobs(), generator);
    let jobs = table.windows.iter_mut().zip(&table.marks);
    for ((window, &mark), other) in jobs.zip(windows) {
        if mark != 0 {
            *window = other;
        }
    }
}
