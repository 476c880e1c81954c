//! Tables with a full grouping planted in them (2026-07): the jobs of each group have paths through one
//! layout other than 0 and are in one window; then the jobs are mixed. And such tables spoilt, so that no
//! full grouping is left.

use super::tables::{parents, Reach, Shape, SHAPES};
use super::windows::{any_spread, windows, Spread};
use super::Generator;
use crate::reference::groups::{LEAST_LANES, MOST_LANES};
use crate::reference::tree::ancestors;
use crate::reference::{Table, JOB_LIMIT, LAYOUT_LIMIT, WINDOW_LIMIT};

/// What is planted.
#[derive(Clone, Copy, Debug)]
pub struct Planting {
    pub shape: Shape,
    /// How far the paths reach above the layout of their group, and below it.
    pub reach: Reach,
    /// At least two, where there are groups.
    pub layouts: usize,
    pub groups: usize,
    pub lanes: usize,
    /// The windows of the groups.
    pub windows: Spread,
}

impl Planting {
    /// As many groups on as many layouts as a table can have.
    pub fn full(shape: Shape, lanes: usize, windows: Spread) -> Planting {
        Planting {
            shape,
            reach: Reach::Any,
            layouts: LAYOUT_LIMIT,
            groups: JOB_LIMIT / lanes,
            lanes,
            windows,
        }
    }
}

/// A table with this grouping.
pub fn planted(planting: Planting, generator: &mut Generator) -> Table {
    let mut table = Table {
        parents: parents(planting.shape, planting.layouts, generator),
        ..Table::default()
    };
    let below = children(&table.parents);
    for window in windows(planting.windows, planting.groups, generator) {
        let layout = generator.between(1, planting.layouts - 1) as u16;
        let above = ancestors(&table.parents, layout);
        for _ in 0..planting.lanes {
            let top = above[steps(planting.reach, above.len() - 1, generator)];
            let bottom = layout_below(&below, layout, planting.reach, generator);
            table.add_job_in(window, top, bottom, 0);
        }
    }
    mix_jobs(&mut table, generator);
    table
}

/// The layouts directly below each.
fn children(parents: &[u16]) -> Vec<Vec<u16>> {
    let mut below = vec![Vec::new(); parents.len()];
    for (layout, &parent) in parents.iter().enumerate().skip(1) {
        below[usize::from(parent)].push(layout as u16);
    }
    below
}

/// So many steps of those that there are.
fn steps(reach: Reach, most: usize, generator: &mut Generator) -> usize {
    match reach {
        Reach::Any => generator.between(0, most),
        Reach::Short => generator.between(0, most.min(2)),
        Reach::Whole => most,
        Reach::Point => 0,
    }
}

/// A layout at or below this one: the whole way down to some leaf, and of this way a part.
fn layout_below(below: &[Vec<u16>], layout: u16, reach: Reach, generator: &mut Generator) -> u16 {
    let mut way = vec![layout];
    let mut at = layout;
    while !below[usize::from(at)].is_empty() {
        at = generator.choice(&below[usize::from(at)]);
        way.push(at);
    }
    way[steps(reach, way.len() - 1, generator)]
}

/// The jobs in any order.
fn mix_jobs(table: &mut Table, generator: &mut Generator) {
    for job in 1..table.jobs() {
        let other = generator.between(0, job);
        table.tops.swap(job, other);
        table.bottoms.swap(job, other);
        table.marks.swap(job, other);
        table.windows.swap(job, other);
    }
}

/// What is done to one job, after which no full grouping is left: the jobs, or those of two windows, are
/// no multiple of the lanes any more, or the job can be in no group.
#[derive(Clone, Copy, Debug)]
pub enum Spoilt {
    TakenAway,
    InAnotherWindow,
    Solo,
    Bare,
}

pub const SPOILT: [Spoilt; 4] = [
    Spoilt::TakenAway,
    Spoilt::InAnotherWindow,
    Spoilt::Solo,
    Spoilt::Bare,
];

/// Spoils a planted table that has jobs.
pub fn spoil(table: &mut Table, spoilt: Spoilt, generator: &mut Generator) {
    let job = generator.below(table.jobs());
    match spoilt {
        Spoilt::TakenAway => {
            table.tops.remove(job);
            table.bottoms.remove(job);
            table.marks.remove(job);
            table.windows.remove(job);
        }
        Spoilt::InAnotherWindow => {
            let turn = generator.between(1, WINDOW_LIMIT - 1) as u8;
            table.windows[job] = (table.windows[job] + turn) % WINDOW_LIMIT as u8;
        }
        // No line is that of a solo job in another window.
        Spoilt::Solo => (table.marks[job], table.windows[job]) = (1, 0),
        Spoilt::Bare => (table.tops[job], table.bottoms[job]) = (0, 0),
    }
}

/// As many groups as there can be, for each number of lanes and tree, spread over windows by turns.
pub fn full_plantings() -> Vec<Planting> {
    let spreads = [
        Spread::One(0),
        Spread::InTurn(3),
        Spread::First(WINDOW_LIMIT),
        Spread::Uneven(5),
    ];
    let lanes = (LEAST_LANES..=MOST_LANES).enumerate();
    lanes
        .flat_map(|(turn, lanes)| {
            let shapes = SHAPES.into_iter().enumerate();
            shapes.map(move |(at, shape)| {
                Planting::full(shape, lanes, spreads[(turn + at) % spreads.len()])
            })
        })
        .collect()
}

/// A planting of any kind, mostly small, for any known number of lanes, with at least one group.
pub fn any_planting(generator: &mut Generator) -> Planting {
    let lanes = generator.between(LEAST_LANES, MOST_LANES);
    let (layouts, groups) = match generator.below(64) {
        0 => (LAYOUT_LIMIT, 400 / lanes),
        1..=3 => (200, 300 / lanes),
        4..=15 => (40, 20),
        16..=39 => (12, 5),
        _ => (5, 2),
    };
    Planting {
        shape: generator.choice(&SHAPES),
        reach: any_reach(generator),
        layouts: generator.between(2, layouts),
        groups: generator.between(1, groups),
        lanes,
        windows: any_spread(generator),
    }
}

fn any_reach(generator: &mut Generator) -> Reach {
    generator.choice(&[
        Reach::Any,
        Reach::Any,
        Reach::Short,
        Reach::Whole,
        Reach::Point,
    ])
}

pub fn any_planted(generator: &mut Generator) -> Table {
    let planting = any_planting(generator);
    planted(planting, generator)
}

/// A planting so small that every grouping can be tried.
pub fn small_planting(generator: &mut Generator) -> Planting {
    let (lanes, groups) = generator.choice(&[(2, 3), (2, 4), (3, 2), (3, 3), (4, 2), (8, 1)]);
    Planting {
        shape: generator.choice(&SHAPES),
        reach: any_reach(generator),
        layouts: generator.between(2, 7),
        groups: generator.between(1, groups),
        lanes,
        windows: Spread::First(generator.between(1, 2)),
    }
}

/// Lengths beside which a run goes in smaller arrays, as in `borders`, each for some numbers of lanes.
pub fn planted_lengths() -> Vec<(usize, usize)> {
    let lengths = [1_407, 1_408, 1_409, 11_263, 11_264, 11_265];
    let of_length = |length| [2, 3, 8].map(|lanes| (length, lanes));
    lengths.map(of_length).concat()
}

/// A planted table of so many bytes, its jobs all in window 0. A line of a layout has 7 bytes, each other
/// one 11.
pub fn planted_of_length(length: usize, lanes: usize) -> Table {
    let bytes = |layouts: &usize| length - 11 - 7 * layouts;
    let layouts = (2..).find(|layouts| bytes(layouts).is_multiple_of(11 * lanes));
    let layouts = layouts.expect("7 has no divisor in common with 11 or these lanes");
    let planting = Planting {
        shape: SHAPES[lanes % SHAPES.len()],
        reach: Reach::Any,
        layouts,
        groups: bytes(&layouts) / (11 * lanes),
        lanes,
        windows: Spread::One(0),
    };
    planted(planting, &mut Generator::new(length as u64))
}
