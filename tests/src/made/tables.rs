//! Whole tables: trees of several shapes, and jobs on downward paths in them, solo or in any window.

use super::windows::{any_spread, spread, windows, Spread};
use super::Generator;
use crate::reference::tree::ancestors;
use crate::reference::{Table, ABSENT, JOB_LIMIT, LAYOUT_LIMIT};

/// How a tree is grown.
#[derive(Clone, Copy, Debug)]
pub enum Shape {
    Random,
    Chain,
    Star,
    Binary,
    /// A chain with one leaf at each of its layouts.
    Caterpillar,
    /// Every parent is one of the four layouts before.
    Deep,
}

pub const SHAPES: [Shape; 6] = [
    Shape::Random,
    Shape::Chain,
    Shape::Star,
    Shape::Binary,
    Shape::Caterpillar,
    Shape::Deep,
];

/// Which path a job has above its bottom.
#[derive(Clone, Copy, Debug)]
pub enum Reach {
    Any,
    /// At most two layouts above the bottom.
    Short,
    /// Up to layout 0.
    Whole,
    /// The bottom alone.
    Point,
}

const REACHES: [Reach; 6] = [
    Reach::Any,
    Reach::Any,
    Reach::Any,
    Reach::Short,
    Reach::Whole,
    Reach::Point,
];

/// How large a table is made.
#[derive(Clone, Copy, Debug)]
pub struct Size {
    pub layouts: usize,
    pub jobs: usize,
}

/// A size: mostly small, where most faults show, and now and then up to the limits.
pub fn size(generator: &mut Generator) -> Size {
    let (layouts, jobs) = match generator.below(64) {
        0 => (LAYOUT_LIMIT, JOB_LIMIT),
        1..=3 => (200, 400),
        4..=15 => (40, 80),
        16..=39 => (12, 16),
        _ => (5, 6),
    };
    Size {
        layouts: generator.between(1, layouts),
        jobs: generator.between(0, jobs),
    }
}

pub fn table(generator: &mut Generator) -> Table {
    let size = size(generator);
    table_of_size(size, generator)
}

pub fn table_of_size(size: Size, generator: &mut Generator) -> Table {
    let shape = generator.choice(&SHAPES);
    let reach = generator.choice(&REACHES);
    let solo_in = generator.choice(&[1, 2, 8, 64, 4096, usize::MAX, usize::MAX, usize::MAX]);
    let mut table = table_of_shape(shape, reach, size, generator);
    for mark in &mut table.marks {
        *mark = u8::from(generator.one_in(solo_in));
    }
    raise_tops(&mut table, generator);
    let windows = any_spread(generator);
    spread(&mut table, windows, generator);
    table
}

/// A table of each shape, with some solo jobs and jobs with top 0, its jobs spread over windows.
pub fn tables_spread(windows: Spread) -> impl Iterator<Item = Table> {
    SHAPES.into_iter().map(move |shape| {
        let mut generator = Generator::new(1);
        let size = Size {
            layouts: 24,
            jobs: 70,
        };
        let mut table = table_of_shape(shape, Reach::Any, size, &mut generator);
        for mark in table.marks.iter_mut().step_by(7) {
            *mark = 1;
        }
        raise_tops(&mut table, &mut generator);
        spread(&mut table, windows, &mut generator);
        table
    })
}

/// At most eight jobs, so that every rival can be tried, in at most three windows, solo ones too.
pub fn table_for_search(generator: &mut Generator) -> Table {
    let size = Size {
        layouts: generator.between(1, 9),
        jobs: generator.between(2, 8),
    };
    let mut table = table_of_size(size, generator);
    let few = Spread::Any(generator.between(1, 3));
    table.windows = windows(few, size.jobs, generator);
    table
}

/// Four to eight jobs that nothing but their paths keeps apart, on a small and deep tree: most have many
/// partners to choose from, so there are many rivals.
pub fn table_with_rivals(generator: &mut Generator) -> Table {
    let size = Size {
        layouts: generator.between(2, 6),
        jobs: generator.between(4, 8),
    };
    let shape = generator.choice(&[Shape::Chain, Shape::Caterpillar, Shape::Deep]);
    let reach = generator.choice(&[Reach::Any, Reach::Short]);
    table_of_shape(shape, reach, size, generator)
}

/// Gives some of the jobs top 0, and some top and bottom 0: in a large tree few are made so by
/// themselves.
fn raise_tops(table: &mut Table, generator: &mut Generator) {
    let top_0_in = generator.choice(&[2, 4, 16, usize::MAX, usize::MAX]);
    let bare_in = generator.choice(&[2, 8, 32, usize::MAX, usize::MAX]);
    for job in 0..table.jobs() {
        let bare = generator.one_in(bare_in);
        if bare {
            table.bottoms[job] = 0;
        }
        if bare || generator.one_in(top_0_in) {
            table.tops[job] = 0;
        }
    }
}

/// A table without solo jobs, all in window 0.
pub fn table_of_shape(shape: Shape, reach: Reach, size: Size, generator: &mut Generator) -> Table {
    let mut table = Table {
        parents: parents(shape, size.layouts, generator),
        ..Table::default()
    };
    for _ in 0..size.jobs {
        let (top, bottom) = path(&table.parents, reach, generator);
        table.add_job(top, bottom, 0);
    }
    table
}

/// A right parent list.
pub fn parents(shape: Shape, layouts: usize, generator: &mut Generator) -> Vec<u16> {
    (0..layouts)
        .map(|layout| parent(shape, layout, generator))
        .collect()
}

/// A right parent list of any shape.
pub fn any_parents(layouts: usize, generator: &mut Generator) -> Vec<u16> {
    let shape = generator.choice(&SHAPES);
    parents(shape, layouts, generator)
}

fn parent(shape: Shape, layout: usize, generator: &mut Generator) -> u16 {
    if layout == 0 {
        return ABSENT;
    }
    let parent = match shape {
        Shape::Random => generator.below(layout),
        Shape::Chain => layout - 1,
        Shape::Star => 0,
        Shape::Binary => (layout - 1) / 2,
        Shape::Caterpillar => layout - 1 - (layout - 1) % 2,
        Shape::Deep => generator.between(layout.saturating_sub(4), layout - 1),
    };
    parent as u16
}

/// Top and bottom of a downward path.
pub fn path(parents: &[u16], reach: Reach, generator: &mut Generator) -> (u16, u16) {
    let bottom = generator.below(parents.len()) as u16;
    let above = ancestors(parents, bottom);
    let highest = above.len() - 1;
    let steps = match reach {
        Reach::Any => generator.between(0, highest),
        Reach::Short => generator.between(0, highest.min(2)),
        Reach::Whole => highest,
        Reach::Point => 0,
    };
    (above[steps], bottom)
}
