//! The shelf of a window as document 01 describes it ("The shelf and its cells"; 2026-05: one for each
//! window, over the slots of its own jobs): a segment tree, its nodes the cells, that holds places by
//! slot. A lookup goes from the topmost cell down and counts the cells that it visits. The sweep asks
//! it; the plan of this implementation is made without.

use std::ops::Range;

pub struct Shelf {
    /// The window's jobs by slot, and the first leaf of each one's bottom.
    slots: Vec<(usize, usize)>,
    topmost: Cell,
}

/// What a lookup finds, the smallest place, and how many cells it visits.
#[derive(Clone, Copy, Debug, PartialEq, Eq)]
pub struct Answer {
    pub place: Option<usize>,
    pub visits: u32,
}

impl Shelf {
    /// An empty shelf for jobs with their first leaves, given by place.
    pub fn new(by_place: impl Iterator<Item = (usize, usize)>) -> Shelf {
        let mut slots: Vec<(usize, usize)> = by_place.collect();
        slots.sort_by_key(|&(_, leaf)| leaf);
        let width = slots.len().max(1).next_power_of_two();
        Shelf {
            slots,
            topmost: Cell::new(0..width),
        }
    }

    /// The place of a job at its slot.
    pub fn put(&mut self, job: usize, place: usize) {
        let slot = self.slot(job);
        self.topmost.set(slot, Some(place));
    }

    pub fn take(&mut self, job: usize) {
        let slot = self.slot(job);
        self.topmost.set(slot, None);
    }

    /// The smallest place on a span of slots.
    pub fn lookup(&self, asked: &Range<usize>) -> Answer {
        self.topmost.lookup(asked)
    }

    /// The slots whose first leaves lie in a span, given as first and last leaf.
    pub fn slots_of(&self, (first, last): (usize, usize)) -> Range<usize> {
        let before = |end: usize| self.slots.partition_point(|&(_, leaf)| leaf < end);
        before(first)..before(last + 1)
    }

    fn slot(&self, job: usize) -> usize {
        let slot = self.slots.iter().position(|&(other, _)| other == job);
        slot.expect("a job has its slot on the shelf of its window")
    }
}

/// A cell covers slots. One that is wider than a slot has two halves below it.
struct Cell {
    slots: Range<usize>,
    smallest: Option<usize>,
    halves: Option<Box<[Cell; 2]>>,
}

impl Cell {
    fn new(slots: Range<usize>) -> Cell {
        let middle = (slots.start + slots.end) / 2;
        let halves = || [slots.start..middle, middle..slots.end].map(Cell::new);
        Cell {
            halves: (slots.len() > 1).then(|| Box::new(halves())),
            smallest: None,
            slots,
        }
    }

    fn set(&mut self, slot: usize, place: Option<usize>) {
        if !self.slots.contains(&slot) {
            return;
        }
        self.smallest = match &mut self.halves {
            None => place,
            Some(halves) => {
                halves.iter_mut().for_each(|half| half.set(slot, place));
                halves.iter().filter_map(|half| half.smallest).min()
            }
        };
    }

    /// A cell wholly inside or wholly outside ends the lookup there; otherwise both halves are visited.
    /// An empty span ends at the topmost cell.
    fn lookup(&self, asked: &Range<usize>) -> Answer {
        let Range { start, end } = self.slots;
        let inside = asked.start <= start && end <= asked.end;
        let outside = asked.is_empty() || asked.end <= start || end <= asked.start;
        let (Some(halves), false) = (&self.halves, inside || outside) else {
            let place = self.smallest.filter(|_| inside);
            return Answer { place, visits: 1 };
        };
        let [left, right] = halves.each_ref().map(|half| half.lookup(asked));
        Answer {
            place: left.place.into_iter().chain(right.place).min(),
            visits: 1 + left.visits + right.visits,
        }
    }
}
