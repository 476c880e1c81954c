//! The sweep turn by turn (document 01, "The shelf and its cells"; 2026-05, a shelf for each window):
//! whose turn it is, what the turn asks for, whom it finds, and why each of the other jobs does not do.
//! The plan of this implementation is made without it and compared with it.

use super::paths::{deepest_shared, depth_of_highest, highest, is_bare, own_paths};
use super::plan::{asks_nobody, running_order, with_totals, Plan};
use super::shelf::Shelf;
use super::tree::{settled, Settled};
use super::Table;
use std::collections::BTreeMap;

/// One turn of the sweep.
#[derive(Clone, Debug, PartialEq, Eq)]
pub struct Turn {
    pub place: usize,
    pub job: usize,
    /// The job's highest layout; a bare job has none.
    pub highest: Option<u16>,
    /// The depth of that layout: the sweep has reached the bottoms that are as deep or deeper. It is
    /// 0 for a bare job.
    pub depth: usize,
    /// The jobs whose bottoms are reached, by number.
    pub reached: Vec<usize>,
    pub event: Event,
    /// The passes that are made when the turn is over.
    pub made: usize,
    /// The pairs in front of the cut after this place.
    pub in_front: usize,
}

#[derive(Clone, Debug, PartialEq, Eq)]
pub enum Event {
    /// A solo job runs alone.
    Solo,
    /// A bare job runs alone: no pair prints on its one layout.
    Bare,
    /// An earlier job has taken this one.
    TakenBy(usize),
    Lookup(Lookup),
}

#[derive(Clone, Debug, PartialEq, Eq)]
pub struct Lookup {
    /// First and last leaf of the job's highest layout, and the first and last slot there on the shelf
    /// of its window.
    pub leaves: (usize, usize),
    pub slots: (usize, usize),
    pub visits: u32,
    /// The partner, and the layout that both print on.
    pub found: Option<(usize, u16)>,
    /// What the lookup says of each other job, by number.
    pub others: Vec<(usize, Verdict)>,
}

/// What a lookup says of another job. The first that applies, in this order.
#[derive(Clone, Copy, Debug, PartialEq, Eq)]
pub enum Verdict {
    Solo,
    Bare,
    /// It is in this window, and the asking job in another.
    OtherWindow(u8),
    TakenBy(usize),
    HadItsTurn,
    /// The depth of its bottom, which the sweep has not reached.
    NotReached(usize),
    /// The first leaf of its bottom, which lies outside the span.
    Outside(usize),
    Found,
    /// It would do as well, but stands at a later place.
    Later(usize),
}

/// The turns of a table that is not refused, by place.
pub fn turns(table: &Table) -> Vec<Turn> {
    let mut sweep = Sweep {
        table,
        tree: settled(&table.parents),
        order: running_order(table),
        shelves: BTreeMap::new(),
        was_reached: vec![false; table.jobs()],
        taken_by: vec![None; table.jobs()],
        partners: vec![None; table.jobs()],
        made: 0,
    };
    for window in table.windows_used() {
        let shelf = sweep.empty_shelf(window);
        sweep.shelves.insert(window, shelf);
    }
    (0..table.jobs()).map(|place| sweep.turn(place)).collect()
}

/// The plan that the turns make.
pub fn plan_of_turns(table: &Table, turns: &[Turn]) -> Plan {
    let mut partners = vec![None; table.jobs()];
    let mut visits = 0;
    for turn in turns {
        let Event::Lookup(lookup) = &turn.event else {
            continue;
        };
        visits += lookup.visits;
        if let Some((other, _)) = lookup.found {
            partners[turn.job] = Some(other);
            partners[other] = Some(turn.job);
        }
    }
    with_totals(table, partners, visits)
}

/// First and last leaf.
type Span = (usize, usize);

struct Sweep<'a> {
    table: &'a Table,
    tree: Settled,
    order: Vec<usize>,
    /// By window.
    shelves: BTreeMap<u8, Shelf>,
    /// By job: whether it was put on its shelf, the earlier job that took it, and its partner whichever
    /// is earlier.
    was_reached: Vec<bool>,
    taken_by: Vec<Option<usize>>,
    partners: Vec<Option<usize>>,
    made: usize,
}

impl Sweep<'_> {
    /// The shelf of a window before anything is put on it.
    fn empty_shelf(&self, window: u8) -> Shelf {
        let jobs = self.order.iter().copied();
        let own = jobs.filter(|&job| self.table.windows[job] == window);
        Shelf::new(own.map(|job| (job, self.leaf(job))))
    }

    fn shelf_of(&mut self, job: usize) -> &mut Shelf {
        let shelf = self.shelves.get_mut(&self.table.windows[job]);
        shelf.expect("a window with a job has a shelf")
    }

    fn turn(&mut self, place: usize) -> Turn {
        let job = self.order[place];
        let event = self.event(place, job);
        if !matches!(event, Event::TakenBy(_)) {
            self.made += 1;
        }
        Turn {
            place,
            job,
            highest: highest(self.table, job),
            depth: depth_of_highest(self.table, job),
            reached: self.reached(job),
            event,
            made: self.made,
            in_front: self.pairs_in_front(place + 1),
        }
    }

    fn event(&mut self, place: usize, job: usize) -> Event {
        if self.table.solo(job) {
            return Event::Solo;
        }
        let Some(asked) = highest(self.table, job) else {
            return Event::Bare;
        };
        if let Some(earlier) = self.taken_by[job] {
            return Event::TakenBy(earlier);
        }
        self.put_reached(depth_of_highest(self.table, job));
        self.shelf_of(job).take(job);
        let lookup = self.lookup(place, asked);
        if let Some((other, _)) = lookup.found {
            self.shelf_of(other).take(other);
            self.taken_by[other] = Some(job);
            self.partners[other] = Some(job);
            self.partners[job] = Some(other);
        }
        Event::Lookup(lookup)
    }

    /// Puts the jobs whose bottoms are at a depth or deeper on the shelves of their windows; never those
    /// that run alone in any case.
    fn put_reached(&mut self, depth: usize) {
        for (place, job) in self.order.clone().into_iter().enumerate() {
            let reached = depth <= self.depth_of_bottom(job) && !asks_nobody(self.table, job);
            if reached && !std::mem::replace(&mut self.was_reached[job], true) {
                self.shelf_of(job).put(job, place);
            }
        }
    }

    /// The lookup of the job at a place, which asks for the span of its highest layout on the shelf of
    /// its window. Its own slot is among those asked for.
    fn lookup(&mut self, place: usize, asked: u16) -> Lookup {
        let job = self.order[place];
        let leaves = self.span(asked);
        let shelf = self.shelf_of(job);
        let slots = shelf.slots_of(leaves);
        let answer = shelf.lookup(&slots);
        let found = answer.place.map(|place| self.order[place]);
        let others = (0..self.table.jobs()).filter(|&other| other != job);
        let verdict = |other| (other, self.verdict(place, leaves, other, found));
        Lookup {
            leaves,
            slots: (slots.start, slots.end - 1),
            visits: answer.visits,
            found: found.and_then(|other| Some((other, self.printed(job, other)?))),
            others: others.map(verdict).collect(),
        }
    }

    fn verdict(&self, place: usize, leaves: Span, other: usize, found: Option<usize>) -> Verdict {
        match self.hindrance(place, leaves, other) {
            Some(hindrance) => hindrance,
            None if found == Some(other) => Verdict::Found,
            None => Verdict::Later(self.place(other)),
        }
    }

    /// Why a job does not do at a turn.
    fn hindrance(&self, place: usize, (first, last): Span, other: usize) -> Option<Verdict> {
        let (leaf, depth) = (self.leaf(other), self.depth_of_bottom(other));
        if self.table.solo(other) {
            return Some(Verdict::Solo);
        }
        if is_bare(self.table, other) {
            return Some(Verdict::Bare);
        }
        if !self.table.same_window(self.order[place], other) {
            return Some(Verdict::OtherWindow(self.table.windows[other]));
        }
        if let Some(earlier) = self.taken_by[other] {
            return Some(Verdict::TakenBy(earlier));
        }
        if self.place(other) <= place {
            return Some(Verdict::HadItsTurn);
        }
        if depth < depth_of_highest(self.table, self.order[place]) {
            return Some(Verdict::NotReached(depth));
        }
        (leaf < first || last < leaf).then_some(Verdict::Outside(leaf))
    }

    fn printed(&self, job: usize, other: usize) -> Option<u16> {
        deepest_shared(self.table, job, &own_paths(self.table)[other])
    }

    fn reached(&self, job: usize) -> Vec<usize> {
        let depth = depth_of_highest(self.table, job);
        let is_reached = |other: &usize| depth <= self.depth_of_bottom(*other);
        (0..self.table.jobs()).filter(is_reached).collect()
    }

    /// Pairs with both places below a cut.
    fn pairs_in_front(&self, cut: usize) -> usize {
        let front = &self.order[..cut];
        let paired =
            |job: &&usize| self.partners[**job].is_some_and(|other| front.contains(&other));
        front.iter().filter(paired).count() / 2
    }

    /// First and last leaf of a layout.
    fn span(&self, layout: u16) -> Span {
        let leaf = |leaves: &[u16]| usize::from(leaves[usize::from(layout)]);
        (leaf(&self.tree.firsts), leaf(&self.tree.lasts))
    }

    fn leaf(&self, job: usize) -> usize {
        usize::from(self.tree.firsts[usize::from(self.table.bottoms[job])])
    }

    fn depth_of_bottom(&self, job: usize) -> usize {
        usize::from(self.tree.depths[usize::from(self.table.bottoms[job])])
    }

    fn place(&self, job: usize) -> usize {
        let place = self.order.iter().position(|&other| other == job);
        place.expect("every job has its place")
    }
}
