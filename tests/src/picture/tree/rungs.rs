//! The pairs in the tree: a rung from bar to bar in the box of the layout that both print on, and a
//! dashed one in the box of the barest that does where that is another. Each stands in a track of its
//! row where it touches no other.

use super::columns::Columns;
use super::{head, Rows, RUNG};
use crate::picture::chips::{badge, dashed_badge, BADGE};
use crate::picture::markup::Element;
use crate::picture::planned::{Pass, Planned};
use crate::picture::shapes::{circle, group, line, Point};
use crate::picture::tracks::{count, tracks};

pub struct Rungs<'a> {
    planned: &'a Planned,
    rungs: Vec<Rung>,
}

struct Rung {
    pass: Pass,
    partner: usize,
    layout: u16,
    kind: Kind,
    track: usize,
}

/// Which end of what a pair shares a rung stands in.
#[derive(Clone, Copy, PartialEq, Eq)]
enum Kind {
    Printed,
    Barest,
}

impl Rungs<'_> {
    pub fn new<'a>(planned: &'a Planned, columns: &Columns) -> Rungs<'a> {
        let mut rungs: Vec<Rung> = planned.passes.iter().flat_map(rungs_of).collect();
        let rows = 1 + planned
            .tree
            .depths
            .iter()
            .max()
            .map_or(0, |&depth| usize::from(depth));
        for depth in 0..rows {
            let in_row = |rung: &&mut Rung| planned.depth(rung.layout) == depth;
            let mut row: Vec<&mut Rung> = rungs.iter_mut().filter(in_row).collect();
            let ends: Vec<(i32, i32)> = row.iter().map(|rung| rung.ends(columns)).collect();
            for (rung, track) in row.iter_mut().zip(tracks(&ends)) {
                rung.track = track;
            }
        }
        Rungs { planned, rungs }
    }

    /// How many rungs stand one above the other in a row.
    pub fn in_row(&self, depth: usize) -> i32 {
        let in_row = |rung: &&Rung| self.planned.depth(rung.layout) == depth;
        let used: Vec<usize> = self
            .rungs
            .iter()
            .filter(in_row)
            .map(|rung| rung.track)
            .collect();
        count(&used)
    }

    pub fn lines(&self, columns: &Columns, rows: &Rows) -> Element {
        let drawn = self.rungs.iter().map(|rung| {
            let (from, to) = self.points(rung, columns, rows);
            let class = match rung.kind {
                Kind::Printed => "rung",
                Kind::Barest => "rung dashed",
            };
            line(class, from, to).with("data-pass", rung.pass.number)
        });
        group("rungs").holding_all(drawn)
    }

    /// The number of the pass at its opener, and a dot at the partner.
    pub fn ends(&self, columns: &Columns, rows: &Rows) -> Element {
        let drawn = self.rungs.iter().map(|rung| {
            let (from, to) = self.points(rung, columns, rows);
            let number = rung.pass.number;
            let (class, dot, badge) = match rung.kind {
                Kind::Printed => ("print", "dot", badge(number, from)),
                Kind::Barest => ("barest", "dot hollow", dashed_badge(number, from)),
            };
            group(class)
                .with("data-pass", number)
                .with("data-layout", rung.layout)
                .holding(circle(dot, to, 5))
                .holding_all(badge)
        });
        group("prints").holding_all(drawn)
    }

    fn points(&self, rung: &Rung, columns: &Columns, rows: &Rows) -> (Point, Point) {
        let row = rows.tops[self.planned.depth(rung.layout)];
        let y = row + head(self.planned) + rung.track as i32 * RUNG + RUNG / 2;
        let point = |job: usize| Point {
            x: columns.bars[job],
            y,
        };
        (point(rung.pass.opener), point(rung.partner))
    }
}

impl Rung {
    /// Where it begins and ends from left to right, the badge included.
    fn ends(&self, columns: &Columns) -> (i32, i32) {
        let (one, other) = (columns.bars[self.pass.opener], columns.bars[self.partner]);
        (one.min(other) - BADGE, one.max(other) + BADGE)
    }
}

/// The rung of a pair, and that of its barest layout where it is another.
fn rungs_of(pass: &Pass) -> Vec<Rung> {
    let Some(partner) = pass.partner else {
        return Vec::new();
    };
    let rung = |layout: u16, kind: Kind| Rung {
        pass: *pass,
        partner: partner.job,
        layout,
        kind,
        track: 0,
    };
    let barest = partner.barest().map(|layout| rung(layout, Kind::Barest));
    let printed = rung(partner.printed, Kind::Printed);
    std::iter::once(printed).chain(barest).collect()
}
