//! The running order as a numbered column, and beside it the passes: a pair at the row of its
//! earlier job, with an arc from the later one; jobs that run alone apart, at the right.

use super::chips::{badge, job_shape, BADGE, CHIP_HEIGHT};
use super::markup::{element, Element};
use super::planned::{Partner, Pass, Planned};
use super::shapes::{group, line, rectangle, text, text_width, Area, Panel, Point};
use super::tracks::{count, tracks};

const HEADING: i32 = 26;
const ROW: i32 = 28;
/// The room that a cut takes between two rows.
const CUT: i32 = 28;
const CHIP: i32 = 40;
/// The columns, from the left end of the panel.
const PLACE: i32 = 42;
const JOB: i32 = 66;
const PATH: i32 = 128;
const HIGHEST: i32 = 256;
const DEPTH: i32 = 320;
const WINDOW: i32 = 384;
const ARCS: i32 = 352;
/// The width of the column of windows, where they are shown, and of a window said of a job alone.
const WINDOW_COLUMN: i32 = 64;
const WINDOW_SAID: i32 = 84;
/// From arc to arc, and the room that arcs take at least.
const ARC: i32 = 10;
const LEAST_ARCS: i32 = 50;
/// A pass: its badge, two lanes and its layouts, with the room that these take at least.
const LANES: i32 = 18;
const LAYOUTS: i32 = 2 * CHIP + LANES + 14;
const LEAST_SAID: i32 = 86;
const ALONE: i32 = 70;
/// From the layouts of the passes to the jobs that run alone.
const GAP: i32 = 14;

/// The panel with its upper left corner at a point.
pub fn draw(planned: &Planned, at: Point, cut: Option<usize>) -> Panel {
    let column = Column {
        planned,
        at,
        cut,
        arcs: arc_tracks(planned),
    };
    let (width, height) = (column.right() - at.x, column.end() - at.y);
    let drawing = group("order")
        .holding(column.headings())
        .holding(column.leaders())
        .holding(column.arc_lines())
        .holding(column.places())
        .holding(column.passes())
        .holding_all(cut.map(|cut| column.cut_line(cut)));
    Panel {
        drawing,
        width,
        height,
    }
}

/// The tracks of the arcs, by pass; those of passes without an arc are 0.
fn arc_tracks(planned: &Planned) -> Vec<usize> {
    let rows = |pass: &Pass| {
        pass.partner
            .map(|partner| rows_of(planned, pass.opener, partner.job))
    };
    let paired: Vec<usize> = (0..planned.passes.len())
        .filter(|&at| planned.passes[at].partner.is_some())
        .collect();
    let intervals: Vec<(i32, i32)> = planned.passes.iter().filter_map(rows).collect();
    let mut all = vec![0; planned.passes.len()];
    for (at, track) in paired.into_iter().zip(tracks(&intervals)) {
        all[at] = track;
    }
    all
}

fn rows_of(planned: &Planned, opener: usize, other: usize) -> (i32, i32) {
    (planned.place(opener) as i32, planned.place(other) as i32)
}

struct Column<'a> {
    planned: &'a Planned,
    at: Point,
    cut: Option<usize>,
    arcs: Vec<usize>,
}

impl Column<'_> {
    /// Where a row stands: the middle of its height.
    fn row(&self, place: usize) -> i32 {
        let after_cut = self.cut.is_some_and(|cut| cut <= place);
        let shift = if after_cut { CUT } else { 0 };
        self.at.y + HEADING + place as i32 * ROW + ROW / 2 + shift
    }

    fn end(&self) -> i32 {
        let cut = if self.cut.is_some() { CUT } else { 0 };
        self.at.y + HEADING + self.planned.order.len() as i32 * ROW + cut
    }

    fn point(&self, right: i32, y: i32) -> Point {
        Point {
            x: self.at.x + right,
            y,
        }
    }

    /// A width that is taken only where windows are shown.
    fn if_windows(&self, width: i32) -> i32 {
        match self.planned.has_windows() {
            true => width,
            false => 0,
        }
    }

    /// The left end of the arcs, from that of the panel.
    fn arcs_from(&self) -> i32 {
        ARCS + self.if_windows(WINDOW_COLUMN)
    }

    /// The left end of the passes.
    fn pairs(&self) -> i32 {
        let arcs = (count(&self.arcs) + 2) * ARC;
        self.at.x + self.arcs_from() + arcs.max(LEAST_ARCS)
    }

    /// The left end of the jobs that run alone.
    fn alone(&self) -> i32 {
        let pairs = self.planned.passes.iter();
        let words = pairs
            .filter(|pass| pass.partner.is_some())
            .filter_map(|pass| self.planned.words(pass));
        let widths = words.map(|words| text_width(&words) + GAP);
        self.pairs() + LAYOUTS + widths.max().unwrap_or(0).max(LEAST_SAID)
    }

    fn right(&self) -> i32 {
        self.alone() + ALONE + self.if_windows(WINDOW_SAID)
    }

    fn headings(&self) -> Element {
        let y = self.at.y + 14;
        let heading = |class: &str, right: i32, words: &str| {
            text(&format!("heading {class}"), self.point(right, y), words)
        };
        group("headings")
            .holding(heading("right", PLACE, "place"))
            .holding(heading("middle", JOB + CHIP / 2, "job"))
            .holding(heading("", PATH, "top–bottom"))
            .holding(heading("middle", HIGHEST, "highest"))
            .holding(heading("middle", DEPTH, "depth"))
            .holding_all(
                self.planned
                    .has_windows()
                    .then(|| heading("middle", WINDOW, "window")),
            )
            .holding(heading(
                "",
                self.pairs() - self.at.x - BADGE,
                "pass: lanes, layout",
            ))
            .holding(heading("", self.alone() - self.at.x, "alone"))
    }

    /// Each place with its job, the ends of its path, its highest layout other than 0, the depth of
    /// that, which the order goes by, and the job's window where windows are shown.
    fn places(&self) -> Element {
        let rows = self.planned.order.iter().enumerate();
        group("places").holding_all(rows.map(|(place, &job)| self.place(place, job)))
    }

    fn place(&self, place: usize, job: usize) -> Element {
        let (row, table) = (self.row(place), &self.planned.table);
        let path = format!("{}–{}", table.tops[job], table.bottoms[job]);
        let highest = self.planned.highest(job);
        let highest = highest.map_or("none".to_string(), |layout| layout.to_string());
        let depth = self.planned.depth_of_highest(job).to_string();
        let said = |class: &str, right: i32, words: String| {
            text(
                &format!("number {class}"),
                self.point(right, row + 5),
                words,
            )
        };
        let whole = Area {
            x: self.at.x,
            y: row - ROW / 2,
            width: self.arcs_from() - 8,
            height: ROW,
        };
        let window = self.planned.window(job);
        group("place")
            .with("data-place", place)
            .with("data-highest", &highest)
            .holding(rectangle("row", whole))
            .holding(said("right faint", PLACE, place.to_string()))
            .holding(job_shape(self.planned, job, self.chip(JOB, row), "placed"))
            .holding(said("", PATH, path))
            .holding(said("middle", HIGHEST, highest))
            .holding(said("middle", DEPTH, depth))
            .holding_all(window.map(|window| said("middle", WINDOW, window.to_string())))
    }

    fn chip(&self, right: i32, row: i32) -> Area {
        Area {
            x: self.at.x + right,
            y: row - CHIP_HEIGHT / 2,
            width: CHIP,
            height: CHIP_HEIGHT,
        }
    }

    fn passes(&self) -> Element {
        let drawn = self.planned.passes.iter().map(|pass| self.pass(pass));
        group("passes").holding_all(drawn)
    }

    fn pass(&self, pass: &Pass) -> Element {
        let behind = self
            .cut
            .is_some_and(|cut| !self.planned.is_in_front(pass, cut));
        let mark = if behind { "pass behind" } else { "pass" };
        let marked = group(mark).with("data-pass", pass.number);
        match pass.partner {
            Some(partner) => self.pair(marked, pass, partner),
            None => self.single(marked, pass),
        }
    }

    /// Two lanes of the press side by side, the layout that both print on, the barest that does, and
    /// their window.
    fn pair(&self, marked: Element, pass: &Pass, partner: Partner) -> Element {
        let row = self.row(self.planned.place(pass.opener));
        let left = self.pairs() - self.at.x + LANES;
        let press = Area {
            x: self.at.x + left - 3,
            y: row - CHIP_HEIGHT / 2 - 3,
            width: 2 * CHIP + 10,
            height: CHIP_HEIGHT + 6,
        };
        let said = self.point(left - LANES + LAYOUTS, row + 5);
        let lane =
            |job: usize, right: i32| job_shape(self.planned, job, self.chip(right, row), "lane");
        marked
            .with("data-layout", partner.printed)
            .with("data-upper", partner.upper)
            .holding(rectangle("press", press))
            .holding_all(badge(pass.number, self.point(left - LANES, row)))
            .holding(lane(pass.opener, left))
            .holding(lane(partner.job, left + CHIP + 4))
            .holding_all(self.words(pass, said))
    }

    fn words(&self, pass: &Pass, at: Point) -> Option<Element> {
        let words = self.planned.words(pass);
        words.map(|words| text("said", at, words))
    }

    fn single(&self, marked: Element, pass: &Pass) -> Element {
        let row = self.row(self.planned.place(pass.opener));
        let left = self.alone() - self.at.x;
        let said = self.point(left + ALONE + 4, row + 5);
        marked
            .holding_all(badge(pass.number, self.point(left + BADGE, row)))
            .holding(job_shape(
                self.planned,
                pass.opener,
                self.chip(left + LANES + 6, row),
                "lane",
            ))
            .holding_all(self.words(pass, said))
    }

    /// From the jobs that run alone to their passes.
    fn leaders(&self) -> Element {
        let alone = self
            .planned
            .passes
            .iter()
            .filter(|pass| pass.partner.is_none());
        group("leaders").holding_all(alone.map(|pass| {
            let row = self.row(self.planned.place(pass.opener));
            let to = self.point(self.alone() - self.at.x - 4, row);
            line("leader", self.point(self.arcs_from(), row), to).with("data-pass", pass.number)
        }))
    }

    fn arc_lines(&self) -> Element {
        let passes = self.planned.passes.iter().zip(&self.arcs);
        group("arcs").holding_all(passes.filter_map(|(pass, &track)| {
            let arc = self.arc(pass.opener, pass.partner?.job, track);
            Some(arc.with("data-pass", pass.number))
        }))
    }

    /// From the later job to the row of the earlier one, and on to the pass.
    fn arc(&self, opener: usize, other: usize, track: usize) -> Element {
        let (upper, lower) = (
            self.row(self.planned.place(opener)),
            self.row(self.planned.place(other)),
        );
        let from = self.at.x + self.arcs_from();
        let turn = from + (track as i32 + 1) * ARC;
        let to = self.pairs() - BADGE;
        let path = format!("M{from},{lower} H{turn} V{upper} M{from},{upper} H{to}");
        element("path").class("arc").with("d", path)
    }

    fn cut_line(&self, cut: usize) -> Element {
        let y = self.at.y + HEADING + cut as i32 * ROW + CUT / 2;
        let pairs = self.planned.pairs_in_front(cut);
        let noun = if pairs == 1 { "pair" } else { "pairs" };
        let words = format!("cut {cut}: {pairs} {noun} in front");
        let right = self.pairs() - self.at.x;
        let end = self.point(right - BADGE, y);
        group("cut-at")
            .with("data-cut", cut)
            .with("data-pairs", pairs)
            .holding(line("cut", self.point(0, y), end))
            .holding(text("cut-said", self.point(right, y + 5), words))
    }
}
