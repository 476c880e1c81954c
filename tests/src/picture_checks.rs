//! What a picture must hold, counted in the picture itself against the second implementation: each
//! layout, job, place and pass once, each bar over the boxes of its path and no other, both ends of what
//! a pair shares, the windows where some job is in another than window 0, the pairs in front of the cut,
//! no pair on layout 0, or the line that a refusal names.

use crate::made::tables::Size;
use crate::made::Generator;
use crate::picture::{JOBS_DRAWN, LAYOUTS_DRAWN};
use crate::reference::paths::{highest, whole_paths};
use crate::reference::plan::{plan_of, running_order};
use crate::reference::rivals::{pairs_before_cuts, pairs_of};
use crate::reference::run::run;
use crate::reference::table::read;
use crate::reference::{Refusal, Table};
use crate::report::{same, Outcome};
use crate::well_formed::{elements, Seen};

/// What a picture of a plan must hold.
pub struct Expected {
    pub table: Table,
    /// The jobs by place.
    pub order: Vec<usize>,
    pub passes: Vec<(Jobs, Ends)>,
}

/// The jobs of a pass, and of a pair the highest and the deepest layout that it shares.
pub type Jobs = Vec<usize>;
pub type Ends = Option<(usize, usize)>;

/// That a picture is well formed and holds what it must of the product's answer. `legible` says
/// whether the tree is drawn.
pub fn check_picture(picture: &str, bytes: &[u8], cut: Option<usize>, legible: bool) -> Outcome {
    let drawing = Drawing::read(picture)?;
    match read(bytes) {
        Err(refusal) => drawing.shows_refusal(bytes, refusal),
        Ok(table) => {
            let expected = Expected {
                order: running_order(&table),
                passes: passes_of_lines(&run(bytes)),
                table,
            };
            drawing.holds_passes(&expected)?;
            drawing.tells_windows(&expected.table)?;
            if legible {
                drawing.holds_tree_and_order(&expected)?;
                drawing.tags_bars(&expected.table)?;
                drawing.tells_columns(&expected.table)?;
                drawing.shows_cut(&expected.table, cut)?;
            }
            drawing.dims_behind_cut(&expected, cut)
        }
    }
}

/// That a picture is well formed and holds a plan, whoever made it.
pub fn check_plan(picture: &str, expected: &Expected) -> Outcome {
    let drawing = Drawing::read(picture)?;
    drawing.holds_passes(expected)?;
    drawing.holds_tree_and_order(expected)
}

/// A size of which the tree is drawn, or one beyond.
pub fn size_to_draw(generator: &mut Generator) -> Size {
    Size {
        layouts: generator.between(1, LAYOUTS_DRAWN + 1),
        jobs: generator.between(0, JOBS_DRAWN + 1),
    }
}

struct Drawing {
    elements: Vec<Seen>,
}

/// A rectangle by its ends.
#[derive(Clone, Copy, Debug)]
struct Extent {
    left: i32,
    right: i32,
    top: i32,
    bottom: i32,
}

impl Extent {
    fn meets(self, other: Extent) -> bool {
        self.left < other.right
            && other.left < self.right
            && self.top < other.bottom
            && other.top < self.bottom
    }
}

impl Drawing {
    fn read(picture: &str) -> Result<Drawing, String> {
        let drawing = Drawing {
            elements: elements(picture)?,
        };
        drawing.names_patterns()?;
        drawing.stays_on_its_sheet()?;
        Ok(drawing)
    }

    fn of_class<'a>(&'a self, class: &'a str) -> impl Iterator<Item = usize> + 'a {
        (0..self.elements.len()).filter(move |&at| self.elements[at].has_class(class))
    }

    fn number(&self, at: usize, attribute: &str) -> Option<usize> {
        self.elements[at].attribute(attribute)?.parse().ok()
    }

    /// The numbers that the elements of a class carry, in the picture's order.
    fn numbers(&self, class: &str, attribute: &str) -> Vec<Option<usize>> {
        let number = |at| self.number(at, attribute);
        self.of_class(class).map(number).collect()
    }

    fn is_within(&self, mut at: usize, holder: usize) -> bool {
        while let Some(parent) = self.elements[at].parent {
            if parent == holder {
                return true;
            }
            at = parent;
        }
        false
    }

    /// What stands in an element: the elements follow it in the list.
    fn held_by(&self, holder: usize) -> impl Iterator<Item = usize> + '_ {
        let after = holder + 1..self.elements.len();
        after.take_while(move |&at| self.is_within(at, holder))
    }

    fn jobs_in(&self, holder: usize) -> Vec<usize> {
        let job = |at| self.number(at, "data-job");
        self.held_by(holder).filter_map(job).collect()
    }

    fn extent(&self, at: usize) -> Result<Extent, String> {
        let number = |name: &str| -> Result<i32, String> {
            let value = self.elements[at].attribute(name).unwrap_or("none");
            value.parse().map_err(|_| format!("{name} is {value}"))
        };
        let (left, top) = (number("x")?, number("y")?);
        Ok(Extent {
            left,
            top,
            right: left + number("width")?,
            bottom: top + number("height")?,
        })
    }

    /// The rectangle of a class in a group.
    fn shape(&self, group: usize, class: &str) -> Result<Extent, String> {
        let drawn = self
            .held_by(group)
            .find(|&at| self.elements[at].has_class(class));
        self.extent(drawn.ok_or_else(|| format!("no {class}"))?)
    }

    /// Each pattern that the style names stands in the picture once.
    fn names_patterns(&self) -> Outcome {
        let style = self.elements.iter().find(|element| element.name == "style");
        let text = &style.ok_or("no style")?.text;
        for part in text.split("url(#").skip(1) {
            let name = part.split(')').next().unwrap_or("");
            let named = |element: &&Seen| element.attribute("id") == Some(name);
            same(name, self.elements.iter().filter(named).count(), 1)?;
        }
        Ok(())
    }

    /// No rectangle leaves the sheet, and no text begins outside it.
    fn stays_on_its_sheet(&self) -> Outcome {
        let sheet = self.extent(self.of_class("paper").next().ok_or("no sheet")?)?;
        let view = format!("0 0 {} {}", sheet.right, sheet.bottom);
        same(
            "viewBox",
            self.elements[0].attribute("viewBox"),
            Some(view.as_str()),
        )?;
        for at in self.of_class("body").chain(self.of_class("box")) {
            let extent = self.extent(at)?;
            let within = extent.left > 0
                && extent.top > 0
                && extent.right < sheet.right
                && extent.bottom < sheet.bottom;
            same("within the sheet", within, true)?;
        }
        for at in 0..self.elements.len() {
            if self.elements[at].name == "text" {
                let end = (self.number(at, "x"), self.number(at, "y"));
                let (Some(x), Some(y)) = end else {
                    return Err("a text without its place".to_string());
                };
                let within = x < sheet.right as usize && y < sheet.bottom as usize;
                same("text within the sheet", within, true)?;
            }
        }
        Ok(())
    }

    /// Each job once, and the passes expected.
    fn holds_passes(&self, expected: &Expected) -> Outcome {
        let Expected { table, passes, .. } = expected;
        let mut jobs = self.numbers("job", "data-job");
        jobs.sort();
        same("jobs", jobs, (0..table.jobs()).map(Some).collect())?;
        let drawn: Vec<usize> = self.of_class("pass").collect();
        same("passes", drawn.len(), passes.len())?;
        for (number, &(ref jobs, ends)) in (1..).zip(passes) {
            let named = |at: &&usize| self.number(**at, "data-pass") == Some(number);
            let at = *drawn
                .iter()
                .find(named)
                .ok_or(format!("no pass {number}"))?;
            same("jobs of a pass", &self.jobs_in(at), jobs)?;
            self.tells_ends(at, ends)?;
            self.tells_words(at, ends, window_shown(table, jobs[0]))?;
            self.tells_lanes(table, at, jobs.len())?;
        }
        Ok(())
    }

    /// A pair's layouts, of which neither is layout 0.
    fn tells_ends(&self, pass: usize, ends: Ends) -> Outcome {
        let drawn = (
            self.number(pass, "data-upper"),
            self.number(pass, "data-layout"),
        );
        let Some((upper, printed)) = ends else {
            return same("layouts of a single", drawn, (None, None));
        };
        same("layouts of a pair", drawn, (Some(upper), Some(printed)))?;
        same("layout 0", upper == 0 || printed == 0, false)
    }

    /// A pair says the layout that it prints on, the barest that does where that is another, and a pass
    /// its window where windows are shown.
    fn tells_words(&self, pass: usize, ends: Ends, window: Option<u8>) -> Outcome {
        let layouts = ends.map(|(upper, printed)| match upper == printed {
            true => format!("layout {printed}"),
            false => format!("layout {printed}, barest {upper}"),
        });
        let window = window.map(|window| format!("window {window}"));
        let words: Vec<String> = layouts.into_iter().chain(window).collect();
        let held = self.held_by(pass).map(|at| &self.elements[at]);
        let texts = held.filter(|held| held.name == "text");
        let said: Vec<&str> = texts
            .map(|held| held.text.as_str())
            .filter(|text| text.contains(char::is_alphabetic))
            .collect();
        same("said of a pass", said.join(""), words.join(", "))
    }

    /// Each job carries its window where windows are shown, and none where they are not.
    fn tells_windows(&self, table: &Table) -> Outcome {
        for at in 0..self.elements.len() {
            if let Some(job) = self.number(at, "data-job") {
                let window = self.number(at, "data-window");
                let expected = window_shown(table, job).map(usize::from);
                same("window of a job", window, expected)?;
            }
        }
        Ok(())
    }

    /// Each bar has a tag with its window on it where windows are shown, which touches no other, and the
    /// legend explains it.
    fn tags_bars(&self, table: &Table) -> Outcome {
        let mut tags = Vec::new();
        for at in self.of_class("job") {
            let job = self.number(at, "data-job").ok_or("a bar without a job")?;
            let expected = window_shown(table, job).map(|window| format!("w{window}"));
            let mut held = self.held_by(at);
            let tag = held.find(|&held| self.elements[held].has_class("tag"));
            let words = tag.map(|tag| self.elements[tag].text.trim().to_string());
            same("tag of a bar", words, expected)?;
            if let Some(tag) = tag {
                tags.push(self.shape(tag, "plate")?);
            }
        }
        for (at, tag) in tags.iter().enumerate() {
            let touched = tags[at + 1..].iter().filter(|other| tag.meets(**other));
            same("tags touched", touched.count(), 0)?;
        }
        let explained = self.elements[0].text.contains(WINDOW_LEGEND);
        same("windows in the legend", explained, !tags.is_empty())
    }

    /// Each place says place, path, highest layout and depth, and last its window where windows are shown.
    fn tells_columns(&self, table: &Table) -> Outcome {
        for at in self.of_class("place") {
            let window = self
                .jobs_in(at)
                .first()
                .and_then(|&job| window_shown(table, job));
            let is_column = |&held: &usize| {
                self.elements[held].name == "text" && self.elements[held].parent == Some(at)
            };
            let columns: Vec<usize> = self.held_by(at).filter(is_column).collect();
            let fifth = columns.get(4).map(|&at| self.elements[at].text.clone());
            same("columns", columns.len(), 4 + window.iter().count())?;
            same(
                "window of a place",
                fifth,
                window.map(|window| window.to_string()),
            )?;
        }
        Ok(())
    }

    /// Each job of a pass is drawn as what it is.
    fn tells_lanes(&self, table: &Table, pass: usize, jobs: usize) -> Outcome {
        let classes = ["lane-1", "lane-2", "single", "solo"];
        let lanes = self
            .held_by(pass)
            .filter(|&at| self.number(at, "data-job").is_some());
        for (lane, at) in lanes.enumerate() {
            let solo = self
                .number(at, "data-job")
                .is_some_and(|job| table.solo(job));
            let expected = match (jobs, lane, solo) {
                (2, 0, false) => "lane-1",
                (2, 1, false) => "lane-2",
                (1, 0, false) => "single",
                (1, 0, true) => "solo",
                _ => return Err("a solo job in a pair".to_string()),
            };
            let drawn = classes
                .iter()
                .filter(|class| self.elements[at].has_class(class));
            same("lane", drawn.copied().collect(), vec![expected])?;
        }
        Ok(())
    }

    /// Each layout and each place once, the job of each place, and the paths.
    fn holds_tree_and_order(&self, expected: &Expected) -> Outcome {
        let Expected { table, order, .. } = expected;
        let layouts = self.numbers("layout", "data-layout");
        same("layouts", layouts, (0..table.layouts()).map(Some).collect())?;
        let places = self.numbers("place", "data-place");
        same("places", places, (0..order.len()).map(Some).collect())?;
        for (at, &job) in self.of_class("place").zip(order) {
            same("job of a place", self.jobs_in(at), vec![job])?;
            let expected = highest(table, job).map(usize::from);
            same("highest layout", self.number(at, "data-highest"), expected)?;
        }
        self.sets_layout_0_apart()?;
        self.holds_paths(expected)
    }

    /// The box of layout 0 is drawn as one that no pair prints on, and no other box is.
    fn sets_layout_0_apart(&self) -> Outcome {
        for at in self.of_class("layout") {
            let apart = self
                .held_by(at)
                .filter(|&held| self.elements[held].has_class("bare-sheet"));
            let expected = usize::from(self.number(at, "data-layout") == Some(0));
            same("boxes set apart", apart.count(), expected)?;
        }
        Ok(())
    }

    /// A bar meets the boxes of its path and no other, and no other bar; a pair is tied in the box
    /// of its layout.
    fn holds_paths(&self, expected: &Expected) -> Outcome {
        let table = &expected.table;
        let boxes = self.extents("layout", "box")?;
        let bars = self.extents("job", "body")?;
        for (job, path) in whole_paths(table).iter().enumerate() {
            for (layout, &area) in boxes.iter().enumerate() {
                let met = format!("bar {job} over layout {layout}");
                same(&met, bars[job].meets(area), path.contains(layout as u16))?;
            }
            let others = bars[job + 1..].iter();
            same(
                "bars apart",
                others.filter(|&&other| bars[job].meets(other)).count(),
                0,
            )?;
        }
        self.ties_pairs(expected, &boxes)
    }

    fn extents(&self, class: &str, shape: &str) -> Result<Vec<Extent>, String> {
        self.of_class(class)
            .map(|at| self.shape(at, shape))
            .collect()
    }

    fn ties_pairs(&self, expected: &Expected, boxes: &[Extent]) -> Outcome {
        let passes = (1..).zip(&expected.passes);
        let ends: Vec<(usize, (usize, usize))> = passes
            .filter_map(|(number, (_, ends))| Some((number, (*ends)?)))
            .collect();
        let printed = ends.iter().map(|&(number, (_, printed))| (number, printed));
        self.ties("print", printed.collect(), boxes)?;
        let barer = ends
            .iter()
            .filter(|(_, (upper, printed))| upper != printed)
            .map(|&(number, (upper, _))| (number, upper));
        self.ties("barest", barer.collect(), boxes)
    }

    /// The ties of a class are these, given as pass and layout, each in the box of its layout.
    fn ties(&self, class: &str, expected: Vec<(usize, usize)>, boxes: &[Extent]) -> Outcome {
        let number = |at: usize, name: &str| self.number(at, name).unwrap_or(usize::MAX);
        let tie = |at| (number(at, "data-pass"), number(at, "data-layout"));
        let drawn: Vec<(usize, usize)> = self.of_class(class).map(tie).collect();
        same(class, &drawn, &expected)?;
        for (at, (_, layout)) in self.of_class(class).zip(drawn) {
            let within = |dot: &usize| {
                let coordinate = |name| self.number(*dot, name).map(|value| value as i32);
                let (x, y) = (coordinate("cx"), coordinate("cy"));
                let area = boxes[layout];
                x.is_some_and(|x| area.left < x && x < area.right)
                    && y.is_some_and(|y| area.top < y && y < area.bottom)
            };
            let circle = |at: &usize| self.elements[*at].name == "circle";
            let ends = self.held_by(at).filter(circle).filter(within).count();
            same("ends of a tie in its layout", ends, 2)?;
        }
        Ok(())
    }

    fn shows_cut(&self, table: &Table, cut: Option<usize>) -> Outcome {
        let pairs = pairs_before_cuts(table, &pairs_of(&plan_of(table).partners));
        let expected: Vec<Option<usize>> = cut.map(|cut| Some(pairs[cut])).into_iter().collect();
        same(
            "pairs in front",
            self.numbers("cut-at", "data-pairs"),
            expected,
        )
    }

    /// Faint are the passes with a job at or behind the cut.
    fn dims_behind_cut(&self, expected: &Expected, cut: Option<usize>) -> Outcome {
        let order = &expected.order;
        let behind = &order[cut.unwrap_or(order.len())..];
        for at in self.of_class("pass") {
            let expected = self.jobs_in(at).iter().any(|job| behind.contains(job));
            same("faint", self.elements[at].has_class("behind"), expected)?;
        }
        Ok(())
    }

    /// The line named, with its bytes spelled out.
    fn shows_refusal(&self, bytes: &[u8], refusal: Refusal) -> Outcome {
        let place = usize::from(refusal.place);
        same(
            "line",
            self.numbers("named", "data-line"),
            vec![Some(place)],
        )?;
        let at = self.of_class("named").next().ok_or("no line")?;
        let spelled = match bytes.split_inclusive(|&byte| byte == b'\n').nth(place - 1) {
            Some(line) => spelled(line),
            None => "without its end line".to_string(),
        };
        let text = &self.elements[at].text;
        if !text.contains(&spelled) {
            return Err(format!("the line named has {text:?}, not {spelled:?}"));
        }
        let whole = &self.elements[0].text;
        let printed = String::from_utf8_lossy(&run(bytes)).trim_end().to_string();
        same("refusal", whole.contains(&printed), true)
    }
}

/// What the legend says of the tags.
const WINDOW_LEGEND: &str = "w1: the job is in window 1";

/// The window of a job, if some job is in another than window 0.
fn window_shown(table: &Table, job: usize) -> Option<u8> {
    let any = table.windows.iter().any(|&window| window != 0);
    any.then(|| table.windows[job])
}

/// The first bytes of a line: printing ones as they are, others as two digits in brackets.
fn spelled(line: &[u8]) -> String {
    let content = line.strip_suffix(b"\n").unwrap_or(line);
    let spelled = |&byte: &u8| match byte {
        0x21..=0x7E => char::from(byte).to_string(),
        _ => format!("‹{byte:02X}›"),
    };
    content.iter().take(40).map(spelled).collect()
}

/// The passes of a plan's lines, as their jobs and both ends of what a pair shares.
fn passes_of_lines(lines: &[u8]) -> Vec<(Jobs, Ends)> {
    let text = String::from_utf8_lossy(lines);
    let field = |line: &str, at: usize| usize::from_str_radix(&line[at..at + 4], 16).ok();
    text.lines()
        .filter_map(|line| match &line[..2] {
            "11" => {
                let jobs = vec![field(line, 2)?, field(line, 6)?];
                Some((jobs, Some((field(line, 10)?, field(line, 14)?))))
            }
            "12" => Some((vec![field(line, 2)?], None)),
            _ => None,
        })
        .collect()
}
