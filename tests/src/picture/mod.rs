//! A picture of a table and its plan: one SVG that stands alone. The plan is the product's; depths,
//! leaves and order are those of the second implementation, and where the two differ nothing is
//! drawn.

pub mod answer;
pub mod chips;
pub mod legend;
mod many;
pub mod markup;
pub mod order;
pub mod planned;
mod refused;
pub mod shapes;
pub mod sheet;
pub mod style;
mod tracks;
pub mod tree;

use crate::reference::Refusal;
use answer::Answer;
use markup::Element;
use planned::Planned;
use shapes::Panel;
use sheet::Sheet;

/// The most jobs and the most layouts of which the tree is drawn: beyond, the numbers would be too
/// small to read on a page.
pub const JOBS_DRAWN: usize = 40;
pub const LAYOUTS_DRAWN: usize = 40;

/// From the tree to the running order.
const GAP: i32 = 56;

/// The width up to which the two always stand side by side.
const WIDE: i32 = 1600;

/// What "barest" means, where no legend says it.
const BAREST: &str = "Barest: the highest layout that does for both jobs of a pass, where that is not the layout printed.";

/// What to draw beside the plan.
#[derive(Clone, Default)]
pub struct Options {
    /// What the table is called.
    pub name: String,
    /// A cut of the running order.
    pub cut: Option<usize>,
    pub maker: Maker,
}

/// Whose plan it is.
#[derive(Clone, Default)]
pub enum Maker {
    #[default]
    Product,
    /// One of the wrong planners, by its name.
    Wrong(String),
    Rival,
}

/// The picture of a product's answer, or why there is none.
pub fn picture(bytes: &[u8], answer: &Answer, options: &Options) -> Result<Element, String> {
    match answer {
        Answer::Refused(refusal) => Ok(refused_picture(bytes, *refusal, options)),
        Answer::Planned(planned) => planned_picture(planned, options),
    }
}

fn refused_picture(bytes: &[u8], refusal: Refusal, options: &Options) -> Element {
    let Refusal { number, place } = refusal;
    let said = vec![
        format!("Line {place}: {}.", refused::words(refusal)),
        format!("The product prints 1E{number:02X}{place:04X}."),
    ];
    let mut sheet = Sheet::new(&refused_title(options), said);
    let panel = refused::draw(bytes, refusal, sheet.corner());
    sheet.add(vec![panel], 0);
    sheet.finish()
}

/// The picture of a planned table.
pub fn planned_picture(planned: &Planned, options: &Options) -> Result<Element, String> {
    refuse_cut_beyond(planned, options)?;
    match is_legible(planned) {
        true => Ok(whole_picture(planned, options)),
        false => Ok(passes_alone(planned, options)),
    }
}

/// A cut stands before the first job, between two, or after the last.
pub fn refuse_cut_beyond(planned: &Planned, options: &Options) -> Result<(), String> {
    let jobs = planned.order.len();
    match options.cut {
        Some(cut) if cut > jobs => Err(format!("a cut of {jobs} jobs is at most {jobs}")),
        _ => Ok(()),
    }
}

/// Whether the tree is drawn.
pub fn is_legible(planned: &Planned) -> bool {
    planned.order.len() <= JOBS_DRAWN && planned.table.layouts() <= LAYOUTS_DRAWN
}

fn whole_picture(planned: &Planned, options: &Options) -> Element {
    let mut said = vec![totals(planned)];
    said.extend(warning(options));
    let mut sheet = Sheet::new(&title(options), said);
    let corner = sheet.corner();
    let tree = tree::draw(planned, corner);
    let order = order::draw(planned, corner, options.cut);
    if is_wide(&tree, &order) {
        sheet.add(vec![tree], 0);
        let below = order::draw(planned, sheet.corner(), options.cut);
        sheet.add(vec![below], 0);
    } else {
        let beside = corner.shifted(tree.width + GAP, 0);
        sheet.add(vec![tree, order::draw(planned, beside, options.cut)], GAP);
    }
    add_legend(&mut sheet, planned, true);
    sheet.finish()
}

/// Whether two panels are set one below the other: side by side they would be too wide to read and
/// leave much of the sheet empty.
fn is_wide(tree: &Panel, order: &Panel) -> bool {
    let width = tree.width + GAP + order.width;
    width > WIDE && width > 2 * tree.height.max(order.height)
}

fn passes_alone(planned: &Planned, options: &Options) -> Element {
    let mut said = vec![
        totals(planned),
        format!("The passes alone: the tree is drawn for at most {JOBS_DRAWN} jobs and {LAYOUTS_DRAWN} layouts."),
    ];
    said.extend(warning(options));
    said.extend(planned.has_barer().then(|| BAREST.to_string()));
    said.extend(options.cut.map(|cut| {
        format!(
            "In front of cut {cut}: {}; passes not wholly in front are faint.",
            counted(planned.pairs_in_front(cut), "pair")
        )
    }));
    let mut sheet = Sheet::new(&title(options), said);
    let panel = many::draw(planned, sheet.corner(), options.cut);
    sheet.add(vec![panel], 0);
    add_legend(&mut sheet, planned, false);
    sheet.finish()
}

/// That nobody takes another's plan for the product's.
fn warning(options: &Options) -> Option<String> {
    let maker = match &options.maker {
        Maker::Product => return None,
        Maker::Wrong(name) => name,
        Maker::Rival => "a rival's",
    };
    Some(format!("Not the product's plan: {maker}."))
}

pub fn refused_title(options: &Options) -> String {
    format!("Refused: {}", options.name)
}

pub fn title(options: &Options) -> String {
    let plan = match options.maker {
        Maker::Product => "Plan",
        Maker::Wrong(_) => "A wrong plan",
        Maker::Rival => "A rival plan",
    };
    format!("{plan} of {}", options.name)
}

fn add_legend(sheet: &mut Sheet, planned: &Planned, with_tree: bool) {
    let entries = legend::entries(planned, with_tree);
    let panel = legend::draw(&entries, sheet.corner(), sheet.width());
    sheet.add(vec![panel], 0);
}

/// The table and its plan in numbers.
pub fn totals(planned: &Planned) -> String {
    let totals = planned.plan.totals;
    format!(
        "{} and {}: {} passes, of them {} and {} alone.",
        counted(planned.table.layouts(), "layout"),
        counted(planned.order.len(), "job"),
        planned.passes.len(),
        counted(usize::from(totals.pairs), "pair"),
        totals.singles,
    )
}

/// A count with its noun.
pub fn counted(count: usize, noun: &str) -> String {
    let plural = if count == 1 { "" } else { "s" };
    format!("{count} {noun}{plural}")
}
