//! What a page must hold: each turn of the sweep once, in words, against the second implementation.

pub mod bakehouse;
pub mod bare_sheet;
pub mod both_ends;
pub mod driving;
pub mod windows;

use crate::page::{page, DOCTYPE};
use crate::picture::answer::product_answer;
use crate::picture::{Options, JOBS_DRAWN, LAYOUTS_DRAWN};
use crate::reference::plan::{plan_of, running_order, Plan};
use crate::reference::sweep::{turns, Event, Turn};
use crate::reference::table::table_lines;
use crate::reference::{Table, ABSENT};
use crate::report::{same, Outcome};
use crate::well_formed::{elements, Seen};

/// The page of a table's bytes.
pub fn page_of(bytes: &[u8]) -> Result<String, String> {
    let options = Options {
        name: "a table".to_string(),
        ..Options::default()
    };
    page(bytes, &product_answer(bytes)?, &options)
}

/// The elements of a page that is well formed and needs no other file.
pub fn read_page(page: &str) -> Result<Vec<Seen>, String> {
    let elements = elements(page.strip_prefix(DOCTYPE).ok_or("no doctype")?)?;
    let is_reference = |element: &Seen| {
        let names = ["src", "href", "srcset", "data", "action"];
        let in_style = element.name == "style" && element.text.contains("@import");
        in_style || names.iter().any(|name| element.attribute(name).is_some())
    };
    let outside = page.replace("url(#", "").contains("url(");
    match outside || elements.iter().any(is_reference) {
        true => Err("the page names another file".to_string()),
        false => Ok(elements),
    }
}

/// The text of each turn, with one blank wherever there are some.
pub fn words_of_turns(page: &str) -> Result<Vec<String>, String> {
    let elements = read_page(page)?;
    let steps = elements.iter().filter(|element| element.has_class("step"));
    Ok(steps.map(|step| spaced(&step.text)).collect())
}

pub fn spaced(text: &str) -> String {
    text.split_whitespace().collect::<Vec<_>>().join(" ")
}

/// Each turn once, in order, with its event in words and a reason for each other job.
pub fn holds_turns(table: &Table) -> Outcome {
    let page = page_of(&table_lines(table).concat())?;
    let words = words_of_turns(&page)?;
    let order = running_order(table);
    if table.layouts() > LAYOUTS_DRAWN || table.jobs() > JOBS_DRAWN {
        return same("turns of a large table", words.len(), 0);
    }
    same("turns", words.len(), order.len())?;
    let plan = plan_of(table);
    for (turn, words) in turns(table).iter().zip(&words) {
        tells(turn, words, order.len())?;
        tells_window(table, turn, words)?;
        tells_pass(turn, words, &plan)?;
    }
    Ok(())
}

/// A turn's pass: the layout printed and, where it is another, the barest that does.
fn tells_pass(turn: &Turn, words: &str, plan: &Plan) -> Outcome {
    let (upper, printed) = (plan.uppers[turn.job], plan.printed[turn.job]);
    let pass = match plan.partners[turn.job] {
        ABSENT => format!(": job {} alone Cut ", turn.job),
        _ if upper == printed => format!(" on layout {printed} Cut "),
        _ => format!(" on layout {printed}; the barest layout that does is {upper} Cut "),
    };
    same(words, words.contains(&pass), true)
}

/// A turn's window, and that of the slots asked for, where some job is in another than window 0.
fn tells_window(table: &Table, turn: &Turn, words: &str) -> Outcome {
    let shown = table.windows.iter().any(|&window| window != 0);
    let window = table.windows[turn.job];
    let own = format!(", window {window}. Reached");
    same(words, words.contains(&own), shown)?;
    let asked = format!(" of window {window} Lookup visits");
    let asks = matches!(turn.event, Event::Lookup(_));
    same(words, words.contains(&asked), shown && asks)
}

/// A turn's words: whose it is, what happens, and with a lookup a reason for each other job.
fn tells(turn: &Turn, words: &str, jobs: usize) -> Outcome {
    let heading = format!("Turn {} of {jobs}: job {} ", turn.place + 1, turn.job);
    same(words, words.starts_with(&heading), true)?;
    let event = match &turn.event {
        Event::Solo => "none: solo, runs alone".to_string(),
        Event::Bare => "none: accepts layout 0 alone, on which no pair prints".to_string(),
        Event::TakenBy(job) => format!("none: taken by job {job} "),
        Event::Lookup(lookup) => format!("visits {} cell", lookup.visits),
    };
    same(words, words.contains(&event), true)?;
    let highest = match turn.highest {
        Some(layout) => format!(" highest layout {layout}"),
        None => " no highest layout".to_string(),
    };
    let said = ['.', ','].map(|end| words.contains(&format!("{highest}{end}")));
    same(words, said.contains(&true), true)?;
    let others = words
        .split_once("The other jobs")
        .map_or("", |(_, others)| others);
    let named = |job: &usize| others.contains(&format!(" job {job} "));
    let expected = match turn.event {
        Event::Lookup(_) => jobs - 1,
        _ => 0,
    };
    same("other jobs", (0..jobs).filter(named).count(), expected)
}
