//! The turns of the sweep in words, each an entry of a list. What the script needs to mark a turn in
//! the pictures stands in the entry's attributes.

use crate::picture::counted;
use crate::picture::markup::{element, Element};
use crate::picture::planned::{Pass, Planned};
use crate::reference::sweep::{Event, Lookup, Turn, Verdict};

/// Why a job 0-0 makes no lookup.
const BARE: &str = "none: accepts layout 0 alone, on which no pair prints";

/// The list of all turns.
pub fn list(planned: &Planned, turns: &[Turn]) -> Element {
    let step = |turn: &Turn| step(planned, turn, turns.len());
    element("ol")
        .with("id", "turns")
        .with("aria-live", "polite")
        .with("aria-atomic", "true")
        .holding_all(turns.iter().map(step))
}

fn step(planned: &Planned, turn: &Turn, count: usize) -> Element {
    let table = &planned.table;
    let (top, bottom) = (table.tops[turn.job], table.bottoms[turn.job]);
    let heading = format!("Turn {} of {count}: job {}", turn.place + 1, turn.job);
    let highest = match turn.highest {
        Some(layout) => format!("highest layout {layout}"),
        None => "no highest layout".to_string(),
    };
    let window = planned.window(turn.job);
    let window = window.map_or(String::new(), |window| format!(", window {window}"));
    let path = format!(
        "Place {}; top {top}, bottom {bottom}, {highest}{window}.",
        turn.place
    );
    let entry = element("li")
        .class("step")
        .with("data-job", turn.job)
        .with("data-reached", numbers(&turn.reached, " "))
        .with("data-made", turn.made);
    let facts = facts(planned, turn)
        .into_iter()
        .flat_map(|(name, words)| [element("dt").text(name), element("dd").text(words)]);
    let entry = marked(entry, turn)
        .holding(element("h3").text(heading))
        .holding(element("p").text(path))
        .holding(element("dl").holding_all(facts));
    match &turn.event {
        Event::Lookup(lookup) if !lookup.others.is_empty() => entry.holding(others(lookup)),
        _ => entry,
    }
}

/// With a lookup: the layout over all that it asks for, and whom it finds.
fn marked(entry: Element, turn: &Turn) -> Element {
    let (Event::Lookup(lookup), Some(asked)) = (&turn.event, turn.highest) else {
        return entry;
    };
    let entry = entry.with("data-asked", asked);
    match lookup.found {
        Some((other, _)) => entry.with("data-found", other),
        None => entry,
    }
}

/// What is said of a turn, each with its name.
fn facts(planned: &Planned, turn: &Turn) -> Vec<(String, String)> {
    let pass = planned.pass_of(turn.job);
    let reached = format!(
        "bottoms at depth {} or deeper: {}",
        turn.depth,
        jobs(&turn.reached)
    );
    let mut facts = match &turn.event {
        Event::Solo => vec![("Lookup", "none: solo, runs alone".to_string())],
        Event::Bare => vec![("Lookup", BARE.to_string())],
        Event::TakenBy(job) => vec![("Lookup", format!("none: taken by job {job}"))],
        Event::Lookup(lookup) => lookup_facts(planned, turn.job, lookup),
    };
    facts.insert(0, ("Reached", reached));
    facts.push(("Pass", pass_words(pass)));
    let mut facts: Vec<(String, String)> = facts
        .into_iter()
        .map(|(name, words)| (name.to_string(), words))
        .collect();
    let cut = format!("Cut {}", turn.place + 1);
    facts.push((cut, format!("{} in front", counted(turn.in_front, "pair"))));
    facts
}

fn lookup_facts(planned: &Planned, job: usize, lookup: &Lookup) -> Vec<(&'static str, String)> {
    let found = match lookup.found {
        Some((other, _)) => format!(
            "job {other}, at place {}: the first in the running order that does",
            planned.place(other)
        ),
        None => "nobody".to_string(),
    };
    let shelf = planned.window(job);
    let shelf = shelf.map_or(String::new(), |window| format!(" of window {window}"));
    let asks = format!(
        "{}; {}{shelf}",
        range("leaf", "leaves", lookup.leaves),
        range("slot", "slots", lookup.slots)
    );
    vec![
        ("Asks for", asks),
        (
            "Lookup",
            format!("visits {}", counted(lookup.visits as usize, "cell")),
        ),
        ("Finds", found),
    ]
}

fn pass_words(pass: &Pass) -> String {
    let Pass { number, opener, .. } = pass;
    let Some(partner) = pass.partner else {
        return format!("{number}: job {opener} alone");
    };
    let (job, printed) = (partner.job, partner.printed);
    let pair = format!("{number}: jobs {opener} and {job} on layout {printed}");
    match partner.barest() {
        Some(barest) => format!("{pair}; the barest layout that does is {barest}"),
        None => pair,
    }
}

fn others(lookup: &Lookup) -> Element {
    let row = |&(job, verdict): &(usize, Verdict)| {
        element("tr")
            .holding(
                element("th")
                    .with("scope", "row")
                    .text(format!("job {job}")),
            )
            .holding(element("td").text(reason(verdict)))
    };
    let rows = lookup.others.iter().map(row);
    element("table")
        .holding(element("caption").text("The other jobs"))
        .holding(element("tbody").holding_all(rows))
}

fn reason(verdict: Verdict) -> String {
    match verdict {
        Verdict::Solo => "solo".to_string(),
        Verdict::Bare => "accepts layout 0 alone".to_string(),
        Verdict::OtherWindow(window) => format!("in window {window}"),
        Verdict::TakenBy(job) => format!("taken by job {job}"),
        Verdict::HadItsTurn => "had its turn".to_string(),
        Verdict::NotReached(depth) => format!("not reached yet: its bottom is at depth {depth}"),
        Verdict::Outside(leaf) => format!("outside the span: its bottom has leaf {leaf}"),
        Verdict::Found => "found".to_string(),
        Verdict::Later(place) => format!("does too, but later: at place {place}"),
    }
}

fn range(one: &str, several: &str, (first, last): (usize, usize)) -> String {
    if first == last {
        return format!("{one} {first}");
    }
    format!("{several} {first} to {last}")
}

fn jobs(list: &[usize]) -> String {
    let noun = if list.len() == 1 { "job" } else { "jobs" };
    format!("{noun} {}", numbers(list, ", "))
}

fn numbers(list: &[usize], between: &str) -> String {
    let texts: Vec<String> = list.iter().map(usize::to_string).collect();
    texts.join(between)
}
