//! *Shared stretch* of the proved library beside the reference (document 01, "What each operation
//! turns away", as 2026-02 changed it).

use std::process::ExitCode;
use tests::examples::{Stretch, STRETCHES};
use tests::lent::Lent;
use tests::library;
use tests::made::tables::{any_parents, path, Reach};
use tests::made::Generator;
use tests::reference::paths::{walk, BARE_SHEET};
use tests::reference::stretch::shared_stretch;
use tests::report::{same, Outcome, Report};

fn main() -> ExitCode {
    let mut report = Report::new("stretch");
    report.listed("stretches worked by hand", STRETCHES, |stretch| {
        as_said(&stretch)
    });
    let lists = small_lists();
    let pairs = lists
        .iter()
        .flat_map(|first| lists.iter().map(move |second| (first, second)));
    report.listed("every two small lists", pairs, |(first, second)| {
        check(first, second, &mut Generator::new(0)).map(|_| ())
    });
    report.made("lists with repeats", 200_000, |generator| {
        let (first, second) = (list(generator), list(generator));
        check(&first, &second, generator).map(|_| ())
    });
    report.made("leading zeros", 100_000, |generator| {
        let mut zeros = || vec![BARE_SHEET; generator.below(4)];
        let (before_first, before_second) = (zeros(), zeros());
        let first = [before_first, list(generator)].concat();
        let second = [before_second, list(generator)].concat();
        check(&first, &second, generator).map(|_| ())
    });
    report.made("one leading 0 more", 50_000, one_leading_0_more);
    report.made("parts of one list", 50_000, |generator| {
        let whole = list(generator);
        let (from, other) = (
            generator.below(whole.len() + 1),
            generator.below(whole.len() + 1),
        );
        check(&whole[from..], &whole[other..], generator).map(|_| ())
    });
    report.made("paths", 50_000, paths_of_a_tree);
    report.made("long lists", 300, |generator| {
        let whole: Vec<u16> = (0..70_000).map(|_| generator.below(3) as u16).collect();
        let (from, other) = (generator.below(9), generator.below(9));
        check(&whole[from..], &whole[other..], generator).map(|_| ())
    });
    report.finish()
}

/// A call on two lists with all the room that it needs.
fn numbers(first: &[u16], second: &[u16]) -> Vec<u16> {
    let mut out = vec![0; first.len().max(second.len())];
    let length = library::stretch(first, second, &mut out);
    out.truncate(length);
    out
}

fn as_said(said: &Stretch) -> Outcome {
    let numbers = numbers(said.first, said.second);
    same("numbers", numbers.as_slice(), said.numbers)?;
    check(said.first, said.second, &mut Generator::new(0)).map(|_| ())
}

/// Lists that do not begin with 0 have the same stretch with a 0 before one of them or both.
fn one_leading_0_more(generator: &mut Generator) -> Outcome {
    let mut nonzero = || {
        let mut list = list(generator);
        let zeros = list.iter().take_while(|&&number| number == BARE_SHEET);
        list.drain(..zeros.count());
        list
    };
    let (first, second) = (nonzero(), nonzero());
    let with_0 = |list: &[u16]| [&[BARE_SHEET], list].concat();
    let expected = numbers(&first, &second);
    for (one, other) in [
        (with_0(&first), second.clone()),
        (first.clone(), with_0(&second)),
        (with_0(&first), with_0(&second)),
    ] {
        same("stretch", numbers(&one, &other), expected.clone())?;
    }
    Ok(())
}

/// One call beside the reference; the stretch is handed on.
fn check<'a>(
    first: &'a [u16],
    second: &'a [u16],
    generator: &mut Generator,
) -> Result<&'a [u16], String> {
    let expected = shared_stretch(first, second);
    let room = (expected.len() + generator.below(5)).saturating_sub(1);
    let mut out = Lent::new(room, generator);
    let length = library::stretch(first, second, out.cells());
    if length != expected.len() {
        return Err(format!("the length is {length}, not {}", expected.len()));
    }
    let copied = room.min(length);
    let mut held = out.entry().to_vec();
    held[..copied].copy_from_slice(&expected[..copied]);
    out.holds("stretch", &held)?;
    Ok(expected)
}

/// Every list of at most five numbers out of three, 0 among them.
fn small_lists() -> Vec<Vec<u16>> {
    let mut lists = vec![vec![]];
    let mut longest = lists.clone();
    for _ in 0..5 {
        longest = longest
            .iter()
            .flat_map(|list| [0, 1, 2].map(|number| [list.as_slice(), &[number]].concat()))
            .collect();
        lists.extend(longest.iter().cloned());
    }
    lists
}

fn list(generator: &mut Generator) -> Vec<u16> {
    let numbers = generator.choice(&[2, 3, 6, 65_536]);
    let length = generator.below(12);
    (0..length)
        .map(|_| generator.below(numbers) as u16)
        .collect()
}

/// For two paths written from top to bottom the stretch holds exactly the shared layouts other than
/// 0.
fn paths_of_a_tree(generator: &mut Generator) -> Outcome {
    let most = if generator.one_in(50) { 1024 } else { 20 };
    let layouts = generator.between(1, most);
    let parents = any_parents(layouts, generator);
    let (first, second) = (
        made_path(&parents, generator),
        made_path(&parents, generator),
    );
    let stretch = check(&first, &second, generator)?;
    let is_shared = |layout: &u16| *layout != BARE_SHEET && second.contains(layout);
    let shared: Vec<u16> = first.iter().copied().filter(is_shared).collect();
    if stretch == shared {
        return Ok(());
    }
    Err(format!(
        "the stretch is {stretch:?}, and shared are {shared:?}"
    ))
}

/// A path from top to bottom.
fn made_path(parents: &[u16], generator: &mut Generator) -> Vec<u16> {
    let (top, bottom) = path(parents, Reach::Any, generator);
    let mut layouts = walk(parents, top, bottom);
    layouts.reverse();
    layouts
}
