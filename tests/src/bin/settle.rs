//! *Settle layouts* of the proved library beside the reference (document 01, "What each operation
//! turns away").

use std::process::ExitCode;
use tests::lent::Lent;
use tests::library;
use tests::made::tables::any_parents;
use tests::made::Generator;
use tests::reference::tree::settle;
use tests::reference::{Refusal, ABSENT, LAYOUT_LIMIT};
use tests::report::{AnswerCounts, Outcome, Report};

fn main() -> ExitCode {
    let mut report = Report::new("settle");
    let mut answers = AnswerCounts::default();
    report.listed("document 01's layouts", said(), |(parents, answer)| {
        as_said(&parents, answer)
    });
    report.listed("every small parent list", small_lists(), |parents| {
        let lengths = [parents.len(); 3];
        check(&parents, lengths, &mut Generator::new(0)).map(|_| ())
    });
    report.made("right parents", 20_000, |generator| {
        let parents = right_parents(generator);
        let lengths = lengths(parents.len(), generator);
        counted(&mut answers, &parents, lengths, generator)
    });
    report.made("wrong parents", 20_000, |generator| {
        let parents = wrong_parents(generator);
        let lengths = lengths(parents.len(), generator);
        counted(&mut answers, &parents, lengths, generator)
    });
    report.made("lengths about the limit", 500, |generator| {
        let count = LAYOUT_LIMIT - 2 + generator.below(5);
        let parents = any_parents(count, generator);
        let lengths = lengths(count, generator);
        counted(&mut answers, &parents, lengths, generator)
    });
    report.made("results of any length", 10_000, |generator| {
        let parents = right_parents(generator);
        let lengths = [0; 3].map(|_: usize| generator.below(parents.len() + 3));
        counted(&mut answers, &parents, lengths, generator)
    });
    report.answer_counts(&answers, &[0, 3, 4, 8], 50);
    report.finish()
}

/// One call beside the reference: depths, first leaves and last leaves of the lengths given.
fn check(
    parents: &[u16],
    lengths: [usize; 3],
    generator: &mut Generator,
) -> Result<Result<(), Refusal>, String> {
    let mut results = lengths.map(|length| Lent::<u16>::new(length, generator));
    let [depths, firsts, lasts] = &mut results;
    let answer = library::settle(parents, depths.cells(), firsts.cells(), lasts.cells());
    let room = lengths.into_iter().min().unwrap_or(0);
    let expected = settle(parents, room);
    let expected_answer = expected.as_ref().map(|_| ()).map_err(|refusal| *refusal);
    if answer != expected_answer {
        return Err(format!("the answer is {answer:?}, not {expected_answer:?}"));
    }
    let written = match expected {
        Ok(tree) => [tree.depths, tree.firsts, tree.lasts],
        Err(_) => [vec![], vec![], vec![]],
    };
    for ((lent, name), cells) in results
        .iter()
        .zip(["depths", "firsts", "lasts"])
        .zip(written)
    {
        let mut held = lent.entry().to_vec();
        held[..cells.len()].copy_from_slice(&cells);
        lent.holds(name, &held)?;
    }
    Ok(answer)
}

fn counted(
    answers: &mut AnswerCounts,
    parents: &[u16],
    lengths: [usize; 3],
    generator: &mut Generator,
) -> Outcome {
    answers.add(&check(parents, lengths, generator)?);
    Ok(())
}

/// A parent list with its refusal by number and place, or none.
type Said = (Vec<u16>, Option<(u16, u16)>);

/// Parent lists of document 01, and at its limits.
fn said() -> Vec<Said> {
    let star = |count: usize| [vec![ABSENT], vec![0; count - 1]].concat();
    vec![
        (vec![ABSENT], None),
        (vec![ABSENT, 0, 0, 1], None),
        (vec![ABSENT, 1], Some((4, 1))),
        (vec![], Some((4, 0))),
        (vec![0], Some((4, 0))),
        (vec![ABSENT, ABSENT], Some((4, 1))),
        (star(LAYOUT_LIMIT), None),
        (star(LAYOUT_LIMIT + 1), Some((3, 0))),
        (vec![0; LAYOUT_LIMIT + 1], Some((3, 0))),
        (star(70_000), Some((3, 0))),
    ]
}

fn as_said(parents: &[u16], said: Option<(u16, u16)>) -> Outcome {
    let answer = check(parents, [parents.len(); 3], &mut Generator::new(0))?;
    let found = answer.err().map(|refusal| (refusal.number, refusal.place));
    if found == said {
        return Ok(());
    }
    Err(format!(
        "{} layouts give {answer:?}, not {said:?}",
        parents.len()
    ))
}

/// Every list of at most five numbers out of 0 to 4 and FFFF.
fn small_lists() -> Vec<Vec<u16>> {
    let mut lists = vec![vec![]];
    let mut longest = lists.clone();
    for _ in 0..5 {
        longest = longest.iter().flat_map(|list| longer_lists(list)).collect();
        lists.extend(longest.iter().cloned());
    }
    lists
}

fn longer_lists(list: &[u16]) -> Vec<Vec<u16>> {
    let numbers = [ABSENT, 0, 1, 2, 3, 4];
    numbers.map(|number| [list, &[number]].concat()).to_vec()
}

fn right_parents(generator: &mut Generator) -> Vec<u16> {
    let most = generator.choice(&[4, 8, 8, 30, 200]);
    let most = if generator.one_in(40) {
        LAYOUT_LIMIT
    } else {
        most
    };
    let count = generator.between(1, most);
    any_parents(count, generator)
}

/// One or more numbers of a right list replaced.
fn wrong_parents(generator: &mut Generator) -> Vec<u16> {
    let mut parents = right_parents(generator);
    for _ in 0..generator.between(1, 3) {
        let at = generator.below(parents.len());
        let number = generator.bits() as u16;
        let near = (at + generator.below(3)) as u16;
        parents[at] = generator.choice(&[near, near, ABSENT, number, 0]);
    }
    parents
}

/// Lengths of the three results: as asked for or longer, and now and then one too short.
fn lengths(count: usize, generator: &mut Generator) -> [usize; 3] {
    [0; 3].map(|_: usize| match generator.below(24) {
        0 => count.saturating_sub(1),
        1..=9 => count + generator.below(50),
        10 => count + LAYOUT_LIMIT,
        _ => count,
    })
}
