//! The second whole run, for a press with so many lanes (2026-07), beside the reference, beside the
//! search for any full grouping, and beside the first run: the length, every byte of the output, and the
//! bytes beyond it. The runs are parameters, so that the checks can be tried on wrong ones.

use crate::examples::READINGS;
use crate::group_examples::{
    groupings, lines, named, NONE_FULL, NO_KNOWN_LANES, REFUSALS, THE_CHAIN, TWO_OF_THE_CHAIN,
};
use crate::lent::Lent;
use crate::made::borders::{borders, of_lengths};
use crate::made::damage::{damaged, damaged_often, DAMAGES};
use crate::made::faults::{bases, cases, Case};
use crate::made::mixtures::any_lines;
use crate::made::planted::{
    any_planted, any_planting, full_plantings, planted, planted_lengths, planted_of_length,
    small_planting, spoil, Planting, Spoilt, SPOILT,
};
use crate::made::small::{few_jobs, few_jobs_in_windows, more_jobs};
use crate::made::tables::{table, table_for_search};
use crate::made::windows::{spread, Spread};
use crate::made::Generator;
use crate::printed_groups;
use crate::reference::full_groupings::{full_grouping, most_groups, Jobs};
use crate::reference::groups::{self, groups_of, run_into, LEAST_LANES, MOST_LANES};
use crate::reference::run::refusal_line;
use crate::reference::table::{read, table_lines};
use crate::reference::{Table, ABSENT, JOB_LIMIT, LAYOUT_LIMIT, OUTPUT_BYTES, WINDOW_LIMIT};
use crate::report::{same, Outcome, Report};
use crate::run_checks::{damaged_table, Runner};
use crate::wrong_groupers::{Shows, WrongGrouper};
use std::cell::RefCell;
use std::collections::BTreeMap;

/// The second whole run: input, output, number of lanes, and the length answered.
pub type Grouper<'a> = &'a dyn Fn(&[u8], &mut [u8], usize) -> usize;

/// Every group of checks, beside the first whole run.
pub fn run(report: &mut Report, grouper: Grouper, first: Runner) {
    let answers = Answers::default();
    let grouper: Grouper = &|input, output, lanes| {
        let length = grouper(input, output, lanes);
        answers.add(lanes, output.get(..length).unwrap_or_default());
        length
    };
    by_hand(report, grouper);
    in_rooms(report, grouper);
    refusals(report, grouper);
    at_limits(report, grouper);
    made(report, grouper);
    beside_search(report, grouper);
    beside_rule(report, grouper);
    beside_first(report, grouper, first);
    report.note(&format!("answers: {:?}", answers.counts.borrow()));
    report.listed("every answer", [()], |()| answers.some_of_each());
}

/// Tables worked by hand, document 02's chain among them.
pub fn by_hand(report: &mut Report, grouper: Grouper) {
    report.listed("groupings worked by hand", groupings(), |grouping| {
        let bytes = grouping.bytes();
        grouping.printed.iter().try_for_each(|&(lanes, printed)| {
            writes(grouper, &bytes, lanes, OUTPUT_BYTES, &lines(printed))
        })
    });
    report.listed("document 02's chain", [()], |()| chain_as_said(grouper));
    report.listed(
        "refusals in their order",
        REFUSALS,
        |(bytes, lanes, line)| writes(grouper, bytes, lanes, OUTPUT_BYTES, &lines(line)),
    );
}

/// Outputs and numbers of lanes.
fn in_rooms(report: &mut Report, grouper: Grouper) {
    report.listed("outputs of each length", ROOMS, |room| {
        in_one_room(grouper, room)
    });
    report.listed("numbers of lanes", NO_LANES, |lanes| {
        no_such_press(grouper, lanes)
    });
    report.made("short outputs", 1_000, |generator| {
        let bytes = any_bytes(generator);
        let length = generator.between(0, OUTPUT_BYTES - 1);
        let length = generator.choice(&[length, 0, 1, 30_727, 32_768, OUTPUT_BYTES - 1]);
        check(grouper, &bytes, any_lanes(generator), length, generator)
    });
}

/// All that is worked by hand, in an output of some length.
fn in_one_room(grouper: Grouper, room: (usize, bool)) -> Outcome {
    for grouping in groupings() {
        let bytes = grouping.bytes();
        for (lanes, text) in grouping.printed {
            in_room(grouper, &bytes, lanes, room, &lines(text))?;
        }
    }
    REFUSALS
        .iter()
        .try_for_each(|(bytes, lanes, text)| in_room(grouper, bytes, *lanes, room, &lines(text)))
}

/// 13 for a table with a grouping and for bytes that are none, but not before 8.
fn no_such_press(grouper: Grouper, lanes: usize) -> Outcome {
    for input in [eight_alike(), b"zz".to_vec(), Vec::new()] {
        for room in ROOMS {
            in_room(grouper, &input, lanes, room, &lines(NO_KNOWN_LANES))?;
        }
    }
    Ok(())
}

/// The reader's refusals, in front of 14 and behind 13.
fn refusals(report: &mut Report, grouper: Grouper) {
    report.listed("document 01's refusals", READINGS, |(bytes, refusal)| {
        (LEAST_LANES..=MOST_LANES).try_for_each(|lanes| match refusal {
            Some(refusal) => {
                let line = refusal_line(refusal).into_bytes();
                writes(grouper, bytes, lanes, OUTPUT_BYTES, &line)
            }
            None => check(grouper, bytes, lanes, OUTPUT_BYTES, &mut Generator::new(0)),
        })?;
        writes(grouper, bytes, 9, OUTPUT_BYTES, &lines(NO_KNOWN_LANES))
    });
    for base in bases() {
        let name = format!("faults put in, {}", base.name);
        let some = cases(&base).into_iter().enumerate().step_by(FAULTS_STEP);
        report.listed(&name, some, |(at, case)| refused_as_put(grouper, at, &case));
    }
    report.made("damaged tables", 6_000, |generator| {
        let bytes = damaged_bytes(generator);
        check_any(grouper, &bytes, generator)
    });
}

/// The largest tables, and the borders of the code.
fn at_limits(report: &mut Report, grouper: Grouper) {
    report.listed("the longest groupings", LONGEST, |(lanes, length)| {
        let (table, printed) = alike(lanes);
        same("bytes of the grouping", printed.len(), length)?;
        ROOMS
            .into_iter()
            .try_for_each(|room| in_room(grouper, &table, lanes, room, &printed))
    });
    report.listed("the longest table", [2, 4, 8, 3], |lanes| {
        let (table, printed) = longest_table(lanes);
        same("bytes of the longest table", table.len(), 60_427)?;
        writes(grouper, &table, lanes, OUTPUT_BYTES, &printed)
    });
    report.listed("borders of the code", borders(), |table| {
        let bytes = table_lines(&table).concat();
        [2, 3].into_iter().try_for_each(|lanes| {
            check(grouper, &bytes, lanes, OUTPUT_BYTES, &mut Generator::new(0))
        })
    });
    report.listed("borders of bytes", of_lengths(), |(length, table)| {
        let bytes = table_lines(&table).concat();
        same("bytes", bytes.len(), length)?;
        check(grouper, &bytes, 2, OUTPUT_BYTES, &mut Generator::new(0))
    });
    report.listed(
        "borders of bytes, planted",
        planted_lengths(),
        |(length, lanes)| {
            let bytes = table_lines(&planted_of_length(length, lanes)).concat();
            same("bytes", bytes.len(), length)?;
            check_planted(grouper, &bytes, lanes, OUTPUT_BYTES, &mut Generator::new(0))
        },
    );
    report.listed("full tables, planted", full_plantings(), |planting| {
        let generator = &mut Generator::new(planting.lanes as u64);
        let table = planted(planting, generator);
        let bytes = any_lines(&table, generator).concat();
        check_planted(grouper, &bytes, planting.lanes, room(generator), generator)
    });
    let spoilt = full_plantings().into_iter().zip(SPOILT.into_iter().cycle());
    report.listed("full tables, spoilt", spoilt, |(planting, spoilt)| {
        let generator = &mut Generator::new(planting.lanes as u64);
        let table = planted(planting, generator);
        check_spoilt(grouper, table, planting.lanes, spoilt, generator)
    });
}

/// Made tables beside the reference.
fn made(report: &mut Report, grouper: Grouper) {
    report.made("made tables", 6_000, |generator| {
        let bytes = any_lines(&table(generator), generator).concat();
        check_any(grouper, &bytes, generator)
    });
    report.made("planted tables", 6_000, |generator| {
        let planting = any_planting(generator);
        let bytes = any_lines(&planted(planting, generator), generator).concat();
        check_planted(grouper, &bytes, planting.lanes, room(generator), generator)
    });
    report.made("planted tables for other lanes", 2_000, |generator| {
        let bytes = any_lines(&any_planted(generator), generator).concat();
        check_any(grouper, &bytes, generator)
    });
    report.made("spoilt tables", 4_000, |generator| {
        let planting = any_planting(generator);
        let spoilt = generator.choice(&SPOILT);
        let table = planted(planting, generator);
        check_spoilt(grouper, table, planting.lanes, spoilt, generator)
    });
}

/// All small tables, and made ones, beside the search for any full grouping.
pub fn beside_search(report: &mut Report, grouper: Grouper) {
    let found = RefCell::new([0_u64; 2]);
    let exact = |table: &Table, lanes: &[usize]| -> Outcome {
        let bytes = table_lines(table).concat();
        for &lanes in lanes {
            let any = exactly_if_none(grouper, table, &bytes, lanes)?;
            found.borrow_mut()[usize::from(any)] += 1;
        }
        Ok(())
    };
    report.listed("every small table", few_jobs(), |table| {
        exact(&table, &[2, 3, 4])
    });
    report.listed(
        "every small table with windows",
        few_jobs_in_windows(),
        |table| exact(&table, &[2, 3, 4]),
    );
    report.listed(
        "every choice of more jobs",
        more_jobs(),
        |(table, lanes)| exact(&table, lanes),
    );
    report.made("tables for search", 6_000, |generator| {
        let mut table = table_for_search(generator);
        // Solo jobs come back to window 0, since no line says another.
        let few = Spread::Any(generator.between(1, 3));
        spread(&mut table, few, generator);
        exact(&table, &[2, 3, 4])
    });
    report.made("planted tables for search", 6_000, |generator| {
        let planting = small_planting(generator);
        let mut table = planted(planting, generator);
        if generator.one_in(3) {
            let spoilt = generator.choice(&SPOILT);
            spoil(&mut table, spoilt, generator);
        }
        exact(&table, &[planting.lanes])
    });
    let [none, some] = found.into_inner();
    report.note(&format!(
        "searched: {some} with a full grouping, {none} without"
    ));
    report.listed("with and without a full grouping", [()], |()| {
        same("one without a case", none == 0 || some == 0, false)
    });
}

/// The same small tables beside the reference, which goes by the rule: of the full groupings it is this one.
fn beside_rule(report: &mut Report, grouper: Grouper) {
    let by_rule = |table: &Table, lanes: &[usize]| {
        let bytes = table_lines(table).concat();
        lanes.iter().try_for_each(|&lanes| {
            let expected = text(&groups::run(&bytes, lanes));
            same("lines", printed(grouper, &bytes, lanes)?, expected)
        })
    };
    let tables = few_jobs().chain(few_jobs_in_windows());
    report.listed("the rule on every small table", tables, |table| {
        by_rule(&table, &[2, 3, 4])
    });
    let some = more_jobs().step_by(4);
    report.listed("the rule on more jobs", some, |(table, lanes)| {
        by_rule(&table, lanes)
    });
}

/// For two lanes: the pairs of the first run, where it leaves no job single, and otherwise 14.
pub fn beside_first(report: &mut Report, grouper: Grouper, first: Runner) {
    report.listed("two lanes, small tables", few_jobs(), |table| {
        pairs_of_first(grouper, first, &table_lines(&table).concat())
    });
    report.listed(
        "two lanes, small tables with windows",
        few_jobs_in_windows(),
        |table| pairs_of_first(grouper, first, &table_lines(&table).concat()),
    );
    report.made("two lanes, made tables", 2_000, |generator| {
        let bytes = any_lines(&table(generator), generator).concat();
        pairs_of_first(grouper, first, &bytes)
    });
    report.made("two lanes, planted tables", 2_000, |generator| {
        let planting = Planting {
            lanes: 2,
            ..any_planting(generator)
        };
        let bytes = any_lines(&planted(planting, generator), generator).concat();
        pairs_of_first(grouper, first, &bytes)
    });
}

/// That the checks catch a wrong grouper on its table, and which of them do.
pub fn caught(wrong: &WrongGrouper) -> Outcome {
    let (name, lanes) = wrong.fails;
    let grouping = named(name)?;
    let bytes = grouping.bytes();
    let grouper: Grouper = &|input, output, lanes| wrong.call(input, output, lanes);
    let right = writes(
        grouper,
        &bytes,
        lanes,
        OUTPUT_BYTES,
        &grouping.lines(lanes)?,
    );
    same(wrong.name, right.is_err(), true)?;
    let beside_reference = check(grouper, &bytes, lanes, OUTPUT_BYTES, &mut Generator::new(0));
    same(wrong.name, beside_reference.is_err(), true)?;
    let beside_search = exactly_if_none(grouper, &grouping.table, &bytes, lanes);
    let shows = match beside_search {
        Ok(_) => Shows::InLines,
        Err(_) => Shows::InSearch,
    };
    same(wrong.name, shows, wrong.shows)
}

/// That a second run keeps to its output, its lanes and the order of its refusals.
pub fn called_rightly(grouper: Grouper) -> Outcome {
    ROOMS
        .into_iter()
        .try_for_each(|room| in_one_room(grouper, room))?;
    NO_LANES
        .into_iter()
        .try_for_each(|lanes| no_such_press(grouper, lanes))
}

/// Lengths of output, and whether they are enough.
const ROOMS: [(usize, bool); 7] = [
    (0, false),
    (1, false),
    (32_768, false),
    (40_959, false),
    (40_960, true),
    (40_961, true),
    (65_536, true),
];

/// Numbers of lanes that no press has, some of which have known ones in their lower bits.
const NO_LANES: [usize; 16] = [
    0,
    1,
    9,
    10,
    13,
    16,
    127,
    255,
    256,
    258,
    (1 << 16) + 2,
    (1 << 16) + 8,
    (1 << 32) + 2,
    (1 << 32) + 3,
    (1 << 63) + 2,
    usize::MAX,
];

/// How long the grouping is where all jobs are alike and as many as there can be, for each number of
/// lanes: 4 × lanes + 7 bytes a group, and 7.
const LONGEST: [(usize, usize); 7] = [
    (2, 30_727),
    (3, 25_942),
    (4, 23_559),
    (5, 22_120),
    (6, 21_149),
    (7, 20_482),
    (8, 19_975),
];

/// Of the tables with faults put in one in so many is tried: *Read a table* is tried on all.
const FAULTS_STEP: usize = 5;

/// Below the output asked for the length is 0 and nothing is written.
fn in_room(
    grouper: Grouper,
    input: &[u8],
    lanes: usize,
    (room, enough): (usize, bool),
    lines: &[u8],
) -> Outcome {
    if enough {
        return writes(grouper, input, lanes, room, lines);
    }
    let mut output = Lent::new(room, &mut Generator::new(0));
    same("length", grouper(input, output.cells(), lanes), 0)?;
    output.untouched("output")
}

/// That a call writes these lines, and zeros over the rest of the output, and leaves the input.
fn writes(grouper: Grouper, input: &[u8], lanes: usize, room: usize, lines: &[u8]) -> Outcome {
    let before = input.to_vec();
    let mut output = Lent::new(room, &mut Generator::new(0));
    let length = grouper(input, output.cells(), lanes);
    let written = output.cells().get(..length).unwrap_or_default();
    same("lines", text(written), text(lines))?;
    let mut expected = vec![0; room];
    expected[..lines.len()].copy_from_slice(lines);
    output.holds("output", &expected)?;
    same("input left as it was", input == before, true)
}

/// One call beside the reference.
fn check(
    grouper: Grouper,
    input: &[u8],
    lanes: usize,
    room: usize,
    generator: &mut Generator,
) -> Outcome {
    let before = input.to_vec();
    let mut output = Lent::new(room, generator);
    let length = grouper(input, output.cells(), lanes);
    same("input left as it was", input == before, true)?;
    let mut expected = output.entry().to_vec();
    let expected_length = run_into(input, &mut expected, lanes);
    if length != expected_length {
        return Err(format!(
            "for {lanes} lanes the length is {length}, not {expected_length}"
        ));
    }
    output.holds("output", &expected)
}

/// The same for any number of lanes, with room.
fn check_any(grouper: Grouper, input: &[u8], generator: &mut Generator) -> Outcome {
    let (lanes, room) = (any_lanes(generator), room(generator));
    check(grouper, input, lanes, room, generator)
}

/// The same where a full grouping was planted, so that one must be printed.
fn check_planted(
    grouper: Grouper,
    input: &[u8],
    lanes: usize,
    room: usize,
    generator: &mut Generator,
) -> Outcome {
    check(grouper, input, lanes, room, generator)?;
    let table = read(input).map_err(|refusal| format!("refused: {refusal:?}"))?;
    let found = printed(grouper, input, lanes)?;
    printed_groups::check(&table, lanes, &found)
}

/// The same where what was planted is spoilt, so that there is none.
fn check_spoilt(
    grouper: Grouper,
    mut table: Table,
    lanes: usize,
    spoilt: Spoilt,
    generator: &mut Generator,
) -> Outcome {
    spoil(&mut table, spoilt, generator);
    let bytes = any_lines(&table, generator).concat();
    check(grouper, &bytes, lanes, room(generator), generator)?;
    let found = printed(grouper, &bytes, lanes)?;
    same(&format!("{spoilt:?}"), found, text(&lines(NONE_FULL)))
}

/// What is printed, with zeros behind it.
fn printed(grouper: Grouper, input: &[u8], lanes: usize) -> Result<String, String> {
    let mut output = vec![0xA5; OUTPUT_BYTES];
    let length = grouper(input, &mut output, lanes);
    let rest = output.split_off(length.min(OUTPUT_BYTES));
    same("zeros", rest == vec![0; rest.len()], true)?;
    Ok(text(&output))
}

/// Lines as a difference shows them best.
fn text(lines: &[u8]) -> String {
    String::from_utf8_lossy(lines).into_owned()
}

/// 14 exactly where no full grouping exists; otherwise the lines of one. Whether one exists.
fn exactly_if_none(
    grouper: Grouper,
    table: &Table,
    bytes: &[u8],
    lanes: usize,
) -> Result<bool, String> {
    let found = printed(grouper, bytes, lanes)?;
    let any = full_grouping(table, lanes).is_some();
    let outcome = match any {
        true => printed_groups::check(table, lanes, &found),
        false => same("where none exists", found, text(&lines(NONE_FULL))),
    };
    let told = |difference| format!("{table:?} for {lanes} lanes: {difference}");
    outcome.map(|()| any).map_err(told)
}

/// Two groups of three exist, the rule finds one, and the run finds no full grouping, nor does the search.
fn chain_as_said(grouper: Grouper) -> Outcome {
    let grouping = named(THE_CHAIN)?;
    let table = &grouping.table;
    let jobs = Jobs::of(table);
    for (group, layout) in TWO_OF_THE_CHAIN {
        same("a group", jobs.is_group(3, &group), true)?;
        same("its layout", jobs.common(&group), vec![layout])?;
    }
    same("the most groups", most_groups(table, 3), 2)?;
    let groups = groups_of(table, 3);
    let full: Vec<_> = groups.iter().filter(|group| group.len() == 3).collect();
    same("the rule's", full, vec![&vec![0, 1, 2]])?;
    same("a full grouping", full_grouping(table, 3), None)?;
    let found = printed(grouper, &grouping.bytes(), 3)?;
    same("printed", found, text(&lines(NONE_FULL)))
}

/// The refusal that comes up first, for lanes by turns; where none does, as the reference.
fn refused_as_put(grouper: Grouper, at: usize, case: &Case) -> Outcome {
    let lanes = LEAST_LANES + at % (MOST_LANES - LEAST_LANES + 1);
    let (bytes, refusal) = case.written();
    let Some(refusal) = refusal else {
        return check(grouper, &bytes, lanes, OUTPUT_BYTES, &mut Generator::new(0));
    };
    let found = printed(grouper, &bytes, lanes)?;
    same("printed", found, refusal_line(refusal))?;
    let beyond = printed(grouper, &bytes, lanes + 7)?;
    same("for no known lanes", beyond, text(&lines(NO_KNOWN_LANES)))
}

/// The lines of the first run for pairs alone, each with its deepest layout.
fn pairs_of_first(grouper: Grouper, first: Runner, bytes: &[u8]) -> Outcome {
    let mut output = vec![0; OUTPUT_BYTES];
    let length = first(bytes, &mut output);
    let plan = text(&output[..length]);
    let expected = match plan.lines().any(|line| line.starts_with("12")) {
        true => text(&lines(NONE_FULL)),
        false => plan.lines().map(line_of_pair).collect(),
    };
    same("for two lanes", printed(grouper, bytes, 2)?, expected)
}

/// 11 I J U L as 13 I J L, and 1F P S C as 1F P.
fn line_of_pair(line: &str) -> String {
    match line.split_at(2) {
        ("11", fields) => format!("13{}{}\n", &fields[..8], &fields[12..]),
        ("1F", fields) => format!("1F{}\n", &fields[..4]),
        _ => format!("{line}\n"),
    }
}

/// As many jobs 1-1 as a table can have, and their grouping: job after job.
fn alike(lanes: usize) -> (Vec<u8>, Vec<u8>) {
    let groups = JOB_LIMIT / lanes;
    let mut table = Table {
        parents: vec![ABSENT, 0],
        ..Table::default()
    };
    (0..groups * lanes).for_each(|_| table.add_job(1, 1, 0));
    let mut printed = String::new();
    for group in 0..groups {
        printed += "13";
        for job in group * lanes..(group + 1) * lanes {
            printed += &format!("{job:04X}");
        }
        printed += "0001\n";
    }
    printed += &format!("1F{groups:04X}\n");
    (table_lines(&table).concat(), printed.into_bytes())
}

/// A table with the most bytes: jobs 1-1 in each window by turns, 256 a window. Each group has the next
/// jobs of a window, every sixteenth; 3 lanes do not divide 256.
fn longest_table(lanes: usize) -> (Vec<u8>, Vec<u8>) {
    let mut table = format!("01FFFF\n{}", "010000\n".repeat(LAYOUT_LIMIT - 1));
    for job in 0..JOB_LIMIT {
        table += &format!("0500010001{:02X}\n", job % WINDOW_LIMIT);
    }
    table += "0304001000\n";
    if lanes == 3 {
        return (table.into_bytes(), lines(NONE_FULL));
    }
    let mut printed = String::new();
    for first in 0..JOB_LIMIT {
        if (first / WINDOW_LIMIT).is_multiple_of(lanes) {
            let jobs = (0..lanes).map(|lane| first + lane * WINDOW_LIMIT);
            let jobs: String = jobs.map(|job| format!("{job:04X}")).collect();
            printed += &format!("13{jobs}0001\n");
        }
    }
    printed += &format!("1F{:04X}\n", JOB_LIMIT / lanes);
    (table.into_bytes(), printed.into_bytes())
}

/// Eight jobs alike: every known number of lanes that divides eight has a grouping of them.
fn eight_alike() -> Vec<u8> {
    let jobs = "0200010001\n".repeat(8);
    format!("01FFFF\n010000\n{jobs}0300020008\n").into_bytes()
}

/// Bytes of any kind: whole, planted or damaged.
fn any_bytes(generator: &mut Generator) -> Vec<u8> {
    match generator.below(3) {
        0 => table_lines(&table(generator)).concat(),
        1 => table_lines(&any_planted(generator)).concat(),
        _ => damaged_table(generator),
    }
}

/// Bytes that are nearly a table, or nearly one with a full grouping.
fn damaged_bytes(generator: &mut Generator) -> Vec<u8> {
    if generator.one_in(2) {
        return damaged_table(generator);
    }
    let table = any_planted(generator);
    if generator.one_in(3) {
        return damaged_often(&table, generator);
    }
    let damage = generator.choice(&DAMAGES);
    damaged(damage, &table, generator)
}

/// Mostly a known number of lanes, and mostly few.
fn any_lanes(generator: &mut Generator) -> usize {
    let known = generator.between(LEAST_LANES, MOST_LANES);
    let other = generator.choice(&NO_LANES);
    generator.choice(&[2, 2, 3, 3, 4, known, known, known, known, other])
}

/// The output asked for, or a longer one.
fn room(generator: &mut Generator) -> usize {
    OUTPUT_BYTES + generator.choice(&[0, 0, 1, 7, 40_000])
}

/// How often each answer came: groupings with at least one group, by lanes, and refusals by number.
#[derive(Default)]
struct Answers {
    counts: RefCell<BTreeMap<String, u64>>,
}

impl Answers {
    fn add(&self, lanes: usize, written: &[u8]) {
        let answer = match written.get(..4) {
            None => "8".to_string(),
            Some([b'1', b'E', number @ ..]) => String::from_utf8_lossy(number).into_owned(),
            Some([b'1', b'F', ..]) => "no groups".to_string(),
            Some(_) => format!("groups of {lanes}"),
        };
        *self.counts.borrow_mut().entry(answer).or_insert(0) += 1;
    }

    /// That each came at least a hundred times.
    fn some_of_each(&self) -> Outcome {
        let counts = self.counts.borrow();
        let groups = (LEAST_LANES..=MOST_LANES).map(|lanes| format!("groups of {lanes}"));
        let numbers = ["01", "02", "03", "04", "05", "06", "07", "09", "0D", "0E"];
        let others = ["8", "no groups"].into_iter().chain(numbers);
        let mut answers = groups.chain(others.map(str::to_string));
        let seldom = answers.find(|answer| counts.get(answer).copied().unwrap_or(0) < 100);
        same("an answer that hardly came", seldom, None)
    }
}
