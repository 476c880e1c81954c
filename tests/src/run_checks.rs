//! The whole run beside the reference (document 01, "The plan" and "What each operation turns
//! away"; 2026-04, layouts after jobs; 2026-05, printing windows): the length, every byte of the output,
//! and the bytes beyond it. The run is a parameter, so that the checks can be tried by themselves.

use crate::examples::{in_turn, marked, telling, Example, Said, PRINTINGS, READINGS};
use crate::forbidden::Search;
use crate::lent::Lent;
use crate::made::borders::{borders, of_lengths};
use crate::made::damage::{damaged, damaged_often, nearly_right_lines, DAMAGES};
use crate::made::mixtures::{any_lines, windowed_line};
use crate::made::tables::{table, table_of_size, tables_spread, Size};
use crate::made::windows::every_spread;
use crate::made::Generator;
use crate::reference::run::run_into;
use crate::reference::table::{end_line, layout_lines, table_lines};
use crate::reference::{Table, ABSENT, JOB_LIMIT, LAYOUT_LIMIT, OUTPUT_BYTES, WINDOW_LIMIT};
use crate::report::{same, Outcome, Report};

/// The whole run: input, output, and the length answered.
pub type Runner<'a> = &'a dyn Fn(&[u8], &mut [u8]) -> usize;

/// Every group of checks.
pub fn run(report: &mut Report, runner: Runner) {
    let search = Search::default();
    let runner: Runner = &|input, output| {
        let length = runner(input, output);
        search.lines(input, output.get(..length).unwrap_or_default());
        length
    };
    report.listed("tables as printed", PRINTINGS, |(bytes, printed)| {
        writes(runner, bytes, OUTPUT_BYTES, printed)
    });
    report.listed("the longest plan", ROOMS, |room| {
        let (table, plan) = longest_plan();
        same("bytes of the longest plan", plan.len(), 38_931)?;
        in_room(runner, &table, room, &plan)
    });
    report.listed("outputs of each length", ROOMS, |room| {
        PRINTINGS
            .iter()
            .try_for_each(|(bytes, printed)| in_room(runner, bytes, room, printed))
    });
    let examples = marked().into_iter().chain(telling());
    report.listed("tables worked by hand", examples, |example| {
        let bytes = table_lines(&example.table).concat();
        check(runner, &bytes, OUTPUT_BYTES, &mut Generator::new(0))
    });
    report.listed("document 01's refusals", READINGS, |(bytes, _)| {
        check(runner, bytes, OUTPUT_BYTES, &mut Generator::new(0))
    });
    report.listed("every number of windows", in_turn(), |example| {
        let bytes = table_lines(&example.table).concat();
        writes(runner, &bytes, OUTPUT_BYTES, &lines_in_turn(&example)?)
    });
    report.listed("every spread over windows", every_spread(), |spread| {
        tables_spread(spread).try_for_each(|table| {
            let bytes = table_lines(&table).concat();
            check(runner, &bytes, OUTPUT_BYTES, &mut Generator::new(0))
        })
    });
    report.listed("borders of the code", borders(), |table| {
        let bytes = table_lines(&table).concat();
        check(runner, &bytes, OUTPUT_BYTES, &mut Generator::new(0))
    });
    report.listed("borders of bytes", of_lengths(), |(length, table)| {
        let bytes = table_lines(&table).concat();
        same("bytes", bytes.len(), length)?;
        check(runner, &bytes, OUTPUT_BYTES, &mut Generator::new(0))
    });
    report.listed("all jobs in each window", 0..WINDOW_LIMIT as u8, |window| {
        (0..20).try_for_each(|seed| same_in_window(runner, window, &mut Generator::new(seed)))
    });
    report.listed("the longest table", ROOMS, |room| {
        let (table, plan) = longest_table();
        same("bytes of the longest table", table.len(), 60_427)?;
        in_room(runner, &table, room, &plan)
    });
    report.made("made tables", 10_000, |generator| {
        let bytes = any_lines(&table(generator), generator).concat();
        check(runner, &bytes, room(generator), generator)
    });
    report.made("damaged tables", 20_000, |generator| {
        let bytes = damaged_table(generator);
        check(runner, &bytes, room(generator), generator)
    });
    report.made("tables at the limits", 60, |generator| {
        let size = Size {
            layouts: generator.choice(&[1, 2, LAYOUT_LIMIT, LAYOUT_LIMIT]),
            jobs: generator.choice(&[JOB_LIMIT, JOB_LIMIT, JOB_LIMIT - 1]),
        };
        let bytes = any_lines(&table_of_size(size, generator), generator).concat();
        check(runner, &bytes, room(generator), generator)
    });
    report.made("short outputs", 2_000, |generator| {
        let bytes = table_lines(&table(generator)).concat();
        let length = generator.between(0, OUTPUT_BYTES - 1);
        let length = generator.choice(&[length, 0, 1, 32_768, OUTPUT_BYTES - 1]);
        check(runner, &bytes, length, generator)
    });
    report.nothing_forbidden(&search);
}

/// Lengths of output, and whether they are enough: document 01's 32,768 bytes no longer are.
const ROOMS: [(usize, bool); 8] = [
    (0, false),
    (1, false),
    (32_768, false),
    (38_931, false),
    (40_959, false),
    (40_960, true),
    (40_961, true),
    (65_536, true),
];

/// Below the output asked for the length is 0 and nothing is written.
fn in_room(runner: Runner, input: &[u8], (room, enough): (usize, bool), lines: &[u8]) -> Outcome {
    if enough {
        return writes(runner, input, room, lines);
    }
    let mut output = Lent::new(room, &mut Generator::new(0));
    same("length", runner(input, output.cells()), 0)?;
    output.untouched("output")
}

/// That a call writes these lines, and zeros over the rest of the output.
fn writes(runner: Runner, input: &[u8], room: usize, lines: &[u8]) -> Outcome {
    let mut output = Lent::new(room, &mut Generator::new(0));
    same("length", runner(input, output.cells()), lines.len())?;
    let mut expected = vec![0; room];
    expected[..lines.len()].copy_from_slice(lines);
    output.holds("output", &expected)
}

/// A table whose plan has the most bytes, 4,096 jobs all in pairs, and that plan. Each job accepts
/// layouts 2, 1 and 0, so each takes the next one, and its lookup, for all slots, visits one cell.
fn longest_plan() -> (Vec<u8>, Vec<u8>) {
    let mut table = Table {
        parents: vec![ABSENT, 0, 1],
        ..Table::default()
    };
    let mut plan = String::new();
    for job in 0..JOB_LIMIT {
        table.add_job(0, 2, 0);
        if job % 2 == 1 {
            plan += &format!("11{:04X}{job:04X}00010002\n", job - 1);
        }
    }
    plan += "1F0800000000000800\n";
    (table_lines(&table).concat(), plan.into_bytes())
}

/// A table with the most bytes, a window in the line of every job, and its plan. The jobs accept layout
/// 1 alone and are in each window by turns, so each takes the next but fifteen, and its lookup, for all
/// slots of its window, visits one cell.
fn longest_table() -> (Vec<u8>, Vec<u8>) {
    let mut table = format!("01FFFF\n{}", "010000\n".repeat(LAYOUT_LIMIT - 1));
    let mut plan = String::new();
    for job in 0..JOB_LIMIT {
        table += &format!("0500010001{:02X}\n", job % WINDOW_LIMIT);
        if (job / WINDOW_LIMIT).is_multiple_of(2) {
            plan += &format!("11{job:04X}{:04X}00010001\n", job + WINDOW_LIMIT);
        }
    }
    table += "0304001000\n";
    plan += "1F0800000000000800\n";
    (table.into_bytes(), plan.into_bytes())
}

/// The lines that are said of jobs in turn: their order is that of their numbers, so that the pairs,
/// which the first jobs open, come before the jobs that are alone.
fn lines_in_turn(example: &Example) -> Result<Vec<u8>, String> {
    let Said::Planned(passes) = &example.said else {
        return Err("no plan is said".to_string());
    };
    let (pairs, jobs) = (passes.pairs.len(), example.table.jobs());
    let mut lines = String::new();
    for (job, other, upper, printed) in &passes.pairs {
        lines += &format!("11{job:04X}{other:04X}{upper:04X}{printed:04X}\n");
    }
    for job in 2 * pairs..jobs {
        lines += &format!("12{job:04X}\n");
    }
    let (singles, visits) = (jobs - 2 * pairs, passes.visits);
    lines += &format!("1F{pairs:04X}{singles:04X}{visits:08X}\n");
    Ok(lines.into_bytes())
}

/// With all jobs in one window, whichever, the lines are those of the table without windows.
fn same_in_window(runner: Runner, window: u8, generator: &mut Generator) -> Outcome {
    let mut table = table(generator);
    table.marks.fill(0);
    table.windows.fill(0);
    let mut output = vec![0; OUTPUT_BYTES];
    let length = runner(&table_lines(&table).concat(), &mut output);
    let line = |job: usize| windowed_line(table.tops[job], table.bottoms[job], window);
    let jobs: Vec<Vec<u8>> = (0..table.jobs()).map(line).collect();
    let lines = [layout_lines(&table), jobs, vec![end_line(&table)]].concat();
    writes(runner, &lines.concat(), OUTPUT_BYTES, &output[..length])
}

/// One call beside the reference.
pub fn check(runner: Runner, input: &[u8], room: usize, generator: &mut Generator) -> Outcome {
    let mut output = Lent::new(room, generator);
    let length = runner(input, output.cells());
    let mut expected = output.entry().to_vec();
    let expected_length = run_into(input, &mut expected);
    if length != expected_length {
        return Err(format!("the length is {length}, not {expected_length}"));
    }
    output.holds("output", &expected)
}

/// The output asked for, or a longer one.
fn room(generator: &mut Generator) -> usize {
    OUTPUT_BYTES + generator.choice(&[0, 0, 1, 7, 40_000])
}

/// Bytes that are nearly a table.
pub fn damaged_table(generator: &mut Generator) -> Vec<u8> {
    if generator.one_in(3) {
        return nearly_right_lines(generator);
    }
    let table = table(generator);
    if generator.one_in(3) {
        return damaged_often(&table, generator);
    }
    let damage = generator.choice(&DAMAGES);
    damaged(damage, &table, generator)
}
