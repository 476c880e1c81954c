//! *Read a table* of the proved library beside the reference (document 01, "The table" and "What
//! each operation turns away"; 2026-04, layouts after jobs; 2026-05, printing windows): the answer,
//! every cell of every buffer, and the cells beyond.

use std::process::ExitCode;
use tests::examples::{in_turn, marked, named, telling, BAKEHOUSE_BYTES, READINGS};
use tests::lent::Lent;
use tests::library;
use tests::made::damage::{
    damaged, damaged_often, nearly_right_lines, nearly_right_table, DAMAGES, VERY_LONG,
};
use tests::made::faults::{bases, cases, Case};
use tests::made::mixtures::{any_lines, lines_mixed, mixtures};
use tests::made::tables::{any_parents, table, table_of_size, Size};
use tests::made::Generator;
use tests::reference::table::{read, read_into, table_lines, Counts};
use tests::reference::{Refusal, Table, JOB_LIMIT, LAYOUT_LIMIT};
use tests::report::{same, AnswerCounts, Outcome, Report};

/// The lengths of the buffers lent.
#[derive(Clone, Copy)]
struct Room {
    parents: usize,
    tops: usize,
    bottoms: usize,
    marks: usize,
    windows: usize,
}

const EXACT: Room = Room {
    parents: LAYOUT_LIMIT,
    tops: JOB_LIMIT,
    bottoms: JOB_LIMIT,
    marks: JOB_LIMIT,
    windows: JOB_LIMIT,
};

fn main() -> ExitCode {
    let mut report = Report::new("reader");
    let mut answers = AnswerCounts::default();
    let examples = marked().into_iter().chain(telling()).chain(in_turn());
    report.listed("tables worked by hand", examples, |example| {
        let bytes = table_lines(&example.table).concat();
        agrees(&bytes, EXACT, &mut Generator::new(0))
    });
    report.listed("document 01's refusals", READINGS, as_said);
    report.listed("windows read", WINDOW_CELLS, windows_hold);
    report.listed("buffers short and longer", LENGTHS, short_and_longer);
    report.listed("limits", limits(), as_said_of_runs);
    for base in bases() {
        let group = format!("faults side by side: {}", base.name);
        report.listed(&group, cases(&base), |case| first_fault_wins(&case));
    }
    report.made("every mixture of small tables", 200, every_mixture);
    report.made("every mixture of nearly right tables", 200, |generator| {
        in_every_mixture(&nearly_right_table(generator), generator)
    });
    report.made("whole tables", 20_000, |generator| {
        let bytes = any_lines(&table(generator), generator).concat();
        counted(&mut answers, &bytes, room(generator), generator)
    });
    report.made("tables at the limits", 200, |generator| {
        let table = table_of_size(limit_size(generator), generator);
        let bytes = any_lines(&table, generator).concat();
        counted(&mut answers, &bytes, room(generator), generator)
    });
    report.made("one damage", 90_000, |generator| {
        let damage = generator.choice(&DAMAGES);
        let bytes = damaged(damage, &table(generator), generator);
        counted(&mut answers, &bytes, room(generator), generator)
    });
    report.made("several damages", 40_000, |generator| {
        let bytes = damaged_often(&table(generator), generator);
        counted(&mut answers, &bytes, room(generator), generator)
    });
    report.made("lines out of order", 90_000, |generator| {
        let bytes = nearly_right_lines(generator);
        counted(&mut answers, &bytes, room(generator), generator)
    });
    report.made("every place of damage", 40, |generator| {
        every_place(BAKEHOUSE_BYTES, generator)
    });
    report.made("every place of damage with windows", 40, |generator| {
        let bytes = table_lines(&named("printing windows")?.table).concat();
        every_place(&bytes, generator)
    });
    report.made("buffers of any length", 5_000, |generator| {
        let bytes = any_lines(&table(generator), generator).concat();
        counted(&mut answers, &bytes, any_room(generator), generator)
    });
    report.made("long inputs", 60, |generator| {
        let bytes = long_input(generator);
        counted(&mut answers, &bytes, room(generator), generator)
    });
    report.answer_counts(&answers, &[0, 1, 2, 3, 4, 5, 6, 7, 8, 9], 100);
    report.finish()
}

/// One call beside the reference.
fn check(
    bytes: &[u8],
    room: Room,
    generator: &mut Generator,
) -> Result<Result<Counts, Refusal>, String> {
    let mut parents = Lent::new(room.parents, generator);
    let mut tops = Lent::new(room.tops, generator);
    let mut bottoms = Lent::new(room.bottoms, generator);
    let mut marks = Lent::new(room.marks, generator);
    let mut windows = Lent::new(room.windows, generator);
    let mut expected = Table {
        parents: parents.entry().to_vec(),
        tops: tops.entry().to_vec(),
        bottoms: bottoms.entry().to_vec(),
        marks: marks.entry().to_vec(),
        windows: windows.entry().to_vec(),
    };
    let answer = library::read(
        bytes,
        parents.cells(),
        tops.cells(),
        bottoms.cells(),
        marks.cells(),
        windows.cells(),
    );
    let expected_answer = read_into(bytes, &mut expected);
    if answer != expected_answer {
        return Err(format!("the answer is {answer:?}, not {expected_answer:?}"));
    }
    parents.holds("parents", &expected.parents)?;
    tops.holds("tops", &expected.tops)?;
    bottoms.holds("bottoms", &expected.bottoms)?;
    marks.holds("marks", &expected.marks)?;
    windows.holds("windows", &expected.windows)?;
    Ok(answer)
}

fn agrees(bytes: &[u8], room: Room, generator: &mut Generator) -> Outcome {
    check(bytes, room, generator).map(|_| ())
}

fn counted(
    answers: &mut AnswerCounts,
    bytes: &[u8],
    room: Room,
    generator: &mut Generator,
) -> Outcome {
    answers.add(&check(bytes, room, generator)?);
    Ok(())
}

/// What documents 01 and 02 say of short inputs.
fn as_said((bytes, refusal): (&[u8], Option<Refusal>)) -> Outcome {
    let answer = check(bytes, EXACT, &mut Generator::new(0))?;
    let text = String::from_utf8_lossy(bytes);
    same(&format!("{text:?}"), answer.err(), refusal)
}

/// A table's bytes, and the windows that are read before cells that hold 0.
type Windows = (&'static [u8], &'static [u8]);

/// Windows written and not; and those of a table that is refused at the end line, after it, before it, or
/// for want of it.
const WINDOW_CELLS: [Windows; 6] = [
    (b"01FFFF\n0300010000\n", &[]),
    (
        b"05000000000F\n01FFFF\n0200000000\n0400000000\n050000000003\n0300010004\n",
        &[15, 0, 0, 3],
    ),
    (b"01FFFF\n050000000001\n050001000102\n0300010002\n", &[]),
    (b"01FFFF\n050000000001\n0300010001\n050000000002\n", &[]),
    (b"01FFFF\n050000000001\n050000000010\n", &[]),
    (b"050000000001\n050000000002\n", &[]),
];

/// The windows by job and 0 behind them, however long the buffer is; a cell too short, it is left.
fn windows_hold((bytes, windows): Windows) -> Outcome {
    for length in [0, JOB_LIMIT - 1, JOB_LIMIT, JOB_LIMIT + 1, 70_000] {
        let [mut parents, mut tops, mut bottoms] = [0; 3].map(|_| vec![1; JOB_LIMIT]);
        let mut marks = vec![1; JOB_LIMIT];
        let mut cells = Lent::new(length, &mut Generator::new(0));
        let answer = library::read(
            bytes,
            &mut parents,
            &mut tops,
            &mut bottoms,
            &mut marks,
            cells.cells(),
        );
        if length < JOB_LIMIT {
            let refusal = answer.err().map(|refusal| (refusal.number, refusal.place));
            same("refusal", refusal, Some((8, 0)))?;
            same("a mark", marks, vec![1; JOB_LIMIT])?;
            cells.untouched("windows")?;
        } else {
            let mut expected = windows.to_vec();
            expected.resize(length, 0);
            cells.holds("windows", &expected)?;
        }
    }
    Ok(())
}

/// The length of one of the buffers.
type Length = fn(&mut Room) -> &mut usize;

const LENGTHS: [Length; 5] = [
    |room| &mut room.parents,
    |room| &mut room.tops,
    |room| &mut room.bottoms,
    |room| &mut room.marks,
    |room| &mut room.windows,
];

/// One of the buffers a cell too short is refused with 8, whatever the bytes are; longer, it is not.
fn short_and_longer(length: Length) -> Outcome {
    let windowed = table_lines(&named("printing windows")?.table).concat();
    for bytes in [BAKEHOUSE_BYTES, &windowed, b"", b"050000000010\n"] {
        for (change, is_short) in [(-1, true), (0, false), (1, false)] {
            let mut room = EXACT;
            *length(&mut room) = length(&mut room).wrapping_add_signed(change);
            let answer = check(bytes, room, &mut Generator::new(0))?;
            let refusal = answer.err().map(|refusal| (refusal.number, refusal.place));
            same("8", refusal == Some((8, 0)), is_short)?;
        }
    }
    Ok(())
}

/// So many times the same line.
type Run = (&'static str, usize);

const FIRST_LAYOUT: &str = "01FFFF\n";
const LAYOUT: &str = "010000\n";
const JOB: &str = "0200000000\n";
const NO_LAYOUT: &str = "020000FFFE\n";
const UPWARD: &str = "0200010000\n";
const FULL_END: &str = "0304001000\n";
const WINDOWED: &str = "05000000000F\n";
const WINDOWED_UPWARD: &str = "050001000001\n";
const WINDOW_BEYOND: &str = "050000000010\n";

/// Tables at and over the limits, with the refusal and its line.
fn limits() -> Vec<(Vec<Run>, Option<(u16, u16)>)> {
    let layouts = |count: usize| [(FIRST_LAYOUT, 1), (LAYOUT, count - 1)];
    let first = |count: usize, then: &[Run]| [&layouts(count)[..], then].concat();
    let behind = |runs: &[Run], count: usize, then: &[Run]| [runs, &layouts(count), then].concat();
    vec![
        // Layouts first.
        (first(1024, &[("0304000000\n", 1)]), None),
        (first(1025, &[]), Some((3, 1025))),
        (first(1, &[(JOB, 4096), ("0300011000\n", 1)]), None),
        (first(1, &[(JOB, 4097)]), Some((3, 4098))),
        (first(1024, &[(JOB, 4096), (FULL_END, 1)]), None),
        (first(1024, &[(JOB, 4097)]), Some((3, 5121))),
        (first(2048, &[(JOB, 12_288)]), Some((3, 1025))),
        (first(2, &[(JOB, 65_538)]), Some((3, 4099))),
        // Jobs first.
        (vec![(JOB, 4097)], Some((3, 4097))),
        (vec![(JOB, 65_538)], Some((3, 4097))),
        (behind(&[(JOB, 4096)], 1024, &[(FULL_END, 1)]), None),
        (behind(&[(JOB, 4096)], 1025, &[]), Some((3, 5121))),
        (behind(&[(JOB, 4096)], 1024, &[(JOB, 1)]), Some((3, 5121))),
        (
            behind(&[(JOB, 4095)], 1024, &[(JOB, 1), (FULL_END, 1)]),
            None,
        ),
        // Jobs between layouts, and layouts between jobs.
        (first(1, &[(JOB, 4096), (LAYOUT, 1024)]), Some((3, 5121))),
        (first(512, &[(JOB, 4096), (LAYOUT, 513)]), Some((3, 5121))),
        (
            first(512, &[(JOB, 4096), (LAYOUT, 512), (FULL_END, 1)]),
            None,
        ),
        (
            behind(&[(JOB, 2048)], 1024, &[(JOB, 2049)]),
            Some((3, 5121)),
        ),
        (
            behind(&[(JOB, 2048)], 1024, &[(JOB, 2048), (FULL_END, 1)]),
            None,
        ),
        // A wrong job before the line beyond the limit, and where there is none.
        (vec![(NO_LAYOUT, 1), (JOB, 4096)], Some((3, 4097))),
        (
            behind(&[(UPWARD, 1), (JOB, 4095)], 1025, &[]),
            Some((3, 5121)),
        ),
        (
            behind(&[(JOB, 4095), (NO_LAYOUT, 1)], 1024, &[(FULL_END, 1)]),
            Some((5, 4096)),
        ),
        (
            first(1024, &[(JOB, 4095), (UPWARD, 1), (FULL_END, 1)]),
            Some((6, 5120)),
        ),
        (
            behind(&[(JOB, 1)], 1024, &[(UPWARD, 4095), (FULL_END, 1)]),
            Some((6, 1026)),
        ),
        // Windows: the longest table; 3 for the job beyond the limit, whichever kinds there are, but 9
        // for its window; the own line of a job behind jobs with windows.
        (first(1024, &[(WINDOWED, 4096), (FULL_END, 1)]), None),
        (behind(&[(WINDOWED, 4096)], 1024, &[(FULL_END, 1)]), None),
        (first(1, &[(WINDOWED, 4097)]), Some((3, 4098))),
        (
            first(1, &[(JOB, 2048), (WINDOWED, 2048), (JOB, 1)]),
            Some((3, 4098)),
        ),
        (first(1, &[(JOB, 4096), (WINDOWED, 1)]), Some((3, 4098))),
        (
            first(1, &[(JOB, 4096), (WINDOW_BEYOND, 1)]),
            Some((9, 4098)),
        ),
        (
            first(1, &[(WINDOWED, 4096), (WINDOW_BEYOND, 1)]),
            Some((9, 4098)),
        ),
        (behind(&[(WINDOWED, 4096)], 1025, &[]), Some((3, 5121))),
        (
            first(1024, &[(WINDOWED, 4095), (UPWARD, 1), (FULL_END, 1)]),
            Some((6, 5120)),
        ),
        (
            behind(
                &[(WINDOWED, 1)],
                1024,
                &[(WINDOWED_UPWARD, 4095), (FULL_END, 1)],
            ),
            Some((6, 1026)),
        ),
    ]
}

fn as_said_of_runs((runs, refusal): (Vec<Run>, Option<(u16, u16)>)) -> Outcome {
    let text: String = runs
        .iter()
        .map(|(line, times)| line.repeat(*times))
        .collect();
    let refusal = refusal.map(|(number, place)| Refusal { number, place });
    let answer = check(text.as_bytes(), EXACT, &mut Generator::new(0))?;
    same(&format!("{runs:?}"), answer.err(), refusal)
}

/// Of several faults the one that comes up first is told.
fn first_fault_wins(case: &Case) -> Outcome {
    let (bytes, refusal) = case.written();
    let answer = check(&bytes, EXACT, &mut Generator::new(0))?;
    same("the refusal", answer.err(), refusal)
}

/// However its lines are mixed, the same table is read.
fn every_mixture(generator: &mut Generator) -> Outcome {
    let size = Size {
        layouts: generator.between(1, 4),
        jobs: generator.between(0, 4),
    };
    let table = table_of_size(size, generator);
    for kinds in mixtures(table.layouts(), table.jobs()) {
        let bytes = lines_mixed(&table, &kinds).concat();
        same("the table read", read(&bytes).as_ref(), Ok(&table))?;
    }
    in_every_mixture(&table, generator)
}

fn in_every_mixture(table: &Table, generator: &mut Generator) -> Outcome {
    mixtures(table.layouts(), table.jobs())
        .iter()
        .try_for_each(|kinds| agrees(&lines_mixed(table, kinds).concat(), EXACT, generator))
}

/// Buffers as asked for, or longer.
fn room(generator: &mut Generator) -> Room {
    if generator.one_in(2) {
        return EXACT;
    }
    let mut longer = |length: usize| length + generator.below(60);
    Room {
        parents: longer(LAYOUT_LIMIT),
        tops: longer(JOB_LIMIT),
        bottoms: longer(JOB_LIMIT),
        marks: longer(JOB_LIMIT),
        windows: longer(JOB_LIMIT),
    }
}

/// Buffers of any length, often one cell short.
fn any_room(generator: &mut Generator) -> Room {
    let mut any = |length: usize| match generator.below(8) {
        0 => length - 1,
        1 => generator.below(length + 1),
        2 => 2 * length + 1,
        3 => 70_000,
        _ => length,
    };
    Room {
        parents: any(LAYOUT_LIMIT),
        tops: any(JOB_LIMIT),
        bottoms: any(JOB_LIMIT),
        marks: any(JOB_LIMIT),
        windows: any(JOB_LIMIT),
    }
}

fn limit_size(generator: &mut Generator) -> Size {
    let few = generator.between(1, LAYOUT_LIMIT);
    Size {
        layouts: generator.choice(&[LAYOUT_LIMIT, LAYOUT_LIMIT - 1, few]),
        jobs: generator.choice(&[JOB_LIMIT, JOB_LIMIT, JOB_LIMIT - 1, 0]),
    }
}

/// A table with each byte in turn another one, left out, and cut off.
fn every_place(bytes: &[u8], generator: &mut Generator) -> Outcome {
    for at in 0..bytes.len() {
        let mut other = bytes.to_vec();
        let (any, digit) = (
            generator.bits() as u8,
            generator.choice(b"0123456789ABCDEF"),
        );
        other[at] = generator.choice(&[any, digit]);
        agrees(&other, EXACT, generator)?;
        other.remove(at);
        agrees(&other, EXACT, generator)?;
        agrees(&bytes[..at], EXACT, generator)?;
    }
    Ok(())
}

/// Inputs far longer than any table.
fn long_input(generator: &mut Generator) -> Vec<u8> {
    let noise = (0..200_000).map(|_| generator.bits() as u8).collect();
    let digits = vec![b'0'; generator.choice(&VERY_LONG)];
    let lines = b"0200000000\n".repeat(100_000);
    let windowed = b"050000000007\n".repeat(100_000);
    let layouts = b"010000\n".repeat(100_000);
    let parents = any_parents(LAYOUT_LIMIT, generator);
    let start = Table {
        parents,
        ..Table::default()
    };
    let end = table_lines(&start).concat();
    let start = &end[..end.len() - 11];
    match generator.below(8) {
        0 => noise,
        1 => [digits, b"\n".to_vec()].concat(),
        2 => [start, &lines].concat(),
        3 => [start, &layouts].concat(),
        4 => [end.as_slice(), &lines].concat(),
        5 => [start, &windowed].concat(),
        6 => [end.as_slice(), &windowed].concat(),
        _ => [start, b"0200000000\n", &digits, b"\n"].concat(),
    }
}
