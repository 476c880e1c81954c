//! Pictures of tables: the stored ones to the byte, and that each holds what it must, counted
//! against the second implementation. With `--write` the stored pictures are written anew.

use std::env;
use std::fs;
use std::path::PathBuf;
use std::process::ExitCode;
use tests::examples::{marked, named, telling, Example};
use tests::made::mixtures::any_lines;
use tests::made::tables::{table, table_of_size, Size};
use tests::made::Generator;
use tests::picture::answer::{planned, planned_by_rival, planned_wrongly, product_answer, Answer};
use tests::picture::planned::Planned;
use tests::picture::{is_legible, picture, planned_picture, Maker, Options};
use tests::picture::{JOBS_DRAWN, LAYOUTS_DRAWN};
use tests::picture_checks::{check_picture, check_plan, size_to_draw, Ends, Expected};
use tests::plan_checks::Planner;
use tests::reference::rivals::Pair;
use tests::reference::table::{read, table_lines};
use tests::reference::{Table, JOB_LIMIT, LAYOUT_LIMIT};
use tests::report::{same, Outcome, Report};
use tests::run_checks::damaged_table;
use tests::well_formed::{elements, ILL_FORMED, WELL_FORMED};
use tests::wrong_planners::{wrong_planners, WrongPlanner};

fn main() -> ExitCode {
    if env::args().any(|argument| argument == "--write") {
        return write_stored();
    }
    let mut report = Report::new("pictures");
    report.listed("ill-formed markup", ILL_FORMED, |text| {
        same(text, elements(text).is_err(), true)
    });
    report.listed("well-formed markup", WELL_FORMED, |(text, held)| {
        same(text, elements(text)?[0].text.as_str(), held)
    });
    report.listed("stored pictures", STORED, |stored| as_stored(&stored));
    report.listed("tables worked by hand", examples(), |example| {
        check(&table_lines(&example.table).concat(), "", None)
    });
    report.listed("every cut of these tables", examples(), |example| {
        every_cut(&example.table)
    });
    report.listed("wrong planners", wrong_planners(), |planner| {
        not_drawn(&planner)
    });
    report.listed("plans that break the rules", [()], |()| rule_breakers());
    report.made("legible tables", 600, |generator| {
        check_made(
            &table_of_size(size_to_draw(generator), generator),
            generator,
        )
    });
    report.made("made tables", 400, |generator| {
        check_made(&table(generator), generator)
    });
    report.made("tables at the limits", 12, |generator| {
        check_made(&table_of_size(limit_size(generator), generator), generator)
    });
    report.made("damaged tables", 600, |generator| {
        check(&damaged_table(generator), "damaged", None)
    });
    report.made("any bytes in a line", 600, |generator| {
        let name = String::from_utf8_lossy(&any_bytes(generator)).into_owned();
        check(&with_any_line(generator), &name, None)
    });
    report.finish()
}

/// A stored picture: its file, its table in `examples`, and what is drawn of it.
struct Stored {
    file: &'static str,
    table: &'static str,
    shown: Shown,
}

enum Shown {
    Product,
    Cut(usize),
    /// The plan of a wrong planner, or of a rival with these pairs, as it is worked out by hand.
    Wrong(&'static str, ByHand),
    Rival(&'static [Pair], ByHand),
}

/// The marked tables and those that tell wrong planners.
fn examples() -> impl Iterator<Item = Example> {
    marked().into_iter().chain(telling())
}

/// The order and the passes of a plan that is not the product's.
struct ByHand {
    order: &'static [usize],
    passes: &'static [(&'static [usize], Ends)],
}

/// Two branches below layout 1, by the shallowest highest layouts: it loses a pair.
const SHALLOWEST: ByHand = ByHand {
    order: &[0, 1, 2, 3],
    passes: &[(&[0, 1], Some((1, 1))), (&[2], None), (&[3], None)],
};

/// Two jobs 0-1, by a loop that ends at count minus one: they run alone.
const LAST_NOT_OFFERED: ByHand = ByHand {
    order: &[0, 1],
    passes: &[(&[0], None), (&[1], None)],
};

/// Three jobs on a chain, the later two paired: as few passes, but the first job is alone.
const EARLIER_ALONE: ByHand = ByHand {
    order: &[0, 1, 2],
    passes: &[(&[0], None), (&[1, 2], Some((2, 2)))],
};

const fn stored(file: &'static str, table: &'static str, shown: Shown) -> Stored {
    Stored { file, table, shown }
}

const STORED: [Stored; 18] = [
    stored("examples/added-layout", "added-layout", Shown::Product),
    stored("examples/bakehouse", "bakehouse", Shown::Product),
    stored("examples/bakehouse-cut-3", "bakehouse", Shown::Cut(3)),
    stored("examples/bare-sheet", "bare-sheet", Shown::Product),
    stored("examples/both-ends", "both-ends", Shown::Product),
    stored("examples/chain-of-seven", "chain-of-seven", Shown::Product),
    stored("examples/earlier-job", "earlier-job", Shown::Product),
    stored("examples/exchanged", "exchanged", Shown::Product),
    stored("examples/first-partner", "first-partner", Shown::Product),
    stored("examples/no-jobs", "no-jobs", Shown::Product),
    stored("examples/solo", "solo", Shown::Product),
    stored("examples/three-across", "three-across", Shown::Product),
    stored("examples/two-branches", "two-branches", Shown::Product),
    stored("examples/two-jobs", "two-jobs", Shown::Product),
    stored("examples/windows", "windows", Shown::Product),
    stored(
        "docs/pictures/shallowest-first",
        "two-branches",
        Shown::Wrong("the shallowest first", SHALLOWEST),
    ),
    stored(
        "docs/pictures/last-not-offered",
        "two-jobs",
        Shown::Wrong("the last job never offered", LAST_NOT_OFFERED),
    ),
    stored(
        "docs/pictures/earlier-job-alone",
        "earlier-job",
        Shown::Rival(&[(1, 2)], EARLIER_ALONE),
    ),
];

impl Stored {
    fn path(&self) -> PathBuf {
        in_repository(&format!("{}.svg", self.file))
    }

    fn table_bytes(&self) -> Result<Vec<u8>, String> {
        let file = in_repository(&format!("examples/{}.table", self.table));
        fs::read(file).map_err(|error| error.to_string())
    }

    /// The picture, drawn anew.
    fn drawn(&self) -> Result<String, String> {
        let bytes = self.table_bytes()?;
        match &self.shown {
            Shown::Product => Ok(draw(&bytes, self.table, None)?.picture),
            Shown::Cut(cut) => Ok(draw(&bytes, self.table, Some(*cut))?.picture),
            Shown::Wrong(planner, _) => {
                let maker = Maker::Wrong(planner.to_string());
                draw_other(planned_wrongly(&bytes, planner)?, self.table, maker)
            }
            Shown::Rival(pairs, _) => {
                draw_other(planned_by_rival(&bytes, pairs)?, self.table, Maker::Rival)
            }
        }
    }

    /// That a picture holds what it must.
    fn check(&self, picture: &str) -> Outcome {
        let bytes = self.table_bytes()?;
        match &self.shown {
            Shown::Product => check_picture(picture, &bytes, None, true),
            Shown::Cut(cut) => check_picture(picture, &bytes, Some(*cut), true),
            Shown::Wrong(_, plan) | Shown::Rival(_, plan) => {
                check_plan(picture, &plan.expected(&bytes)?)
            }
        }
    }
}

impl ByHand {
    fn expected(&self, bytes: &[u8]) -> Result<Expected, String> {
        let passes = self.passes.iter();
        Ok(Expected {
            table: read(bytes).map_err(|refusal| format!("{refusal:?}"))?,
            order: self.order.to_vec(),
            passes: passes.map(|(jobs, ends)| (jobs.to_vec(), *ends)).collect(),
        })
    }
}

fn in_repository(path: &str) -> PathBuf {
    PathBuf::from(env!("CARGO_MANIFEST_DIR"))
        .join("..")
        .join(path)
}

fn as_stored(stored: &Stored) -> Outcome {
    let picture = stored.drawn()?;
    stored.check(&picture)?;
    let found = fs::read_to_string(stored.path()).map_err(|error| error.to_string())?;
    match found == picture {
        true => Ok(()),
        false => Err(format!("{} is not the one stored", stored.file)),
    }
}

fn write_stored() -> ExitCode {
    let write = |stored: &Stored| -> Outcome {
        fs::write(stored.path(), stored.drawn()?).map_err(|error| error.to_string())
    };
    match STORED.iter().try_for_each(write) {
        Ok(()) => ExitCode::SUCCESS,
        Err(reason) => {
            eprintln!("pictures: {reason}");
            ExitCode::FAILURE
        }
    }
}

struct Drawn {
    picture: String,
    legible: bool,
}

fn draw(bytes: &[u8], name: &str, cut: Option<usize>) -> Result<Drawn, String> {
    let answer = product_answer(bytes)?;
    let options = Options {
        name: name.to_string(),
        cut,
        maker: Maker::Product,
    };
    Ok(Drawn {
        picture: picture(bytes, &answer, &options)?.written(),
        legible: matches!(&answer, Answer::Planned(planned) if is_legible(planned)),
    })
}

fn draw_other(planned: Planned, name: &str, maker: Maker) -> Result<String, String> {
    let options = Options {
        name: name.to_string(),
        cut: None,
        maker,
    };
    planned_picture(&planned, &options).map(|drawn| drawn.written())
}

fn check(bytes: &[u8], name: &str, cut: Option<usize>) -> Outcome {
    let drawn = draw(bytes, name, cut)?;
    check_picture(&drawn.picture, bytes, cut, drawn.legible)
}

/// A made table, in half of the cases with a cut.
fn check_made(table: &Table, generator: &mut Generator) -> Outcome {
    let cut = generator.between(0, table.jobs());
    let cut = generator.choice(&[None, Some(cut)]);
    let drawn_whole = table.jobs() <= JOBS_DRAWN && table.layouts() <= LAYOUTS_DRAWN;
    let bytes = any_lines(table, generator).concat();
    same("legible", draw(&bytes, "made", cut)?.legible, drawn_whole)?;
    check(&bytes, "made", cut)
}

/// Each cut up to the number of jobs is drawn, and none beyond.
fn every_cut(table: &Table) -> Outcome {
    let bytes = table_lines(table).concat();
    if product_answer(&bytes).is_ok_and(|answer| matches!(answer, Answer::Refused(_))) {
        return Ok(());
    }
    for cut in 0..=table.jobs() {
        check(&bytes, "cut", Some(cut))?;
    }
    let beyond = draw(&bytes, "cut", Some(table.jobs() + 1));
    same("a cut beyond the jobs", beyond.is_err(), true)
}

/// A plan that the second implementation does not have is not drawn.
fn not_drawn(planner: &WrongPlanner) -> Outcome {
    let call: Planner = &|table, partners, uppers, printed, work| {
        planner.call(table, partners, uppers, printed, work)
    };
    let table = named(planner.fails)?.table;
    same(planner.name, planned(table, call).is_err(), true)
}

/// Of the wrong planners, some pair jobs that do not share, that are solo or of two windows, and one
/// refuses: none of these can be drawn, and no rival that breaks the rules.
fn rule_breakers() -> Outcome {
    for (planner, table) in [
        ("spans without depths", "above the highest layout"),
        ("pairs on layout 0", "layout 0 alone in common"),
        ("marks ignored", "a solo job that could share"),
        ("windows ignored", "two windows"),
        ("refusing each table", "no jobs"),
        ("nobody", "no jobs"),
    ] {
        let bytes = table_lines(&named(table)?.table).concat();
        same(planner, planned_wrongly(&bytes, planner).is_err(), true)?;
    }
    let bytes = table_lines(&named("the earlier job")?.table).concat();
    let rival = planned_by_rival(&bytes, &[(0, 1)]);
    same("a rival of jobs that do not share", rival.is_err(), true)
}

fn limit_size(generator: &mut Generator) -> Size {
    Size {
        layouts: generator.choice(&[1, 2, LAYOUT_LIMIT]),
        jobs: JOB_LIMIT,
    }
}

/// A table with a line of any bytes in it.
fn with_any_line(generator: &mut Generator) -> Vec<u8> {
    let size = Size {
        layouts: generator.between(1, 4),
        jobs: generator.between(0, 4),
    };
    let table = table_of_size(size, generator);
    let mut lines = any_lines(&table, generator);
    let at = generator.between(0, lines.len());
    lines.insert(at, any_bytes(generator));
    lines.concat()
}

/// Bytes of every kind, those that markup gives a meaning to more often.
fn any_bytes(generator: &mut Generator) -> Vec<u8> {
    let length = generator.between(0, 60);
    let byte = |_| {
        let any = generator.bits() as u8;
        generator.choice(&[any, any, b'<', b'>', b'&', b'"', b'\'', b']', 0, b' '])
    };
    (0..length).map(byte).collect()
}
