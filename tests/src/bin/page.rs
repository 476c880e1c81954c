//! Pages of tables: well formed, with each turn of the sweep in words, and driven in a browser where
//! one is installed, by keys, buttons and finger, in a narrow and a wide frame, and printed.

use std::process::ExitCode;
use tests::browser::Browser;
use tests::examples::{named, BAKEHOUSE_BYTES};
use tests::made::tables::{table, table_of_size};
use tests::page_checks::driving::{drive, print};
use tests::page_checks::{bakehouse, bare_sheet, both_ends, windows};
use tests::page_checks::{holds_turns, page_of, read_page, words_of_turns};
use tests::picture_checks::size_to_draw;
use tests::reference::table::table_lines;
use tests::report::{same, Outcome, Report};
use tests::run_checks::damaged_table;

fn main() -> ExitCode {
    let mut report = Report::new("page");
    report.listed("the bakehouse turns", [()], |()| {
        tells(BAKEHOUSE_BYTES, &bakehouse::TURNS)
    });
    report.listed("the turns of the bare sheet", [()], |()| {
        let bytes = table_lines(&named("the bare sheet")?.table).concat();
        tells(&bytes, &bare_sheet::TURNS)
    });
    report.listed("the turns of both ends", [()], |()| {
        let bytes = table_lines(&named("both ends")?.table).concat();
        tells(&bytes, &both_ends::TURNS)
    });
    report.listed("the turns of printing windows", [()], |()| {
        let bytes = table_lines(&named("printing windows")?.table).concat();
        tells(&bytes, &windows::TURNS)
    });
    report.made("legible tables", 300, |generator| {
        let table = table_of_size(size_to_draw(generator), generator);
        holds_turns(&table)
    });
    report.made("made tables", 200, |generator| {
        holds_turns(&table(generator))
    });
    report.made("damaged tables", 200, |generator| {
        read_page(&page_of(&damaged_table(generator))?).map(|_| ())
    });
    match Browser::find() {
        Some(browser) => in_browser(&mut report, &browser),
        None => println!("page: no browser is installed"),
    }
    report.finish()
}

/// That the page of a table says of each turn what is written down for it.
fn tells(bytes: &[u8], turns: &[&[&str]]) -> Outcome {
    let words = words_of_turns(&page_of(bytes)?)?;
    let written = turns.iter().map(|turn| turn.join(" ")).collect();
    same("turns", words, written)
}

fn in_browser(report: &mut Report, browser: &Browser) {
    report.listed("in a browser", [()], |()| drive(browser));
    report.listed("printed", [()], |()| print(browser));
}
