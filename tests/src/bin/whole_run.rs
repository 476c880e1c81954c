//! The whole run of the proved library, as the press driver calls it, beside the reference
//! (document 01, "The plan" and "What each operation turns away").

use std::process::ExitCode;
use tests::library;
use tests::report::Report;
use tests::run_checks;

fn main() -> ExitCode {
    let mut report = Report::new("whole_run");
    run_checks::run(&mut report, &library::run);
    report.finish()
}
