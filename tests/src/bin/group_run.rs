//! The second whole run of the proved library, for a press with more lanes, beside the reference, the
//! search for any full grouping and the first run (2026-07).

use std::process::ExitCode;
use tests::group_checks;
use tests::library;
use tests::report::Report;

fn main() -> ExitCode {
    let mut report = Report::new("group_run");
    group_checks::run(&mut report, &library::group, &library::run);
    report.finish()
}
