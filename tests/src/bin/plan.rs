//! *Plan* of the proved library beside the quadratic implementation and exhaustive search at every
//! cut (document 01, "What each operation turns away" and "Rival plans and the cut").

use std::process::ExitCode;
use tests::library;
use tests::plan_checks;
use tests::report::Report;

fn main() -> ExitCode {
    let mut report = Report::new("plan");
    plan_checks::run(&mut report, &library::plan);
    report.finish()
}
