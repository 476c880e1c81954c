//! How long *Plan* takes on full tables (4,096 jobs, 1,024 layouts), by the tree's shape and the
//! jobs' reach, and how the time grows with the jobs and with the windows. It prints and judges nothing.

use std::time::{Duration, Instant};
use tests::library;
use tests::made::tables::{table_of_shape, Reach, Shape, Size, SHAPES};
use tests::made::windows::{spread, Spread};
use tests::made::Generator;
use tests::reference::{Table, JOB_LIMIT, LAYOUT_LIMIT, WINDOW_LIMIT, WORK_CELLS};

const CALLS: usize = 101;

fn main() {
    for shape in SHAPES {
        for reach in [Reach::Any, Reach::Short, Reach::Whole, Reach::Point] {
            println!("{shape:?}, {reach:?}: {}", times(shape, reach));
        }
    }
}

/// The median time of a call for 64, 512 and 4,096 jobs, and for the last of these in 4 and 16 windows.
fn times(shape: Shape, reach: Reach) -> String {
    let of_size = |jobs| {
        let layouts = LAYOUT_LIMIT;
        table_of_shape(shape, reach, Size { layouts, jobs }, &mut Generator::new(1))
    };
    let by_jobs = [64, 512, JOB_LIMIT].map(|jobs| {
        let time = median_time(&of_size(jobs));
        format!("{jobs} jobs {} µs", time.as_micros())
    });
    let by_windows = [4, WINDOW_LIMIT].map(|windows| {
        let mut table = of_size(JOB_LIMIT);
        spread(&mut table, Spread::First(windows), &mut Generator::new(1));
        let time = median_time(&table);
        format!("{windows} windows {} µs", time.as_micros())
    });
    [by_jobs.join(", "), by_windows.join(", ")].join(", ")
}

fn median_time(table: &Table) -> Duration {
    let mut partners = vec![0; table.jobs()];
    let (mut uppers, mut printed) = (partners.clone(), partners.clone());
    let mut work = vec![0; WORK_CELLS];
    let mut times: Vec<Duration> = (0..CALLS)
        .map(|_| {
            let start = Instant::now();
            let answer = library::plan(table, &mut partners, &mut uppers, &mut printed, &mut work);
            let time = start.elapsed();
            answer.expect("a whole table is planned");
            time
        })
        .collect();
    times.sort();
    times[CALLS / 2]
}
