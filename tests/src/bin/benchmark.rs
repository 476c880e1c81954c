//! How long the whole run takes, from the bytes of a table to the bytes of its plan: the proved one,
//! the one written by hand, and the quadratic one. All three run in this process on the same tables,
//! each table the same in every process. They take turns, and the least time of many calls counts, so
//! that what else the machine does weighs little.
//!
//! One call is timed from its start to its end, with all that it does itself: reading, planning,
//! printing, and zeros over the rest of the output. Input and output are lent, the same to all calls
//! on a table. Nothing is cleared between two calls, neither the output nor a cache.
//!
//! The second whole run, for a press with more lanes, is timed in turns with the first one on full tables in
//! which a full grouping was planted.
//!
//! It prints and judges no time, but stops if the three do not write the same, or the second run not what
//! the reference writes.

use std::time::{Duration, Instant};
use tests::made::mixtures::{lines_mixed, Kind};
use tests::made::planted::{planted, Planting};
use tests::made::tables::{table_of_shape, Reach, Shape, Size};
use tests::made::windows::{spread, Spread};
use tests::made::Generator;
use tests::reference::table::table_lines;
use tests::reference::{Table, JOB_LIMIT, LAYOUT_LIMIT, OUTPUT_BYTES, WINDOW_LIMIT};
use tests::{by_hand, library, reference};

const ROUNDS: usize = 50;
const CALLS: usize = 9;
/// The quadratic one, which takes long, is called once in so many rounds.
const QUADRATIC_ROUNDS: usize = 10;

const SHAPES: [Shape; 5] = [
    Shape::Random,
    Shape::Chain,
    Shape::Star,
    Shape::Binary,
    Shape::Deep,
];

const JOBS: [usize; 3] = [64, 512, JOB_LIMIT];

/// The presses that the second run is timed for.
const LANES: [usize; 3] = [2, 3, 8];

/// How many windows the jobs of full tables are in, beside one.
const WINDOWS: [usize; 2] = [4, WINDOW_LIMIT];

/// Where the lines of layouts stand.
#[derive(Clone, Copy)]
enum Layouts {
    First,
    Last,
    /// Each before four jobs, as long as there are jobs.
    Between,
}

/// The whole run: input, output, and the length answered.
type Runner = fn(&[u8], &mut [u8]) -> usize;

/// The least time of each whole run on one table.
struct Times {
    proved: Duration,
    by_hand: Duration,
    quadratic: Duration,
}

fn main() {
    println!("times in µs; ratios: proved / by hand, quadratic / proved");
    println!(
        "{:8} {:12} {:>15} {:>6} {:>8} {:>9} {:>9} {:>11} {:>7} {:>7}",
        "tree",
        "paths",
        "layouts",
        "jobs",
        "windows",
        "proved",
        "by hand",
        "quadratic",
        "p / h",
        "q / p"
    );
    for jobs in [64, 512] {
        let size = Size {
            layouts: jobs,
            jobs,
        };
        rows(Reach::Any, size, Layouts::First, 1);
    }
    let by_jobs = JOBS.map(|jobs| rows(Reach::Any, full_tree(jobs), Layouts::First, 1));
    for reach in [Reach::Point, Reach::Whole] {
        rows(reach, full_tree(JOB_LIMIT), Layouts::First, 1);
    }
    for layouts in [Layouts::Last, Layouts::Between] {
        rows(Reach::Any, full_tree(JOB_LIMIT), layouts, 1);
    }
    let full = full_tree(JOB_LIMIT);
    let in_windows = |reach| WINDOWS.map(|windows| rows(reach, full, Layouts::First, windows));
    let by_windows = in_windows(Reach::Any);
    for reach in [Reach::Point, Reach::Whole] {
        in_windows(reach);
    }
    for (at, shape) in SHAPES.into_iter().enumerate() {
        let jobs = by_jobs.each_ref().map(|times| times[at].proved);
        print_growth(shape, jobs);
        let windows = by_windows.each_ref().map(|times| times[at].proved);
        print_windows(shape, jobs[2], windows);
    }
    second_runs();
}

fn full_tree(jobs: usize) -> Size {
    let layouts = LAYOUT_LIMIT;
    Size { layouts, jobs }
}

/// The rows of trees of each shape, the jobs in any of so many windows.
fn rows(reach: Reach, size: Size, layouts: Layouts, windows: usize) -> Vec<Times> {
    let shapes = SHAPES.into_iter();
    shapes
        .map(|shape| {
            let mut generator = Generator::new(1);
            let mut table = table_of_shape(shape, reach, size, &mut generator);
            spread(&mut table, Spread::First(windows), &mut generator);
            let name = format!("{:8} {:12}", format!("{shape:?}"), path_name(reach));
            row(&name, &table, layouts)
        })
        .collect()
}

/// Measures one table and prints its row.
fn row(name: &str, table: &Table, layouts: Layouts) -> Times {
    let input = lines_mixed(table, &kinds(layouts)).concat();
    stop_unless_same(&input);
    let times = times(&input, &mut vec![0; OUTPUT_BYTES]);
    print_row(name, table, layouts, &times);
    times
}

/// The rows of the second run: full tables of each shape for each press, in one window and in all.
fn second_runs() {
    println!("the second run: times in µs; ratio: second / first");
    println!(
        "{:8} {:>5} {:>6} {:>8} {:>9} {:>9} {:>7}",
        "tree", "lanes", "jobs", "windows", "first", "second", "s / f"
    );
    for windows in [1, WINDOW_LIMIT] {
        for lanes in LANES {
            SHAPES
                .into_iter()
                .for_each(|shape| second_row(shape, lanes, windows));
        }
    }
}

fn second_row(shape: Shape, lanes: usize, windows: usize) {
    let planting = Planting::full(shape, lanes, Spread::First(windows));
    let table = planted(planting, &mut Generator::new(1));
    let input = table_lines(&table).concat();
    stop_unless_grouped(&input, lanes);
    let [first, second] = times_in_turns(&input, lanes);
    println!(
        "{:8} {lanes:>5} {:>6} {:>8} {:>9.1} {:>9.1} {:>7.2}",
        format!("{shape:?}"),
        table.jobs(),
        table.windows_used().len(),
        microseconds(first),
        microseconds(second),
        second.div_duration_f64(first),
    );
}

/// The least time of the first run, and of the second.
fn times_in_turns(input: &[u8], lanes: usize) -> [Duration; 2] {
    let output = &mut vec![0; OUTPUT_BYTES];
    let mut least = [Duration::MAX; 2];
    for _ in 0..ROUNDS * CALLS {
        lower_once(&mut least[0], || library::run(input, output));
        lower_once(&mut least[1], || library::group(input, output, lanes));
    }
    least
}

fn lower_once(least: &mut Duration, run: impl FnOnce() -> usize) {
    let start = Instant::now();
    run();
    *least = start.elapsed().min(*least);
}

/// Times are taken only where the second run writes groups, and those of the reference.
fn stop_unless_grouped(input: &[u8], lanes: usize) {
    let (mut found, mut expected) = (vec![1; OUTPUT_BYTES], vec![2; OUTPUT_BYTES]);
    let length = library::group(input, &mut found, lanes);
    let expected_length = reference::groups::run_into(input, &mut expected, lanes);
    assert!(found.starts_with(b"13"), "no groups");
    assert!(
        (length, found) == (expected_length, expected),
        "reference differs"
    );
}

/// The kinds of the lines, as long as both are left.
fn kinds(layouts: Layouts) -> Vec<Kind> {
    match layouts {
        Layouts::First => vec![Kind::Layout; LAYOUT_LIMIT],
        Layouts::Last => vec![Kind::Job; JOB_LIMIT],
        Layouts::Between => {
            let [layout, job] = [Kind::Layout, Kind::Job];
            [layout, job, job, job, job].repeat(LAYOUT_LIMIT)
        }
    }
}

fn print_row(name: &str, table: &Table, layouts: Layouts, times: &Times) {
    println!(
        "{name} {:>15} {:>6} {:>8} {:>9.1} {:>9.1} {:>11.1} {:>7.2} {:>7.1}",
        format!("{} {}", table.layouts(), layouts_name(layouts)),
        table.jobs(),
        table.windows_used().len(),
        microseconds(times.proved),
        microseconds(times.by_hand),
        microseconds(times.quadratic),
        times.proved.div_duration_f64(times.by_hand),
        times.quadratic.div_duration_f64(times.proved),
    );
}

/// How the time grows with the jobs.
fn print_growth(shape: Shape, [few, some, full]: [Duration; 3]) {
    println!(
        "{shape:?}, proved: 64 to 512 jobs × {:.2}, 512 to 4,096 × {:.2}, 64 to 4,096 × {:.2}",
        some.div_duration_f64(few),
        full.div_duration_f64(some),
        full.div_duration_f64(few),
    );
}

/// How the time of a full table changes with the windows.
fn print_windows(shape: Shape, one: Duration, [some, all]: [Duration; 2]) {
    println!(
        "{shape:?}, proved: 1 to 4 windows × {:.2}, 1 to 16 × {:.2}",
        some.div_duration_f64(one),
        all.div_duration_f64(one),
    );
}

fn path_name(reach: Reach) -> &'static str {
    match reach {
        Reach::Any => "any",
        Reach::Short => "short",
        Reach::Whole => "top = 0",
        Reach::Point => "top = bottom",
    }
}

fn layouts_name(layouts: Layouts) -> &'static str {
    match layouts {
        Layouts::First => "first",
        Layouts::Last => "last",
        Layouts::Between => "between",
    }
}

fn microseconds(time: Duration) -> f64 {
    time.as_secs_f64() * 1e6
}

fn times(input: &[u8], output: &mut [u8]) -> Times {
    let mut times = Times {
        proved: Duration::MAX,
        by_hand: Duration::MAX,
        quadratic: Duration::MAX,
    };
    for round in 0..ROUNDS {
        lower(&mut times.proved, library::run, input, output);
        lower(&mut times.by_hand, by_hand::run_into, input, output);
        if round % QUADRATIC_ROUNDS == 0 {
            let quadratic = time(reference::run::run_into, input, output);
            times.quadratic = times.quadratic.min(quadratic);
        }
    }
    times
}

/// Lowers a time to the least of some calls in a row.
fn lower(least: &mut Duration, runner: Runner, input: &[u8], output: &mut [u8]) {
    for _ in 0..CALLS {
        *least = time(runner, input, output).min(*least);
    }
}

fn time(runner: Runner, input: &[u8], output: &mut [u8]) -> Duration {
    let start = Instant::now();
    runner(input, output);
    start.elapsed()
}

/// Times are compared only where all three write the same.
fn stop_unless_same(input: &[u8]) {
    let written = |runner: Runner| {
        let mut output = vec![1; OUTPUT_BYTES];
        (runner(input, &mut output), output)
    };
    let proved = written(library::run);
    assert!(proved == written(by_hand::run_into), "by hand differs");
    assert!(
        proved == written(reference::run::run_into),
        "reference differs"
    );
}
