//! Document 01's own tables ("Tables to try" and the bakehouse table of "The plan"), with what it says
//! of each as changed by 2026-01, 2026-02, 2026-04 and 2026-05, the tables on which wrong planners fail,
//! rivals beside our plans (2026-14), and shared stretches. Pairs, both ends of what they share, visits,
//! refusals, first differences and stretches are worked out by hand from the definitions.

use crate::reference::{Refusal, Table, ABSENT, WINDOW_LIMIT};

/// What is said of a table.
pub enum Said {
    Planned(Passes),
    /// A refusal by number: of *Plan* at the place given first, of the reader at the line given
    /// second.
    Refused(u16, u16, u16),
}

/// A pair as its line has it: the earlier job, the later one, and the highest and the deepest layout
/// that they share.
pub type Pair = (u16, u16, u16, u16);

/// The pairs, every other job being single; and the cell count.
pub struct Passes {
    pub pairs: Vec<Pair>,
    pub visits: u32,
}

pub struct Example {
    pub name: &'static str,
    pub table: Table,
    pub said: Said,
}

const F: u16 = ABSENT;

/// A job by top and bottom, in window 0 or in the one given first.
pub enum Job {
    Plain(u16, u16),
    Solo(u16, u16),
    In(u8, u16, u16),
    SoloIn(u8, u16, u16),
}

use Job::{In, Plain, Solo, SoloIn};

fn example(name: &'static str, parents: &[u16], jobs: &[Job], said: Said) -> Example {
    let table = table_of(parents, jobs);
    Example { name, table, said }
}

pub fn table_of(parents: &[u16], jobs: &[Job]) -> Table {
    let mut table = Table {
        parents: parents.to_vec(),
        ..Table::default()
    };
    for job in jobs {
        match *job {
            Plain(top, bottom) => table.add_job(top, bottom, 0),
            Solo(top, bottom) => table.add_job(top, bottom, 1),
            In(window, top, bottom) => table.add_job_in(window, top, bottom, 0),
            SoloIn(window, top, bottom) => table.add_job_in(window, top, bottom, 1),
        }
    }
    table
}

fn planned(pairs: &[Pair], visits: u32) -> Said {
    let pairs = pairs.to_vec();
    Said::Planned(Passes { pairs, visits })
}

/// The ten marked tables.
pub fn marked() -> Vec<Example> {
    vec![
        example("no jobs", &[F], &[], planned(&[], 0)),
        example("one job", &[F], &[Plain(0, 0)], planned(&[], 0)),
        example(
            "two jobs",
            &[F],
            &[Plain(0, 0), Plain(0, 0)],
            planned(&[], 0),
        ),
        example(
            "a solo job",
            &[F],
            &[Plain(0, 0), Solo(0, 0)],
            planned(&[], 0),
        ),
        // Job 1 asks for both slots.
        example(
            "no shared layout",
            &[F, 0],
            &[Plain(0, 0), Plain(1, 1)],
            planned(&[], 1),
        ),
        // Order 0, 1, 2, 3; jobs by slot 0, 2, 1, 3. Jobs 0 and 1 ask for half of the slots each.
        example(
            "two leaves",
            &[F, 0, 0],
            &[Plain(0, 1), Plain(0, 2), Plain(1, 1), Plain(2, 2)],
            planned(&[(0, 2, 1, 1), (1, 3, 2, 2)], 6),
        ),
        // Jobs 0 and 2 ask for all slots.
        example(
            "a chain of two",
            &[F, 0],
            &[Plain(1, 1), Plain(1, 1), Plain(0, 1), Plain(0, 0)],
            planned(&[(0, 1, 1, 1)], 2),
        ),
        bakehouse(),
        example("a wrong parent", &[F, 1], &[], Said::Refused(4, 1, 2)),
        example(
            "a bottom above its top",
            &[F, 0],
            &[Plain(1, 0)],
            Said::Refused(6, 0, 3),
        ),
    ]
}

pub fn bakehouse() -> Example {
    example(
        "the bakehouse table",
        &[F, 0, 0, 1],
        &[
            Plain(0, 3),
            Plain(1, 3),
            Plain(2, 2),
            Plain(0, 2),
            Plain(3, 3),
        ],
        planned(&[(4, 0, 3, 3), (2, 3, 2, 2)], 25),
    )
}

/// The tables on which wrong planners fail where the marked ones do not show it.
pub fn telling() -> Vec<Example> {
    let mut examples = telling_without_windows();
    examples.extend(telling_windows());
    examples
}

fn telling_without_windows() -> Vec<Example> {
    vec![
        // Order 2, 3, 0, 1; jobs by slot 2, 0, 3, 1. Jobs 2 and 3 ask for half of the slots each. In
        // the order 0, 1, 2, 3 jobs 0 and 1 take each other on layout 1.
        example(
            "two branches",
            &[F, 0, 1, 1],
            &[Plain(0, 2), Plain(0, 3), Plain(2, 2), Plain(3, 3)],
            planned(&[(2, 0, 2, 2), (3, 1, 3, 3)], 6),
        ),
        // Order 2, 3, 0, 1, one leaf. Where job 2 takes job 1, jobs 3 and 0 do not share.
        example(
            "the first partner",
            &[F, 0, 1],
            &[Plain(0, 1), Plain(0, 2), Plain(2, 2), Plain(2, 2)],
            planned(&[(2, 3, 2, 2), (0, 1, 1, 1)], 2),
        ),
        // Order 0, 1, 2, one leaf. Jobs 0 and 1 ask for three slots of four. A rival has 1 and 2 paired:
        // as many pairs in front of every cut, but job 0 is single.
        example(
            "the earlier job",
            &[F, 0, 1, 2],
            &[Plain(3, 3), Plain(2, 2), Plain(1, 3)],
            planned(&[(0, 2, 3, 3)], 10),
        ),
        // The same with the jobs numbered from the other end: order 2, 1, 0.
        example(
            "the earlier job numbered last",
            &[F, 0, 1, 2],
            &[Plain(1, 3), Plain(2, 2), Plain(3, 3)],
            planned(&[(2, 0, 3, 3)], 10),
        ),
        // Jobs 0 and 2 ask for all four slots.
        example(
            "four jobs alike",
            &[F, 0],
            &[Plain(1, 1), Plain(1, 1), Plain(1, 1), Plain(1, 1)],
            planned(&[(0, 1, 1, 1), (2, 3, 1, 1)], 2),
        ),
        // Job 1 goes first and asks for both slots; the bottom of job 0 has the leaf, but not the
        // depth.
        example(
            "a job 0-0 in the span",
            &[F, 0],
            &[Plain(0, 0), Plain(0, 1)],
            planned(&[], 1),
        ),
        // Job 1 goes first and asks for both slots; the bottom of job 0 has the leaf, but not the
        // depth.
        example(
            "above the highest layout",
            &[F, 0, 1],
            &[Plain(0, 1), Plain(2, 2)],
            planned(&[], 2),
        ),
        example(
            "two jobs on layout 1",
            &[F, 0],
            &[Plain(0, 1), Plain(0, 1)],
            planned(&[(0, 1, 1, 1)], 1),
        ),
        // Job 0 asks for both slots.
        example(
            "a solo job that could share",
            &[F, 0],
            &[Plain(1, 1), Solo(1, 1)],
            planned(&[], 1),
        ),
        // Layouts 1 and 2 are shared, and layout 0 does not count.
        example(
            "two shared layouts",
            &[F, 0, 1],
            &[Plain(0, 2), Plain(0, 2)],
            planned(&[(0, 1, 1, 2)], 1),
        ),
        // Job 1 goes first. Job 0 reaches up to layout 1, but they share layouts 2 and 3 alone.
        example(
            "a later job that reaches higher",
            &[F, 0, 1, 2],
            &[Plain(1, 3), Plain(2, 3)],
            planned(&[(1, 0, 2, 3)], 1),
        ),
        // The same with the jobs exchanged: the number of a job does not matter to its highest layout.
        example(
            "an earlier job with the smaller number",
            &[F, 0, 1, 2],
            &[Plain(2, 3), Plain(1, 3)],
            planned(&[(0, 1, 2, 3)], 1),
        ),
        // Order 1, 0, 2, 3, 4, 5; jobs by slot 1, 0, 2, 3, 4, 5. What jobs 1 and 0 share, layouts 2 and
        // 3, has layouts of job 0 above it and below it. Jobs 2 and 3 share 1, 2 and 5, jobs 4 and 5
        // layout 6 alone. Jobs 1 and 2 ask for half of the eight slots, job 4 for a quarter.
        example(
            "both ends",
            &[F, 0, 1, 2, 3, 2, 0],
            &[
                Plain(0, 4),
                Plain(2, 3),
                Plain(0, 5),
                Plain(1, 5),
                Plain(6, 6),
                Plain(0, 6),
            ],
            planned(&[(1, 0, 2, 3), (2, 3, 1, 5), (4, 5, 6, 6)], 11),
        ),
        // Each job asks for one slot of two.
        example(
            "layout 0 alone in common",
            &[F, 0, 0],
            &[Plain(0, 1), Plain(0, 2)],
            planned(&[], 6),
        ),
        // All three have highest layout 1, so the order is 0, 1, 2. Jobs 0 and 2 ask for three slots
        // of four.
        example(
            "a top 0 beside tops 1",
            &[F, 0],
            &[Plain(0, 1), Plain(1, 1), Plain(1, 1)],
            planned(&[(0, 1, 1, 1)], 10),
        ),
        // Job 0 asks for three slots of four, and jobs 1 and 2 ask for none.
        example(
            "jobs 0-0 with slots",
            &[F, 0],
            &[Plain(1, 1), Plain(0, 0), Plain(0, 0)],
            planned(&[], 5),
        ),
        // Order 0, 1, 2, 3; jobs by slot 0, 2, 3, 1. Jobs 0 and 1 ask for slots 0 to 2 and slot 3.
        example(
            "the bare sheet",
            &[F, 0, 0],
            &[Plain(0, 1), Plain(0, 2), Plain(1, 1), Plain(0, 0)],
            planned(&[(0, 2, 1, 1)], 10),
        ),
    ]
}

/// Tables with windows.
fn telling_windows() -> Vec<Example> {
    vec![
        // Each asks for the one slot of its window.
        example(
            "two windows",
            &[F, 0],
            &[Plain(1, 1), In(1, 1, 1)],
            planned(&[], 2),
        ),
        // The next job of the same window is taken, not the next job. Jobs 0 and 1 ask for both slots of
        // their windows.
        example(
            "windows by turns",
            &[F, 0],
            &[In(2, 1, 1), Plain(1, 1), In(2, 1, 1), Plain(0, 1)],
            planned(&[(0, 2, 1, 1), (1, 3, 1, 1)], 2),
        ),
        // Order 0 to 4. Window 1 has jobs 1, 0, 3 by slot, of four slots, window 0 jobs 4, 2, of two. Jobs
        // 0, 1, 2, 4 ask for slots 1 and 2, slot 0, slot 1, slot 0: 7, 5, 3 and 3 visits.
        example(
            "shelves of two sizes",
            &[F, 0, 0],
            &[
                In(1, 2, 2),
                In(1, 1, 1),
                Plain(2, 2),
                In(1, 2, 2),
                Plain(1, 1),
            ],
            planned(&[(0, 3, 2, 2)], 18),
        ),
        // Order 0 to 3. Job 0 asks for the one slot of window 1, jobs 1 and 2 for three of four.
        example(
            "a job alone before the earlier one",
            &[F, 0, 1, 2],
            &[In(1, 3, 3), Plain(3, 3), Plain(2, 2), Plain(1, 3)],
            planned(&[(1, 3, 3, 3)], 11),
        ),
        // Job 1 asks for both slots of window 1; the solo job has its slot in window 0.
        example(
            "a solo job in window 0",
            &[F, 0],
            &[Solo(1, 1), In(1, 1, 1), In(1, 1, 1)],
            planned(&[(1, 2, 1, 1)], 1),
        ),
        // Job 0 asks for the three slots of window 3, of four.
        example(
            "jobs 0-0 in windows",
            &[F, 0],
            &[In(3, 1, 1), In(3, 0, 0), Plain(0, 0), In(3, 0, 0)],
            planned(&[], 5),
        ),
        example(
            "the last window",
            &[F, 0],
            &[In(15, 0, 1), In(15, 0, 1)],
            planned(&[(0, 1, 1, 1)], 1),
        ),
        // Order 0 to 6, layout 3 leaf 0, layout 2 leaf 1. By slot window 0 has jobs 0, 2, 4, 6, window 1
        // jobs 1, 3, window 15 job 5. Jobs 0 and 6 ask for half of four slots, jobs 1 and 5 for all of
        // their windows. But for the windows 0 would take 1, 2 take 3, and 5 take 6.
        example(
            "printing windows",
            &[F, 0, 0, 1],
            &[
                Plain(3, 3),
                In(1, 1, 3),
                Plain(1, 3),
                In(1, 0, 3),
                Solo(2, 2),
                In(15, 2, 2),
                Plain(0, 2),
            ],
            planned(&[(0, 2, 3, 3), (1, 3, 1, 3)], 8),
        ),
        example(
            "a window too many",
            &[F],
            &[Plain(0, 0), In(16, 0, 0)],
            Said::Refused(9, 1, 3),
        ),
        example(
            "the greatest window number",
            &[F],
            &[In(255, 0, 0), In(255, 0, 0)],
            Said::Refused(9, 0, 2),
        ),
    ]
}

/// In every number of windows one, two and three jobs 1-1, the jobs in each window by turns. The running
/// order is that of the numbers. A job alone in its window asks for its slot, the first of two for both,
/// and of three the first and the last for three slots of four.
pub fn in_turn() -> Vec<Example> {
    let with_each = |each: u16| (1..=WINDOW_LIMIT as u16).map(move |windows| (windows, each));
    let of_windows = |(windows, each): (u16, u16)| {
        let job = |job: u16| In((job % windows) as u8, 1, 1);
        let jobs: Vec<Job> = (0..windows * each).map(job).collect();
        let pair = |job: u16| (job, job + windows, 1, 1);
        let pairs: Vec<Pair> = (0..windows).map(pair).collect();
        let said = match each {
            1 => planned(&[], windows.into()),
            2 => planned(&pairs, windows.into()),
            _ => planned(&pairs, 10 * u32::from(windows)),
        };
        example("jobs in turn", &[F, 0], &jobs, said)
    };
    (1..=3).flat_map(with_each).map(of_windows).collect()
}

/// Numbers lent to *Plan* that no reader gives: a solo job in a window other than 0, and a window beyond
/// the last one where the reader would refuse the line before it judges the job.
pub fn lent() -> Vec<Example> {
    let refused = |number: u16, job: u16| Said::Refused(number, job, 0);
    vec![
        // Job 1 asks for the three slots of window 1, of four.
        example(
            "a solo job with a slot in its window",
            &[F, 0],
            &[SoloIn(1, 1, 1), In(1, 1, 1), In(1, 1, 1)],
            planned(&[(1, 2, 1, 1)], 5),
        ),
        // Jobs 2 and 3 have slot 1 and slot 2 of window 2, between the solo jobs, and ask for them: 7
        // visits. Job 4 asks for the one slot of window 0.
        example(
            "solo jobs on both sides",
            &[F, 0, 0, 0],
            &[
                SoloIn(2, 1, 1),
                SoloIn(2, 3, 3),
                In(2, 2, 2),
                In(2, 0, 2),
                Plain(2, 2),
            ],
            planned(&[(2, 3, 2, 2)], 8),
        ),
        example(
            "a solo job beyond the windows",
            &[F],
            &[SoloIn(255, 0, 0), Plain(0, 1)],
            refused(9, 0),
        ),
        example(
            "a solo job in window 16",
            &[F],
            &[SoloIn(15, 0, 0), SoloIn(16, 0, 0)],
            refused(9, 1),
        ),
        example(
            "no layout and no window",
            &[F],
            &[In(16, 0, 1)],
            refused(5, 0),
        ),
        example(
            "upward and no window",
            &[F, 0],
            &[In(16, 1, 0)],
            refused(6, 0),
        ),
        example(
            "no window before no layout",
            &[F],
            &[In(16, 0, 0), Plain(0, 1)],
            refused(9, 0),
        ),
        example(
            "no layout before no window",
            &[F],
            &[Plain(0, 1), In(16, 0, 0)],
            refused(5, 0),
        ),
        example(
            "no window before upward",
            &[F, 0],
            &[In(255, 1, 1), Plain(1, 0)],
            refused(9, 0),
        ),
        example(
            "a wrong parent before no window",
            &[F, 1],
            &[In(16, 0, 0)],
            refused(4, 1),
        ),
    ]
}

/// A table that is worked by hand by its name.
pub fn named(name: &str) -> Result<Example, String> {
    let mut examples = marked().into_iter().chain(telling()).chain(lent());
    let found = examples.find(|example| example.name == name);
    found.ok_or_else(|| format!("no table is named {name:?}"))
}

/// A rival plan of a table that is worked by hand, by the table's name; the pairs in front of the cuts
/// from 0 to M, ours and the rival's; and the first job that one of the two has paired and the other
/// single.
pub struct Comparison {
    pub table: &'static str,
    pub rival: &'static [(usize, usize)],
    pub ours_in_front: &'static [usize],
    pub rivals_in_front: &'static [usize],
    pub first: Option<usize>,
}

pub const COMPARISONS: [Comparison; 7] = [
    // As many pairs in front of every cut, but the first job is single.
    Comparison {
        table: "the earlier job",
        rival: &[(1, 2)],
        ours_in_front: &[0, 0, 0, 1],
        rivals_in_front: &[0, 0, 0, 1],
        first: Some(0),
    },
    // Order 2, 1, 0: by job number the first difference would be job 1.
    Comparison {
        table: "the earlier job numbered last",
        rival: &[(0, 1)],
        ours_in_front: &[0, 0, 0, 1],
        rivals_in_front: &[0, 0, 0, 1],
        first: Some(2),
    },
    // Job 0 is single in both.
    Comparison {
        table: "a job alone before the earlier one",
        rival: &[(2, 3)],
        ours_in_front: &[0, 0, 0, 0, 1],
        rivals_in_front: &[0, 0, 0, 0, 1],
        first: Some(1),
    },
    // Order 4, 0, 1, 2, 3: job 4 is paired in both.
    Comparison {
        table: "the bakehouse table",
        rival: &[(4, 1), (2, 3)],
        ours_in_front: &[0, 0, 1, 1, 1, 2],
        rivals_in_front: &[0, 0, 0, 1, 1, 2],
        first: Some(0),
    },
    // No pairs at all.
    Comparison {
        table: "the bakehouse table",
        rival: &[],
        ours_in_front: &[0, 0, 1, 1, 1, 2],
        rivals_in_front: &[0; 6],
        first: Some(4),
    },
    // Fewer pairs.
    Comparison {
        table: "four jobs alike",
        rival: &[(0, 1)],
        ours_in_front: &[0, 0, 1, 1, 2],
        rivals_in_front: &[0, 0, 1, 1, 1],
        first: Some(2),
    },
    // Fewer pairs in front of cut 2, but the same jobs paired.
    Comparison {
        table: "four jobs alike",
        rival: &[(0, 3), (1, 2)],
        ours_in_front: &[0, 0, 1, 1, 2],
        rivals_in_front: &[0, 0, 0, 1, 2],
        first: None,
    },
];

/// The bakehouse table as document 01 prints it.
pub const BAKEHOUSE_BYTES: &[u8] = b"01FFFF
010000
010000
010001
0200000003
0200010003
0200020002
0200000002
0200030003
0300040005
";

/// All that the program prints of it.
pub const BAKEHOUSE_PLAN: &[u8] = b"110004000000030003
120001
110002000300020002
1F0002000100000019
";

/// The running order of the bakehouse table, and its lookups: the job of each, and the cells that it
/// visits.
pub const BAKEHOUSE_ORDER: [usize; 5] = [4, 0, 1, 2, 3];
pub const BAKEHOUSE_LOOKUPS: [(usize, u32); 3] = [(4, 7), (1, 7), (2, 11)];

/// Bytes, and all that is printed for them: the bakehouse table, no bytes at all, the two marked tables
/// that are refused, a solo job that has its place and its slot, two jobs of which the highest and the
/// deepest shared layout differ, a job before any layout, and a pair on a layout that stands last. Then
/// windows: solo jobs and a job without a window fill window 0, and the last is alone in window 1; a pair
/// of window 15; a window beyond the last one after the end.
pub const PRINTINGS: [(&[u8], &[u8]); 11] = [
    (BAKEHOUSE_BYTES, BAKEHOUSE_PLAN),
    (b"", b"1E070001\n"),
    (b"01FFFF\n010001\n", b"1E040002\n"),
    (b"01FFFF\n010000\n0200010000\n0300020001\n", b"1E060003\n"),
    (
        b"01FFFF\n010000\n0400010001\n0200010001\n0200010001\n0300020003\n",
        b"120000\n110001000200010001\n1F0001000100000005\n",
    ),
    (
        b"01FFFF\n010000\n010001\n0200000002\n0200000002\n0300030002\n",
        b"110000000100010002\n1F0001000000000001\n",
    ),
    (
        b"0200010001\n01FFFF\n010000\n0300020001\n",
        b"120000\n1F0000000100000001\n",
    ),
    // Order 0, 2, 1: the solo job 0-0 comes last. Job 0 asks for three slots of four.
    (
        b"01FFFF\n0200000001\n0400000000\n0200010001\n010000\n0300020003\n",
        b"110000000200010001\n120001\n1F0001000100000005\n",
    ),
    // Job 2 asks for the three slots of window 0, of four, job 3 for the one of window 1.
    (
        b"01FFFF\n010000\n0400010001\n0400010001\n0200010001\n050001000101\n0300020004\n",
        b"120000\n120001\n120002\n120003\n1F0000000400000006\n",
    ),
    (
        b"05000000010F\n01FFFF\n010000\n050001000100\n05000100010F\n0300020003\n",
        b"110000000200010001\n120001\n1F0001000100000002\n",
    ),
    (b"01FFFF\n0300010000\n050000000010\n", b"1E090003\n"),
];

/// Which of two lists a stretch begins.
#[derive(Clone, Copy, Debug, PartialEq, Eq)]
pub enum Begins {
    First,
    Second,
}

use Begins::{First, Second};

/// Two lists with their shared stretch: the list that it begins, the cell of that list at which it
/// starts, and its numbers.
pub struct Stretch {
    pub first: &'static [u16],
    pub second: &'static [u16],
    pub begins: Begins,
    pub from: usize,
    pub numbers: &'static [u16],
}

const fn stretch(
    (first, second): (&'static [u16], &'static [u16]),
    begins: Begins,
    from: usize,
    numbers: &'static [u16],
) -> Stretch {
    Stretch {
        first,
        second,
        begins,
        from,
        numbers,
    }
}

pub const STRETCHES: [Stretch; 29] = [
    // No numbers; nothing shared.
    stretch((&[], &[]), First, 0, &[]),
    stretch((&[], &[1, 2]), First, 0, &[]),
    stretch((&[1, 2], &[]), First, 0, &[]),
    stretch((&[1, 2], &[3, 4]), First, 0, &[]),
    stretch((&[1], &[0, 2]), First, 0, &[]),
    stretch((&[0, 1], &[]), First, 1, &[]),
    stretch((&[0, 1], &[2]), First, 1, &[]),
    // 0 alone.
    stretch((&[0], &[0]), First, 1, &[]),
    stretch((&[0], &[]), First, 1, &[]),
    stretch((&[], &[0]), First, 0, &[]),
    stretch((&[0], &[1, 0]), First, 1, &[]),
    // A leading 0 in both, and in one of them.
    stretch((&[0, 1, 2], &[0, 1, 3]), First, 1, &[1]),
    stretch((&[0, 1, 2], &[0, 1, 2]), First, 1, &[1, 2]),
    stretch((&[1, 2], &[0, 1, 2]), First, 0, &[1, 2]),
    stretch((&[0, 1, 2], &[1, 2]), First, 1, &[1, 2]),
    stretch((&[2, 3], &[0, 1, 2, 3, 4]), First, 0, &[2, 3]),
    stretch((&[0, 1, 2, 3], &[2, 3, 4]), Second, 0, &[2, 3]),
    // Two leading zeros: one is dropped, and the other is a number like the others.
    stretch((&[0, 0], &[0, 0]), First, 1, &[0]),
    stretch((&[0, 0, 1], &[0, 1]), Second, 1, &[1]),
    stretch((&[0, 0, 1], &[2, 0, 1]), First, 1, &[0, 1]),
    // Zeros inside stay.
    stretch((&[1, 0, 2], &[0, 1, 0, 2]), First, 0, &[1, 0, 2]),
    // The first begins it where either could; otherwise the second may.
    stretch((&[1, 2], &[1, 2]), First, 0, &[1, 2]),
    stretch((&[1, 2], &[2, 1]), First, 0, &[1]),
    stretch((&[2, 3, 4], &[1, 2, 3]), First, 0, &[2, 3]),
    stretch((&[1, 2, 3], &[2, 3, 4]), Second, 0, &[2, 3]),
    stretch((&[7, 7], &[7, 7, 7]), First, 0, &[7, 7]),
    // The first place alone counts.
    stretch((&[1, 2, 3], &[1, 9, 1, 2, 3]), First, 0, &[1]),
    stretch((&[3, 1], &[0, 3, 5, 3, 1]), First, 0, &[3]),
    stretch((&[0, 3, 1], &[3, 5, 3, 1]), First, 1, &[3]),
];

/// A table's bytes with what *Read a table* must answer: document 01's words, and the readings of
/// them, one by one.
pub type Reading = (&'static [u8], Option<Refusal>);

const fn refused(number: u16, place: u16) -> Option<Refusal> {
    Some(Refusal { number, place })
}

/// Short inputs with the refusal that document 01, as 2026-04 and 2026-05 changed it, gives them.
pub const READINGS: [Reading; 105] = [
    (b"", refused(7, 1)),
    (b"\n", refused(1, 1)),
    (b"01FFFF\n0300010000\n", None),
    // 1: a line without its 0A, an unknown kind, a wrong length, a wrong digit.
    (b"01FFFF", refused(1, 1)),
    (b"01FFFF\n0300010000", refused(1, 2)),
    (b"01FFFF\n0300010000\n0", refused(1, 3)),
    (b"00FFFF\n", refused(1, 1)),
    (b"05FFFF\n", refused(1, 1)),
    (b"1FFFFF\n", refused(1, 1)),
    (b"01FFF\n", refused(1, 1)),
    (b"01FFFFF\n", refused(1, 1)),
    (b"01FFFFFFFF\n", refused(1, 1)),
    (b"01FFFF\n020000\n", refused(1, 2)),
    (b"01FFFF\n040000\n", refused(1, 2)),
    (b"01FFFF\n030001\n", refused(1, 2)),
    (b"01FFFF\r\n0300010000\r\n", refused(1, 1)),
    (b"01ffff\n", refused(1, 1)),
    (b"01FFFG\n", refused(1, 1)),
    (b"01FFF/\n", refused(1, 1)),
    (b"01FFF:\n", refused(1, 1)),
    (b"01FFF@\n", refused(1, 1)),
    (b"01FFF`\n", refused(1, 1)),
    (b"01 FFF\n", refused(1, 1)),
    (b"01+FFF\n", refused(1, 1)),
    (b"01FFFF \n", refused(1, 1)),
    (b"01FFFF\0\n", refused(1, 1)),
    (b"01FFFF\n\n0300010000\n", refused(1, 2)),
    (b"01FFFF\n0300010000\n\n", refused(1, 3)),
    (b"\xEF\xBB\xBF01FFFF\n", refused(1, 1)),
    // 2: a line after the end; an end without a layout, whatever its counts and whatever comes after.
    (b"01FFFF\n0300010000\n010000\n", refused(2, 3)),
    (b"01FFFF\n0300010000\n0200090009\n", refused(2, 3)),
    (b"01FFFF\n0300010000\n0300010000\n", refused(2, 3)),
    (b"0300000000\n", refused(2, 1)),
    (b"0300010000\n01FFFF\n", refused(2, 1)),
    (b"0300000000\nzz", refused(2, 1)),
    (b"0200000000\n0300000001\n", refused(2, 2)),
    (b"0400000000\n0300010002\n", refused(2, 2)),
    // A job before any layout, and a layout after a job.
    (b"0200000000\n01FFFF\n0300010001\n", None),
    (b"0400010001\n01FFFF\n010000\n0300020001\n", None),
    (b"01FFFF\n0200000001\n010000\n0300020001\n", None),
    (b"0200000000\n", refused(7, 2)),
    (b"01FFFF\n0200000000\n010000\n", refused(7, 4)),
    // 4: a wrong parent, by the layouts so far; the first layout is layout 0 wherever it stands.
    (b"010000\n", refused(4, 1)),
    (b"01FFFF\n01FFFF\n", refused(4, 2)),
    (b"01FFFF\n010001\n", refused(4, 2)),
    (b"01FFFF\n010002\n010000\n0300030000\n", refused(4, 2)),
    (b"0200000000\n010000\n", refused(4, 2)),
    (b"01FFFF\n0400000000\n01FFFF\n", refused(4, 3)),
    // 5 and 6: a top or bottom that is no layout; a bottom not at or below its top. Both are found at
    // the end line and told by the job's own line.
    (b"01FFFF\n0200010000\n0300010001\n", refused(5, 2)),
    (b"01FFFF\n0400000001\n0300010001\n", refused(5, 2)),
    (b"020000FFFF\n01FFFF\n0300010001\n", refused(5, 1)),
    (
        b"01FFFF\n010000\n010000\n0200010002\n0300030001\n",
        refused(6, 4),
    ),
    (b"01FFFF\n010000\n0400010000\n0300020001\n", refused(6, 3)),
    (
        b"01FFFF\n0200000000\n010000\n0200010000\n0300020002\n",
        refused(6, 4),
    ),
    (b"01FFFF\n0200010000\n010000\n0300020001\n", refused(6, 2)),
    // The first wrong job, and in it 5 before 6: where its bottom is no layout, its top is not above it.
    (
        b"01FFFF\n010000\n0200010000\n0200050000\n0300020002\n",
        refused(6, 3),
    ),
    (
        b"01FFFF\n010000\n0200050000\n0200010000\n0300020002\n",
        refused(5, 3),
    ),
    (b"01FFFF\n010000\n0200010002\n0300020001\n", refused(5, 3)),
    // Faults on any line before the end come first, faults on later lines do not.
    (b"01FFFF\n0200010000\nzz\n", refused(1, 3)),
    (b"01FFFF\n0200010000\n010005\n0300020001\n", refused(4, 3)),
    (b"01FFFF\n0200010000\n0300010001\nzz", refused(5, 2)),
    (b"01FFFF\n0200010000\n0300010001\n010000\n", refused(5, 2)),
    // 7: an end with wrong counts, before 5 and 6, after which nothing is looked at; bytes that stop
    // with no end line.
    (b"01FFFF\n0300010001\nzz", refused(7, 2)),
    (b"01FFFF\n0400000000\n0300010000\n", refused(7, 3)),
    (b"01FFFF\n0200010000\n0300010002\n", refused(7, 3)),
    (b"01FFFF\n0200000000\n", refused(7, 3)),
    (b"01FFFF\n0200010000\n", refused(7, 3)),
    // Windows: the first and the last; before any layout.
    (b"01FFFF\n050000000000\n0300010001\n", None),
    (b"01FFFF\n05000000000F\n0300010001\n", None),
    (b"050001000103\n01FFFF\n010000\n0300020001\n", None),
    // 1: a line 05 without its window, with half of it, with a digit too many, with a wrong digit or
    // without its 0A, and other lines as long as one, whatever the window.
    (b"01FFFF\n0500000000\n0300010001\n", refused(1, 2)),
    (b"01FFFF\n050000\n", refused(1, 2)),
    (b"01FFFF\n05000000000\n", refused(1, 2)),
    (b"01FFFF\n0500000000000\n", refused(1, 2)),
    (b"01FFFF\n05000000000f\n", refused(1, 2)),
    (b"01FFFF\n0500000000 0\n", refused(1, 2)),
    (b"01FFFF\n05000000001G\n", refused(1, 2)),
    (b"01FFFF\n05G000000010\n", refused(1, 2)),
    (b"01FFFF\n050000000010", refused(1, 2)),
    (b"01FFFF\n05000000000F", refused(1, 2)),
    (b"01FFFF\n050000000010\r\n", refused(1, 2)),
    (b"01FFFF\n020000000000\n0300010001\n", refused(1, 2)),
    (b"01FFFF\n040000000000\n", refused(1, 2)),
    (b"01FFFF\n030001000000\n", refused(1, 2)),
    (b"01FFFF000000\n", refused(1, 1)),
    (b"01FFFF\n060000000010\n", refused(1, 2)),
    // 9: a window beyond the last one, before 2, 5, 6 and 7, before any layout, and after faults on
    // earlier lines that come up there.
    (b"01FFFF\n050000000010\n0300010001\n", refused(9, 2)),
    (b"01FFFF\n0500000000FF\n", refused(9, 2)),
    (b"01FFFF\n050000000080\n", refused(9, 2)),
    (b"050000000010\n", refused(9, 1)),
    (b"01FFFF\n050000FFFE10\n0300010001\n", refused(9, 2)),
    (b"01FFFF\n010000\n05000100001F\n0300020001\n", refused(9, 3)),
    (
        b"01FFFF\n0200010000\n050000000010\n0300010002\n",
        refused(9, 3),
    ),
    (b"01FFFF\n0300010000\n0500000000FF\n", refused(9, 3)),
    (b"01FFFF\n0300010000\n05000000000F\n", refused(2, 3)),
    (b"01FFFF\n0300010000\n010000\n050000000010\n", refused(2, 3)),
    (b"0300000000\n050000000010\n", refused(2, 1)),
    (b"01FFFF\n010005\n050000000010\n", refused(4, 2)),
    (
        b"01FFFF\n0200010000\n0300010001\n050000000010\n",
        refused(5, 2),
    ),
    (b"01FFFF\n0300010001\n050000000010\n", refused(7, 2)),
    // A job with a window is counted and judged as the others are, and has its own line.
    (b"01FFFF\n050000000001\n0300010000\n", refused(7, 3)),
    (b"01FFFF\n050001000001\n0300010001\n", refused(5, 2)),
    (b"01FFFF\n010000\n05000100000F\n0300020001\n", refused(6, 3)),
    (
        b"01FFFF\n050000000001\n0200010000\n0300010002\n",
        refused(5, 3),
    ),
    (
        b"01FFFF\n010000\n0200000000\n050001000001\n0300020002\n",
        refused(6, 4),
    ),
];
