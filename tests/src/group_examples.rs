//! Tables for a press with more lanes (2026-07), with all that is printed for them, worked out by hand
//! from the request's words. A table is told by its parents (F for FFFF) and its jobs, as document 01
//! tells its tables.

use crate::examples::Job::{self, In, Plain, Solo};
use crate::examples::{table_of, BAKEHOUSE_BYTES};
use crate::reference::table::table_lines;
use crate::reference::{Table, ABSENT};

/// What is printed for a press with so many lanes, each line ended by `|`.
pub type Printed = (usize, &'static str);

pub struct Grouping {
    pub name: &'static str,
    pub table: Table,
    pub printed: Vec<Printed>,
}

impl Grouping {
    pub fn bytes(&self) -> Vec<u8> {
        table_lines(&self.table).concat()
    }

    /// The lines for a press with so many lanes.
    pub fn lines(&self, lanes: usize) -> Result<Vec<u8>, String> {
        let found = self.printed.iter().find(|(known, _)| *known == lanes);
        let missing = || format!("{}: nothing is said of {lanes} lanes", self.name);
        found.map(|(_, text)| lines(text)).ok_or_else(missing)
    }
}

/// Lines written with `|` for 0A.
pub fn lines(text: &str) -> Vec<u8> {
    text.replace('|', "\n").into_bytes()
}

const F: u16 = ABSENT;
pub const NO_KNOWN_LANES: &str = "1E0D0000|";
pub const NONE_FULL: &str = "1E0E0000|";

fn grouping(
    name: &'static str,
    parents: &[u16],
    jobs: &[Job],
    printed: &[(usize, &'static str)],
) -> Grouping {
    Grouping {
        name,
        table: table_of(parents, jobs),
        printed: printed.to_vec(),
    }
}

/// A grouping by its name.
pub fn named(name: &str) -> Result<Grouping, String> {
    let found = groupings()
        .into_iter()
        .find(|grouping| grouping.name == name);
    found.ok_or_else(|| format!("no grouping is named {name:?}"))
}

pub fn groupings() -> Vec<Grouping> {
    [plain_groupings(), chains(), telling()]
        .into_iter()
        .flatten()
        .collect()
}

fn plain_groupings() -> Vec<Grouping> {
    vec![
        grouping(
            "no jobs",
            &[F],
            &[],
            &[
                (0, NO_KNOWN_LANES),
                (1, NO_KNOWN_LANES),
                (2, "1F0000|"),
                (3, "1F0000|"),
                (4, "1F0000|"),
                (5, "1F0000|"),
                (6, "1F0000|"),
                (7, "1F0000|"),
                (8, "1F0000|"),
                (9, NO_KNOWN_LANES),
            ],
        ),
        grouping(
            "two jobs on layout 1",
            &[F, 0],
            &[Plain(1, 1), Plain(0, 1)],
            &[
                (1, NO_KNOWN_LANES),
                (2, "13000000010001|1F0001|"),
                (3, NONE_FULL),
                (8, NONE_FULL),
                (9, NO_KNOWN_LANES),
            ],
        ),
        grouping(
            "one job",
            &[F, 0],
            &[Plain(1, 1)],
            &[(2, NONE_FULL), (3, NONE_FULL), (8, NONE_FULL)],
        ),
        grouping(
            "layout 0 alone",
            &[F],
            &[Plain(0, 0), Plain(0, 0)],
            &[(2, NONE_FULL)],
        ),
        // Layout 0 is on all paths, and no other is.
        grouping(
            "layout 0 alone in common",
            &[F, 0, 0],
            &[Plain(0, 1), Plain(0, 2)],
            &[(2, NONE_FULL)],
        ),
        grouping(
            "a job 0-0 too many",
            &[F, 0],
            &[Plain(1, 1), Plain(1, 1), Plain(0, 0)],
            &[(2, NONE_FULL), (3, NONE_FULL)],
        ),
        grouping(
            "a solo job",
            &[F, 0],
            &[Plain(1, 1), Solo(1, 1)],
            &[(2, NONE_FULL)],
        ),
        // The two others would be a pair.
        grouping(
            "a solo job beside a pair",
            &[F, 0],
            &[Plain(1, 1), Solo(1, 1), Plain(1, 1)],
            &[(2, NONE_FULL), (3, NONE_FULL)],
        ),
        grouping(
            "two windows by turns",
            &[F, 0],
            &[In(0, 1, 1), In(1, 1, 1), In(0, 1, 1), In(1, 1, 1)],
            &[
                (2, "13000000020001|13000100030001|1F0002|"),
                (3, NONE_FULL),
                (4, NONE_FULL),
            ],
        ),
        grouping(
            "a window of one job",
            &[F, 0],
            &[In(0, 1, 1), In(1, 1, 1), In(0, 1, 1), In(0, 1, 1)],
            &[(2, NONE_FULL), (4, NONE_FULL)],
        ),
        // Order 2, 3, 0, 1.
        grouping(
            "lines by place",
            &[F, 0, 1],
            &[Plain(1, 1), Plain(1, 1), Plain(2, 2), Plain(2, 2)],
            &[(2, "13000200030002|13000000010001|1F0002|"), (4, NONE_FULL)],
        ),
        grouping(
            "eight jobs alike",
            &[F, 0],
            &[
                Plain(1, 1),
                Plain(1, 1),
                Plain(1, 1),
                Plain(1, 1),
                Plain(1, 1),
                Plain(1, 1),
                Plain(1, 1),
                Plain(1, 1),
            ],
            &[
                (
                    2,
                    "13000000010001|13000200030001|13000400050001|13000600070001|1F0004|",
                ),
                (3, NONE_FULL),
                (4, "1300000001000200030001|1300040005000600070001|1F0002|"),
                (5, NONE_FULL),
                (6, NONE_FULL),
                (7, NONE_FULL),
                (8, "13000000010002000300040005000600070001|1F0001|"),
            ],
        ),
    ]
}

/// Document 02's chain, on which the claim of 003 fails, and the same with other jobs.
fn chains() -> Vec<Grouping> {
    let chain = [F, 0, 1, 2, 3];
    vec![
        // Order 0, 1, 3, 4, 2, 5, 6. Job 0 takes 1 and 2; 3 and 4 find no third, nor do 5 and 6.
        grouping(
            THE_CHAIN,
            &chain,
            &[
                Plain(4, 4),
                Plain(3, 4),
                Plain(2, 4),
                Plain(3, 3),
                Plain(3, 3),
                Plain(2, 2),
                Plain(2, 2),
            ],
            &[(2, NONE_FULL), (3, NONE_FULL), (7, NONE_FULL)],
        ),
        // Order 0, 2, 3, 1, 4, 5.
        grouping(
            "the chain without its first job",
            &chain,
            &[
                Plain(3, 4),
                Plain(2, 4),
                Plain(3, 3),
                Plain(3, 3),
                Plain(2, 2),
                Plain(2, 2),
            ],
            &[(3, "130000000200030003|130001000400050002|1F0002|")],
        ),
        // Order 0, 1, 3, 4, 7, 2, 5, 6, 8.
        grouping(
            "the chain with two jobs more",
            &chain,
            &[
                Plain(4, 4),
                Plain(3, 4),
                Plain(2, 4),
                Plain(3, 3),
                Plain(3, 3),
                Plain(2, 2),
                Plain(2, 2),
                Plain(3, 3),
                Plain(2, 2),
            ],
            &[(
                3,
                "130000000100020004|130003000400070003|130005000600080002|1F0003|",
            )],
        ),
    ]
}

pub const THE_CHAIN: &str = "document 02's chain";

/// Two groups of three of document 02's chain, on layouts 3 and 2.
pub const TWO_OF_THE_CHAIN: [([usize; 3], u16); 2] = [([1, 3, 4], 3), ([2, 5, 6], 2)];

/// Tables that tell wrong groupers.
fn telling() -> Vec<Grouping> {
    vec![
        // The first two share layout 2, all three layout 1 alone.
        grouping(
            "the layout of all three",
            &[F, 0, 1],
            &[Plain(1, 2), Plain(1, 2), Plain(1, 1)],
            &[(2, NONE_FULL), (3, "130000000100020001|1F0001|")],
        ),
        // Layouts 1 and 2 are on all three paths.
        grouping(
            "two common layouts",
            &[F, 0, 1],
            &[Plain(0, 2), Plain(1, 2), Plain(0, 2)],
            &[(3, "130000000100020002|1F0001|")],
        ),
        // Order 0, 2, 1, 3. Job 0 with 1 would leave 2 and 3, which do not share.
        grouping(
            "the first partner by place",
            &[F, 0, 1, 2],
            &[Plain(3, 3), Plain(1, 3), Plain(2, 3), Plain(1, 1)],
            &[(2, "13000000020003|13000100030001|1F0002|")],
        ),
        // Order 2, 3, 0, 1. Job 2 with 1 would leave 3 and 0, which do not share.
        grouping(
            "the first partner",
            &[F, 0, 1],
            &[Plain(0, 1), Plain(0, 2), Plain(2, 2), Plain(2, 2)],
            &[(2, "13000200030002|13000000010001|1F0002|")],
        ),
        // Order 0 to 5. All have layout 1 in common, so that the last partners would do as well as the first.
        grouping(
            "six jobs alike",
            &[F, 0],
            &[
                Plain(1, 1),
                Plain(0, 1),
                Plain(1, 1),
                Plain(0, 1),
                Plain(1, 1),
                Plain(0, 1),
            ],
            &[
                (2, "13000000010001|13000200030001|13000400050001|1F0003|"),
                (3, "130000000100020001|130003000400050001|1F0002|"),
                (6, "130000000100020003000400050001|1F0001|"),
            ],
        ),
        grouping(
            "two leaves",
            &[F, 0, 0],
            &[Plain(0, 1), Plain(0, 2), Plain(1, 1), Plain(2, 2)],
            &[(2, "13000000020001|13000100030002|1F0002|")],
        ),
        // Order 2, 3, 0, 1. In the order 0, 1, 2, 3 jobs 0 and 1 take each other on layout 1.
        grouping(
            "two branches",
            &[F, 0, 1, 1],
            &[Plain(0, 2), Plain(0, 3), Plain(2, 2), Plain(3, 3)],
            &[(2, "13000200000002|13000300010003|1F0002|")],
        ),
        // Order 0, 1, 2: 0 and 1 share, 1 and 2 share, and 0 and 2 do not.
        grouping(
            "no layout on all three",
            &[F, 0, 1, 2],
            &[Plain(3, 3), Plain(1, 3), Plain(1, 1)],
            &[(3, NONE_FULL)],
        ),
        // Order 1, 0, 2, 3. Jobs 0 and 3 have layout 1 alone, jobs 1 and 2 layout 2 too; in windows 3 and 4.
        grouping(
            "windows apart",
            &[F, 0, 1],
            &[In(3, 1, 1), In(4, 2, 2), In(4, 1, 2), In(3, 0, 1)],
            &[(2, "13000100020002|13000000030001|1F0002|"), (4, NONE_FULL)],
        ),
        // The bakehouse table: job 1 is alone in the first run, and there are five jobs.
        Grouping {
            name: "the bakehouse table",
            table: crate::examples::bakehouse().table,
            printed: vec![(2, NONE_FULL), (3, NONE_FULL), (5, NONE_FULL)],
        },
        // Order 3, 0, 1, 2, 4, 5, 6, 7, 8; jobs 2, 4 and 7 are in window 1.
        grouping(
            "three across",
            &[F, 0, 0, 1],
            &[
                Plain(0, 3),
                Plain(1, 3),
                In(1, 2, 2),
                Plain(3, 3),
                In(1, 0, 2),
                Plain(1, 1),
                Plain(1, 3),
                In(1, 2, 2),
                Plain(0, 1),
            ],
            &[
                (2, NONE_FULL),
                (
                    3,
                    "130003000000010003|130002000400070002|130005000600080001|1F0003|",
                ),
                (9, NO_KNOWN_LANES),
            ],
        ),
    ]
}

/// Bytes that the reader refuses, or accepts, with the line that is printed for so many lanes: 13 comes
/// before the reader's refusals, and 14 after them.
pub const REFUSALS: [(&[u8], usize, &str); 16] = [
    (b"zz", 9, NO_KNOWN_LANES),
    (b"zz", 1, NO_KNOWN_LANES),
    (b"zz", 2, "1E010001|"),
    (b"zz", 8, "1E010001|"),
    (b"", 0, NO_KNOWN_LANES),
    (b"", 2, "1E070001|"),
    (b"01FFFF\n", 3, "1E070002|"),
    (b"01FFFF\n010001\n", 8, "1E040002|"),
    (b"01FFFF\n010001\n", 10, NO_KNOWN_LANES),
    // A job alone, which no full grouping has, and a fault behind it.
    (
        b"01FFFF\n0200000000\n0300010001\n0200000000\n",
        2,
        "1E020004|",
    ),
    (b"01FFFF\n0400000000\n0300010002\n", 2, "1E070003|"),
    (b"01FFFF\n0200000001\n0300010001\n", 2, "1E050002|"),
    (b"01FFFF\n010000\n0200010000\n0300020001\n", 2, "1E060003|"),
    (b"01FFFF\n050000000010\n0300010001\n", 2, "1E090002|"),
    (b"01FFFF\n0200000000\n0300010001\n", 2, NONE_FULL),
    (BAKEHOUSE_BYTES, 13, NO_KNOWN_LANES),
];
