//! What the page must say and mark at each turn of the bakehouse table, worked out by hand.

/// What the page says of each turn of the bakehouse table.
pub const TURNS: [&[&str]; 5] = [
    &[
        "Turn 1 of 5: job 4",
        "Place 0; top 3, bottom 3, highest layout 3.",
        "Reached bottoms at depth 2 or deeper: jobs 0, 1, 4",
        "Asks for leaf 0; slots 0 to 2",
        "Lookup visits 7 cells",
        "Finds job 0, at place 1: the first in the running order that does",
        "Pass 1: jobs 4 and 0 on layout 3",
        "Cut 1 0 pairs in front",
        "The other jobs",
        "job 0 found",
        "job 1 does too, but later: at place 2",
        "job 2 not reached yet: its bottom is at depth 1",
        "job 3 not reached yet: its bottom is at depth 1",
    ],
    &[
        "Turn 2 of 5: job 0",
        "Place 1; top 0, bottom 3, highest layout 1.",
        "Reached bottoms at depth 1 or deeper: jobs 0, 1, 2, 3, 4",
        "Lookup none: taken by job 4",
        "Pass 1: jobs 4 and 0 on layout 3",
        "Cut 2 1 pair in front",
    ],
    &[
        "Turn 3 of 5: job 1",
        "Place 2; top 1, bottom 3, highest layout 1.",
        "Reached bottoms at depth 1 or deeper: jobs 0, 1, 2, 3, 4",
        "Asks for leaf 0; slots 0 to 2",
        "Lookup visits 7 cells",
        "Finds nobody",
        "Pass 2: job 1 alone",
        "Cut 3 1 pair in front",
        "The other jobs",
        "job 0 taken by job 4",
        "job 2 outside the span: its bottom has leaf 1",
        "job 3 outside the span: its bottom has leaf 1",
        "job 4 had its turn",
    ],
    &[
        "Turn 4 of 5: job 2",
        "Place 3; top 2, bottom 2, highest layout 2.",
        "Reached bottoms at depth 1 or deeper: jobs 0, 1, 2, 3, 4",
        "Asks for leaf 1; slots 3 to 4",
        "Lookup visits 11 cells",
        "Finds job 3, at place 4: the first in the running order that does",
        "Pass 3: jobs 2 and 3 on layout 2",
        "Cut 4 1 pair in front",
        "The other jobs",
        "job 0 taken by job 4",
        "job 1 had its turn",
        "job 3 found",
        "job 4 had its turn",
    ],
    &[
        "Turn 5 of 5: job 3",
        "Place 4; top 0, bottom 2, highest layout 2.",
        "Reached bottoms at depth 1 or deeper: jobs 0, 1, 2, 3, 4",
        "Lookup none: taken by job 2",
        "Pass 3: jobs 2 and 3 on layout 2",
        "Cut 5 2 pairs in front",
    ],
];

/// By turn of the bakehouse table: whom the picture marks as found, the layout asked for, the jobs
/// reached and the passes made.
pub const MARKS: [[&str; 4]; 5] = [
    ["0", "3", "0 1 4", "1"],
    ["", "", "0 1 2 3 4", "1"],
    ["", "1", "0 1 2 3 4", "1 2"],
    ["3", "2", "0 1 2 3 4", "1 2 3"],
    ["", "", "0 1 2 3 4", "1 2 3"],
];
