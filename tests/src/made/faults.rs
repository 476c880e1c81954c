//! Tables with faults put in at chosen places, and the refusal that wins (2026-04, 2026-05). Which one
//! wins is told by when each of them comes up, the earliest first, and not by reading the lines.

use crate::reference::{Refusal, JOB_LIMIT, LAYOUT_LIMIT};

/// What is wrong with a line that is put in before the end.
#[derive(Clone, Copy, Debug, PartialEq, Eq)]
pub enum Fault {
    NoFrame,
    /// A layout or a job beyond the limit, whichever the table is full of.
    Beyond,
    WrongParent,
    /// A job whose bottom is no layout, its window not written, or written.
    NoLayout,
    WindowedNoLayout,
    /// A job whose bottom is above its top, its window not written, or written.
    Upward,
    WindowedUpward,
    /// A job in the first window beyond the last one, otherwise right.
    WindowBeyond,
    /// A job whose window is FF, and whose bottom is no layout.
    WindowFF,
}

#[derive(Clone, Copy, Debug, PartialEq, Eq)]
pub enum End {
    Right,
    LayoutTooMany,
    JobTooFew,
    Missing,
}

/// A line after the end.
#[derive(Clone, Copy, Debug, PartialEq, Eq)]
pub enum Late {
    Frame,
    NoFrame,
    LastWindow,
    WindowBeyond,
}

/// A table to put faults into: between its last lines, each before one of them or after the last.
pub struct Base {
    pub name: &'static str,
    head: Vec<&'static str>,
    last: [&'static str; LAST],
    /// A line beyond the limit, where the table is full.
    beyond: &'static str,
    /// The faults that can be put in.
    faults: &'static [Fault],
    /// How many at most.
    most: usize,
}

const LAST: usize = 3;
const FIRST_LAYOUT: &str = "01FFFF";
const LAYOUT: &str = "010000";
const JOB: &str = "0200000000";
const LAST_WINDOW: &str = "05000000000F";
const WINDOW_BEYOND: &str = "050000000010";

/// Tables that layouts and jobs are mixed in, small and full, one that has jobs alone, and those with
/// windows.
pub fn bases() -> Vec<Base> {
    use Fault::{Beyond, NoFrame, NoLayout, Upward, WrongParent};
    use Fault::{WindowBeyond, WindowFF, WindowedNoLayout, WindowedUpward};
    let full_of_jobs = |name, first, job| Base {
        name,
        head: [vec![first], vec![job; JOB_LIMIT - 1], vec![FIRST_LAYOUT]].concat(),
        last: [LAYOUT; LAST],
        beyond: job,
        faults: &[NoFrame, Beyond, WrongParent],
        most: 2,
    };
    vec![
        Base {
            name: "small",
            head: vec!["0200010001", FIRST_LAYOUT, LAYOUT, "0400000001"],
            last: ["010001", "0200000002", "0400010001"],
            beyond: "",
            faults: &[NoFrame, WrongParent, NoLayout, Upward, WindowBeyond],
            most: 3,
        },
        Base {
            name: "small, with windows",
            head: vec!["05000100010F", FIRST_LAYOUT, LAYOUT, "050000000100"],
            last: ["010001", "050000000203", "0400010001"],
            beyond: "",
            faults: &[
                NoFrame,
                WrongParent,
                WindowedNoLayout,
                WindowedUpward,
                WindowBeyond,
                WindowFF,
            ],
            most: 2,
        },
        Base {
            name: "full of layouts",
            head: [vec![JOB, FIRST_LAYOUT, JOB], vec![LAYOUT; LAYOUT_LIMIT - 1]].concat(),
            last: ["0200000003", "0400010001", JOB],
            beyond: LAYOUT,
            faults: &[NoFrame, Beyond, NoLayout, Upward, WindowFF],
            most: 2,
        },
        full_of_jobs("full of jobs", JOB, JOB),
        full_of_jobs("full of jobs, the first without its layout", NO_LAYOUT, JOB),
        full_of_jobs("full of jobs, the first upward", UPWARD, JOB),
        Base {
            faults: &[Beyond, WindowBeyond],
            ..full_of_jobs("full of jobs with windows", JOB, LAST_WINDOW)
        },
        Base {
            name: "jobs alone",
            head: vec![JOB, "0400000000"],
            last: [JOB; LAST],
            beyond: "",
            faults: &[NoFrame, WrongParent, NoLayout, Upward],
            most: 2,
        },
    ]
}

const NO_LAYOUT: &str = "020000FFFE";
const WINDOWED_NO_LAYOUT: &str = "050000FFFE01";
const UPWARD: &str = "0200010000";
const WINDOWED_UPWARD: &str = "05000100000F";

/// The jobs that are refused at the end line.
const WRONG_JOBS: [(&str, u16); 4] = [
    (NO_LAYOUT, 5),
    (WINDOWED_NO_LAYOUT, 5),
    (UPWARD, 6),
    (WINDOWED_UPWARD, 6),
];

/// A table with faults, each before the last line of that number.
pub struct Case<'a> {
    base: &'a Base,
    faults: Vec<(usize, Fault)>,
    end: End,
    late: &'static [Late],
}

/// Every choice of faults, places, end line and lines after it.
pub fn cases(base: &Base) -> Vec<Case<'_>> {
    let mut cases = Vec::new();
    for faults in placed_faults(base) {
        for (end, late) in endings() {
            let faults = faults.clone();
            cases.push(Case {
                base,
                faults,
                end,
                late,
            });
        }
    }
    cases
}

/// Up to the base's number of faults, in the order of their places.
fn placed_faults(base: &Base) -> Vec<Vec<(usize, Fault)>> {
    let mut all = vec![Vec::new()];
    let mut longest = all.clone();
    for _ in 0..base.most {
        longest = longest.iter().flat_map(|few| one_more(base, few)).collect();
        all.extend(longest.clone());
    }
    all
}

fn one_more(base: &Base, few: &[(usize, Fault)]) -> Vec<Vec<(usize, Fault)>> {
    let from = few.last().map_or(0, |&(place, _)| place);
    let places =
        (from..=LAST).flat_map(|place| base.faults.iter().map(move |&fault| (place, fault)));
    places.map(|placed| [few, &[placed]].concat()).collect()
}

fn endings() -> Vec<(End, &'static [Late])> {
    const AFTER: [&[Late]; 9] = [
        &[],
        &[Late::Frame],
        &[Late::NoFrame],
        &[Late::Frame, Late::NoFrame],
        &[Late::NoFrame, Late::Frame],
        &[Late::LastWindow],
        &[Late::WindowBeyond],
        &[Late::Frame, Late::WindowBeyond],
        &[Late::WindowBeyond, Late::NoFrame],
    ];
    let ends = [End::Right, End::LayoutTooMany, End::JobTooFew];
    let written = ends
        .into_iter()
        .flat_map(|end| AFTER.map(|late| (end, late)));
    written.chain([(End::Missing, AFTER[0])]).collect()
}

/// A table as it is written, and the refusals that come up: at which line, after what else there, and
/// which.
#[derive(Default)]
struct Written {
    bytes: Vec<u8>,
    lines: usize,
    layouts: usize,
    jobs: usize,
    found: Vec<((usize, usize), Refusal)>,
    /// Refusals of jobs, which come up at the end line.
    waiting: Vec<Refusal>,
}

impl Written {
    fn line(&mut self, line: &str) {
        self.lines += 1;
        self.bytes.extend(format!("{line}\n").bytes());
        match line.get(..2) {
            Some("01") => self.layouts += 1,
            Some("02" | "04" | "05") => self.jobs += 1,
            _ => {}
        }
        for (wrong, number) in WRONG_JOBS {
            if line == wrong {
                self.waiting.push(self.here(number));
            }
        }
    }

    /// A refusal of the last line.
    fn here(&self, number: u16) -> Refusal {
        let place = self.lines as u16;
        Refusal { number, place }
    }

    fn find(&mut self, number: u16) {
        self.found.push(((self.lines, 0), self.here(number)));
    }

    fn fault(&mut self, fault: Fault, beyond: &str) {
        let (line, number) = match fault {
            Fault::NoFrame => ("0", Some(1)),
            Fault::Beyond => (beyond, Some(3)),
            Fault::WrongParent => ("01FFFE", Some(4)),
            Fault::NoLayout => (NO_LAYOUT, None),
            Fault::WindowedNoLayout => (WINDOWED_NO_LAYOUT, None),
            Fault::Upward => (UPWARD, None),
            Fault::WindowedUpward => (WINDOWED_UPWARD, None),
            Fault::WindowBeyond => (WINDOW_BEYOND, Some(9)),
            Fault::WindowFF => ("050000FFFEFF", Some(9)),
        };
        self.line(line);
        if let Some(number) = number {
            self.find(number);
        }
    }

    fn end(&mut self, end: End) {
        let (layouts, jobs) = (self.layouts, self.jobs);
        match end {
            End::Missing => {
                self.lines += 1;
                return self.find(7);
            }
            End::Right => self.line(&format!("03{layouts:04X}{jobs:04X}")),
            End::LayoutTooMany => self.line(&format!("03{:04X}{jobs:04X}", layouts + 1)),
            End::JobTooFew => self.line(&format!("03{layouts:04X}{:04X}", jobs - 1)),
        }
        if layouts == 0 {
            self.find(2);
        } else if end != End::Right {
            self.find(7);
        }
        for (turn, &refusal) in self.waiting.iter().enumerate() {
            self.found.push(((self.lines, 1 + turn), refusal));
        }
    }

    fn late(&mut self, late: Late) {
        let (line, number) = match late {
            Late::Frame => (JOB, 2),
            Late::NoFrame => ("", 1),
            Late::LastWindow => (LAST_WINDOW, 2),
            Late::WindowBeyond => (WINDOW_BEYOND, 9),
        };
        self.line(line);
        self.find(number);
    }
}

impl Case<'_> {
    /// The bytes, and the refusal that comes up first.
    pub fn written(&self) -> (Vec<u8>, Option<Refusal>) {
        let mut written = Written::default();
        self.base.head.iter().for_each(|line| written.line(line));
        for place in 0..=LAST {
            for &(_, fault) in self.faults.iter().filter(|(at, _)| *at == place) {
                written.fault(fault, self.base.beyond);
            }
            self.base
                .last
                .get(place)
                .iter()
                .for_each(|line| written.line(line));
        }
        written.end(self.end);
        self.late.iter().for_each(|&late| written.late(late));
        let first = written.found.iter().min_by_key(|(when, _)| *when);
        let refusal = first.map(|&(_, refusal)| refusal);
        (written.bytes, refusal)
    }
}
