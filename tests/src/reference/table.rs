//! *Read a table* line by line (document 01, "The table" and "What each operation turns away"; 2026-04:
//! layouts and jobs in any mixture, and the jobs judged at the end; 2026-05: lines with a window), and
//! tables written as lines.

use super::plan::job_fault;
use super::tree::right_parent;
use super::{refuse, Refusal, Table, ABSENT, JOB_LIMIT, LAYOUT_LIMIT, WINDOW_LIMIT};

/// One line of the table.
#[derive(Clone, Copy, Debug, PartialEq, Eq)]
pub enum Frame {
    Layout(u16),
    Job { top: u16, bottom: u16 },
    Solo { top: u16, bottom: u16 },
    Windowed { top: u16, bottom: u16, window: u8 },
    End { layouts: u16, jobs: u16 },
}

/// How many layouts and jobs were read.
#[derive(Clone, Copy, Debug, PartialEq, Eq)]
pub struct Counts {
    pub layouts: u16,
    pub jobs: u16,
}

/// *Read a table* whole: the answer, and what the buffers lent, one for each column of a table, hold
/// afterwards.
pub fn read_into(bytes: &[u8], buffers: &mut Table) -> Result<Counts, Refusal> {
    let jobs_room = [
        buffers.tops.len(),
        buffers.bottoms.len(),
        buffers.marks.len(),
        buffers.windows.len(),
    ];
    if buffers.parents.len() < LAYOUT_LIMIT || jobs_room.iter().any(|&room| room < JOB_LIMIT) {
        return refuse(8, 0);
    }
    let answer = read(bytes);
    let table = answer.clone().unwrap_or_default();
    hold(&mut buffers.parents, &table.parents, ABSENT);
    hold(&mut buffers.tops, &table.tops, ABSENT);
    hold(&mut buffers.bottoms, &table.bottoms, ABSENT);
    hold(&mut buffers.marks, &table.marks, 0);
    hold(&mut buffers.windows, &table.windows, 0);
    answer.map(|table| Counts {
        layouts: table.layouts() as u16,
        jobs: table.jobs() as u16,
    })
}

fn hold<T: Copy>(cells: &mut [T], used: &[T], unused: T) {
    cells.fill(unused);
    cells[..used.len()].copy_from_slice(used);
}

/// Reads a table from its bytes: what comes up first wins. The jobs are judged when the end line is
/// read.
pub fn read(bytes: &[u8]) -> Result<Table, Refusal> {
    let mut table = Table::default();
    let mut lines_of_jobs = Vec::new();
    let mut ended = false;
    let mut line = 0;
    for text in bytes.split_inclusive(|&byte| byte == 0x0A) {
        line += 1;
        let Some(frame) = frame(text) else {
            return refuse(1, line);
        };
        let number = fault(&table, ended, frame);
        if number != 0 {
            return refuse(number, line);
        }
        match frame {
            Frame::Layout(parent) => table.parents.push(parent),
            Frame::Job { top, bottom } => table.add_job(top, bottom, 0),
            Frame::Solo { top, bottom } => table.add_job(top, bottom, 1),
            Frame::Windowed {
                top,
                bottom,
                window,
            } => table.add_job_in(window, top, bottom, 0),
            Frame::End { .. } => {
                judge_jobs(&table, &lines_of_jobs)?;
                ended = true;
            }
        }
        // A job more has this line.
        lines_of_jobs.resize(table.jobs(), line);
    }
    if ended {
        Ok(table)
    } else {
        refuse(7, line + 1)
    }
}

/// The frame of a line with its 0A: none for a line without it, an unknown kind, a wrong length or
/// a wrong digit.
fn frame(text: &[u8]) -> Option<Frame> {
    let digits = text.strip_suffix(b"\n")?;
    let is_digit = |byte: &u8| matches!(byte, b'0'..=b'9' | b'A'..=b'F');
    if !digits.iter().all(is_digit) {
        return None;
    }
    let digits = std::str::from_utf8(digits).ok()?;
    let field = |at: usize| u16::from_str_radix(digits.get(at..at + 4)?, 16).ok();
    let (kind, length) = (digits.get(..2)?, digits.len());
    match (kind, length) {
        ("01", 6) => Some(Frame::Layout(field(2)?)),
        ("02", 10) => Some(Frame::Job {
            top: field(2)?,
            bottom: field(6)?,
        }),
        ("04", 10) => Some(Frame::Solo {
            top: field(2)?,
            bottom: field(6)?,
        }),
        ("05", 12) => Some(Frame::Windowed {
            top: field(2)?,
            bottom: field(6)?,
            window: u8::from_str_radix(&digits[10..], 16).ok()?,
        }),
        ("03", 10) => Some(Frame::End {
            layouts: field(2)?,
            jobs: field(6)?,
        }),
        _ => None,
    }
}

/// The number of a line's own refusal, given what stands before it and whether the end does; 0 for
/// none. A window beyond the last one comes before all else that can be wrong with a frame.
fn fault(table: &Table, ended: bool, frame: Frame) -> u16 {
    match frame {
        Frame::Windowed { window, .. } if WINDOW_LIMIT <= usize::from(window) => 9,
        _ if ended => 2,
        Frame::Layout(_) if table.layouts() == LAYOUT_LIMIT => 3,
        Frame::Layout(parent) if !right_parent(table.layouts(), parent) => 4,
        Frame::Layout(_) => 0,
        Frame::End { .. } if table.layouts() == 0 => 2,
        Frame::End { layouts, jobs } if !counts_are(table, layouts, jobs) => 7,
        Frame::End { .. } => 0,
        Frame::Job { .. } | Frame::Solo { .. } | Frame::Windowed { .. } => {
            if table.jobs() == JOB_LIMIT {
                3
            } else {
                0
            }
        }
    }
}

fn counts_are(table: &Table, layouts: u16, jobs: u16) -> bool {
    usize::from(layouts) == table.layouts() && usize::from(jobs) == table.jobs()
}

/// 5 or 6 for the first wrong job, on its own line. (A window is judged on its line.)
fn judge_jobs(table: &Table, lines: &[usize]) -> Result<(), Refusal> {
    for (job, &line) in lines.iter().enumerate() {
        if let Some(number) = job_fault(table, job) {
            return refuse(number, line);
        }
    }
    Ok(())
}

/// A frame as its line.
pub fn frame_line(frame: Frame) -> Vec<u8> {
    let text = match frame {
        Frame::Layout(parent) => format!("01{parent:04X}\n"),
        Frame::Job { top, bottom } => format!("02{top:04X}{bottom:04X}\n"),
        Frame::Solo { top, bottom } => format!("04{top:04X}{bottom:04X}\n"),
        Frame::Windowed {
            top,
            bottom,
            window,
        } => format!("05{top:04X}{bottom:04X}{window:02X}\n"),
        Frame::End { layouts, jobs } => format!("03{layouts:04X}{jobs:04X}\n"),
    };
    text.into_bytes()
}

/// A table as its lines: the layouts, the jobs, the end.
pub fn table_lines(table: &Table) -> Vec<Vec<u8>> {
    let parts = [layout_lines(table), job_lines(table), vec![end_line(table)]];
    parts.concat()
}

pub fn layout_lines(table: &Table) -> Vec<Vec<u8>> {
    let layouts = table.parents.iter().map(|&parent| Frame::Layout(parent));
    layouts.map(frame_line).collect()
}

pub fn job_lines(table: &Table) -> Vec<Vec<u8>> {
    let jobs = 0..table.jobs();
    jobs.map(|job| frame_line(job_frame(table, job))).collect()
}

/// The frame of a job: with a window only where it is not window 0. No line is that of a solo job in
/// another window.
pub fn job_frame(table: &Table, job: usize) -> Frame {
    let (top, bottom) = (table.tops[job], table.bottoms[job]);
    match (table.solo(job), table.windows[job]) {
        (false, 0) => Frame::Job { top, bottom },
        (true, 0) => Frame::Solo { top, bottom },
        (false, window) => Frame::Windowed {
            top,
            bottom,
            window,
        },
        (true, window) => panic!("job {job} is solo and in window {window}"),
    }
}

/// The end line that counts the table's layouts and jobs.
pub fn end_line(table: &Table) -> Vec<u8> {
    frame_line(Frame::End {
        layouts: table.layouts() as u16,
        jobs: table.jobs() as u16,
    })
}
