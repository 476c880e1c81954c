//! Damage to the bytes of a table. What the damaged bytes then mean is for the reference to say: a
//! damage may even leave a whole table.

use super::mixtures::any_lines;
use super::tables;
use super::Generator;
use crate::reference::table::{frame_line, Frame};
use crate::reference::{Table, ABSENT, JOB_LIMIT, LAYOUT_LIMIT, WINDOW_LIMIT};

#[derive(Clone, Copy, Debug, PartialEq, Eq)]
pub enum Damage {
    FlippedBit,
    OtherByte,
    OtherDigit,
    DeletedByte,
    InsertedByte,
    LowerCase,
    CarriageReturns,
    JoinedLines,
    LastLineOpen,
    SwappedLines,
    DeletedLine,
    RepeatedLine,
    BlankLine,
    WrongLayoutCount,
    WrongJobCount,
    LineAfterEnd,
    BytesAfterEnd,
    ExtraLayout,
    WrongParent,
    TopNoLayout,
    BottomNoLayout,
    ExchangedEnds,
    OtherBottom,
    OtherWindow,
    WindowBeyond,
    WindowGiven,
    WindowAdded,
    WindowLeftOut,
    UnknownKind,
    Truncated,
    Nothing,
    LongLine,
    VeryLongLine,
    TooManyLayouts,
    TooManyJobs,
    FirstLineMissing,
    EndFirst,
}

pub const DAMAGES: [Damage; 37] = [
    Damage::FlippedBit,
    Damage::OtherByte,
    Damage::OtherDigit,
    Damage::DeletedByte,
    Damage::InsertedByte,
    Damage::LowerCase,
    Damage::CarriageReturns,
    Damage::JoinedLines,
    Damage::LastLineOpen,
    Damage::SwappedLines,
    Damage::DeletedLine,
    Damage::RepeatedLine,
    Damage::BlankLine,
    Damage::WrongLayoutCount,
    Damage::WrongJobCount,
    Damage::LineAfterEnd,
    Damage::BytesAfterEnd,
    Damage::ExtraLayout,
    Damage::WrongParent,
    Damage::TopNoLayout,
    Damage::BottomNoLayout,
    Damage::ExchangedEnds,
    Damage::OtherBottom,
    Damage::OtherWindow,
    Damage::WindowBeyond,
    Damage::WindowGiven,
    Damage::WindowAdded,
    Damage::WindowLeftOut,
    Damage::UnknownKind,
    Damage::Truncated,
    Damage::Nothing,
    Damage::LongLine,
    Damage::VeryLongLine,
    Damage::TooManyLayouts,
    Damage::TooManyJobs,
    Damage::FirstLineMissing,
    Damage::EndFirst,
];

/// Digits so many that their count passes for 10, 6 or 12 in 16 bits, and others.
pub const VERY_LONG: [usize; 5] = [65_546, 65_542, 65_548, 65_547, 131_082];

const DIGITS: &[u8] = b"0123456789ABCDEF";

/// A table's bytes after one damage.
pub fn damaged(damage: Damage, table: &Table, generator: &mut Generator) -> Vec<u8> {
    let mut numbers = table.clone();
    damage_numbers(damage, &mut numbers, generator);
    let mut lines = any_lines(&numbers, generator);
    damage_lines(damage, &mut lines, &numbers, generator);
    let mut bytes = lines.concat();
    damage_bytes(damage, &mut bytes, generator);
    bytes
}

/// A table's bytes after a few damages of any kind, the numbers first.
pub fn damaged_often(table: &Table, generator: &mut Generator) -> Vec<u8> {
    let count = generator.between(2, 4);
    let damages: Vec<Damage> = (0..count).map(|_| generator.choice(&DAMAGES)).collect();
    let mut numbers = table.clone();
    for &damage in &damages {
        damage_numbers(damage, &mut numbers, generator);
    }
    let mut lines = any_lines(&numbers, generator);
    for &damage in &damages {
        damage_lines(damage, &mut lines, &numbers, generator);
    }
    let mut bytes = lines.concat();
    for &damage in &damages {
        damage_bytes(damage, &mut bytes, generator);
    }
    bytes
}

/// Damages that leave well-formed lines, each where it stood.
fn damage_numbers(damage: Damage, table: &mut Table, generator: &mut Generator) {
    let layouts = table.layouts();
    let jobs = table.jobs();
    match damage {
        Damage::WrongParent => {
            let layout = generator.below(layouts);
            table.parents[layout] = any_number(layout, generator);
        }
        Damage::TooManyLayouts => {
            for _ in 0..LAYOUT_LIMIT.saturating_sub(layouts) + generator.between(0, 2) {
                table.parents.push(generator.below(layouts) as u16);
            }
        }
        Damage::TooManyJobs => {
            let window = generator.choice(&[0, 0, 1, 0x0F, 0x10]);
            for _ in 0..JOB_LIMIT.saturating_sub(jobs) + generator.between(0, 2) {
                table.add_job_in(window, 0, generator.below(layouts) as u16, 0);
            }
        }
        _ if jobs == 0 => {}
        Damage::TopNoLayout => table.tops[generator.below(jobs)] = any_number(layouts, generator),
        Damage::BottomNoLayout => {
            table.bottoms[generator.below(jobs)] = any_number(layouts, generator);
        }
        Damage::ExchangedEnds => {
            let job = generator.below(jobs);
            std::mem::swap(&mut table.tops[job], &mut table.bottoms[job]);
        }
        Damage::OtherBottom => {
            table.bottoms[generator.below(jobs)] = generator.below(layouts) as u16;
        }
        Damage::OtherWindow => {
            let window = generator.below(WINDOW_LIMIT) as u8;
            put_in_window(table, window, generator);
        }
        Damage::WindowBeyond => put_in_window(table, window_beyond(generator), generator),
        _ => {}
    }
}

/// Some job is no longer solo, and in this window.
fn put_in_window(table: &mut Table, window: u8, generator: &mut Generator) {
    let job = generator.below(table.jobs());
    table.marks[job] = 0;
    table.windows[job] = window;
}

/// The first window beyond the last one, the greatest number, or some other, of which a reader of one
/// digit would take the lower one.
pub fn window_beyond(generator: &mut Generator) -> u8 {
    let any = generator.between(WINDOW_LIMIT, 0xFF) as u8;
    generator.choice(&[0x10, 0x10, 0xFF, 0x1F, 0x80, any])
}

/// Damages that leave whole lines, well formed or not.
fn damage_lines(
    damage: Damage,
    lines: &mut Vec<Vec<u8>>,
    table: &Table,
    generator: &mut Generator,
) {
    if lines.is_empty() {
        return;
    }
    let at = generator.below(lines.len());
    let end = lines.len() - 1;
    match damage {
        Damage::SwappedLines => lines.swap(at, generator.below(end + 1)),
        Damage::DeletedLine => drop(lines.remove(at)),
        Damage::RepeatedLine => lines.insert(at, lines[at].clone()),
        Damage::BlankLine => lines.insert(at, b"\n".to_vec()),
        Damage::WrongLayoutCount => {
            lines[end] = end_line(near(table.layouts(), generator), table.jobs() as u16);
        }
        Damage::WrongJobCount => {
            lines[end] = end_line(table.layouts() as u16, near(table.jobs(), generator));
        }
        Damage::LineAfterEnd => lines.push(any_line(table.layouts(), generator)),
        Damage::ExtraLayout => {
            let parent = any_number(table.layouts(), generator);
            lines.insert(at, frame_line(Frame::Layout(parent)));
        }
        Damage::WindowGiven => {
            add_window(&mut lines[at], generator);
            lines[at][..2].copy_from_slice(b"05");
        }
        Damage::WindowAdded => add_window(&mut lines[at], generator),
        Damage::WindowLeftOut => {
            let is_windowed = |line: &&mut Vec<u8>| line.starts_with(b"05") && line.len() == 13;
            let mut windowed: Vec<&mut Vec<u8>> = lines.iter_mut().filter(is_windowed).collect();
            if !windowed.is_empty() {
                let at = generator.below(windowed.len());
                windowed[at].drain(10..12);
            }
        }
        Damage::UnknownKind => {
            if let Some(digit) = lines[at].get_mut(generator.below(2)) {
                *digit = generator.choice(DIGITS);
            }
        }
        Damage::LongLine => {
            let more = generator.between(1, 20);
            lengthen(&mut lines[at], more, generator);
        }
        Damage::VeryLongLine => {
            let digits = generator.choice(&VERY_LONG);
            let more = (digits + 1).saturating_sub(lines[at].len());
            lengthen(&mut lines[at], more, generator);
        }
        Damage::FirstLineMissing => drop(lines.remove(0)),
        Damage::EndFirst => lines.rotate_right(1),
        _ => {}
    }
}

/// Damages that go by bytes.
fn damage_bytes(damage: Damage, bytes: &mut Vec<u8>, generator: &mut Generator) {
    if bytes.is_empty() {
        return;
    }
    let at = generator.below(bytes.len());
    match damage {
        Damage::FlippedBit => bytes[at] ^= 1 << generator.below(8),
        Damage::OtherByte => bytes[at] = generator.bits() as u8,
        Damage::OtherDigit => bytes[at] = generator.choice(DIGITS),
        Damage::DeletedByte => drop(bytes.remove(at)),
        Damage::InsertedByte => bytes.insert(at, any_byte(generator)),
        Damage::LowerCase => lower_case(bytes, generator),
        Damage::CarriageReturns => carriage_returns(bytes, generator),
        Damage::JoinedLines => {
            if let Some(end) = bytes[at..].iter().position(|&byte| byte == b'\n') {
                bytes.remove(at + end);
            }
        }
        Damage::LastLineOpen => drop(bytes.pop()),
        Damage::BytesAfterEnd => {
            let more = generator.between(1, 12);
            bytes.extend((0..more).map(|_| any_byte(generator)).collect::<Vec<_>>());
        }
        Damage::Truncated => bytes.truncate(at),
        Damage::Nothing => bytes.clear(),
        _ => {}
    }
}

/// Some or all letters in lower case.
fn lower_case(bytes: &mut [u8], generator: &mut Generator) {
    let every = generator.choice(&[1, 2, 50]);
    for byte in bytes {
        if generator.one_in(every) {
            byte.make_ascii_lowercase();
        }
    }
}

/// A carriage return at the end of some or all lines.
fn carriage_returns(bytes: &mut Vec<u8>, generator: &mut Generator) {
    let every = generator.choice(&[1, 2, 50]);
    let mut changed = Vec::new();
    for &byte in bytes.iter() {
        if byte == b'\n' && generator.one_in(every) {
            changed.push(b'\r');
        }
        changed.push(byte);
    }
    *bytes = changed;
}

/// Digits more in front of the line's end.
fn lengthen(line: &mut Vec<u8>, more: usize, generator: &mut Generator) {
    let digits = (0..more).map(|_| generator.choice(DIGITS)).collect();
    insert_at_end(line, digits);
}

/// The two digits of a window there.
fn add_window(line: &mut Vec<u8>, generator: &mut Generator) {
    let window = format!("{:02X}", any_window(generator));
    insert_at_end(line, window.into_bytes());
}

fn insert_at_end(line: &mut Vec<u8>, digits: Vec<u8>) {
    let end = line.len().saturating_sub(1);
    line.splice(end..end, digits);
}

/// Mostly a window.
fn any_window(generator: &mut Generator) -> u8 {
    let window = generator.below(WINDOW_LIMIT) as u8;
    let beyond = window_beyond(generator);
    generator.choice(&[window, window, 0, 0x0F, beyond])
}

/// A number near a bound, or any.
fn any_number(bound: usize, generator: &mut Generator) -> u16 {
    let near = near(bound, generator);
    // The last one has the same lower digits: a reader of two digits would take it for the number
    // near the bound.
    generator.choice(&[near, near, ABSENT, ABSENT - 1, 0, near ^ 0x0100])
}

/// The bound itself, or one or two beside it.
fn near(bound: usize, generator: &mut Generator) -> u16 {
    (bound + generator.below(5)).saturating_sub(2) as u16
}

fn end_line(layouts: u16, jobs: u16) -> Vec<u8> {
    frame_line(Frame::End { layouts, jobs })
}

fn any_byte(generator: &mut Generator) -> u8 {
    let any = generator.bits() as u8;
    let digit = generator.choice(DIGITS);
    generator.choice(&[
        b'\n', b'\n', b' ', b'\r', b'\t', 0, any, digit, digit, digit,
    ])
}

/// A well-formed line, or one that is not.
pub fn any_line(layouts: usize, generator: &mut Generator) -> Vec<u8> {
    let mut number = || any_number(generator.below(layouts + 1), generator);
    let (top, bottom) = (number(), number());
    match generator.below(10) {
        0 | 1 => frame_line(Frame::Layout(top)),
        2 | 3 => frame_line(Frame::Job { top, bottom }),
        4 => frame_line(Frame::Solo { top, bottom }),
        5 | 6 => frame_line(Frame::Windowed {
            top,
            bottom,
            window: any_window(generator),
        }),
        7 => end_line(top, bottom),
        8 => b"\n".to_vec(),
        _ => (0..generator.below(12))
            .map(|_| any_byte(generator))
            .collect(),
    }
}

/// Lines that are nearly a small table: layouts and jobs in any mixture, numbers right and wrong, and
/// now and then a line out of its place.
pub fn nearly_right_lines(generator: &mut Generator) -> Vec<u8> {
    let table = nearly_right_table(generator);
    let mut lines = any_lines(&table, generator);
    for _ in 0..generator.below(3) {
        let (one, other) = (generator.below(lines.len()), generator.below(lines.len()));
        lines.swap(one, other);
    }
    if generator.one_in(4) {
        let at = generator.below(lines.len() + 1);
        lines.insert(at, any_line(6, generator));
    }
    lines.concat()
}

/// A small table whose parents may be wrong, and whose tops, bottoms and windows are any numbers.
pub fn nearly_right_table(generator: &mut Generator) -> Table {
    let layouts = generator.between(1, 5);
    let mut table = Table {
        parents: tables::any_parents(layouts, generator),
        ..Table::default()
    };
    if generator.one_in(4) {
        damage_numbers(Damage::WrongParent, &mut table, generator);
    }
    let numbers = layouts + usize::from(generator.one_in(3));
    for _ in 0..generator.below(4) {
        let (top, bottom) = (
            generator.below(numbers) as u16,
            generator.below(numbers) as u16,
        );
        let top = generator.choice(&[0, 0, top]);
        match generator.below(8) {
            0 | 1 => table.add_job(top, bottom, 1),
            2..=4 => table.add_job_in(any_window(generator), top, bottom, 0),
            _ => table.add_job(top, bottom, 0),
        }
    }
    table
}
