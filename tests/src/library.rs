//! The proved operations: through the static library of the crate `harness`, and the two whole runs as
//! the product exports them. None of them asks anything of its caller, so each wrapper only takes the
//! packed answer apart.

use crate::reference::plan;
use crate::reference::table::Counts;
use crate::reference::{Refusal, Table};

extern "C" {
    fn harness_read(
        bytes: *const u8,
        bytes_length: usize,
        parents: *mut u16,
        parents_length: usize,
        tops: *mut u16,
        tops_length: usize,
        bottoms: *mut u16,
        bottoms_length: usize,
        marks: *mut u8,
        marks_length: usize,
        windows: *mut u8,
        windows_length: usize,
    ) -> u64;

    fn harness_settle(
        parents: *const u16,
        parents_length: usize,
        depths: *mut u16,
        depths_length: usize,
        firsts: *mut u16,
        firsts_length: usize,
        lasts: *mut u16,
        lasts_length: usize,
    ) -> u32;

    fn harness_stretch(
        first: *const u16,
        first_length: usize,
        second: *const u16,
        second_length: usize,
        out: *mut u16,
        out_length: usize,
    ) -> usize;

    fn harness_plan(
        parents: *const u16,
        parents_length: usize,
        tops: *const u16,
        tops_length: usize,
        bottoms: *const u16,
        bottoms_length: usize,
        marks: *const u8,
        marks_length: usize,
        windows: *const u8,
        windows_length: usize,
        partners: *mut u16,
        partners_length: usize,
        uppers: *mut u16,
        uppers_length: usize,
        printed: *mut u16,
        printed_length: usize,
        work: *mut u16,
        work_length: usize,
    ) -> u64;

    fn murdzeki_plan(
        input: *const u8,
        input_length: usize,
        output: *mut u8,
        output_length: usize,
    ) -> usize;

    fn murdzeki_group(
        input: *const u8,
        input_length: usize,
        output: *mut u8,
        output_length: usize,
        lanes: usize,
    ) -> usize;
}

/// *Read a table*.
pub fn read(
    bytes: &[u8],
    parents: &mut [u16],
    tops: &mut [u16],
    bottoms: &mut [u16],
    marks: &mut [u8],
    windows: &mut [u8],
) -> Result<Counts, Refusal> {
    let answer = unsafe {
        harness_read(
            bytes.as_ptr(),
            bytes.len(),
            parents.as_mut_ptr(),
            parents.len(),
            tops.as_mut_ptr(),
            tops.len(),
            bottoms.as_mut_ptr(),
            bottoms.len(),
            marks.as_mut_ptr(),
            marks.len(),
            windows.as_mut_ptr(),
            windows.len(),
        )
    };
    let upper = (answer >> 32) as u32;
    unpacked(upper).map(|()| Counts {
        layouts: (answer >> 16) as u16,
        jobs: answer as u16,
    })
}

/// *Settle layouts*.
pub fn settle(
    parents: &[u16],
    depths: &mut [u16],
    firsts: &mut [u16],
    lasts: &mut [u16],
) -> Result<(), Refusal> {
    let answer = unsafe {
        harness_settle(
            parents.as_ptr(),
            parents.len(),
            depths.as_mut_ptr(),
            depths.len(),
            firsts.as_mut_ptr(),
            firsts.len(),
            lasts.as_mut_ptr(),
            lasts.len(),
        )
    };
    unpacked(answer)
}

/// *Shared stretch*: its length; its numbers stand in `out`, as far as there is room.
pub fn stretch(first: &[u16], second: &[u16], out: &mut [u16]) -> usize {
    unsafe {
        harness_stretch(
            first.as_ptr(),
            first.len(),
            second.as_ptr(),
            second.len(),
            out.as_mut_ptr(),
            out.len(),
        )
    }
}

/// *Plan*.
pub fn plan(
    table: &Table,
    partners: &mut [u16],
    uppers: &mut [u16],
    printed: &mut [u16],
    work: &mut [u16],
) -> Result<plan::Totals, Refusal> {
    let answer = unsafe {
        harness_plan(
            table.parents.as_ptr(),
            table.parents.len(),
            table.tops.as_ptr(),
            table.tops.len(),
            table.bottoms.as_ptr(),
            table.bottoms.len(),
            table.marks.as_ptr(),
            table.marks.len(),
            table.windows.as_ptr(),
            table.windows.len(),
            partners.as_mut_ptr(),
            partners.len(),
            uppers.as_mut_ptr(),
            uppers.len(),
            printed.as_mut_ptr(),
            printed.len(),
            work.as_mut_ptr(),
            work.len(),
        )
    };
    if answer >> 63 == 1 {
        return Err(refusal(answer as u32));
    }
    Ok(plan::Totals {
        pairs: (answer >> 48) as u16,
        singles: (answer >> 32) as u16,
        visits: answer as u32,
    })
}

/// The whole run.
pub fn run(input: &[u8], output: &mut [u8]) -> usize {
    unsafe {
        murdzeki_plan(
            input.as_ptr(),
            input.len(),
            output.as_mut_ptr(),
            output.len(),
        )
    }
}

/// The second whole run, for a press with so many lanes.
pub fn group(input: &[u8], output: &mut [u8], lanes: usize) -> usize {
    unsafe {
        murdzeki_group(
            input.as_ptr(),
            input.len(),
            output.as_mut_ptr(),
            output.len(),
            lanes,
        )
    }
}

/// 0 for done, else a refusal.
fn unpacked(answer: u32) -> Result<(), Refusal> {
    match answer {
        0 => Ok(()),
        packed => Err(refusal(packed)),
    }
}

/// Number × 65536 + place.
fn refusal(packed: u32) -> Refusal {
    Refusal {
        number: (packed >> 16) as u16,
        place: packed as u16,
    }
}
