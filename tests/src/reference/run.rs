//! The whole run from bytes to bytes (document 01, "The plan" and "What each operation turns
//! away"; 2026-02: both ends in a pair's line, and more output asked for).

use super::plan::{plan_of, running_order, Plan};
use super::table::read;
use super::{Refusal, Table, ABSENT, OUTPUT_BYTES};

/// The whole run into lent output: the length, and what the output holds afterwards.
pub fn run_into(input: &[u8], output: &mut [u8]) -> usize {
    write_into(output, || run(input))
}

/// What either whole run leaves in lent output: its lines and zeros, or in too short a one nothing.
pub fn write_into(output: &mut [u8], lines: impl FnOnce() -> Vec<u8>) -> usize {
    if output.len() < OUTPUT_BYTES {
        return 0;
    }
    let written = lines();
    output.fill(0);
    output[..written.len()].copy_from_slice(&written);
    written.len()
}

/// The bytes that the whole run writes.
pub fn run(input: &[u8]) -> Vec<u8> {
    match read(input) {
        Ok(table) => plan_lines(&table, &plan_of(&table)).into_bytes(),
        Err(refusal) => refusal_line(refusal).into_bytes(),
    }
}

/// 1E, the number in two digits, the place in four.
pub fn refusal_line(refusal: Refusal) -> String {
    format!("1E{:02X}{:04X}\n", refusal.number, refusal.place)
}

/// One line a pass, ordered by the earlier place in it; last the totals.
fn plan_lines(table: &Table, plan: &Plan) -> String {
    let order = running_order(table);
    let mut lines = String::new();
    for (rank, &job) in order.iter().enumerate() {
        let partner = plan.partners[job];
        let written = order[..rank].contains(&usize::from(partner));
        if partner == ABSENT {
            lines += &format!("12{job:04X}\n");
        } else if !written {
            let (upper, printed) = (plan.uppers[job], plan.printed[job]);
            lines += &format!("11{job:04X}{partner:04X}{upper:04X}{printed:04X}\n");
        }
    }
    let totals = plan.totals;
    lines
        + &format!(
            "1F{:04X}{:04X}{:08X}\n",
            totals.pairs, totals.singles, totals.visits
        )
}
