//! The nodes of the segment trees that lookups visit, by the recursive definition (document 01, "The
//! shelf and its cells": the segment tree and its nodes; 2026-05: one for each window).

use super::paths::highest;
use super::tree::settled;
use super::Table;
use std::collections::BTreeMap;

/// First and last leaf of a layout.
pub type LeafSpan = (u16, u16);

/// The slots of each window, and what the lookup of each job asks for.
pub struct Slots {
    /// By window the first leaf of each slot.
    leaves: BTreeMap<u8, Vec<u16>>,
    /// By job its window, and the leaf span of its highest layout; a bare job has none.
    asked: Vec<(u8, Option<LeafSpan>)>,
}

impl Slots {
    /// The slots of these jobs, each among those of its own window by first leaf of bottom. (Which of
    /// the jobs with one leaf has which slot does not matter to a visit.)
    pub fn new(table: &Table, jobs: &[usize]) -> Slots {
        let tree = settled(&table.parents);
        let mut leaves: BTreeMap<u8, Vec<u16>> = BTreeMap::new();
        for &job in jobs {
            let slots = leaves.entry(table.windows[job]).or_default();
            slots.push(tree.firsts[usize::from(table.bottoms[job])]);
        }
        leaves.values_mut().for_each(|slots| slots.sort());
        let span = |layout: u16| {
            let layout = usize::from(layout);
            (tree.firsts[layout], tree.lasts[layout])
        };
        let asked = |job: usize| (table.windows[job], highest(table, job).map(span));
        Slots {
            leaves,
            asked: (0..table.jobs()).map(asked).collect(),
        }
    }

    /// By slot the first leaf; none for a window without jobs.
    pub fn of_window(&self, window: u8) -> &[u16] {
        self.leaves.get(&window).map_or(&[], Vec::as_slice)
    }

    /// The nodes that a job's lookup visits: it asks the shelf of its window for the leaf span of its
    /// highest layout. A bare job makes no lookup.
    pub fn visits(&self, job: usize) -> u32 {
        let (window, span) = self.asked[job];
        span.map_or(0, |span| span_visits(self.of_window(window), span))
    }
}

/// The nodes that one lookup visits, over a segment tree with these first leaves by slot: it asks for
/// every slot whose first leaf lies in a leaf span.
pub fn span_visits(leaves: &[u16], (first, last): LeafSpan) -> u32 {
    let mut asked: Vec<bool> = leaves
        .iter()
        .map(|&leaf| first <= leaf && leaf <= last)
        .collect();
    asked.resize(asked.len().max(1).next_power_of_two(), false);
    visits(&asked)
}

/// The visits at and below one node, given which of its slots are asked for: wholly inside or
/// wholly outside ends there, otherwise both halves are visited.
pub fn visits(node: &[bool]) -> u32 {
    let inside = node.iter().all(|&asked| asked);
    let outside = node.iter().all(|&asked| !asked);
    if inside || outside {
        return 1;
    }
    let (left, right) = node.split_at(node.len() / 2);
    1 + visits(left) + visits(right)
}
