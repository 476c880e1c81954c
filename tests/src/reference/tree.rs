//! The tree of layouts by definition (document 01, "The tree and the running order"), and *Settle
//! layouts*.

use super::{refuse, Refusal, ABSENT, LAYOUT_LIMIT};

/// Layout 0 has parent FFFF; each later one a parent with a smaller number than its own.
pub fn right_parent(layout: usize, parent: u16) -> bool {
    if layout == 0 {
        parent == ABSENT
    } else {
        usize::from(parent) < layout
    }
}

/// The layout itself and all above it, the deepest first.
pub fn ancestors(parents: &[u16], layout: u16) -> Vec<u16> {
    let mut walked = vec![layout];
    let mut at = layout;
    while parents[usize::from(at)] != ABSENT {
        at = parents[usize::from(at)];
        walked.push(at);
    }
    walked
}

pub fn depth(parents: &[u16], layout: u16) -> usize {
    ancestors(parents, layout).len() - 1
}

/// Whether the lower layout stands at or below the upper one.
pub fn is_ancestor(parents: &[u16], upper: u16, lower: u16) -> bool {
    ancestors(parents, lower).contains(&upper)
}

/// Refusal 4: the first wrong layout, or place 0 for none.
pub fn refuse_wrong_parents(parents: &[u16]) -> Result<(), Refusal> {
    if parents.is_empty() {
        return refuse(4, 0);
    }
    match (0..parents.len()).find(|&layout| !right_parent(layout, parents[layout])) {
        Some(layout) => refuse(4, layout),
        None => Ok(()),
    }
}

/// What *Settle layouts* gives of each layout.
#[derive(Clone, Debug, PartialEq, Eq)]
pub struct Settled {
    pub depths: Vec<u16>,
    pub firsts: Vec<u16>,
    pub lasts: Vec<u16>,
}

/// Depths, first and last leaves of a right parent list.
pub fn settled(parents: &[u16]) -> Settled {
    let leaves = leaves_of_each(parents);
    let numbered = &leaves[0];
    let number = |leaf: Option<&u16>| numbered.iter().position(|other| Some(other) == leaf);
    let number = |leaf| as_number(number(leaf).expect("every leaf is a leaf of layout 0"));
    Settled {
        depths: (0..parents.len())
            .map(|layout| as_number(depth(parents, as_number(layout))))
            .collect(),
        firsts: leaves.iter().map(|own| number(own.first())).collect(),
        lasts: leaves.iter().map(|own| number(own.last())).collect(),
    }
}

/// *Settle layouts*, as to answer and numbers: `room` is the length of the shortest result.
pub fn settle(parents: &[u16], room: usize) -> Result<Settled, Refusal> {
    if room < parents.len() {
        return refuse(8, 0);
    }
    if LAYOUT_LIMIT < parents.len() {
        return refuse(3, 0);
    }
    refuse_wrong_parents(parents)?;
    Ok(settled(parents))
}

/// The leaves of each layout from left to right, as layout numbers.
pub fn leaves_of_each(parents: &[u16]) -> Vec<Vec<u16>> {
    let mut leaves = vec![Vec::new(); parents.len()];
    collect_leaves(&children_of_each(parents), 0, &mut leaves);
    leaves
}

/// The children of each layout, in order of number.
fn children_of_each(parents: &[u16]) -> Vec<Vec<usize>> {
    let mut children = vec![Vec::new(); parents.len()];
    for (layout, &parent) in parents.iter().enumerate().skip(1) {
        children[usize::from(parent)].push(layout);
    }
    children
}

/// A layout's leaves are its children's leaves, child by child, and a leaf has only itself.
fn collect_leaves(children: &[Vec<usize>], layout: usize, leaves: &mut [Vec<u16>]) {
    let mut own = Vec::new();
    for &child in &children[layout] {
        collect_leaves(children, child, leaves);
        own.extend(&leaves[child]);
    }
    if children[layout].is_empty() {
        own.push(as_number(layout));
    }
    leaves[layout] = own;
}

fn as_number(value: usize) -> u16 {
    u16::try_from(value).expect("the tree's numbers fit 16 bits")
}
