//! *Shared stretch* by definition (document 01, "What each operation turns away", as 2026-02 changed
//! it: a leading 0 is dropped from each list first).

use super::paths::BARE_SHEET;

/// The shared stretch of two lists, as a part of the list that it begins, behind the 0 dropped there.
pub fn shared_stretch<'a>(first: &'a [u16], second: &'a [u16]) -> &'a [u16] {
    let (first, second) = (without_leading_0(first), without_leading_0(second));
    leading(first, second)
        .or_else(|| leading(second, first))
        .unwrap_or(&first[..0])
}

/// One leading 0 is dropped, not several.
fn without_leading_0(list: &[u16]) -> &[u16] {
    list.strip_prefix(&[BARE_SHEET]).unwrap_or(list)
}

/// If the list's first number stands in the other: the longest leading part that agrees with the
/// other from where it first stands there.
fn leading<'a>(list: &'a [u16], other: &[u16]) -> Option<&'a [u16]> {
    let number = list.first()?;
    let place = other.iter().position(|standing| standing == number)?;
    (0..=list.len())
        .rev()
        .map(|length| &list[..length])
        .find(|part| other[place..].starts_with(part))
}
