//! What the test programs share: a second implementation of document 01, as document 02's requests
//! have changed it, tables made from seeds, document 01's own tables, buffers with guard cells, the
//! proved operations through their static libraries, a whole run by hand to measure theirs against, wrong
//! planners and groupers to try the checks on, and pictures and pages of tables.

pub mod both_ends;
pub mod browser;
pub mod by_hand;
pub mod earlier_checks;
pub mod earlier_paired;
pub mod examples;
pub mod forbidden;
pub mod group_checks;
pub mod group_examples;
pub mod lent;
pub mod library;
pub mod made;
pub mod page;
pub mod page_checks;
pub mod picture;
pub mod picture_checks;
pub mod plan_checks;
pub mod printed_groups;
pub mod reference;
pub mod report;
pub mod run_checks;
pub mod well_formed;
pub mod windows_apart;
pub mod wrong_groupers;
pub mod wrong_planners;
