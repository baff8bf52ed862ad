//! The kinds of tables and of lists, by name: a run takes them in turn.
use crate::lists;
use crate::pace::Tasks;
use crate::rng::Rng;
use crate::{damage, special, spoil, tables};

pub type TableKind = (&'static str, fn(&mut Rng) -> Vec<u8>);
pub type ListKind = (&'static str, fn(&mut Rng, &Tasks) -> Vec<u8>);

pub const TABLES: [TableKind; 20] = [
    ("near full load", tables::near_full_load),
    ("D above P", tables::d_above_p),
    ("E above D", tables::e_above_d),
    ("any tasks and frames", tables::wide),
    ("at the limits", tables::at_the_limits),
    ("sporadic", tables::sporadic),
    ("multiframe", tables::multiframe),
    ("generalized", tables::generalized),
    ("no D above P", tables::priorities),
    ("late deadlines", tables::late_deadlines),
    ("thick requests", tables::thick_requests),
    ("large numbers", tables::large_numbers),
    ("values at the edges", special::edges),
    ("at the last t", special::at_the_last_t),
    ("of the document", special::of_the_document),
    ("one fault", damage::one_fault),
    ("two faults", damage::two_faults),
    ("wrong length", damage::wrong_length),
    ("noise", special::noise),
    ("mild noise", special::mild_noise),
];

pub const LISTS: [ListKind; 12] = [
    ("earliest arrivals", lists::earliest_arrivals),
    ("late arrivals", lists::late_arrivals),
    ("idle gaps", lists::idle_gaps),
    ("full", lists::full),
    ("far arrivals", lists::far_arrivals),
    ("together", lists::together),
    ("empty", lists::empty),
    ("one fault", spoil::one_fault),
    ("two faults", spoil::two_faults),
    ("wrong length", spoil::wrong_length),
    ("noise", lists::noise),
    ("mild noise", lists::mild_noise),
];

/// The table's own overload list, which comes from the second program and not from here.
pub const OWN_LIST: &str = "the overload list";
