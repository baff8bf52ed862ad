//! Tests of the comparison itself: that it can fail, that it repeats, and that its input is what it is said
//! to be.
mod input;
mod runs;
mod slips;
mod wrong;
