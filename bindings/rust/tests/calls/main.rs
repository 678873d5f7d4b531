//! The crate's calls, from outside.

mod by_hand;
mod histories;
mod refusals;
mod rows;
mod support;
