//! The plain peer of the block planner: document 01 and the requests in 02, with adjacency lists and
//! one breadth-first search a candidate, over both editions of the layout. Another implementation is
//! held against it, in results and in speed.
//!
//! Words are those of document 01, with origin for the office, endpoint for a cab and network for
//! a farm. Refusals are numbers, see [`refusals`].

#![deny(unsafe_code)]

pub mod acts;
pub mod bits;
pub mod calls;
pub mod check;
pub mod choice;
pub mod edition;
pub mod generate;
pub mod listing;
pub mod lists;
pub mod picture;
pub mod price;
pub mod random;
pub mod reach;
pub mod refusals;

#[cfg(feature = "archive")]
pub mod archive;

// Inputs for the tests, the comparison and the benchmark.
pub mod faults;
pub mod foreign;
pub mod networks;
pub mod samples;

pub use acts::{evict, free, reload};
pub use check::{check, show};
pub use choice::{choose, weigh};
pub use edition::Edition;
pub use generate::{generate, Asked};
pub use listing::listing;
pub use lists::{lists_of, write, Lists};
pub use picture::{pack, read, Picture};
pub use price::{price, price_into};

#[cfg(test)]
mod call_random_tests;
#[cfg(test)]
mod call_tests;
#[cfg(test)]
mod edition_tests;
#[cfg(test)]
mod free_tests;
#[cfg(test)]
mod generate_tests;
#[cfg(test)]
mod link_tests;
#[cfg(test)]
mod price_tests;
#[cfg(test)]
mod random_tests;
#[cfg(test)]
mod tests;
#[cfg(test)]
mod tie_tests;
