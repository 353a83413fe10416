//! The proved static library against the second implementation.
//!
//! - [`proved`]: the library's nine functions.
//! - [`comparison`]: one call or one ticket, given to both.
//! - `reasons`, `quotes` and `orders`: of these, the reasons of a ticket's run, its quotes,
//!   and its parts called in any order, those of two tickets mixed.
//! - [`exhaustive`]: the stored tickets, every small ticket, every count of a process,
//!   every settling round, every reason and every quote of some runs, every mix of two
//!   small runs, and every call near a valid one.
//! - [`random`]: tickets and calls by chance.
//! - [`shrink`]: the smallest ticket that shows a difference.

#![warn(missing_docs)]

pub mod comparison;
pub mod exhaustive;
mod orders;
pub mod proved;
mod quotes;
pub mod random;
mod reasons;
pub mod shrink;
