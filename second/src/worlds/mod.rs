//! Wrong worlds: for each of them, a claim that fails in it and a failure
//! pattern that shows it.
//!
//! The gate refuses an edit of a definition because a proof no longer goes
//! through. Whether the claim is false in that world is another question, and
//! it is answered here: a [`model`] of the rounds is run under [`rules`] with a
//! wrong one among them, and the [`search`] looks for a counterexample to each
//! of the [`claims`] among all tickets of at most four processes. Where every
//! claim about all tickets still holds, a worked run comes out otherwise, or
//! the ends of one of the [`impostors`] pass. The rules are cut as the gate's
//! edits need them, so the model stands beside the second implementation; under
//! the right rules the two agree, and no claim has a counterexample.
//! `tests/wrong_worlds.rs` holds all of this, and `wrong-worlds` prints the
//! counterexamples.

pub mod claims;
pub mod impostors;
pub mod model;
pub mod reasons;
pub mod rules;
pub mod search;
pub mod wrong;

use claims::Claim;
use rules::Rules;

/// A world with a wrong rule.
#[derive(Clone, Copy, Debug)]
pub struct World {
    /// The edit crates/CRATE/must-fail/NAME.edit, as CRATE/NAME, of crate
    /// consensus, coordinator, coordinator_laws or answers; or what is wrong, in words, as a program or a claim
    /// may have it.
    pub name: &'static str,
    /// The rules, with a wrong one among them.
    pub rules: Rules,
    /// All claims that fail; the one that the edit aims at comes first. Of the
    /// worked runs one stands here if nothing else fails.
    pub breaks: &'static [Claim],
}

impl World {
    /// The crate and the name of the edit, if it is named by one.
    pub fn edit(&self) -> Option<(&'static str, &'static str)> {
        self.name.split_once('/')
    }
}
