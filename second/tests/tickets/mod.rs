//! Random tickets for the claims of every run.

use second::generate;
use second::rng::Rng;
use second::ticket::{Ticket, MOST_PROCESSES};

/// The tickets of a seed, each with a generator for what is tried on it.
pub fn random_tickets(seed: u64) -> impl Iterator<Item = (Rng, Ticket)> {
    (0..4000).map(move |number| {
        let mut rng = Rng::new(seed << 32 | number);
        let ticket = generate::ticket(&mut rng, MOST_PROCESSES);
        (rng, ticket)
    })
}
