//! The proved library's parts, called in any order, as a C function for `fuzz.c`.

#[path = "../../against/src/proved.rs"]
mod proved;

use std::slice;

use second::generate;
use second::host::{play, Host};
use second::orders::{in_any_order, mixed};
use second::rng::Rng;
use second::run_states::RunStates;
use second::ticket::{Ticket, MOST_PROCESSES};

use proved::Proved;

/// Calls the proved library's parts of a ticket's run in an order that `seed` chooses, mixed
/// with those of another run (02, Paper 14): 0 if all is as the runs say or the ticket is
/// refused, and else 1, and it is printed what differs.
///
/// # Safety
/// The pointer is not null and good for the length beside it.
#[no_mangle]
pub unsafe extern "C" fn second_play(ticket: *const u8, ticket_len: usize, seed: u64) -> u64 {
    let Ok(ticket) = Ticket::parse(slice::from_raw_parts(ticket, ticket_len)) else {
        return 0;
    };
    let mut rng = Rng::new(seed);
    let other = generate::ticket(&mut rng, MOST_PROCESSES);
    let runs = [RunStates::of(&ticket), RunStates::of(&other)];
    let [first, second] = [0, 1].map(|instance| in_any_order(&mut rng, &runs[instance], instance));
    let calls = mixed(&mut rng, &first, &second);
    let played = play(&mut Proved, &[&runs[0], &runs[1]], &calls, Host::make);
    played.map_or_else(
        |what| {
            eprintln!("{what}\n{ticket}and\n{other}");
            1
        },
        |()| 0,
    )
}
