//! Tickets and calls by chance.

use second::generate;
use second::interface::Agreement;
use second::local::STATE_LENGTH;
use second::report::{result_length, LONGEST_RESULT};
use second::rng::Rng;
use second::tenders;
use second::ticket::MOST_PROCESSES;

use crate::comparison::{rooms_at_limits, seed_of, Comparison, Difference};

/// A ticket of up to 64 processes, half of them with rate sets as proposals, damaged every
/// other time, in any letters and in others; one that is accepted also mixed with another;
/// and with it some calls of start, speak, close and price.
pub fn ticket_and_calls<M: Agreement>(
    comparison: &mut Comparison<M>,
    rng: &mut Rng,
) -> Result<(), Difference> {
    let mut ticket = generate::ticket(rng, MOST_PROCESSES);
    if rng.one_in(2) {
        ticket = generate::with_rate_sets(rng, ticket);
    }
    let text = if rng.one_in(2) {
        generate::damaged(rng, &ticket)
    } else {
        generate::written(rng, &ticket)
    };
    let exact = result_length(ticket.n);
    let around = if rng.one_in(4) {
        rng.pick(&rooms_at_limits(ticket.n))
    } else {
        exact - 20 + rng.below(41)
    };
    let any = rng.below(2 * LONGEST_RESULT);
    comparison.ticket(&text, &[exact, around, any])?;
    comparison.in_other_letters(&text, rng.pick(&[exact, around]))?;
    let other = generate::ticket(&mut Rng::new(seed_of(&text)), MOST_PROCESSES);
    comparison.mixed(&text, &other.text())?;
    calls(comparison, rng)
}

/// One call each of start, speak and close, and two of price.
fn calls<M: Agreement>(comparison: &mut Comparison<M>, rng: &mut Rng) -> Result<(), Difference> {
    let [process, n, t] = [0; 3].map(|_| start_number(rng));
    let value = rng.next_u64() as u32;
    let length = if rng.one_in(8) { rng.below(20) } else { STATE_LENGTH };
    comparison.start(process, n, t, value, length)?;

    let state = state(rng);
    let room = rng.below(14);
    comparison.speak(&state, room)?;
    let heard = heard(rng, state.get(3).copied().unwrap_or(1));
    comparison.close(&state, &heard)?;
    prices(comparison, rng, state)
}

/// Pricing in a state, which is that of a process that has decided every other time:
/// lines that are quoted, and lines that are not.
fn prices<M: Agreement>(
    comparison: &mut Comparison<M>,
    rng: &mut Rng,
    mut state: Vec<u8>,
) -> Result<(), Difference> {
    if rng.one_in(2) && state.len() > 4 {
        state[4] = 1;
    }
    let value =
        state.get(5..9).and_then(|bytes| bytes.try_into().ok()).map_or(0, u32::from_be_bytes);
    comparison.price(&state, &tenders::quoted(rng, value))?;
    comparison.price(&state, &tenders::refused(rng))
}

fn start_number(rng: &mut Rng) -> u64 {
    match rng.below(8) {
        0 => rng.next_u64(),
        1 => rng.below(600) as u64,
        2 => rng.next_u64() << 8 | rng.below(65) as u64,
        _ => rng.below(67) as u64,
    }
}

/// A valid state, often with one byte changed, at times of any bytes.
fn state(rng: &mut Rng) -> Vec<u8> {
    if rng.one_in(16) {
        let length = rng.below(20);
        return (0..length).map(|_| rng.byte()).collect();
    }
    let n = rng.between(1, MOST_PROCESSES);
    let t = rng.between(0, n - 1);
    let process = rng.between(1, n);
    let own_round = process.min(t + 1);
    let any_round = rng.between(1, own_round);
    let round = rng.pick(&[own_round, any_round]);
    let mark = if rng.one_in(4) { rng.between(0, 2) } else { 0 };
    let mut state = vec![process, n, t, round, mark];
    state.extend((0..4).map(|_| rng.byte()));
    if rng.one_in(3) {
        let place = rng.below(state.len());
        let near = state[place].wrapping_add(rng.pick(&[1, 2, 0xFF, 0xFE]));
        let any = rng.byte();
        state[place] = rng.pick(&[near, near, any]);
    }
    state
}

/// One of the three forms for `round`, often damaged, at times any bytes.
fn heard(rng: &mut Rng, round: u8) -> Vec<u8> {
    if rng.one_in(16) {
        let length = rng.below(12);
        return (0..length).map(|_| rng.byte()).collect();
    }
    let mut heard = vec![0x21, round];
    heard.extend((0..4).map(|_| rng.byte()));
    heard.extend([0x22, round]);
    heard.truncate(rng.pick(&[0, 6, 6, 8, 8, 8]));
    if !heard.is_empty() && rng.one_in(3) {
        let place = rng.below(heard.len());
        match rng.below(3) {
            0 => heard.truncate(place),
            1 => heard.push(rng.byte()),
            _ => heard[place] = heard[place].wrapping_add(rng.pick(&[1, 0xFF])),
        }
    }
    heard
}
