//! The module's nine operations, with their answers as numbers, as its C
//! interface has them.

use crate::local;
use crate::pricing;
use crate::refusal::{Reason, Refusal};
use crate::Simulator;

/// Multiplies a refusal's number in the answers about tickets.
pub const REFUSED: u64 = 65536;

/// An implementation of the nine operations, total on every input.
pub trait Agreement {
    /// Runs a ticket: the bytes written, or 65536 · number + line (1 to 9).
    fn run(&mut self, ticket: &[u8], output: &mut [u8]) -> u64;

    /// Settling: the lowest round that qualifies, or 65536 · number + line (1 to 8).
    fn settle(&mut self, ticket: &[u8]) -> u64;

    /// The reason of a process in a round, 1 to 7, or 65536 · number + line (1 to 8, and
    /// then 13 at line 0).
    fn reason(&mut self, ticket: &[u8], process: u64, round: u64) -> u64;

    /// The reasons of all processes in all rounds, round by round: the bytes written, or
    /// 65536 · number + line (1 to 9).
    fn reasons(&mut self, ticket: &[u8], output: &mut [u8]) -> u64;

    /// Quotes tender lines by what a process of the ticket's run decides: 0, and the pence
    /// are in `quote`; or 65536 · number + line (1 to 8, and then 14 to 16 at line 0), and
    /// `quote` is as it was.
    fn quote(&mut self, ticket: &[u8], costs: &[u64], process: u64, quote: &mut u64) -> u64;

    /// Quotes them by what a process has decided whose state this is: 0, and the pence are
    /// in `quote`; or refusal 10, 14, 15 or 16, and `quote` is as it was.
    fn price(&mut self, state: &[u8], costs: &[u64], quote: &mut u64) -> u64;

    /// Starts a process: 0, or refusal 10.
    fn start(&mut self, process: u64, n: u64, t: u64, value: u32, state: &mut [u8]) -> u64;

    /// Speaks: the bytes yielded, 0 or 8, or refusal 9, 10 or 11.
    fn speak(&mut self, state: &[u8], output: &mut [u8]) -> u64;

    /// Closes a round: 0, or refusal 10, 11 or 12.
    fn close(&mut self, state: &mut [u8], heard: &[u8]) -> u64;
}

/// The three operations of a local part, which are all that a host calls in a run.
pub trait Part {
    /// As [`Agreement::start`].
    fn start(&mut self, process: u64, n: u64, t: u64, value: u32, state: &mut [u8]) -> u64;

    /// As [`Agreement::speak`].
    fn speak(&mut self, state: &[u8], output: &mut [u8]) -> u64;

    /// As [`Agreement::close`].
    fn close(&mut self, state: &mut [u8], heard: &[u8]) -> u64;
}

impl<M: Agreement> Part for M {
    fn start(&mut self, process: u64, n: u64, t: u64, value: u32, state: &mut [u8]) -> u64 {
        Agreement::start(self, process, n, t, value, state)
    }

    fn speak(&mut self, state: &[u8], output: &mut [u8]) -> u64 {
        Agreement::speak(self, state, output)
    }

    fn close(&mut self, state: &mut [u8], heard: &[u8]) -> u64 {
        Agreement::close(self, state, heard)
    }
}

/// The answer about a refused ticket.
pub fn refused(refusal: Refusal) -> u64 {
    REFUSED * u64::from(refusal.reason.number()) + u64::from(refusal.line)
}

fn answer<T>(result: Result<T, Reason>, accepted: impl FnOnce(T) -> u64) -> u64 {
    result.map_or_else(|reason| u64::from(reason.number()), accepted)
}

/// The answer to a call that has written a quote.
fn written(pence: u64, quote: &mut u64) -> u64 {
    *quote = pence;
    0
}

impl Agreement for Simulator {
    fn run(&mut self, ticket: &[u8], output: &mut [u8]) -> u64 {
        let written = Simulator::run(self, ticket, output);
        written.map_or_else(refused, |length| length as u64)
    }

    fn settle(&mut self, ticket: &[u8]) -> u64 {
        self.settling_round(ticket).map_or_else(refused, u64::from)
    }

    fn reason(&mut self, ticket: &[u8], process: u64, round: u64) -> u64 {
        let reason = Simulator::reason(self, ticket, process, round);
        reason.map_or_else(refused, |reason| u64::from(reason.number()))
    }

    fn reasons(&mut self, ticket: &[u8], output: &mut [u8]) -> u64 {
        let written = Simulator::reasons(self, ticket, output);
        written.map_or_else(refused, |length| length as u64)
    }

    fn quote(&mut self, ticket: &[u8], costs: &[u64], process: u64, quote: &mut u64) -> u64 {
        let quoted = Simulator::quote(self, ticket, costs, process);
        quoted.map_or_else(refused, |pence| written(pence, quote))
    }

    fn price(&mut self, state: &[u8], costs: &[u64], quote: &mut u64) -> u64 {
        let decision = local::decision(state);
        let quoted = decision.and_then(|decision| pricing::quote(decision, costs));
        answer(quoted, |pence| written(pence, quote))
    }

    fn start(&mut self, process: u64, n: u64, t: u64, value: u32, state: &mut [u8]) -> u64 {
        answer(local::start(process, n, t, value, state), |()| 0)
    }

    fn speak(&mut self, state: &[u8], output: &mut [u8]) -> u64 {
        answer(local::speak(state, output), |length| length as u64)
    }

    fn close(&mut self, state: &mut [u8], heard: &[u8]) -> u64 {
        answer(local::close(state, heard), |()| 0)
    }
}
