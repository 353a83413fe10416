//! The nine functions of `libagreement.a`.

use second::interface::Agreement;

extern "C" {
    fn uc_run(ticket: *const u8, ticket_len: usize, output: *mut u8, output_len: usize) -> u64;
    fn uc_settle(ticket: *const u8, ticket_len: usize) -> u64;
    fn uc_reason(ticket: *const u8, ticket_len: usize, process: u64, round: u64) -> u64;
    fn uc_reasons(
        ticket: *const u8,
        ticket_len: usize,
        reasons: *mut u8,
        reasons_len: usize,
    ) -> u64;
    fn uc_quote(
        ticket: *const u8,
        ticket_len: usize,
        costs: *const u64,
        cost_count: usize,
        process: u64,
        quote: *mut u64,
    ) -> u64;
    fn uc_price(
        state: *const u8,
        state_len: usize,
        costs: *const u64,
        cost_count: usize,
        quote: *mut u64,
    ) -> u64;
    fn uc_start(process: u64, n: u64, t: u64, value: u32, state: *mut u8, state_len: usize) -> u64;
    fn uc_speak(state: *const u8, state_len: usize, output: *mut u8, output_len: usize) -> u64;
    fn uc_close(state: *mut u8, state_len: usize, heard: *const u8, heard_len: usize) -> u64;
}

/// The proved library. It keeps nothing from call to call.
#[derive(Clone, Copy, Debug)]
pub struct Proved;

// SAFETY of each call: a slice's pointer is not null and good for its length,
// and what the library may write to is borrowed mutably, by this call alone.
impl Agreement for Proved {
    fn run(&mut self, ticket: &[u8], output: &mut [u8]) -> u64 {
        unsafe { uc_run(ticket.as_ptr(), ticket.len(), output.as_mut_ptr(), output.len()) }
    }

    fn settle(&mut self, ticket: &[u8]) -> u64 {
        unsafe { uc_settle(ticket.as_ptr(), ticket.len()) }
    }

    fn reason(&mut self, ticket: &[u8], process: u64, round: u64) -> u64 {
        unsafe { uc_reason(ticket.as_ptr(), ticket.len(), process, round) }
    }

    fn reasons(&mut self, ticket: &[u8], output: &mut [u8]) -> u64 {
        unsafe { uc_reasons(ticket.as_ptr(), ticket.len(), output.as_mut_ptr(), output.len()) }
    }

    fn quote(&mut self, ticket: &[u8], costs: &[u64], process: u64, quote: &mut u64) -> u64 {
        let (ticket, ticket_len) = (ticket.as_ptr(), ticket.len());
        unsafe { uc_quote(ticket, ticket_len, costs.as_ptr(), costs.len(), process, quote) }
    }

    fn price(&mut self, state: &[u8], costs: &[u64], quote: &mut u64) -> u64 {
        unsafe { uc_price(state.as_ptr(), state.len(), costs.as_ptr(), costs.len(), quote) }
    }

    fn start(&mut self, process: u64, n: u64, t: u64, value: u32, state: &mut [u8]) -> u64 {
        unsafe { uc_start(process, n, t, value, state.as_mut_ptr(), state.len()) }
    }

    fn speak(&mut self, state: &[u8], output: &mut [u8]) -> u64 {
        unsafe { uc_speak(state.as_ptr(), state.len(), output.as_mut_ptr(), output.len()) }
    }

    fn close(&mut self, state: &mut [u8], heard: &[u8]) -> u64 {
        unsafe { uc_close(state.as_mut_ptr(), state.len(), heard.as_ptr(), heard.len()) }
    }
}
