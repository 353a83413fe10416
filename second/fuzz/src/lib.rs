//! The second implementation's operations as C functions, for `fuzz.c`.

mod parts;

use std::cell::RefCell;
use std::slice;

use second::interface::Agreement;
use second::Simulator;

thread_local! {
    static SECOND: RefCell<Simulator> = RefCell::new(Simulator::new());
}

fn with_second<T>(call: impl FnOnce(&mut Simulator) -> T) -> T {
    SECOND.with(|second| call(&mut second.borrow_mut()))
}

/// # Safety
/// The pointers are not null and good for the lengths beside them.
#[no_mangle]
pub unsafe extern "C" fn second_run(
    ticket: *const u8,
    ticket_len: usize,
    output: *mut u8,
    output_len: usize,
) -> u64 {
    let (ticket, output) =
        (slice::from_raw_parts(ticket, ticket_len), slice::from_raw_parts_mut(output, output_len));
    with_second(|second| Agreement::run(second, ticket, output))
}

/// # Safety
/// The pointer is not null and good for the length beside it.
#[no_mangle]
pub unsafe extern "C" fn second_settle(ticket: *const u8, ticket_len: usize) -> u64 {
    let ticket = slice::from_raw_parts(ticket, ticket_len);
    with_second(|second| second.settle(ticket))
}

/// # Safety
/// The pointer is not null and good for the length beside it.
#[no_mangle]
pub unsafe extern "C" fn second_reason(
    ticket: *const u8,
    ticket_len: usize,
    process: u64,
    round: u64,
) -> u64 {
    let ticket = slice::from_raw_parts(ticket, ticket_len);
    with_second(|second| Agreement::reason(second, ticket, process, round))
}

/// # Safety
/// The pointers are not null and good for the lengths beside them.
#[no_mangle]
pub unsafe extern "C" fn second_reasons(
    ticket: *const u8,
    ticket_len: usize,
    reasons: *mut u8,
    reasons_len: usize,
) -> u64 {
    let (ticket, reasons) = (
        slice::from_raw_parts(ticket, ticket_len),
        slice::from_raw_parts_mut(reasons, reasons_len),
    );
    with_second(|second| Agreement::reasons(second, ticket, reasons))
}

/// # Safety
/// The pointers are not null and good for the lengths beside them, `quote` for a number.
#[no_mangle]
pub unsafe extern "C" fn second_quote(
    ticket: *const u8,
    ticket_len: usize,
    costs: *const u64,
    cost_count: usize,
    process: u64,
    quote: *mut u64,
) -> u64 {
    let (ticket, costs) =
        (slice::from_raw_parts(ticket, ticket_len), slice::from_raw_parts(costs, cost_count));
    with_second(|second| Agreement::quote(second, ticket, costs, process, &mut *quote))
}

/// # Safety
/// The pointers are not null and good for the lengths beside them, `quote` for a number.
#[no_mangle]
pub unsafe extern "C" fn second_price(
    state: *const u8,
    state_len: usize,
    costs: *const u64,
    cost_count: usize,
    quote: *mut u64,
) -> u64 {
    let (state, costs) =
        (slice::from_raw_parts(state, state_len), slice::from_raw_parts(costs, cost_count));
    with_second(|second| second.price(state, costs, &mut *quote))
}

/// # Safety
/// The pointer is not null and good for the length beside it.
#[no_mangle]
pub unsafe extern "C" fn second_start(
    process: u64,
    n: u64,
    t: u64,
    value: u32,
    state: *mut u8,
    state_len: usize,
) -> u64 {
    let state = slice::from_raw_parts_mut(state, state_len);
    with_second(|second| second.start(process, n, t, value, state))
}

/// # Safety
/// The pointers are not null and good for the lengths beside them.
#[no_mangle]
pub unsafe extern "C" fn second_speak(
    state: *const u8,
    state_len: usize,
    output: *mut u8,
    output_len: usize,
) -> u64 {
    let (state, output) =
        (slice::from_raw_parts(state, state_len), slice::from_raw_parts_mut(output, output_len));
    with_second(|second| second.speak(state, output))
}

/// # Safety
/// The pointers are not null and good for the lengths beside them.
#[no_mangle]
pub unsafe extern "C" fn second_close(
    state: *mut u8,
    state_len: usize,
    heard: *const u8,
    heard_len: usize,
) -> u64 {
    let (state, heard) =
        (slice::from_raw_parts_mut(state, state_len), slice::from_raw_parts(heard, heard_len));
    with_second(|second| second.close(state, heard))
}
