//! What Paper 9 of document 02 claims of every quote, tried on random tickets whose
//! proposals are rate sets.

mod tickets;

use second::generate;
use second::interface::{Agreement, REFUSED};
use second::pricing::{RateSet, HIGHEST_COST, MOST_LINES};
use second::report::result_length;
use second::rng::Rng;
use second::separate::run_separately;
use second::tenders::{at_limits, quoted, rate_set, refused};
use second::{worked, Simulator, Ticket};

/// What is in a quote's place before a call.
const BEFORE: u64 = 0xEEEE_EEEE_EEEE_EEEE;

/// The largest quote: 200 lines of the highest direct cost, by the largest rate set.
const LARGEST: u64 = 11_411_072_450_000;

/// Random tickets with rate sets.
fn random_tickets(seed: u64) -> impl Iterator<Item = (Rng, Ticket)> {
    tickets::random_tickets(seed).map(|(mut rng, ticket)| {
        let ticket = generate::with_rate_sets(&mut rng, ticket);
        (rng, ticket)
    })
}

/// A percentage on an amount as decimals show it: the last four digits of the product are
/// parts of a penny, and the first of them says whether to round up.
fn by_decimals(amount: u64, rate: u32) -> u64 {
    let product = format!("{:05}", amount * u64::from(rate));
    let (pence, parts) = product.split_at(product.len() - 4);
    let pence: u64 = pence.parse().expect("digits");
    pence + u64::from(parts.as_bytes()[0] >= b'5')
}

/// The price of a tender line in the words of the paper.
fn price_by_decimals(value: u32, cost: u64) -> u64 {
    let sum = cost + by_decimals(cost, value >> 16);
    sum + by_decimals(sum, value & 0xFFFF)
}

/// What each process has decided by the lines of the result.
fn decisions_in(result: &str) -> Vec<Option<u32>> {
    let lines = result.lines().filter(|line| line.starts_with("11"));
    let decision = |line: &str| {
        let value = u32::from_str_radix(&line[8..16], 16).expect("eight digits");
        (&line[4..6] == "01").then_some(value)
    };
    lines.map(decision).collect()
}

/// A call for a quote: the answer, and what is in the quote's place.
fn quote(simulator: &mut Simulator, text: &[u8], costs: &[u64], process: u64) -> (u64, u64) {
    let mut pence = BEFORE;
    (Agreement::quote(simulator, text, costs, process, &mut pence), pence)
}

/// The same by a state.
fn price(simulator: &mut Simulator, state: &[u8], costs: &[u64]) -> (u64, u64) {
    let mut pence = BEFORE;
    (simulator.price(state, costs, &mut pence), pence)
}

/// The figures, each by a ticket of one process; and those of case 1, which agrees on
/// 0000000A, and of which process 1 crashes.
#[test]
fn figures_by_tickets() {
    let mut simulator = Simulator::new();
    let alone = |value: u32| Ticket { proposals: vec![value], ..worked::case(2) }.text();
    let figures = [
        (0x03E8_01F4, vec![12_345], 14_259),
        (0x03E8_01F4, vec![5], 6),
        (0x03E8_01F4, vec![12_345, 5], 14_265),
        (0x0000_000A, vec![100_000], 100_100),
        (0xFFFF_FFFF, vec![HIGHEST_COST; MOST_LINES], LARGEST),
    ];
    for (value, costs, right) in figures {
        assert_eq!(quote(&mut simulator, &alone(value), &costs, 1), (0, right), "{value:08X}");
    }
    let case_1 = worked::case(1).text();
    let quotes = [1, 2, 3, 4].map(|process| quote(&mut simulator, &case_1, &[100_000], process));
    assert_eq!(quotes, [(16 * REFUSED, BEFORE), (0, 100_100), (0, 100_100), (0, 100_100)]);
}

/// Any two that decide quote the same penny, which is that of the decided value by the
/// result's bytes; the others are refused.
#[test]
fn all_that_decide_quote_the_same_penny() {
    let mut simulator = Simulator::new();
    let (mut with_halves, mut several, mut crashed) = (0, 0, 0);
    for (mut rng, ticket) in random_tickets(1) {
        let text = ticket.text();
        let decisions = decisions_in(&simulator.print(&text, result_length(ticket.n)));
        let value = decisions.iter().flatten().next().copied().expect("some decide");
        let costs = quoted(&mut rng, value);
        let right: u64 = costs.iter().map(|&cost| price_by_decimals(value, cost)).sum();
        for (process, decision) in (1..).zip(&decisions) {
            let expected = match decision {
                Some(_) => (0, right),
                None => (16 * REFUSED, BEFORE),
            };
            let answer = quote(&mut simulator, &text, &costs, process);
            assert_eq!(answer, expected, "process {process}, {costs:?}: {ticket}");
        }
        let half = |cost: &u64| cost * u64::from(value >> 16) % 10_000 == 5000;
        with_halves += usize::from(costs.iter().any(half));
        several += usize::from(decisions.iter().flatten().count() > 1);
        crashed += usize::from(decisions.contains(&None));
    }
    let tried = [with_halves, several, crashed];
    assert!(tried.iter().all(|&count| count > 1000), "{tried:?}");
}

/// A part that has decided quotes by its own nine bytes what the ticket's run quotes for
/// it; one that has crashed was still open, and is refused too.
#[test]
fn separate_local_parts_quote_the_same_penny() {
    let mut simulator = Simulator::new();
    let mut tried = [0; 2];
    for (mut rng, ticket) in random_tickets(2).take(2000) {
        let separate = run_separately(&mut simulator, &ticket).expect("no refusal");
        let value = rng.pick(&ticket.proposals);
        let costs = if rng.one_in(4) { refused(&mut rng) } else { quoted(&mut rng, value) };
        for (process, state) in (1..).zip(&separate.states) {
            let (answer, pence) = quote(&mut simulator, &ticket.text(), &costs, process);
            let by_state = price(&mut simulator, state, &costs);
            assert_eq!(by_state, (answer / REFUSED, pence), "{process}, {costs:?}: {ticket}");
            tried[usize::from(answer == 0)] += 1;
        }
    }
    assert!(tried.iter().all(|&count| count > 1000), "{tried:?}");
}

/// A quote is the sum of its lines: each is priced by itself, and rounded by itself.
#[test]
fn a_quote_is_the_sum_of_its_lines() {
    let mut simulator = Simulator::new();
    for (mut rng, ticket) in random_tickets(3).take(1000) {
        let text = ticket.text();
        let decisions = decisions_in(&simulator.print(&text, result_length(ticket.n)));
        let decider = decisions.iter().position(Option::is_some).expect("some decide") as u64 + 1;
        let value = rng.pick(&ticket.proposals);
        let costs = quoted(&mut rng, value);
        let (before, after) = costs.split_at(rng.below(costs.len()));
        let parts =
            [before, after].map(|lines| match quote(&mut simulator, &text, lines, decider) {
                (0, pence) => pence,
                (answer, _) => {
                    assert_eq!((answer, lines), (14 * REFUSED, &[][..]), "{ticket}");
                    0
                }
            });
        let whole = quote(&mut simulator, &text, &costs, decider);
        assert_eq!(whole, (0, parts[0] + parts[1]), "{costs:?}: {ticket}");
        assert!(whole.1 <= LARGEST, "{costs:?}: {ticket}");
    }
}

#[test]
fn prices_are_those_of_decimals_and_rise_with_costs() {
    let mut rng = Rng::new(4);
    for _ in 0..20_000 {
        let value = rate_set(&mut rng);
        for cost in quoted(&mut rng, value) {
            let price = RateSet::of(value).price(cost);
            assert_eq!(price, price_by_decimals(value, cost), "{value:08X} on {cost}");
            assert!(cost <= price && price <= LARGEST / 200, "{value:08X} on {cost}");
            let next = RateSet::of(value).price(cost + 1);
            assert!(price < next, "{value:08X} on {cost}");
        }
    }
}

/// The refusals in their order, at line 0, whatever else is wrong, with numbers of any
/// size; and the quote stays as it was.
#[test]
fn refusals_come_in_the_papers_order_and_write_nothing() {
    let mut simulator = Simulator::new();
    for (mut rng, ticket) in random_tickets(5).take(200) {
        let (n, text) = (u64::from(ticket.n), ticket.text());
        let decisions = decisions_in(&simulator.print(&text, result_length(ticket.n)));
        let decides = |process: u64| {
            let place = process.checked_sub(1).and_then(|place| usize::try_from(place).ok());
            place.and_then(|place| decisions.get(place)).is_some_and(Option::is_some)
        };
        let any = u64::from(rng.between(1, ticket.n));
        let cut = [any | 1 << 8, any | 1 << 32, any | 1 << 63];
        for costs in at_limits() {
            for process in [0, 1, any, n, n + 1, u64::MAX].into_iter().chain(cut) {
                let refusal = match costs.len() {
                    0 | 201.. => 14,
                    _ if costs.iter().any(|&cost| cost > 1_000_000_000) => 15,
                    _ if !decides(process) => 16,
                    _ => 0,
                };
                let (answer, pence) = quote(&mut simulator, &text, &costs, process);
                assert_eq!(answer, refusal * REFUSED, "{process}: {ticket}");
                assert_eq!(pence == BEFORE, refusal > 0, "{process}: {ticket}");
            }
        }
        let damaged = generate::damaged(&mut rng, &ticket);
        let settled = simulator.settle(&damaged);
        if settled >= REFUSED {
            for (costs, process) in [(vec![], 0), (vec![u64::MAX; 201], 0), (vec![1], 1)] {
                let answer = quote(&mut simulator, &damaged, &costs, process);
                assert_eq!(answer, (settled, BEFORE));
            }
        }
    }
}

/// By states: 10 before all others, and 16 for every valid one that has not decided.
#[test]
fn states_that_have_not_decided_are_refused() {
    let mut simulator = Simulator::new();
    let good = vec![HIGHEST_COST; MOST_LINES];
    let lists = [(vec![], 14), (vec![HIGHEST_COST + 1], 15), (good, 0)];
    let states: [(&[u8], u64); 8] = [
        (&[2, 4, 2, 1, 1, 255, 255, 255, 255], 0),
        (&[2, 4, 2, 2, 1, 255, 255, 255, 255], 0),
        (&[2, 4, 2, 1, 0, 255, 255, 255, 255], 16),
        (&[4, 4, 2, 3, 2, 255, 255, 255, 255], 16),
        (&[2, 4, 2, 3, 1, 255, 255, 255, 255], 10),
        (&[2, 4, 2, 1, 3, 255, 255, 255, 255], 10),
        (&[2, 4, 2, 1, 1, 255, 255, 255], 10),
        (&[2, 4, 2, 1, 1, 255, 255, 255, 255, 0], 10),
    ];
    for (state, of_state) in states {
        for (costs, of_lines) in &lists {
            let refusal = match (of_state, *of_lines) {
                (10, _) => 10,
                (_, 14 | 15) => *of_lines,
                _ => of_state,
            };
            let pence = if refusal == 0 { LARGEST } else { BEFORE };
            assert_eq!(price(&mut simulator, state, costs), (refusal, pence), "{state:?}");
        }
    }
}

/// 02, Paper 1: the letters of the ticket make no difference.
#[test]
fn a_ticket_in_other_letters_gives_the_same_quotes() {
    let mut simulator = Simulator::new();
    for (mut rng, ticket) in random_tickets(6).take(1000) {
        let text = generate::written(&mut rng, &ticket);
        let other = generate::in_other_letters(&mut rng, &text);
        let value = rng.pick(&ticket.proposals);
        let costs = quoted(&mut rng, value);
        let process = u64::from(rng.between(1, ticket.n));
        let [first, second] =
            [&text, &other].map(|text| quote(&mut simulator, text, &costs, process));
        assert_eq!(first, second, "{}", text.escape_ascii());
    }
}
