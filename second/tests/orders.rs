//! What Paper 14 of document 02 claims of every order in which a host calls its parts, and
//! of two instances mixed, tried on random tickets and on every order of small runs.

mod tickets;

use second::generate;
use second::host::{play, Host};
use second::orders::{every_mix, every_order, in_any_order, mixed, Act, Call};
use second::patterns::failure_patterns;
use second::process::Status;
use second::rng::Rng;
use second::run_states::{RunStates, StateBytes};
use second::separate::run_separately;
use second::simulation::{history, Standing};
use second::{worked, Simulator, Ticket};
use tickets::random_tickets;

/// The bytes that each process ends with, in the words of the paper: decided, in which
/// round and on what; or open, in the round in which it crashes, with the estimate that it
/// had as that round began.
fn ends_in_words(ticket: &Ticket) -> Vec<StateBytes> {
    let history = history(ticket);
    let ends = history.last().expect("a round").iter().enumerate();
    let bytes = |(place, &(status, estimate)): (usize, &(Status, u32))| {
        let (round, mark, value) = match status {
            Status::Decided(round) => (round, 1, estimate),
            Status::Crashed(round) => (round, 0, history[usize::from(round) - 1][place].1),
            Status::Active => panic!("{ticket}"),
        };
        let [a, b, c, d] = value.to_be_bytes();
        [place as u8 + 1, ticket.n, ticket.t, round, mark, a, b, c, d]
    };
    ends.map(bytes).collect()
}

/// The processes that are called in a round for one act, in their order.
fn called(calls: &[Call], round: u8, act: Act) -> Vec<u8> {
    let of_round = calls.iter().filter(|call| (call.round, call.act) == (round, act));
    of_round.map(|call| call.process).collect()
}

/// Whether a list has each of `wanted` once, and beside them some of `also` at most once.
fn holds(list: &[u8], wanted: &[u8], also: &[u8]) -> bool {
    let times = |process| list.iter().filter(|&&other| other == process).count();
    wanted.iter().all(|&process| times(process) == 1)
        && list.iter().all(|&process| times(process) == 1)
        && list.iter().all(|process| wanted.contains(process) || also.contains(process))
}

/// Holds the calls of one round to how its processes begin and end it: who is up and
/// undecided speaks once and, unless it crashes, closes once; who has decided may be called;
/// nobody who has crashed is. Answers whether they speak otherwise than upward, whether they
/// close otherwise than they speak, and whether one that has decided closes.
fn check_round([speaking, closing]: [&[u8]; 2], begins: &Standing, ends: &Standing) -> [bool; 3] {
    let processes = |is: &dyn Fn(Status, Status) -> bool| -> Vec<u8> {
        let standings = (1..).zip(begins.iter().zip(ends));
        let of_these = standings.filter(|(_, (before, after))| is(before.0, after.0));
        of_these.map(|(process, _)| process).collect()
    };
    let open = processes(&|before, _| before == Status::Active);
    let staying = processes(&|before, after| {
        before == Status::Active && !matches!(after, Status::Crashed(_))
    });
    let decided = processes(&|before, _| matches!(before, Status::Decided(_)));
    assert!(holds(speaking, &open, &decided), "{speaking:?} speak of {open:?} and {decided:?}");
    assert!(holds(closing, &staying, &decided), "{closing:?} close of {staying:?} and {decided:?}");
    let of_staying = |list: &[u8]| -> Vec<u8> {
        list.iter().copied().filter(|id| staying.contains(id)).collect()
    };
    [
        !speaking.is_sorted(),
        of_staying(speaking) != of_staying(closing),
        closing.iter().any(|id| decided.contains(id)),
    ]
}

/// In each round all speak before any closes, and the calls are those of the paper.
#[test]
fn random_orders_are_those_of_the_paper() {
    let mut tried = [0; 3];
    let mut played_on = 0;
    for (mut rng, ticket) in random_tickets(16) {
        let history = history(&ticket);
        let rounds = history.len() - 1;
        let calls = in_any_order(&mut rng, &RunStates::of(&ticket), 0);
        assert!(calls.is_sorted_by_key(|call| (call.round, call.act == Act::Close)), "{ticket}");
        let last = calls.iter().map(|call| call.round).max().expect("a call");
        assert!(last <= ticket.t + 1, "{ticket}");
        for round in 1..=usize::from(last).max(rounds) {
            let [speaking, closing] =
                [Act::Speak, Act::Close].map(|act| called(&calls, round as u8, act));
            let [begins, ends] = [round - 1, round].map(|done| &history[done.min(rounds)]);
            let seen = check_round([&speaking, &closing], begins, ends);
            tried.iter_mut().zip(seen).for_each(|(count, seen)| *count += usize::from(seen));
        }
        played_on += usize::from(usize::from(last) > rounds);
    }
    assert!(tried.iter().all(|&count| count > 1000) && played_on > 100, "{tried:?} {played_on}");
}

/// Every order ends in the bytes of ascending order, which are those of the run; and no
/// call of an open part is refused on the way.
#[test]
fn every_order_ends_in_the_same_nine_bytes() {
    let mut simulator = Simulator::new();
    let (mut crashed, mut after_the_coordinator) = (0, 0);
    for (mut rng, ticket) in random_tickets(17) {
        let run = RunStates::of(&ticket);
        let upward = run_separately(&mut simulator, &ticket).expect("no refusal");
        assert_eq!(run.ends(), upward.states, "{ticket}");
        assert_eq!(run.ends(), ends_in_words(&ticket), "{ticket}");
        for _ in 0..3 {
            let calls = in_any_order(&mut rng, &run, 0);
            assert_eq!(play(&mut simulator, &[&run], &calls, Host::make), Ok(()), "{ticket}");
            let closing = called(&calls, 1, Act::Close);
            let own = closing.iter().position(|&process| process == 1);
            after_the_coordinator += usize::from(own.is_some_and(|own| own + 1 < closing.len()));
        }
        crashed += usize::from(run.ends().iter().any(|state| state[4] == 0));
    }
    assert!(crashed > 1000 && after_the_coordinator > 1000, "{crashed} {after_the_coordinator}");
}

/// Every ticket with n up to `most`, all proposals different.
fn small_tickets(most: u8) -> Vec<Ticket> {
    let sizes = (1..=most).flat_map(|n| (0..n).map(move |t| (n, t)));
    let tickets = sizes.flat_map(|(n, t)| {
        let with = move |failures| Ticket {
            n,
            t,
            proposals: (1..=u32::from(n)).map(|id| 10 * id).collect(),
            failures,
        };
        failure_patterns(n, t).into_iter().map(with)
    });
    tickets.collect()
}

#[test]
fn every_order_of_small_runs_ends_in_the_same_nine_bytes() {
    let mut simulator = Simulator::new();
    let mut played = 0;
    let cases = (1..=8).map(worked::case);
    for ticket in small_tickets(3).into_iter().chain(cases) {
        let run = RunStates::of(&ticket);
        for with_decided in [false, true] {
            for calls in every_order(&run, 0, with_decided) {
                assert_eq!(play(&mut simulator, &[&run], &calls, Host::make), Ok(()), "{ticket}");
                played += 1;
            }
        }
    }
    assert!(played > 40_000, "{played}");
}

/// Two instances, each with parts of its own, end as each does alone.
#[test]
fn two_instances_mixed_end_as_each_alone() {
    let mut simulator = Simulator::new();
    let mut alternations = 0;
    for (mut rng, first) in random_tickets(18) {
        let second = generate::ticket(&mut rng, 64);
        let runs = [RunStates::of(&first), RunStates::of(&second)];
        let lists = [0, 1].map(|instance| in_any_order(&mut rng, &runs[instance], instance));
        let calls = mixed(&mut rng, &lists[0], &lists[1]);
        let played = play(&mut simulator, &[&runs[0], &runs[1]], &calls, Host::make);
        assert_eq!(played, Ok(()), "{first}{second}");
        alternations += calls.windows(2).filter(|two| two[0].instance != two[1].instance).count();
    }
    assert!(alternations > 50_000, "{alternations}");
}

#[test]
fn every_mix_of_two_small_runs_ends_as_each_alone() {
    let mut simulator = Simulator::new();
    let mut rng = Rng::new(19);
    let tickets = small_tickets(2);
    let runs: Vec<RunStates> = tickets.iter().map(RunStates::of).collect();
    let mut played = 0;
    for first in &runs {
        for second in &runs {
            let [of_first, of_second] = [(first, 0), (second, 1)].map(|(run, instance)| {
                let orders = every_order(run, instance, false);
                orders[rng.below(orders.len())].clone()
            });
            for calls in every_mix(&of_first, &of_second) {
                let mixed = play(&mut simulator, &[first, second], &calls, Host::make);
                assert_eq!(mixed, Ok(()), "{}{}", first.ticket(), second.ticket());
                played += 1;
            }
        }
    }
    assert!(played > 5000, "{played}");
}
