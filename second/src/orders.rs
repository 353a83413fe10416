//! The calls that a host makes of separate local parts, in any order (02, Paper 14): in a
//! round all speak before any closes, and beyond that it may be anybody's turn. A process
//! that crashes speaks in that round and does not close; one that has decided may be
//! called or left out. Two instances, each with parts of its own, are mixed in any way
//! that keeps the order of the calls of each.

use std::fmt;

use crate::rng::Rng;
use crate::run_states::RunStates;

/// What a part is called for.
#[derive(Clone, Copy, Debug, PartialEq, Eq)]
pub enum Act {
    /// To speak.
    Speak,
    /// To close the round.
    Close,
}

/// One call of one part.
#[derive(Clone, Copy, Debug, PartialEq, Eq)]
pub struct Call {
    /// Whose: the place of its instance, from 0 on.
    pub instance: usize,
    /// In which round.
    pub round: u8,
    /// For what.
    pub act: Act,
    /// Of which process.
    pub process: u8,
}

impl fmt::Display for Call {
    fn fmt(&self, f: &mut fmt::Formatter) -> fmt::Result {
        let Call { instance, round, act, process } = self;
        let act = match act {
            Act::Speak => "speaking in",
            Act::Close => "closing",
        };
        write!(f, "process {process} of instance {} {act} round {round}", instance + 1)
    }
}

/// Whether a host may make a call: the process has not crashed, and it does not crash in a
/// round that it closes.
pub fn is_allowed(run: &RunStates, call: Call) -> bool {
    let Call { round, act, process, .. } = call;
    let closes_crashing = act == Act::Close && run.crashes(process, round);
    run.has_decided(process, round) || run.is_open(process, round) && !closes_crashing
}

/// The rounds up to `last`, with what the parts are called for in each.
fn phases(last: u8) -> impl Iterator<Item = (u8, Act)> {
    (1..=last).flat_map(|round| [Act::Speak, Act::Close].map(|act| (round, act)))
}

/// The calls of a round for one act, with the processes in this order; those that may not
/// be called are passed over.
pub fn calls_of<'a>(
    run: &'a RunStates,
    instance: usize,
    round: u8,
    act: Act,
    order: &'a [u8],
) -> impl Iterator<Item = Call> + 'a {
    let calls = order.iter().map(move |&process| Call { instance, round, act, process });
    calls.filter(|&call| is_allowed(run, call))
}

/// The calls of the rounds up to `last`, with the processes of each in the orders that
/// `order` gives.
pub fn in_given_order(
    run: &RunStates,
    instance: usize,
    last: u8,
    mut order: impl FnMut(u8, Act) -> Vec<u8>,
) -> Vec<Call> {
    let mut calls = Vec::new();
    for (round, act) in phases(last) {
        calls.extend(calls_of(run, instance, round, act, &order(round, act)));
    }
    calls
}

/// The calls of a run in any order, at times up to round t + 1: of the processes that have
/// decided none, some or all are called.
pub fn in_any_order(rng: &mut Rng, run: &RunStates, instance: usize) -> Vec<Call> {
    let last = if rng.one_in(4) { run.ticket().t + 1 } else { run.rounds() };
    let left_out_of_8 = rng.pick(&[0, 4, 7, 8]);
    let mut calls = Vec::new();
    for (round, act) in phases(last) {
        let is_called =
            |process: &u8| !run.has_decided(*process, round) || rng.below(8) >= left_out_of_8;
        let called: Vec<u8> = (1..=run.ticket().n).filter(is_called).collect();
        let first = calls.len();
        calls.extend(calls_of(run, instance, round, act, &called));
        rng.shuffle(&mut calls[first..]);
    }
    calls
}

/// Every order of a list.
pub fn permutations(list: &[u8]) -> Vec<Vec<u8>> {
    let Some((&last, others)) = list.split_last() else {
        return vec![Vec::new()];
    };
    let with_last = |order: Vec<u8>| {
        (0..=order.len()).map(move |place| [&order[..place], &[last], &order[place..]].concat())
    };
    permutations(others).into_iter().flat_map(with_last).collect()
}

/// Every order in which the parts can be called in every round of a run, with all that
/// have decided or with none of them.
pub fn every_order(run: &RunStates, instance: usize, with_decided: bool) -> Vec<Vec<Call>> {
    let mut lists = vec![Vec::new()];
    for (round, act) in phases(run.rounds()) {
        let is_called = |process: &u8| {
            let call = Call { instance, round, act, process: *process };
            is_allowed(run, call) && (with_decided || !run.has_decided(*process, round))
        };
        let called: Vec<u8> = (1..=run.ticket().n).filter(is_called).collect();
        let orders = permutations(&called);
        let longer = |calls: &Vec<Call>| -> Vec<Vec<Call>> {
            let with = |order: &Vec<u8>| {
                let added = calls_of(run, instance, round, act, order);
                calls.iter().copied().chain(added).collect()
            };
            orders.iter().map(with).collect()
        };
        lists = lists.iter().flat_map(longer).collect();
    }
    lists
}

/// Whether two calls of one instance are made without any of another's in between.
pub type Together = fn(&Call, &Call) -> bool;

/// Whether they are of the same round.
pub fn of_one_round(a: &Call, b: &Call) -> bool {
    a.round == b.round
}

/// The calls of two instances in one list, call by call or round by round, with every such
/// mix as likely as any other.
pub fn mixed(rng: &mut Rng, first: &[Call], second: &[Call]) -> Vec<Call> {
    let together: Together = rng.pick(&[|_, _| false, of_one_round]);
    let (mut first, mut second) = (pieces(first, together), pieces(second, together));
    let mut mix = Vec::new();
    while first.len() + second.len() > 0 {
        let of_first = rng.below(first.len() + second.len()) < first.len();
        let piece = if of_first { first.next() } else { second.next() };
        mix.extend_from_slice(piece.expect("one is left"));
    }
    mix
}

fn pieces(calls: &[Call], together: Together) -> impl ExactSizeIterator<Item = &[Call]> {
    calls.chunk_by(together).collect::<Vec<_>>().into_iter()
}

/// Every mix of two lists, call by call.
pub fn every_mix(first: &[Call], second: &[Call]) -> Vec<Vec<Call>> {
    let (Some((of_first, before_first)), Some((of_second, before_second))) =
        (first.split_last(), second.split_last())
    else {
        return vec![[first, second].concat()];
    };
    let mut mixes = every_mix(before_first, second);
    mixes.iter_mut().for_each(|mix| mix.push(*of_first));
    let mut others = every_mix(first, before_second);
    others.iter_mut().for_each(|mix| mix.push(*of_second));
    mixes.extend(others);
    mixes
}

#[cfg(test)]
mod tests {
    use super::*;
    use crate::worked;
    use std::collections::BTreeSet;

    /// A list in few letters: round, act, process.
    fn shown(calls: &[Call]) -> String {
        let letter = |call: &Call| if call.act == Act::Speak { 's' } else { 'c' };
        let shown = |call: &Call| format!("{}{}{}", call.round, letter(call), call.process);
        calls.iter().map(shown).collect::<Vec<_>>().join(" ")
    }

    #[test]
    fn the_calls_of_case_1_in_order() {
        let ticket = worked::case(1);
        let run = RunStates::of(&ticket);
        let upward = in_given_order(&run, 0, 3, |_, _| vec![1, 2, 3, 4]);
        // Process 1 crashes in round 1, and 4 decides in it.
        let round_1 = "1s1 1s2 1s3 1s4 1c2 1c3 1c4";
        let later = "2s2 2s3 2s4 2c2 2c3 2c4 3s2 3s3 3s4 3c2 3c3 3c4";
        assert_eq!(shown(&upward), format!("{round_1} {later}"));
    }

    #[test]
    fn every_order_of_a_list_comes_once() {
        for (length, orders) in [(0, 1), (1, 1), (2, 2), (3, 6), (4, 24)] {
            let list: Vec<u8> = (1..=length).collect();
            let distinct: BTreeSet<Vec<u8>> = permutations(&list).into_iter().collect();
            assert_eq!((permutations(&list).len(), distinct.len()), (orders, orders));
            for mut order in distinct {
                order.sort_unstable();
                assert_eq!(order, list);
            }
        }
    }

    #[test]
    fn every_order_of_case_1_comes_once() {
        let ticket = worked::case(1);
        let run = RunStates::of(&ticket);
        // 4 speak and 3 close in round 1; 2 of each in round 2, or 3 with the decided one.
        for (with_decided, orders) in [(false, 24 * 6 * 2 * 2), (true, 24 * 6 * 6 * 6)] {
            let lists = every_order(&run, 0, with_decided);
            let distinct: BTreeSet<String> = lists.iter().map(|calls| shown(calls)).collect();
            assert_eq!((lists.len(), distinct.len()), (orders, orders));
        }
    }

    #[test]
    fn every_mix_comes_once_and_keeps_both_orders() {
        let ticket = worked::case(2);
        let run = RunStates::of(&ticket);
        let lists = [0, 1].map(|instance| in_given_order(&run, instance, 1, |_, _| vec![1]));
        let mixes = every_mix(&lists[0], &lists[1]);
        let distinct: BTreeSet<String> = mixes.iter().map(|mix| format!("{mix:?}")).collect();
        assert_eq!((mixes.len(), distinct.len()), (6, 6));
        let mut rng = Rng::new(1);
        for mix in mixes.into_iter().chain((0..50).map(|_| mixed(&mut rng, &lists[0], &lists[1]))) {
            for (instance, list) in lists.iter().enumerate() {
                let own: Vec<Call> =
                    mix.iter().copied().filter(|call| call.instance == instance).collect();
                assert_eq!(own, *list);
            }
        }
    }
}
