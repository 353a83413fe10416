//! The parts of a run called in any order, and those of two runs mixed (02, Paper 14), of
//! the implementation under test: every call answers, and leaves the part, as the second
//! one's run says that goes message by message.

use second::host::{play, Host};
use second::interface::Part;
use second::orders::{every_mix, every_order, in_any_order, mixed, Call};
use second::rng::Rng;
use second::run_states::RunStates;
use second::Ticket;

use crate::comparison::{seed_of, Comparison, Difference};

/// A run of no more processes than these is played in every order.
const FEW: u8 = 3;

/// If processes times rounds can be more than these, one of so many runs is played; random
/// ones are mixed with another in any case.
const LARGE: usize = 256;
const OF_LARGE: usize = 16;

/// Two runs of no more processes than these are mixed in every way.
const VERY_FEW: u8 = 2;

/// The mixes of two runs that are played: every one of small runs, each of them in some
/// order, and one by chance of any other.
fn mixes(rng: &mut Rng, runs: &[RunStates; 2]) -> Vec<Vec<Call>> {
    let are_small = runs.iter().all(|run| run.ticket().n <= VERY_FEW);
    let [first, second] = [0, 1].map(|instance| {
        if are_small {
            let mut orders = every_order(&runs[instance], instance, false);
            orders.swap_remove(rng.below(orders.len()))
        } else {
            in_any_order(rng, &runs[instance], instance)
        }
    });
    if are_small {
        every_mix(&first, &second)
    } else {
        vec![mixed(rng, &first, &second)]
    }
}

impl<M: Part> Comparison<M> {
    /// The parts of an accepted ticket's run in any order: in every one if it is small, and
    /// in one by chance.
    pub(crate) fn in_any_order(&mut self, text: &[u8], ticket: &Ticket) -> Result<(), String> {
        let mut rng = Rng::new(seed_of(text));
        let is_large = usize::from(ticket.n) * (ticket.failures.len() + 1) > LARGE;
        if is_large && !rng.one_in(OF_LARGE) {
            return Ok(());
        }
        let run = RunStates::of(ticket);
        if ticket.n <= FEW {
            self.in_every_order(&run)?;
        }
        self.in_order(&run, &in_any_order(&mut rng, &run, 0))
    }

    /// The parts of a run in every order, with the processes that have decided left out and
    /// with all of them called.
    pub(crate) fn in_every_order(&mut self, run: &RunStates) -> Result<(), String> {
        let orders = [false, true].map(|with_decided| every_order(run, 0, with_decided));
        orders.iter().flatten().try_for_each(|calls| self.in_order(run, calls))
    }

    fn in_order(&mut self, run: &RunStates, calls: &[Call]) -> Result<(), String> {
        self.counts.in_any_order += 1;
        play(&mut self.module, &[run], calls, Host::make)
    }

    /// The parts of two runs, mixed; nothing if a ticket is refused.
    pub fn mixed(&mut self, first: &[u8], second: &[u8]) -> Result<(), Difference> {
        let (Ok(of_first), Ok(of_second)) = (Ticket::parse(first), Ticket::parse(second)) else {
            return Ok(());
        };
        let runs = [RunStates::of(&of_first), RunStates::of(&of_second)];
        let mut rng = Rng::new(seed_of(first) ^ seed_of(second).rotate_left(32));
        mixes(&mut rng, &runs).into_iter().try_for_each(|calls| {
            self.counts.mixes += 1;
            let differs =
                |what| Difference::Pair { texts: [first, second].map(<[u8]>::to_vec), what };
            play(&mut self.module, &[&runs[0], &runs[1]], &calls, Host::make).map_err(differs)
        })
    }
}

#[cfg(test)]
mod tests {
    use super::*;
    use crate::random;
    use second::generate;
    use second::host::{guarded, let_through, Answer};
    use second::orders::{in_given_order, is_allowed, of_one_round, Act, Together};
    use second::patterns::failure_patterns;
    use second::{worked, Failure, Simulator};

    /// A mistake of a host that the comparison must see. The last one is that of a part
    /// whose state is changed by speaking, which is lent it to read.
    #[derive(Clone, Copy, Debug, PartialEq)]
    enum HostMistake {
        None,
        AsksTheCoordinatorAgain,
        ClosesBeforeAllHaveSpoken,
        ClosesWhoCrashes,
        KeepsTheStateAfterTheRound,
        ClosesTwice,
        CallsWhoHasCrashed,
        HearsTheOtherInstance,
        HearsWhoSpokeBeforeIt,
        KeepsTheLastToSpeakAlone,
        KeepsWhatEarlierRoundsYielded,
        SpeakingMovesOn,
    }

    /// Up from process 1, or down from the last one.
    #[derive(Clone, Copy, Debug, PartialEq)]
    enum Way {
        Up,
        Down,
    }

    impl Way {
        fn order(self, n: u8) -> Vec<u8> {
            match self {
                Way::Up => (1..=n).collect(),
                Way::Down => (1..=n).rev().collect(),
            }
        }
    }

    /// The ways of speaking and of closing that are tried.
    const WAYS: [(Way, Way); 4] =
        [(Way::Up, Way::Up), (Way::Up, Way::Down), (Way::Down, Way::Up), (Way::Down, Way::Down)];

    /// The calls of a run, each time in the same way, with or without who has decided.
    fn calls_in(
        run: &RunStates,
        instance: usize,
        (speaking, closing): (Way, Way),
        with_decided: bool,
    ) -> Vec<Call> {
        in_given_order(run, instance, run.rounds(), |round, act| {
            let way = if act == Act::Speak { speaking } else { closing };
            let mut order = way.order(run.ticket().n);
            order.retain(|&process| with_decided || !run.has_decided(process, round));
            order
        })
    }

    /// The calls that a mistaken host makes in place of those of one round.
    fn mistaken_round(mistake: HostMistake, run: &RunStates, calls: &[Call]) -> Vec<Call> {
        let closing = |call: &Call| Call { act: Act::Close, ..*call };
        let (speaks, closes): (Vec<Call>, Vec<Call>) =
            calls.iter().partition(|call| call.act == Act::Speak);
        let crashing = speaks.iter().filter(|call| run.crashes(call.process, call.round));
        let before = 1..calls[0].round;
        let has_crashed = |process: u8| before.clone().any(|round| run.crashes(process, round));
        let crashed = (1..=run.ticket().n).filter(|&process| has_crashed(process));
        let crashed: Vec<Call> =
            crashed.map(|process| Call { process, act: Act::Speak, ..calls[0] }).collect();
        match mistake {
            HostMistake::ClosesBeforeAllHaveSpoken => {
                let at_once = speaks.iter().flat_map(|call| [*call, closing(call)]);
                at_once.filter(|&call| is_allowed(run, call)).collect()
            }
            HostMistake::ClosesTwice => [calls, &closes].concat(),
            HostMistake::ClosesWhoCrashes => {
                calls.iter().copied().chain(crashing.map(closing)).collect()
            }
            HostMistake::CallsWhoHasCrashed => {
                let closed = crashed.iter().map(closing);
                crashed.iter().chain(calls).copied().chain(closed).collect()
            }
            _ => calls.to_vec(),
        }
    }

    fn mistaken_calls(mistake: HostMistake, run: &RunStates, calls: &[Call]) -> Vec<Call> {
        let rounds = calls.chunk_by(of_one_round);
        rounds.flat_map(|calls| mistaken_round(mistake, run, calls)).collect()
    }

    /// A host with a mistake, and who has spoken so far.
    struct MistakenHost<'a> {
        mistake: HostMistake,
        runs: &'a [&'a RunStates<'a>],
        spoken: Vec<(Call, Answer)>,
    }

    impl MistakenHost<'_> {
        fn make(&mut self, host: &mut Host, module: &mut impl Part, call: Call) -> Answer {
            if call.act == Act::Speak {
                let answer = host.speak(module, call);
                self.spoken.push((call, answer));
                if self.mistake == HostMistake::SpeakingMovesOn && answer.number == 0 {
                    host.state(call)[3] += 1;
                }
                return answer;
            }
            if self.mistake == HostMistake::KeepsTheStateAfterTheRound {
                self.move_on_who_crashes(host, call);
            }
            let heard = self.heard(host, module, call);
            host.close(module, call, &heard)
        }

        /// Those who crash in this round are in the state of the next one.
        fn move_on_who_crashes(&self, host: &mut Host, call: Call) {
            let run = self.runs[call.instance];
            for process in (1..=run.ticket().n).filter(|&process| run.crashes(process, call.round))
            {
                host.state(Call { process, ..call })[3] = call.round + 1;
            }
        }

        /// What a process hears by the mistake.
        fn heard(&self, host: &mut Host, module: &mut impl Part, call: Call) -> Vec<u8> {
            let of_round =
                |other: &Call| (other.instance, other.round) == (call.instance, call.round);
            let mut speakers =
                self.spoken.iter().map(|(other, _)| *other).filter(|other| of_round(other));
            let place_of =
                |process: u8| speakers.clone().position(|other| other.process == process);
            match self.mistake {
                HostMistake::AsksTheCoordinatorAgain => self.heard_now(host, module, call),
                HostMistake::HearsTheOtherInstance if self.runs.len() > 1 => {
                    host.heard(Call { instance: 1 - call.instance, ..call })
                }
                HostMistake::HearsWhoSpokeBeforeIt
                    if place_of(call.round) > place_of(call.process) =>
                {
                    vec![]
                }
                HostMistake::KeepsTheLastToSpeakAlone
                    if speakers.next_back().is_some_and(|last| last.process != call.round) =>
                {
                    vec![]
                }
                HostMistake::KeepsWhatEarlierRoundsYielded => self.heard_before(call),
                _ => host.heard(call),
            }
        }

        /// What is heard if the coordinator is asked now for what it yields.
        fn heard_now(&self, host: &Host, module: &mut impl Part, call: Call) -> Vec<u8> {
            let coordinator = Call { process: call.round, act: Act::Speak, ..call };
            let answer = host.clone().speak(module, coordinator);
            let ticket = self.runs[call.instance].ticket();
            let length = let_through(ticket, call.round, call.round, call.process);
            if answer.number == 8 {
                answer.output[..length].to_vec()
            } else {
                vec![]
            }
        }

        /// What is heard of what was yielded last, be it in an earlier round.
        fn heard_before(&self, call: Call) -> Vec<u8> {
            let mut yielded = self.spoken.iter().rev().filter(|(_, answer)| answer.number == 8);
            let last = yielded.find(|(other, _)| other.instance == call.instance);
            let ticket = self.runs[call.instance].ticket();
            last.map_or(vec![], |(other, answer)| {
                let length = let_through(ticket, other.round, other.process, call.process);
                answer.output[..length].to_vec()
            })
        }
    }

    /// Whether a host's mistake is seen as these calls are made, and whether the parts end
    /// otherwise.
    fn seen(mistake: HostMistake, runs: &[&RunStates], calls: &[Call]) -> [bool; 2] {
        let mut second = Simulator::new();
        let mut mistaken = MistakenHost { mistake, runs, spoken: Vec::new() };
        let played =
            play(&mut second, runs, calls, |host, module, call| mistaken.make(host, module, call));
        let mut mistaken = MistakenHost { mistake, runs, spoken: Vec::new() };
        let tickets: Vec<&Ticket> = runs.iter().map(|run| run.ticket()).collect();
        let mut host = Host::start(&mut second, &tickets).expect("no refusal");
        for &call in calls {
            mistaken.make(&mut host, &mut second, call);
        }
        let ends_otherwise = |(instance, run): (usize, &&RunStates)| {
            let right: Vec<_> = run.ends().iter().map(guarded).collect();
            host.states(instance) != right
        };
        [played.is_err(), runs.iter().enumerate().any(ends_otherwise)]
    }

    /// A ticket's size and failures with other proposals.
    fn other_than(ticket: &Ticket) -> Ticket {
        let proposals = ticket.proposals.iter().map(|value| value + 1).collect();
        Ticket { proposals, ..ticket.clone() }
    }

    /// Which ways of speaking and closing show a host's mistake in case 4, and whether the
    /// parts end otherwise in just these.
    #[test]
    fn which_order_shows_each_mistake_of_a_host() {
        let ticket = worked::case(4);
        let run = RunStates::of(&ticket);
        let in_every_order = [true; 4];
        let [closing_up, speaking_up, speaking_down] =
            [[true, false, true, false], [true, true, false, false], [false, false, true, true]];
        let figures = [
            (HostMistake::None, [false; 4]),
            (HostMistake::AsksTheCoordinatorAgain, closing_up),
            (HostMistake::ClosesBeforeAllHaveSpoken, speaking_down),
            (HostMistake::ClosesWhoCrashes, in_every_order),
            (HostMistake::KeepsTheStateAfterTheRound, in_every_order),
            (HostMistake::ClosesTwice, in_every_order),
            (HostMistake::CallsWhoHasCrashed, in_every_order),
            (HostMistake::HearsWhoSpokeBeforeIt, speaking_down),
            (HostMistake::KeepsTheLastToSpeakAlone, speaking_up),
            (HostMistake::SpeakingMovesOn, in_every_order),
        ];
        for (mistake, shown) in figures {
            for (ways, shown) in WAYS.into_iter().zip(shown) {
                let calls = mistaken_calls(mistake, &run, &calls_in(&run, 0, ways, false));
                assert_eq!(seen(mistake, &[&run], &calls), [shown; 2], "{mistake:?} {ways:?}");
            }
            let mut rng = Rng::new(1);
            let random = (0..300).filter(|_| {
                let calls = in_any_order(&mut rng, &run, 0);
                seen(mistake, &[&run], &mistaken_calls(mistake, &run, &calls))[0]
            });
            let (random, all) = (random.count(), shown == in_every_order);
            let is_mistaken = mistake != HostMistake::None;
            assert!(
                all == (random == 300) && is_mistaken == (random > 150),
                "{mistake:?} {random}"
            );
        }
    }

    /// If the run is over with the round of the crash, the end alone shows it.
    #[test]
    fn a_state_after_the_last_round_is_seen_in_the_end() {
        let ticket = worked::case(3);
        let run = RunStates::of(&ticket);
        for ways in WAYS {
            let calls = calls_in(&run, 0, ways, false);
            let mistake = HostMistake::KeepsTheStateAfterTheRound;
            assert_eq!(seen(mistake, &[&run], &calls), [true; 2], "{ways:?}");
        }
    }

    /// The calls of two lists in turn, piece by piece.
    fn in_turn(first: &[Call], second: &[Call], together: Together) -> Vec<Call> {
        let [first, second] =
            [first, second].map(|calls| calls.chunk_by(together).collect::<Vec<_>>());
        let places = 0..first.len().max(second.len());
        let pieces = places.flat_map(|place| [first.get(place), second.get(place)]);
        pieces.flatten().copied().collect::<Vec<_>>().concat()
    }

    /// Two runs upward: one after the other, round by round in turn, call by call in turn,
    /// and so when one is a round ahead.
    fn two_upward(runs: [&RunStates; 2]) -> [Vec<Call>; 4] {
        let [first, second] =
            [0, 1].map(|instance| calls_in(runs[instance], instance, WAYS[0], false));
        let ahead = first.partition_point(|call| call.round == 1);
        let in_turn_after = |ahead: usize, together: Together| {
            [&first[..ahead], &in_turn(&first[ahead..], &second, together)].concat()
        };
        [
            in_turn_after(0, |_, _| true),
            in_turn_after(0, of_one_round),
            in_turn_after(0, |_, _| false),
            in_turn_after(ahead, |_, _| false),
        ]
    }

    /// A host that hears the other instance is right as long as there is none.
    #[test]
    fn messages_of_the_other_instance_are_seen_in_every_mix() {
        let tickets = [worked::case(4), other_than(&worked::case(4))];
        let runs = [RunStates::of(&tickets[0]), RunStates::of(&tickets[1])];
        let [run, other] = [&runs[0], &runs[1]];
        let mistake = HostMistake::HearsTheOtherInstance;
        for ways in WAYS {
            assert_eq!(seen(mistake, &[run], &calls_in(run, 0, ways, false)), [false; 2]);
        }
        for calls in two_upward([run, other]) {
            assert_eq!(seen(HostMistake::None, &[run, other], &calls), [false; 2]);
            assert_eq!(seen(mistake, &[run, other], &calls), [true; 2]);
        }
    }

    /// What was yielded in round 1 is heard in round 2, in which nobody speaks.
    #[test]
    fn messages_of_earlier_rounds_are_seen() {
        let failures = vec![Failure::sending_commits(1, 0), Failure::before_sending(2, 1)];
        let ticket = Ticket { failures, ..worked::case(1) };
        let run = RunStates::of(&ticket);
        for ways in WAYS {
            let calls = calls_in(&run, 0, ways, false);
            let mistake = HostMistake::KeepsWhatEarlierRoundsYielded;
            assert_eq!(seen(mistake, &[&run], &calls), [true; 2], "{ways:?}");
        }
    }

    /// A mistake of the parts that the comparison must see.
    #[derive(Clone, Copy, Debug, PartialEq)]
    enum PartMistake {
        None,
        YieldsNothingAfterAHigherOneHasSpoken,
        AdoptsTheValueOfWhoSpokeFirst,
        KeepsItsValueAfterAHigherOneHasClosed,
        RefusesToCloseInAnotherOrderThanOfSpeaking,
        Answers0ThoughItHasDecided,
        DecidesAgain,
        MovesOnThoughItRefuses,
        YieldsAgainThoughItHasDecided,
        WritesThoughItYieldsNothing,
        WritesBehindWhatItYields,
        AdoptsWhatWasYieldedLast,
        TakesOneRoundAtATime,
    }

    /// The second implementation's parts with a mistake, for which they remember what an
    /// open part of whatever process was called for.
    struct MistakenParts {
        second: Simulator,
        mistake: PartMistake,
        /// The round in which a part spoke last, and those who spoke and closed in it.
        round: u8,
        spoken: Vec<u8>,
        closed: Vec<u8>,
        /// The value of who spoke first in it, and the last that was yielded.
        first_value: [u8; 4],
        yielded_value: [u8; 4],
    }

    impl MistakenParts {
        fn new(mistake: PartMistake) -> Self {
            MistakenParts {
                second: Simulator::new(),
                mistake,
                round: 0,
                spoken: Vec::new(),
                closed: Vec::new(),
                first_value: [0; 4],
                yielded_value: [0; 4],
            }
        }

        /// Remembers that an open part has spoken.
        fn remember(&mut self, state: &[u8], yielded: bool) {
            let value = state[5..].try_into().expect("four bytes");
            if self.round != state[3] {
                self.round = state[3];
                self.spoken.clear();
                self.closed.clear();
            }
            if self.spoken.is_empty() {
                self.first_value = value;
            }
            if yielded {
                self.yielded_value = value;
            }
            self.spoken.push(state[0]);
        }

        /// Whether one that spoke after this process has closed already.
        fn one_that_spoke_later_has_closed(&self, process: u8) -> bool {
            let place = |process: &u8| self.spoken.iter().position(|other| other == process);
            self.closed.iter().any(|other| place(other) > place(&process))
        }
    }

    impl Part for MistakenParts {
        fn start(&mut self, process: u64, n: u64, t: u64, value: u32, state: &mut [u8]) -> u64 {
            self.round = 0;
            Part::start(&mut self.second, process, n, t, value, state)
        }

        fn speak(&mut self, state: &[u8], output: &mut [u8]) -> u64 {
            let is_open = state[4] == 0;
            let higher_has_spoken =
                self.round == state[3] && self.spoken.iter().any(|&other| other > state[0]);
            let mut reopened = state.to_vec();
            reopened[4] = 0;
            let answer = match self.mistake {
                PartMistake::YieldsNothingAfterAHigherOneHasSpoken
                    if is_open && higher_has_spoken =>
                {
                    0
                }
                PartMistake::Answers0ThoughItHasDecided if !is_open => 0,
                PartMistake::YieldsAgainThoughItHasDecided => {
                    Part::speak(&mut self.second, &reopened, output)
                }
                _ => Part::speak(&mut self.second, state, output),
            };
            match self.mistake {
                PartMistake::WritesThoughItYieldsNothing if answer != 8 => output[0] = 0x21,
                PartMistake::WritesBehindWhatItYields if answer == 8 => output[8] = 0,
                _ => {}
            }
            if is_open {
                self.remember(state, answer == 8);
            }
            answer
        }

        fn close(&mut self, state: &mut [u8], heard: &[u8]) -> u64 {
            let (process, is_open) = (state[0], state[4] == 0);
            let value: [u8; 4] = state[5..].try_into().expect("four bytes");
            match self.mistake {
                PartMistake::Answers0ThoughItHasDecided if !is_open => return 0,
                PartMistake::DecidesAgain | PartMistake::MovesOnThoughItRefuses if !is_open => {
                    state[3] += 1;
                    return if self.mistake == PartMistake::DecidesAgain { 0 } else { 11 };
                }
                PartMistake::RefusesToCloseInAnotherOrderThanOfSpeaking
                    if is_open && self.one_that_spoke_later_has_closed(process) =>
                {
                    return 12
                }
                PartMistake::TakesOneRoundAtATime if is_open && self.round != state[3] => {
                    return 12
                }
                _ => {}
            }
            let answer = Part::close(&mut self.second, state, heard);
            let higher_has_closed = self.closed.iter().any(|&other| other > process);
            match self.mistake {
                _ if answer != 0 || heard.is_empty() => {}
                PartMistake::AdoptsTheValueOfWhoSpokeFirst => {
                    state[5..].copy_from_slice(&self.first_value)
                }
                PartMistake::KeepsItsValueAfterAHigherOneHasClosed if higher_has_closed => {
                    state[5..].copy_from_slice(&value)
                }
                PartMistake::AdoptsWhatWasYieldedLast => {
                    state[5..].copy_from_slice(&self.yielded_value)
                }
                _ => {}
            }
            self.closed.push(process);
            answer
        }
    }

    /// The mistakes that a run by itself shows: four in some orders, four if processes that
    /// have decided are called, and two in every order.
    const ALONE: [PartMistake; 10] = [
        PartMistake::YieldsNothingAfterAHigherOneHasSpoken,
        PartMistake::AdoptsTheValueOfWhoSpokeFirst,
        PartMistake::KeepsItsValueAfterAHigherOneHasClosed,
        PartMistake::RefusesToCloseInAnotherOrderThanOfSpeaking,
        PartMistake::Answers0ThoughItHasDecided,
        PartMistake::DecidesAgain,
        PartMistake::MovesOnThoughItRefuses,
        PartMistake::YieldsAgainThoughItHasDecided,
        PartMistake::WritesThoughItYieldsNothing,
        PartMistake::WritesBehindWhatItYields,
    ];

    /// The mistakes that two runs mixed show, and neither by itself.
    const MIXED: [PartMistake; 2] =
        [PartMistake::AdoptsWhatWasYieldedLast, PartMistake::TakesOneRoundAtATime];

    fn is_seen(mistake: PartMistake, runs: &[&RunStates], calls: &[Call]) -> bool {
        play(&mut MistakenParts::new(mistake), runs, calls, Host::make).is_err()
    }

    /// Which ways of speaking and closing show a mistake of the parts in case 1, with the
    /// processes that have decided left out and with all of them called. Upward, as
    /// separate parts are called elsewhere, shows none of those of open parts.
    #[test]
    fn which_order_shows_each_mistake_of_the_parts() {
        let ticket = worked::case(1);
        let run = RunStates::of(&ticket);
        let (none, all) = ([false; 4], [true; 4]);
        let [speaking_down, closing_down, in_two_ways] =
            [[false, false, true, true], [false, true, false, true], [false, true, true, false]];
        let figures = [
            (PartMistake::YieldsNothingAfterAHigherOneHasSpoken, [speaking_down; 2]),
            (PartMistake::AdoptsTheValueOfWhoSpokeFirst, [speaking_down; 2]),
            (PartMistake::KeepsItsValueAfterAHigherOneHasClosed, [closing_down; 2]),
            (PartMistake::RefusesToCloseInAnotherOrderThanOfSpeaking, [in_two_ways; 2]),
            (PartMistake::Answers0ThoughItHasDecided, [none, all]),
            (PartMistake::DecidesAgain, [none, all]),
            (PartMistake::MovesOnThoughItRefuses, [none, all]),
            (PartMistake::YieldsAgainThoughItHasDecided, [none, all]),
            (PartMistake::WritesThoughItYieldsNothing, [all; 2]),
            (PartMistake::WritesBehindWhatItYields, [all; 2]),
        ];
        assert_eq!(figures.map(|(mistake, _)| mistake), ALONE);
        let not_alone = [PartMistake::None].into_iter().chain(MIXED);
        let unseen = not_alone.map(|mistake| (mistake, [none; 2]));
        for (mistake, shown) in figures.into_iter().chain(unseen) {
            let seen = [false, true].map(|with_decided| {
                WAYS.map(|ways| is_seen(mistake, &[&run], &calls_in(&run, 0, ways, with_decided)))
            });
            assert_eq!(seen, shown, "{mistake:?}");
        }
    }

    /// Which mixes of two runs upward, neither of which shows a mistake by itself, do: one
    /// after the other, by rounds, by calls, and by calls with one of them a round ahead.
    #[test]
    fn which_mix_shows_each_mistake_of_the_parts() {
        let tickets = [worked::case(1), other_than(&worked::case(1))];
        let runs = [RunStates::of(&tickets[0]), RunStates::of(&tickets[1])];
        let [run, other] = [&runs[0], &runs[1]];
        let figures = [
            (PartMistake::None, [false; 4]),
            (PartMistake::AdoptsWhatWasYieldedLast, [false, false, true, true]),
            (PartMistake::TakesOneRoundAtATime, [false, false, false, true]),
        ];
        for (mistake, shown) in figures {
            let seen =
                two_upward([run, other]).map(|calls| is_seen(mistake, &[run, other], &calls));
            assert_eq!(seen, shown, "{mistake:?}");
        }
    }

    /// The tickets of three processes that crash in every way.
    fn of_three() -> Vec<Ticket> {
        let with = |failures| Ticket { n: 3, t: 2, proposals: vec![10, 20, 30], failures };
        failure_patterns(3, 2).into_iter().map(with).collect()
    }

    /// Random tickets of more processes than are tried in every order.
    fn random_tickets() -> Vec<Ticket> {
        let mut rng = Rng::new(2);
        let tickets = (0..400).map(|_| generate::ticket(&mut rng, 64));
        tickets.filter(|ticket| ticket.n > FEW).collect()
    }

    #[test]
    fn the_comparison_sees_each_mistake_of_the_parts() {
        for tickets in [of_three(), random_tickets()] {
            let compared = |mistake| {
                let mut comparison = Comparison::new(MistakenParts::new(mistake));
                tickets
                    .iter()
                    .try_for_each(|ticket| comparison.in_any_order(&ticket.text(), ticket))
            };
            assert_eq!(compared(PartMistake::None), Ok(()));
            assert_eq!(MIXED.map(compared), [Ok(()), Ok(())]);
            for mistake in ALONE {
                assert!(compared(mistake).is_err(), "{mistake:?}");
            }
        }
    }

    #[test]
    fn the_comparison_sees_each_mistake_of_mixed_parts() {
        let small = Ticket { n: 2, t: 1, proposals: vec![10, 20], failures: vec![] };
        let silent = vec![Failure::before_sending(1, 1)];
        let small = [small.clone(), Ticket { failures: silent, ..other_than(&small) }].to_vec();
        for tickets in [small, random_tickets()] {
            let compared = |mistake| {
                let mut comparison = Comparison::new(MistakenParts::new(mistake));
                tickets
                    .windows(2)
                    .try_for_each(|two| comparison.mixed(&two[0].text(), &two[1].text()))
            };
            assert_eq!(compared(PartMistake::None), Ok(()));
            for mistake in MIXED {
                let difference = compared(mistake).expect_err("a difference");
                assert!(matches!(difference, Difference::Pair { .. }), "{mistake:?}");
            }
        }
    }

    #[test]
    fn every_accepted_ticket_is_played_in_any_order_and_random_ones_are_mixed() {
        let mut comparison = Comparison::new(Simulator::new());
        let mut rng = Rng::new(3);
        for _ in 0..20 {
            assert_eq!(random::ticket_and_calls(&mut comparison, &mut rng), Ok(()));
        }
        let counts = comparison.counts;
        assert!(counts.accepted > 0 && counts.refused > 0, "{counts}");
        assert!(counts.in_any_order >= counts.accepted, "{counts}");
        assert!(counts.mixes >= counts.accepted, "{counts}");
    }

    #[test]
    fn small_runs_are_played_in_every_order_and_mixed_in_every_way() {
        let mut comparison = Comparison::new(Simulator::new());
        let ticket = Ticket { n: 3, t: 0, proposals: vec![1, 2, 3], failures: vec![] };
        assert_eq!(comparison.in_any_order(&ticket.text(), &ticket), Ok(()));
        // Nobody decides before the last round, so that those left out are none.
        assert_eq!(comparison.counts.in_any_order, 2 * 6 * 6 + 1);
        let text = Ticket { n: 2, proposals: vec![1, 2], ..ticket }.text();
        assert_eq!(comparison.mixed(&text, &text), Ok(()));
        // Four calls of each: 8! / (4! 4!).
        assert_eq!(comparison.counts.mixes, 70);
        assert_eq!(comparison.mixed(&text, b"01"), Ok(()));
        assert_eq!(comparison.counts.mixes, 70);
    }
}
