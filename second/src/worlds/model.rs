//! The rounds as a small model: what every process becomes in a round, as a
//! function of all states before it, under [`Rules`] that can be wrong.

use super::rules::{right, Rules};
use crate::ticket::{Failure, Ticket};

/// A process between two rounds.
#[derive(Clone, Copy, Debug, PartialEq, Eq)]
pub enum State {
    /// Up and undecided, with its estimate.
    Undecided(u32),
    /// Decided in this round on this value.
    Decided(u8, u32),
    /// Crashed undecided in this round.
    Crashed(u8),
}

/// What a process receives in a round.
#[derive(Clone, Copy, Debug, PartialEq, Eq)]
pub enum Heard {
    /// No message.
    Nothing,
    /// The coordinator's estimate.
    Estimate(u32),
    /// The estimate and the commit.
    EstimateAndCommit(u32),
}

/// How far a coordinator's messages get to one process.
#[derive(Clone, Copy, Debug, PartialEq, Eq)]
pub enum Reach {
    /// Neither arrives.
    None,
    /// The data message alone arrives.
    Data,
    /// Data and commit arrive.
    All,
}

/// What sending looks at besides the coordinator's own failure line.
#[derive(Clone, Copy, Debug)]
pub struct Sending {
    /// How many processes there are.
    pub n: u8,
    /// The round.
    pub round: u8,
    /// The processes that have crashed or crash in this round; bit j − 1
    /// stands for process j.
    pub crashed: u64,
    /// Those that began this round crashed or decided.
    pub ended: u64,
}

/// One undecided process at the end of a round.
#[derive(Clone, Copy, Debug)]
pub struct Step {
    /// The round.
    pub round: u8,
    /// The process.
    pub process: u8,
    /// The estimate with which it began the round.
    pub estimate: u32,
    /// What it receives in the round.
    pub heard: Heard,
}

impl Step {
    /// Whether the process coordinates the round.
    pub fn coordinates(&self) -> bool {
        self.process == self.round
    }

    /// The state of a process that decides `value` in this round.
    pub fn decides(&self, value: u32) -> State {
        State::Decided(self.round, value)
    }
}

/// What is counted of a run.
#[derive(Clone, Copy, Debug, Default, PartialEq, Eq)]
pub struct Counts {
    /// The last round that began with a process up and undecided.
    pub rounds: u8,
    /// Coordinators that began their own round up and undecided.
    pub speakers: u64,
    /// Data messages carried.
    pub data: u64,
    /// Commits carried.
    pub commits: u64,
}

/// Data messages and commits.
pub type Messages = (u64, u64);

/// One of the two.
#[derive(Clone, Copy, Debug, PartialEq, Eq)]
pub enum Kind {
    /// A data message.
    Data,
    /// A commit.
    Commit,
}

/// A process as a message to it is counted in a round, or is not.
#[derive(Clone, Copy, Debug)]
pub struct Addressee {
    /// The process.
    pub process: u8,
    /// The round.
    pub round: u8,
    /// How far the messages of the round's coordinator get to the process.
    pub reach: Reach,
    /// The process as the round begins.
    pub before: State,
    /// The process as the round ends.
    pub after: State,
}

impl Addressee {
    /// Whether a message of this kind gets to the process.
    pub fn gets(&self, kind: Kind) -> bool {
        match kind {
            Kind::Data => self.reach != Reach::None,
            Kind::Commit => self.reach == Reach::All,
        }
    }
}

/// What the counts in a process's result line are taken from.
#[derive(Clone, Copy, Debug)]
pub struct Line<'a> {
    /// The process.
    pub process: u8,
    /// How it ends.
    pub end: State,
    /// The messages counted of each process, from process 1 on.
    pub counted: &'a [Messages],
    /// The messages of all.
    pub in_all: Messages,
    /// The last round that is run.
    pub last_round: u8,
}

impl Line<'_> {
    /// The messages counted of a process; none of one that is not there.
    pub fn counted_of(&self, process: u8) -> Messages {
        let place = usize::from(process).checked_sub(1);
        place.and_then(|place| self.counted.get(place)).copied().unwrap_or_default()
    }

    /// Those counted of the process itself.
    pub fn own(&self) -> Messages {
        self.counted_of(self.process)
    }
}

/// A whole run.
#[derive(Clone, Debug)]
pub struct Run {
    /// How many processes there are.
    pub n: u8,
    /// The failure line of each process, from process 1 on.
    pub faults: Vec<Option<Failure>>,
    /// The states before round 1 and after each round.
    pub history: Vec<Vec<State>>,
    /// The counts.
    pub counts: Counts,
    /// The counts in the line of each process, from process 1 on.
    pub shown: Vec<Messages>,
    /// f: the failure lines that count as a crash.
    pub f: u8,
}

impl Run {
    /// The run of `ticket` under `rules`.
    pub fn new(ticket: &Ticket, rules: &Rules) -> Run {
        let mut run = Run::of_rounds(ticket, rules);
        (run.counts, run.shown) = run.counts(rules);
        run.f = (rules.f_counted)(run.lines_that_count(run.ends(), rules), run.counts.commits);
        run
    }

    /// The same with nothing counted.
    pub fn of_rounds(ticket: &Ticket, rules: &Rules) -> Run {
        let initial = ticket.proposals.iter().map(|&proposal| (rules.initial)(proposal));
        let mut run = Run::of_states(ticket, initial.collect());
        for failure in run.faults.iter_mut().flatten() {
            failure.crash = (rules.crash_of)(failure.crash);
        }
        for round in 1..=(rules.last_round)(ticket.t) {
            let states = run.states_after((rules.round_run)(round), run.ends(), rules);
            run.history.push(states);
        }
        run
    }

    /// A run of no round that begins with these states.
    pub fn of_states(ticket: &Ticket, states: Vec<State>) -> Run {
        let mut faults = vec![None; usize::from(ticket.n)];
        for failure in &ticket.failures {
            faults[usize::from(failure.process) - 1] = Some(*failure);
        }
        let counts = Counts::default();
        Run { n: ticket.n, faults, history: vec![states], counts, shown: Vec::new(), f: 0 }
    }

    /// The last state of each process.
    pub fn ends(&self) -> &[State] {
        self.history.last().expect("the states before round 1 at least")
    }

    /// The last round that was run.
    pub fn last_round(&self) -> u8 {
        self.history.len() as u8 - 1
    }

    /// How many failure lines count as a crash, if the processes end so.
    pub fn lines_that_count(&self, ends: &[State], rules: &Rules) -> u8 {
        let lines = self.faults.iter().zip(ends);
        lines.filter(|(&fault, &end)| counts_in_f(fault, end, rules)).count() as u8
    }

    fn fault(&self, process: u8) -> Option<Failure> {
        self.faults[usize::from(process) - 1]
    }

    fn crashes_in(&self, round: u8, process: u8) -> bool {
        self.fault(process).is_some_and(|failure| failure.round == round)
    }

    /// What all processes become in `round`.
    fn states_after(&self, round: u8, states: &[State], rules: &Rules) -> Vec<State> {
        let coordinator = (rules.coordinator)(round, self.n);
        let sent_by = states[usize::from(coordinator) - 1];
        let sending = self.sending(round, states);
        let after = |(process, &state): (u8, &State)| {
            let State::Undecided(estimate) = state else {
                return state;
            };
            let listed = Sending { n: (rules.commit_list)(&sending, process), ..sending };
            let heard = (rules.hears)(self.reach(&listed, process, rules), sent_by);
            let step = Step { round, process, estimate, heard };
            let crashes = self.crashes_in(round, process);
            (if crashes { rules.crashes } else { rules.receives })(&step)
        };
        (1..).zip(states).map(after).collect()
    }

    /// What sending looks at in a round that begins with these states.
    pub(super) fn sending(&self, round: u8, states: &[State]) -> Sending {
        let ended = set_of(states, |_, state| !right::is_undecided(state));
        Sending { n: self.n, round, crashed: self.crashed_by(round, states), ended }
    }

    /// How far the messages of the round's coordinator get to process `to`.
    pub(super) fn reach(&self, sending: &Sending, to: u8, rules: &Rules) -> Reach {
        let fault = self.fault((rules.coordinator)(sending.round, self.n));
        reach(sending, fault, to, rules)
    }

    /// The set of processes that have crashed or crash in `round`.
    fn crashed_by(&self, round: u8, states: &[State]) -> u64 {
        set_of(states, |process, state| match state {
            State::Undecided(_) => self.crashes_in(round, process),
            State::Decided(..) => false,
            State::Crashed(_) => true,
        })
    }

    /// What `rules` count of this run's rounds, and the counts that stand in the
    /// line of each process.
    fn counts(&self, rules: &Rules) -> (Counts, Vec<Messages>) {
        let mut counts = Counts::default();
        let mut counted = vec![(0, 0); usize::from(self.n)];
        for (place, states) in (1..=self.last_round()).zip(&self.history) {
            let round = (rules.round_run)(place);
            let goes_on = states.iter().any(|&state| (rules.is_undecided)(state));
            let speaks = self.speaks(place, rules);
            let (data, commits) = self.counted(place, rules);
            if (rules.round_counts)(goes_on, speaks, data) {
                counts.rounds = round;
            }
            counts.speakers += u64::from(speaks && (rules.speaker_counts)(data));
            counts.data += data;
            counts.commits += commits;
            // Charged to process r in round r, whoever is taken for its coordinator.
            let by = &mut counted[usize::from(round) - 1];
            *by = (by.0 + data, by.1 + commits);
        }
        let (in_all, last_round) = ((counts.data, counts.commits), self.last_round());
        let shown = |(process, &end): (u8, &State)| {
            (rules.shown)(&Line { process, end, counted: &counted, in_all, last_round })
        };
        let shown = (1..).zip(self.ends()).map(shown).collect();
        (counts, shown)
    }

    /// Whether the coordinator of the round that is run in this place is a speaker.
    fn speaks(&self, place: u8, rules: &Rules) -> bool {
        let coordinator = (rules.coordinator)((rules.round_run)(place), self.n);
        (rules.speaks)(self.history[usize::from(place) - 1][usize::from(coordinator) - 1])
    }

    /// The data messages and the commits that `rules` count of that round: none if
    /// its coordinator is no speaker.
    pub fn counted(&self, place: u8, rules: &Rules) -> Messages {
        if self.speaks(place, rules) || rules.silent_counts {
            self.messages(place, rules)
        } else {
            (0, 0)
        }
    }

    /// The data messages and the commits that `rules` count of that round if its
    /// coordinator is a speaker.
    pub fn messages(&self, place: u8, rules: &Rules) -> Messages {
        self.addressees(place, rules, |to, kind| {
            (rules.is_sent)(to, kind) && (rules.is_carried)(to, kind)
        })
    }

    /// How many processes the data messages of that round reach, and how many its
    /// commits, of those that end in it or later: these began it up and undecided.
    pub fn carried(&self, place: u8, rules: &Rules) -> Messages {
        let ends_before = |process: u8| match self.ends()[usize::from(process) - 1] {
            State::Undecided(_) => false,
            State::Decided(round, _) | State::Crashed(round) => round < place,
        };
        self.addressees(place, rules, |to, kind| to.gets(kind) && !ends_before(to.process))
    }

    /// To how many processes a data message is counted by `is_counted` in the round
    /// that is run in this place, and to how many a commit.
    fn addressees(
        &self,
        place: u8,
        rules: &Rules,
        is_counted: impl Fn(&Addressee, Kind) -> bool,
    ) -> Messages {
        let round = (rules.round_run)(place);
        let [before, after] = [place - 1, place].map(|rounds| &self.history[usize::from(rounds)]);
        let sending = self.sending(round, before);
        let mut count = (0, 0);
        for (process, (&before, &after)) in (1..).zip(before.iter().zip(after)) {
            let reach = self.reach(&sending, process, rules);
            let to = Addressee { process, round, reach, before, after };
            count.0 += u64::from(is_counted(&to, Kind::Data));
            count.1 += u64::from(is_counted(&to, Kind::Commit));
        }
        count
    }

    /// The rounds that qualify for settling, in order. Round 0, and rounds after
    /// the run's, are looked at too.
    pub fn settling_rounds(&self, rules: &Rules) -> Vec<u8> {
        let last = self.last_round();
        let one_value = |&round: &u8| {
            (rules.one_value)(&self.values_held((rules.settled_at_end_of)(round), rules))
        };
        let may_settle = |&round: &u8| (rules.may_settle)(round, self.counts.rounds, last);
        (0..=last).filter(may_settle).filter(one_value).collect()
    }

    /// The values held for settling at the end of a round.
    fn values_held(&self, round: u8, rules: &Rules) -> Vec<u32> {
        let states = &self.history[usize::from(round)];
        let processes = states.iter().zip(self.faults.iter().zip(self.ends()));
        let held = processes.filter_map(|(&state, (&fault, &end))| {
            (rules.value_held)(state, counts_in_f(fault, end, rules))
        });
        held.collect()
    }

    /// The settling round, if there is one.
    pub fn settling_round(&self, rules: &Rules) -> Option<u8> {
        (rules.settling_round)(self, &self.settling_rounds(rules))
    }
}

/// The set of the processes that are members by their number and state; bit j − 1
/// stands for process j.
fn set_of(states: &[State], is_member: impl Fn(u8, State) -> bool) -> u64 {
    let members = (1..).zip(states).filter(|&(process, &state)| is_member(process, state));
    members.fold(0, |set, (process, _)| set | 1 << (process - 1))
}

/// Whether a process has a failure line that counts in f, if it ends so.
fn counts_in_f(fault: Option<Failure>, end: State, rules: &Rules) -> bool {
    fault.is_some_and(|failure| (rules.counts_as_crash)((rules.is_idle)(failure.round, end)))
}

/// How far the messages of a coordinator with this fault get to process `to`.
fn reach(sending: &Sending, fault: Option<Failure>, to: u8, rules: &Rules) -> Reach {
    if to <= sending.round {
        return Reach::None;
    }
    match fault {
        None => Reach::All,
        Some(failure) if failure.round == sending.round => {
            (rules.reach_of_crashing)(sending, failure.crash, to)
        }
        Some(_) => rules.reach_in_another_round,
    }
}
