//! The rules that a world is made of, and the right ones.

use super::model::{Addressee, Heard, Kind, Line, Messages, Reach, Run, Sending, State, Step};
use super::reasons::Situation;
use crate::ticket::Crash;

/// The rules of a world: which failure patterns there are, what happens in a
/// round, what is counted, and what is claimed.
#[derive(Clone, Copy, Debug)]
pub struct Rules {
    /// How many failure lines there may be, from t.
    pub most_failures: fn(u8) -> u8,
    /// Whether a process may crash while sending commits in a round.
    pub commit_step_in: fn(process: u8, round: u8) -> bool,
    /// How a process crashes, from what its failure line says.
    pub crash_of: fn(Crash) -> Crash,

    /// The state before round 1, from the proposal.
    pub initial: fn(u32) -> State,
    /// The last round that is run, from t.
    pub last_round: fn(u8) -> u8,
    /// Which round is run as round r.
    pub round_run: fn(u8) -> u8,
    /// The process whose state and failure line the messages of a round go by.
    pub coordinator: fn(round: u8, n: u8) -> u8,
    /// n, as the commits to a process are counted off by it in what it hears. What is
    /// counted of a round goes by n itself.
    pub commit_list: fn(&Sending, to: u8) -> u8,
    /// How far messages to a process get from a coordinator that crashes so.
    pub reach_of_crashing: fn(&Sending, Crash, to: u8) -> Reach,
    /// How far they get if the failure line is of another round.
    pub reach_in_another_round: Reach,
    /// What a process hears of a coordinator that began the round in a state.
    pub hears: fn(Reach, State) -> Heard,
    /// What an undecided process becomes that does not crash in the round.
    pub receives: fn(&Step) -> State,
    /// What one becomes that does.
    pub crashes: fn(&Step) -> State,

    /// Whether a process in this state keeps the run going.
    pub is_undecided: fn(State) -> bool,
    /// Whether a round is one of the run's, from whether it began with an
    /// undecided process, whether its coordinator is a speaker, and how many data
    /// messages are counted of it.
    pub round_counts: fn(goes_on: bool, speaks: bool, data: u64) -> bool,
    /// Whether a coordinator that begins its round in this state is a speaker.
    pub speaks: fn(State) -> bool,
    /// Whether a speaker is counted, from how many data messages are counted of it.
    pub speaker_counts: fn(data: u64) -> bool,
    /// Whether messages are counted of a coordinator that is no speaker.
    pub silent_counts: bool,
    /// Whether a speaker sends a message of this kind to a process.
    pub is_sent: fn(&Addressee, Kind) -> bool,
    /// Whether the switch carries it, so that it is counted.
    pub is_carried: fn(&Addressee, Kind) -> bool,
    /// The counts that stand in a process's line.
    pub shown: fn(&Line) -> Messages,
    /// Whether a failure line of a round is idle, from its process's end.
    pub is_idle: fn(round: u8, State) -> bool,
    /// Whether a failure line counts in f, from whether it is idle.
    pub counts_as_crash: fn(idle: bool) -> bool,
    /// f, from how many lines count in it and the commits of the run.
    pub f_counted: fn(lines: u8, commits: u64) -> u8,

    /// Whether a round may settle a run that has so many rounds and could have
    /// had rounds up to `last`.
    pub may_settle: fn(round: u8, rounds: u8, last: u8) -> bool,
    /// The round at whose end the values are looked at for settling.
    pub settled_at_end_of: fn(round: u8) -> u8,
    /// The value that a process holds for settling; `crashes` if its failure
    /// line, be it of a later round, counts in f.
    pub value_held: fn(State, crashes: bool) -> Option<u32>,
    /// Whether the values held are one.
    pub one_value: fn(&[u32]) -> bool,
    /// The round that settling names, from the rounds that qualify, in order.
    pub settling_round: fn(&Run, qualify: &[u8]) -> Option<u8>,

    /// The reason of a process in a round.
    pub reason: fn(&Situation) -> u8,
    /// All reasons of the run of n processes as they are listed.
    pub reasons_listed: fn(n: u8, Vec<u8>) -> Vec<u8>,
    /// Whether one is given at all, of a process and a round that may not be there.
    pub reason_given: fn(process: u8, round: u8, &Run) -> bool,

    /// Claim: whether a process that decides is held to agreement, from whether
    /// it has a failure line.
    pub agrees: fn(has_line: bool) -> bool,
    /// Claim: whether a round is one of a run that has so many rounds.
    pub is_of_run: fn(round: u8, rounds: u8) -> bool,
    /// Claim: the last round in which a process may decide, from f.
    pub latest: fn(u8) -> u8,
    /// Claim: whether one that decides in a round decides by the latest.
    pub decides_by: fn(round: u8, latest: u8) -> bool,
    /// Claim: f, from how many processes end crashed.
    pub f_of_crashed: fn(u8) -> u8,
    /// Claim: the process whose end is the first that f is held to.
    pub ends_from: u8,
    /// Claim: the most speakers, from f.
    pub most_speakers: fn(u8) -> u64,
    /// Claim: the most messages of a run.
    pub most_messages: fn(&Run) -> u64,
    /// Claim: the most commits of a run.
    pub most_commits: fn(&Run) -> u64,
    /// Claim: to whom messages are counted, from the set to which they are sent and
    /// that of the undecided as the round begins.
    pub counted_among: fn(sent_to: u64, undecided: u64) -> u64,
    /// Claim: how many rounds are over in the states by which a process sends.
    pub sends_after: fn(process: u8) -> u8,
    /// Claim: the most data messages of a process, and the most commits.
    pub most_of_process: fn(n: u8, process: u8) -> u64,
    /// Claim: the process whose counts are the first of the sums.
    pub summed_from: u8,
    /// Claim: whether a round may not qualify, from the settling round.
    pub too_low_to_settle: fn(round: u8, settled: u8) -> bool,
    /// Claim: whether after a round all others of the run qualify, from whether it
    /// does.
    pub settles_the_rest: fn(qualifies: bool) -> bool,
    /// Claim: the last round that qualifies then, from the run's rounds.
    pub settled_up_to: fn(rounds: u8) -> u8,
    /// Claim: whether a process may decide in a round, from the settling round.
    pub may_decide: fn(round: u8, settled: u8) -> bool,
    /// Claim: the first round at whose end all hold what is decided, from the settling
    /// round.
    pub decision_held_from: fn(settled: u8) -> u8,
    /// Claim: whether a reason is true of a process in a round.
    pub reason_is_true: fn(&Situation, reason: u8) -> bool,
    /// Claim: whether no coordinator of a round of the run begins it in this state.
    pub never_before: fn(State) -> bool,
    /// Claim: whether a failure line is left in the ticket without idle lines,
    /// from whether it is idle.
    pub line_left: fn(idle: bool) -> bool,
    /// Pair: whether these counts of commits may stand in first and second.
    pub counts_paired: fn(first: u8, second: u8) -> bool,
    /// Pair: whether a failure line may stand in one of the two alone.
    pub line_in_one: fn(first: Option<Crash>, second: Option<Crash>) -> bool,
    /// Pair: whether the proposals of the second may differ.
    pub proposals_differ: bool,
    /// Pair: whether a process that decides in this round of the first may
    /// decide in that round of the second.
    pub no_later: fn(first: u8, second: u8) -> bool,
    /// Pair: whether one that decides this value in the first may decide that
    /// one in the second.
    pub alike: fn(first: u32, second: u32) -> bool,
}

/// The right rules (01, "The ticket" and "A round"; demand 3; 02, Papers 2, 4, 6
/// and 7).
pub const RIGHT: Rules = Rules {
    most_failures: |t| t,
    commit_step_in: |process, round| process == round,
    crash_of: |crash| crash,
    initial: State::Undecided,
    last_round: |t| t + 1,
    round_run: |round| round,
    coordinator: |round, _| round,
    commit_list: |sending, _| sending.n,
    reach_of_crashing: right::reach_of_crashing,
    reach_in_another_round: Reach::All,
    hears: right::hears,
    receives: right::receives,
    crashes: |step| State::Crashed(step.round),
    is_undecided: right::is_undecided,
    round_counts: |goes_on, _, _| goes_on,
    speaks: right::is_undecided,
    speaker_counts: |_| true,
    silent_counts: false,
    is_sent: Addressee::gets,
    is_carried: |to, _| right::is_undecided(to.before),
    shown: |line| line.own(),
    is_idle: right::is_idle,
    counts_as_crash: |idle| !idle,
    f_counted: |lines, _| lines,
    may_settle: |round, rounds, _| 1 <= round && round <= rounds,
    settled_at_end_of: |round| round,
    value_held: |state, _| right::value_held(state),
    one_value: |values| values.iter().all(|value| *value == values[0]),
    settling_round: |_, qualify| qualify.iter().copied().find(|&round| 1 <= round),
    reason: Situation::reason,
    reasons_listed: |_, reasons| reasons,
    reason_given: right::reason_given,
    agrees: |_| true,
    is_of_run: |round, rounds| round <= rounds,
    latest: |f| f + 1,
    decides_by: |round, latest| round <= latest,
    f_of_crashed: |crashed| crashed,
    ends_from: 1,
    most_speakers: |f| u64::from(f) + 1,
    most_messages: |run| right::bound_by_speakers(run.n, run.counts.speakers),
    most_commits: |run| u64::from(run.n) - run.counts.speakers,
    counted_among: |sent_to, undecided| sent_to & undecided,
    sends_after: |process| process - 1,
    most_of_process: |n, process| u64::from(n - process),
    summed_from: 1,
    too_low_to_settle: |round, settled| round < settled,
    settles_the_rest: |qualifies| qualifies,
    settled_up_to: |rounds| rounds,
    may_decide: |round, settled| settled <= round,
    decision_held_from: |settled| settled,
    reason_is_true: Situation::is_true,
    never_before: |state| matches!(state, State::Decided(..)),
    line_left: |idle| !idle,
    counts_paired: |first, second| first <= second,
    line_in_one: |first, second| right::is_commit_line(first) && second.is_none(),
    proposals_differ: false,
    no_later: |first, second| second <= first,
    alike: |first, second| first == second,
};

/// The right rules that take more than a line.
pub mod right {
    use super::*;

    /// Commits go to process n first and then downward.
    pub fn reach_of_crashing(sending: &Sending, crash: Crash, to: u8) -> Reach {
        match crash {
            Crash::BeforeSending => Reach::None,
            Crash::SendingData { reached } if reached >> (to - 1) & 1 == 1 => Reach::Data,
            Crash::SendingData { .. } => Reach::None,
            Crash::SendingCommits { sent } if sending.n < to + sent => Reach::All,
            Crash::SendingCommits { .. } => Reach::Data,
        }
    }

    /// A coordinator that has decided or crashed sends nothing.
    pub fn hears(reach: Reach, coordinator: State) -> Heard {
        match (reach, coordinator) {
            (Reach::Data, State::Undecided(value)) => Heard::Estimate(value),
            (Reach::All, State::Undecided(value)) => Heard::EstimateAndCommit(value),
            _ => Heard::Nothing,
        }
    }

    /// A coordinator decides its estimate; another process adopts what it
    /// hears, and decides it if the commit comes too.
    pub fn receives(step: &Step) -> State {
        match step.heard {
            _ if step.coordinates() => step.decides(step.estimate),
            Heard::Nothing => State::Undecided(step.estimate),
            Heard::Estimate(value) => State::Undecided(value),
            Heard::EstimateAndCommit(value) => step.decides(value),
        }
    }

    /// Up and undecided.
    pub fn is_undecided(state: State) -> bool {
        matches!(state, State::Undecided(_))
    }

    /// A line is idle if its process decided in an earlier round.
    pub fn is_idle(round: u8, end: State) -> bool {
        matches!(end, State::Decided(decided, _) if decided < round)
    }

    /// Crashed processes hold none.
    pub fn value_held(state: State) -> Option<u32> {
        match state {
            State::Undecided(value) | State::Decided(_, value) => Some(value),
            State::Crashed(_) => None,
        }
    }

    /// Of processes 1 to n, in the rounds of the run.
    pub fn reason_given(process: u8, round: u8, run: &Run) -> bool {
        (1..=run.n).contains(&process) && (1..=run.counts.rounds).contains(&round)
    }

    /// k(2n − k − 1) − k(k − 1)/2.
    pub fn bound_by_speakers(n: u8, k: u64) -> u64 {
        let full = k * (2 * u64::from(n)).saturating_sub(k + 1);
        full.saturating_sub(k * k.saturating_sub(1) / 2)
    }

    /// Whether a crash is in the commit step.
    pub fn is_commit_line(crash: Option<Crash>) -> bool {
        matches!(crash, Some(Crash::SendingCommits { .. }))
    }
}
