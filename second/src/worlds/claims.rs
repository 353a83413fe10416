//! What is claimed of a run, of two paired runs, and of the worked runs.

use std::fmt;

use super::model::{Counts, Messages, Run, State};
use super::reasons::{given_is_true, one_is_true, tells_the_end, Situation};
use super::rules::{right, Rules};
use crate::process::{Process, Status};
use crate::round_reason::MOST_REASONS;
use crate::simulation::{Simulation, Totals};
use crate::ticket::{processes_above, Crash, Failure, Ticket};
use crate::worked;
use crate::Simulator;

/// A claim of the papers.
#[derive(Clone, Copy, Debug, PartialEq, Eq)]
pub enum Claim {
    /// All processes that decide, decide one value.
    Agreement,
    /// A process of the ticket proposed it.
    Validity,
    /// Every process that does not crash undecided decides.
    Termination,
    /// None decides after round f + 1.
    EarlyDecision,
    /// A process crashes undecided just if it has a failure line that is not
    /// idle, and then in the round of that line.
    CrashesAsSaid,
    /// f is the number of failure lines that are not idle.
    CountsLines,
    /// f is the number of processes that end crashed.
    CountsCrashed,
    /// Of two paired tickets: who decides in the first decides in the second,
    /// on the same value and no later.
    NoLater,
    /// k ≤ f + 1.
    SpeakersWithinBound,
    /// Data and commits are at most k(2n − k − 1) − k(k − 1)/2.
    MessagesWithinBound,
    /// Commits are at most n − k.
    CommitsWithinBound,
    /// The run's rounds are those that began with a process up and undecided.
    CountsRounds,
    /// Speakers are the coordinators that began their own round up and undecided.
    CountsSpeakers,
    /// The messages counted of a round are as many as the processes, up and
    /// undecided when it began, that they reach.
    CountsCarried,
    /// They are as many as the ones in a set: of those to whom the coordinator sends,
    /// by the step of its failure line, and who began the round up and undecided; and
    /// none if the coordinator does not speak.
    CountsBySets,
    /// The counts in a process's line are those of its own round if it began
    /// that up and undecided, and else 0.
    CountsOwnRound,
    /// The counts over all processes add up to the run's.
    CountsAddUp,
    /// A process's line counts no more data messages than there are processes above
    /// it, and no more commits.
    CountsThoseAbove,
    /// The run has a last round, and that round qualifies for settling.
    LastRoundSettles,
    /// There is a settling round, and it is one of the run's: 1 to its rounds.
    SettlingRoundIsOfRun,
    /// There is a settling round, and it qualifies.
    SettlingRoundQualifies,
    /// No round before the settling round qualifies.
    SettlingRoundIsLowest,
    /// If a round qualifies for settling, so does every later one of the run.
    StaysSettled,
    /// None decides before the settling round.
    NoneDecidesBeforeSettling,
    /// What is decided is what each process that has not crashed holds, undecided or
    /// decided, at the end of the settling round and of every later one of the run.
    DecisionIsSettled,
    /// The reason given of each process in each round of the run is true.
    ReasonIsTrue,
    /// Exactly one reason is true of it.
    OneReasonIsTrue,
    /// By the reason given it decides, crashes or had ended just if it is so.
    ReasonTellsTheEnd,
    /// A reason is given just of the processes that there are in the rounds of the run.
    ReasonsOfTheRun,
    /// No coordinator of a round of the run has decided before it.
    CoordinatorsNotDecided,
    /// Without the failure lines that are idle the states after every round,
    /// the counts, those of each process too, f, the settling round and the reasons are
    /// the same.
    IdleLinesChangeNothing,
    /// Case 7 without the failure lines that are idle is case 1, and so is case
    /// 1.
    IdleLinesTakenOut,
    /// Each claim of demand 3 refuses the ends that are wrong by it.
    RefusesImpostors,
    /// The [`Answer`] for the worked run of this name.
    WorkedRun(&'static str),
}

/// All claims but those of the worked runs.
pub const CLAIMS: [Claim; 33] = [
    Claim::Agreement,
    Claim::Validity,
    Claim::Termination,
    Claim::EarlyDecision,
    Claim::CrashesAsSaid,
    Claim::CountsLines,
    Claim::CountsCrashed,
    Claim::NoLater,
    Claim::SpeakersWithinBound,
    Claim::MessagesWithinBound,
    Claim::CommitsWithinBound,
    Claim::CountsRounds,
    Claim::CountsSpeakers,
    Claim::CountsCarried,
    Claim::CountsBySets,
    Claim::CountsOwnRound,
    Claim::CountsAddUp,
    Claim::CountsThoseAbove,
    Claim::LastRoundSettles,
    Claim::SettlingRoundIsOfRun,
    Claim::SettlingRoundQualifies,
    Claim::SettlingRoundIsLowest,
    Claim::StaysSettled,
    Claim::NoneDecidesBeforeSettling,
    Claim::DecisionIsSettled,
    Claim::ReasonIsTrue,
    Claim::OneReasonIsTrue,
    Claim::ReasonTellsTheEnd,
    Claim::ReasonsOfTheRun,
    Claim::CoordinatorsNotDecided,
    Claim::IdleLinesChangeNothing,
    Claim::IdleLinesTakenOut,
    Claim::RefusesImpostors,
];

impl fmt::Display for Claim {
    fn fmt(&self, f: &mut fmt::Formatter) -> fmt::Result {
        match self {
            Claim::Agreement => write!(f, "agreement"),
            Claim::Validity => write!(f, "validity"),
            Claim::Termination => write!(f, "termination"),
            Claim::EarlyDecision => write!(f, "none after round f + 1"),
            Claim::CrashesAsSaid => write!(f, "crashes as its line says"),
            Claim::CountsLines => write!(f, "f is the number of lines not idle"),
            Claim::CountsCrashed => write!(f, "f is the number of crashed"),
            Claim::NoLater => write!(f, "the pair: no later"),
            Claim::SpeakersWithinBound => write!(f, "k ≤ f + 1"),
            Claim::MessagesWithinBound => write!(f, "messages within the bound by speakers"),
            Claim::CommitsWithinBound => write!(f, "commits at most n less the speakers"),
            Claim::CountsRounds => write!(f, "rounds end when none is undecided"),
            Claim::CountsSpeakers => write!(f, "speakers begin their rounds undecided"),
            Claim::CountsCarried => write!(f, "messages counted are those to the undecided"),
            Claim::CountsBySets => write!(f, "messages counted are the ones of a set"),
            Claim::CountsOwnRound => write!(f, "counts by process are those of its own round"),
            Claim::CountsAddUp => write!(f, "counts by process add up"),
            Claim::CountsThoseAbove => write!(f, "counts by process are at most those above it"),
            Claim::LastRoundSettles => write!(f, "the last round settles"),
            Claim::SettlingRoundIsOfRun => write!(f, "the settling round is one of the run's"),
            Claim::SettlingRoundQualifies => write!(f, "the settling round qualifies"),
            Claim::SettlingRoundIsLowest => write!(f, "no round before it qualifies"),
            Claim::StaysSettled => write!(f, "once settled, every later round qualifies"),
            Claim::NoneDecidesBeforeSettling => write!(f, "none decides before it"),
            Claim::DecisionIsSettled => write!(f, "what is decided is held from then on"),
            Claim::ReasonIsTrue => write!(f, "the reason given is true"),
            Claim::OneReasonIsTrue => write!(f, "exactly one reason is true"),
            Claim::ReasonTellsTheEnd => write!(f, "reasons tell who decides and who crashes"),
            Claim::ReasonsOfTheRun => write!(f, "reasons are given of the run alone"),
            Claim::CoordinatorsNotDecided => write!(f, "no coordinator has decided before"),
            Claim::IdleLinesChangeNothing => write!(f, "idle lines change nothing"),
            Claim::IdleLinesTakenOut => write!(f, "case 7 without its idle line is case 1"),
            Claim::RefusesImpostors => write!(f, "wrong ends are refused"),
            Claim::WorkedRun(name) => write!(f, "worked run, {name}"),
        }
    }
}

impl Claim {
    /// Whether the claim holds of a run. Of a run by itself the pair, case 7, the
    /// wrong ends and the worked runs say nothing: see [`no_later`],
    /// [`is_case_1_without_idle`], [`super::impostors`] and [`answer`].
    pub fn holds(self, ticket: &Ticket, run: &Run, rules: &Rules) -> bool {
        match self {
            Claim::Agreement => {
                let agreeing = |(fault, end): (Option<Failure>, State)| match end {
                    State::Decided(_, value) => (rules.agrees)(fault.is_some()).then_some(value),
                    State::Undecided(_) | State::Crashed(_) => None,
                };
                let values: Vec<u32> = processes(run).filter_map(agreeing).collect();
                values.iter().all(|value| *value == values[0])
            }
            Claim::Validity => decisions(run).all(|(_, value)| ticket.proposals.contains(&value)),
            Claim::Termination => processes(run).all(|(fault, end)| {
                crashes_undecided(fault, end, rules) || matches!(end, State::Decided(..))
            }),
            Claim::EarlyDecision => decides_by((rules.latest)(run.f), run, rules),
            Claim::CrashesAsSaid => processes(run).all(|(fault, end)| match end {
                State::Crashed(round) => {
                    crashes_undecided(fault, end, rules)
                        && fault.is_some_and(|failure| failure.round == round)
                }
                _ => !crashes_undecided(fault, end, rules),
            }),
            Claim::CountsLines => run.f == run.lines_that_count(&ends_in_order(run, rules), rules),
            Claim::CountsCrashed => {
                let ends = ends_in_order(run, rules);
                let crashed = ends.iter().filter(|end| matches!(end, State::Crashed(_))).count();
                run.f == (rules.f_of_crashed)(crashed as u8)
            }
            Claim::SpeakersWithinBound => run.counts.speakers <= (rules.most_speakers)(run.f),
            Claim::MessagesWithinBound => {
                run.counts.data + run.counts.commits <= (rules.most_messages)(run)
            }
            Claim::CommitsWithinBound => run.counts.commits <= (rules.most_commits)(run),
            Claim::CountsRounds => {
                let undecided =
                    |states: &[State]| states.iter().any(|&state| right::is_undecided(state));
                (1..).zip(rounds(run)).all(|(round, states)| {
                    undecided(states) == (rules.is_of_run)(round, run.counts.rounds)
                })
            }
            Claim::CountsSpeakers => {
                let own = rounds(run).enumerate().map(|(round, states)| states[round]);
                run.counts.speakers
                    == own.filter(|&state| right::is_undecided(state)).count() as u64
            }
            Claim::CountsCarried => (1..=run.last_round())
                .all(|round| run.messages(round, rules) == run.carried(round, rules)),
            Claim::CountsBySets => (1..).zip(rounds(run)).all(|(round, states)| {
                run.counted(round, rules) == counted_by_sets(round, states, run, rules)
            }),
            Claim::CountsOwnRound => (1..).zip(&run.shown).all(|(process, &shown)| {
                let sends = process <= run.last_round()
                    && is_up_after((rules.sends_after)(process), process, run);
                shown == if sends { run.messages(process, rules) } else { (0, 0) }
            }),
            Claim::CountsAddUp => {
                let summed = run.shown.iter().skip(usize::from(rules.summed_from) - 1);
                let sum = summed.fold((0, 0), |sum, shown| (sum.0 + shown.0, sum.1 + shown.1));
                sum == (run.counts.data, run.counts.commits)
            }
            Claim::CountsThoseAbove => (1..).zip(&run.shown).all(|(process, &(data, commits))| {
                let most = (rules.most_of_process)(run.n, process);
                data <= most && commits <= most
            }),
            Claim::LastRoundSettles => run.settling_rounds(rules).contains(&run.counts.rounds),
            Claim::SettlingRoundIsOfRun => {
                named_is(run, rules, |named| 1 <= named && named <= run.counts.rounds)
            }
            Claim::SettlingRoundQualifies => {
                named_is(run, rules, |named| run.settling_rounds(rules).contains(&named))
            }
            Claim::SettlingRoundIsLowest => settled_is(run, rules, |settled| {
                let mut qualify = run.settling_rounds(rules).into_iter();
                !qualify.any(|round| (rules.too_low_to_settle)(round, settled))
            }),
            Claim::StaysSettled => {
                let qualify = run.settling_rounds(rules);
                let settles = |round: &u8| (rules.settles_the_rest)(qualify.contains(round));
                let first = (1..=run.counts.rounds).find(settles);
                let last = (rules.settled_up_to)(run.counts.rounds);
                first.is_none_or(|first| (first..=last).all(|round| qualify.contains(&round)))
            }
            Claim::NoneDecidesBeforeSettling => settled_is(run, rules, |settled| {
                decisions(run).all(|(round, _)| (rules.may_decide)(round, settled))
            }),
            Claim::DecisionIsSettled => settled_is(run, rules, |settled| {
                let mut rounds = (rules.decision_held_from)(settled)..=run.counts.rounds;
                rounds.all(|round| decisions(run).all(|(_, value)| all_hold(value, round, run)))
            }),
            Claim::ReasonIsTrue => of_situations(run, rules, given_is_true),
            Claim::OneReasonIsTrue => of_situations(run, rules, one_is_true),
            Claim::ReasonTellsTheEnd => of_situations(run, rules, tells_the_end),
            Claim::ReasonsOfTheRun => run.gives_reasons_of_the_run(rules),
            Claim::CoordinatorsNotDecided => {
                of_situations(run, rules, |at, rules| !(rules.never_before)(at.coordinator[0]))
            }
            Claim::IdleLinesChangeNothing => {
                let other = Run::new(&without_idle(ticket, run, rules), rules);
                (&other.history, other.counts, &other.shown, other.f)
                    == (&run.history, run.counts, &run.shown, run.f)
                    && other.settling_round(rules) == run.settling_round(rules)
                    && other.reasons(rules) == run.reasons(rules)
            }
            Claim::NoLater
            | Claim::IdleLinesTakenOut
            | Claim::RefusesImpostors
            | Claim::WorkedRun(_) => true,
        }
    }
}

/// Whether a claim holds of each process in each round of the run.
fn of_situations(run: &Run, rules: &Rules, holds: fn(&Situation, &Rules) -> bool) -> bool {
    run.situations(rules).iter().all(|situation| holds(situation, rules))
}

/// Whether there is a settling round and a claim holds of it.
fn named_is(run: &Run, rules: &Rules, holds: impl Fn(u8) -> bool) -> bool {
    run.settling_round(rules).is_some_and(holds)
}

/// Whether a claim holds of the settling round, if there is one.
fn settled_is(run: &Run, rules: &Rules, holds: impl Fn(u8) -> bool) -> bool {
    run.settling_round(rules).is_none_or(holds)
}

/// Whether each process holds `value` at the end of a round, unless it has crashed.
fn all_hold(value: u32, round: u8, run: &Run) -> bool {
    let mut held = run.history[usize::from(round)].iter().map(|&state| right::value_held(state));
    held.all(|held| held.is_none_or(|held| held == value))
}

/// Whether none decides after round `latest`.
pub fn decides_by(latest: u8, run: &Run, rules: &Rules) -> bool {
    decisions(run).all(|(round, _)| (rules.decides_by)(round, latest))
}

/// The states as each round began, from round 1 on.
fn rounds(run: &Run) -> impl Iterator<Item = &[State]> {
    run.history[..run.history.len() - 1].iter().map(Vec::as_slice)
}

/// The data messages and the commits of a round that begins with these states: the
/// ones of the sets of those to whom they are counted, if its coordinator speaks.
fn counted_by_sets(round: u8, states: &[State], run: &Run, rules: &Rules) -> Messages {
    if (rules.speaks)(states[usize::from(round) - 1]) {
        ones(round, states, run, rules)
    } else {
        (0, 0)
    }
}

/// The ones of those sets.
fn ones(round: u8, states: &[State], run: &Run, rules: &Rules) -> Messages {
    let line = run.faults[usize::from(round) - 1].filter(|failure| failure.round == round);
    let above = processes_above(round, run.n);
    let (data, commits) = match line.map(|failure| failure.crash) {
        None => (above, above),
        Some(Crash::BeforeSending) => (0, 0),
        Some(Crash::SendingData { reached }) => (reached, 0),
        Some(Crash::SendingCommits { sent }) => (above, processes_above(run.n - sent, run.n)),
    };
    let undecided = (0..).zip(states).filter(|(_, &state)| right::is_undecided(state));
    let undecided = undecided.fold(0, |set, (place, _)| set | 1 << place);
    let counted = |sent_to| u64::from((rules.counted_among)(sent_to, undecided).count_ones());
    (counted(data), counted(commits))
}

/// Whether a process is up and undecided when so many rounds are over.
fn is_up_after(rounds: u8, process: u8, run: &Run) -> bool {
    let states = run.history.get(usize::from(rounds));
    states.is_some_and(|states| right::is_undecided(states[usize::from(process) - 1]))
}

/// The failure line and the end of each process.
fn processes(run: &Run) -> impl Iterator<Item = (Option<Failure>, State)> + '_ {
    run.faults.iter().copied().zip(run.ends().iter().copied())
}

/// The round and the value of each decision.
fn decisions(run: &Run) -> impl Iterator<Item = (u8, u32)> + '_ {
    run.ends().iter().filter_map(|&end| match end {
        State::Decided(round, value) => Some((round, value)),
        State::Undecided(_) | State::Crashed(_) => None,
    })
}

/// Whether a process has a failure line that is not idle.
fn crashes_undecided(fault: Option<Failure>, end: State, rules: &Rules) -> bool {
    fault.is_some_and(|failure| !(rules.is_idle)(failure.round, end))
}

/// The ends that f is held to, one for each process. One past the last process
/// counts as crashed before round 1.
fn ends_in_order(run: &Run, rules: &Rules) -> Vec<State> {
    let mut ends = run.ends()[usize::from(rules.ends_from) - 1..].to_vec();
    ends.resize(run.faults.len(), State::Crashed(0));
    ends
}

/// Whether every process that decides in `first` decides in `second`, on the
/// same value and no later.
pub fn no_later(first: &Run, second: &Run, rules: &Rules) -> bool {
    first.ends().iter().zip(second.ends()).all(|ends| match ends {
        (State::Decided(round, value), State::Decided(other, same)) => {
            (rules.alike)(*value, *same) && (rules.no_later)(*round, *other)
        }
        (State::Decided(..), _) => false,
        _ => true,
    })
}

/// The ticket without the failure lines that are idle in its run.
fn without_idle(ticket: &Ticket, run: &Run, rules: &Rules) -> Ticket {
    let is_left = |failure: &Failure| {
        let end = run.ends()[usize::from(failure.process) - 1];
        (rules.line_left)((rules.is_idle)(failure.round, end))
    };
    let failures = ticket.failures.iter().copied().filter(is_left).collect();
    Ticket { failures, ..ticket.clone() }
}

/// Whether the ticket is case 1 without the failure lines that are idle.
pub fn is_case_1_without_idle(ticket: &Ticket, rules: &Rules) -> bool {
    without_idle(ticket, &Run::new(ticket, rules), rules) == worked::case(1)
}

/// What is said of a ticket.
#[derive(Clone, Debug, PartialEq, Eq)]
pub struct Answer {
    /// The end of each process.
    pub ends: Vec<State>,
    /// f.
    pub f: u8,
    /// What is counted.
    pub counts: Counts,
    /// The counts in the line of each process.
    pub shown: Vec<Messages>,
    /// The last round in which one may decide, the most messages and the most
    /// commits.
    pub limits: (u8, u64, u64),
    /// The rounds that qualify for settling.
    pub settling_rounds: Vec<u8>,
    /// The one that is named.
    pub settling_round: Option<u8>,
    /// The reasons of the run, round by round.
    pub reasons: Vec<u8>,
}

/// What the model answers under `rules`.
pub fn answer(ticket: &Ticket, rules: &Rules) -> Answer {
    let run = Run::new(ticket, rules);
    Answer {
        ends: run.ends().to_vec(),
        f: run.f,
        counts: run.counts,
        shown: run.shown.clone(),
        limits: ((rules.latest)(run.f), (rules.most_messages)(&run), (rules.most_commits)(&run)),
        settling_rounds: run.settling_rounds(rules),
        settling_round: run.settling_round(rules),
        reasons: run.reasons(rules),
    }
}

/// What the second implementation answers, with the limits that follow from it.
pub fn answer_of_simulation(ticket: &Ticket) -> Answer {
    let mut simulation = Simulation::new(ticket);
    let Totals { rounds, crashes, speakers, data, commits } = simulation.run(|_, _| {});
    let ends = simulation.processes().iter().map(|process| match process.status() {
        Status::Active => State::Undecided(process.estimate()),
        Status::Decided(round) => State::Decided(round, process.estimate()),
        Status::Crashed(round) => State::Crashed(round),
    });
    let carried = simulation.processes().iter().map(Process::carried);
    let shown = carried.map(|count| (count.data.into(), count.commits.into())).collect();
    let counts =
        Counts { rounds, speakers: speakers.into(), data: data.into(), commits: commits.into() };
    let (text, mut simulator) = (ticket.text(), Simulator::new());
    let most_messages = right::bound_by_speakers(ticket.n, counts.speakers);
    let mut reasons = vec![0; MOST_REASONS];
    let written = simulator.reasons(&text, &mut reasons).expect("an accepted ticket");
    reasons.truncate(written);
    Answer {
        ends: ends.collect(),
        f: crashes,
        counts,
        shown,
        limits: (crashes + 1, most_messages, u64::from(ticket.n) - counts.speakers),
        settling_rounds: simulator.settling_rounds(&text).expect("an accepted ticket"),
        settling_round: simulator.settling_round(&text).ok(),
        reasons,
    }
}
