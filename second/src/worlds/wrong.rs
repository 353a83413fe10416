//! The wrong worlds, by the names of the gate's edits or in words.

use super::claims::Claim::{self, *};
use super::model::{Addressee, Heard, Kind, Reach, Run, Sending, State};
use super::reasons::Situation;
use super::rules::{right, Rules, RIGHT};
use super::World;
use crate::ticket::Crash;

/// Every wrong world.
pub fn worlds() -> impl Iterator<Item = &'static World> {
    let of_rounds = [PATTERNS, ROUNDS, MISTAKES, IMPOSTORS];
    let of_answers = [COUNTS, CARRIED, SHOWN, SETTLING, NAMED, REASONED];
    of_rounds.into_iter().chain(of_answers).chain([CLAIMED, PAIRED]).flatten()
}

const fn world(name: &'static str, breaks: &'static [Claim], rules: Rules) -> World {
    World { name, rules, breaks }
}

/// Failure patterns that are not accepted.
const PATTERNS: &[World] = &[
    world(
        "consensus/one-crash-too-many",
        &[Termination, LastRoundSettles, SettlingRoundIsOfRun, SettlingRoundQualifies],
        Rules { most_failures: |t| t + 1, ..RIGHT },
    ),
    world(
        "coordinator/commit-line-of-another-round",
        &[NoLater],
        Rules { commit_step_in: |_, _| true, ..RIGHT },
    ),
    world(
        "consensus/steps-01-and-02-swapped",
        &[NoLater, IdleLinesTakenOut],
        Rules {
            crash_of: |crash| match crash {
                Crash::BeforeSending => crash,
                Crash::SendingData { .. } => Crash::SendingCommits { sent: 0 },
                Crash::SendingCommits { .. } => Crash::SendingData { reached: 0 },
            },
            ..RIGHT
        },
    ),
];

/// Other rounds.
const ROUNDS: &[World] = &[
    world(
        "coordinator/adopts-a-value-nobody-proposed",
        &[
            Validity,
            Agreement,
            NoLater,
            LastRoundSettles,
            SettlingRoundIsOfRun,
            SettlingRoundQualifies,
            NoneDecidesBeforeSettling,
        ],
        Rules {
            receives: |step| match step.heard {
                Heard::Estimate(_) => State::Undecided(0),
                _ => right::receives(step),
            },
            ..RIGHT
        },
    ),
    world(
        "coordinator/commits-leave-before-the-data",
        &[
            Agreement,
            NoLater,
            CountsBySets,
            LastRoundSettles,
            SettlingRoundIsOfRun,
            SettlingRoundQualifies,
            NoneDecidesBeforeSettling,
        ],
        Rules {
            reach_of_crashing: |sending, crash, to| match right::reach_of_crashing(
                sending, crash, to,
            ) {
                Reach::Data if right::is_commit_line(Some(crash)) => Reach::None,
                reach => reach,
            },
            ..RIGHT
        },
    ),
    world(
        "coordinator/commits-only-above-the-count",
        &[NoLater, CountsBySets],
        Rules {
            reach_of_crashing: |sending, crash, to| {
                commits_reach(sending, crash, to, |sent| to > sent)
            },
            ..RIGHT
        },
    ),
    world(
        "coordinator/coordinator-waits-on",
        &[Termination, ReasonIsTrue, OneReasonIsTrue, ReasonTellsTheEnd, CoordinatorsNotDecided],
        Rules {
            receives: |step| match right::receives(step) {
                State::Decided(_, value) if step.coordinates() => State::Undecided(value),
                state => state,
            },
            ..RIGHT
        },
    ),
    world(
        "coordinator/decides-in-the-round-of-its-crash",
        &[
            Agreement,
            CrashesAsSaid,
            CountsCrashed,
            LastRoundSettles,
            SettlingRoundIsOfRun,
            SettlingRoundQualifies,
            NoneDecidesBeforeSettling,
            ReasonIsTrue,
            OneReasonIsTrue,
            ReasonTellsTheEnd,
            CoordinatorsNotDecided,
        ],
        Rules { crashes: |step| step.decides(step.estimate), ..RIGHT },
    ),
    // The commits still go downward, so that no claim about all tickets fails.
    world(
        "coordinator/ended-left-out-of-the-commit-list",
        &[WorkedRun("case 9")],
        Rules { commit_list: |sending, to| sending.n - above(sending.ended, to), ..RIGHT },
    ),
    world(
        "coordinator/fault-of-another-round-cuts-commits",
        &[EarlyDecision, SpeakersWithinBound, CountsBySets, IdleLinesChangeNothing],
        Rules { reach_in_another_round: Reach::Data, ..RIGHT },
    ),
    world(
        "coordinator/one-round-too-few",
        &[Termination, LastRoundSettles, SettlingRoundIsOfRun, SettlingRoundQualifies],
        Rules { last_round: |t| t, ..RIGHT },
    ),
];

/// Document 01's five mistakes.
const MISTAKES: &[World] = &[
    world(
        "coordinator/commits-go-upward",
        &[
            Termination,
            EarlyDecision,
            NoLater,
            CountsBySets,
            IdleLinesTakenOut,
            ReasonIsTrue,
            OneReasonIsTrue,
            CoordinatorsNotDecided,
        ],
        Rules {
            reach_of_crashing: |sending, crash, to| {
                commits_reach(sending, crash, to, |sent| to <= sending.round + sent)
            },
            ..RIGHT
        },
    ),
    world(
        "coordinator/decides-on-data-alone",
        &[
            Agreement,
            Termination,
            EarlyDecision,
            LastRoundSettles,
            SettlingRoundIsOfRun,
            SettlingRoundQualifies,
            NoneDecidesBeforeSettling,
            ReasonIsTrue,
            OneReasonIsTrue,
            ReasonTellsTheEnd,
            CoordinatorsNotDecided,
        ],
        Rules {
            receives: |step| match step.heard {
                Heard::Estimate(value) => step.decides(value),
                _ => right::receives(step),
            },
            ..RIGHT
        },
    ),
    world(
        "coordinator/crashed-left-out-of-the-commit-list",
        &[NoLater],
        Rules { commit_list: |sending, to| sending.n - above(sending.crashed, to), ..RIGHT },
    ),
    world(
        "consensus/idle-lines-counted-in-f",
        &[CountsCrashed, IdleLinesChangeNothing, RefusesImpostors],
        Rules { counts_as_crash: |_| true, ..RIGHT },
    ),
    world(
        "coordinator/hears-in-the-round-of-its-crash",
        &[CrashesAsSaid, CountsCrashed],
        Rules {
            crashes: |step| match step.heard {
                Heard::EstimateAndCommit(value) => step.decides(value),
                _ => State::Crashed(step.round),
            },
            ..RIGHT
        },
    ),
    world(
        "one that crashes in a round goes through it",
        &[
            Agreement,
            CrashesAsSaid,
            CountsCrashed,
            LastRoundSettles,
            SettlingRoundIsOfRun,
            SettlingRoundQualifies,
            NoneDecidesBeforeSettling,
            ReasonIsTrue,
            OneReasonIsTrue,
        ],
        Rules { crashes: right::receives, ..RIGHT },
    ),
];

/// How far messages to process `to` get if the commits go out in another order:
/// `among_first` says whether its commit is one of the first so many.
fn commits_reach(
    sending: &Sending,
    crash: Crash,
    to: u8,
    among_first: impl Fn(u8) -> bool,
) -> Reach {
    match crash {
        Crash::SendingCommits { sent } if among_first(sent) => Reach::All,
        Crash::SendingCommits { .. } => Reach::Data,
        _ => right::reach_of_crashing(sending, crash, to),
    }
}

/// How many processes above `process` are in a set.
fn above(set: u64, process: u8) -> u8 {
    (set >> process).count_ones() as u8
}

/// Document 01's impostors, and other coordinators.
const IMPOSTORS: &[World] = &[
    world(
        "round 1 is run and the rest marked decided",
        &[
            Agreement,
            LastRoundSettles,
            SettlingRoundIsOfRun,
            SettlingRoundQualifies,
            ReasonTellsTheEnd,
        ],
        Rules {
            receives: |step| match right::receives(step) {
                State::Undecided(value) => step.decides(value),
                state => state,
            },
            ..RIGHT
        },
    ),
    world(
        "round 1 alone is run",
        &[
            Termination,
            CrashesAsSaid,
            CountsCrashed,
            LastRoundSettles,
            SettlingRoundIsOfRun,
            SettlingRoundQualifies,
        ],
        Rules { last_round: |_| 1, ..RIGHT },
    ),
    world(
        "the run is over before round 1",
        &[
            Agreement,
            LastRoundSettles,
            SettlingRoundIsOfRun,
            SettlingRoundQualifies,
            IdleLinesTakenOut,
        ],
        Rules { initial: |proposal| State::Decided(0, proposal), ..RIGHT },
    ),
    world(
        "one value for all tickets",
        &[Validity],
        Rules { initial: |_| State::Undecided(7), ..RIGHT },
    ),
    world(
        "one that hears nothing decides the coordinator's value",
        &[
            Agreement,
            Validity,
            NoLater,
            LastRoundSettles,
            StaysSettled,
            DecisionIsSettled,
            OneReasonIsTrue,
            CoordinatorsNotDecided,
        ],
        Rules {
            hears: |reach, coordinator| match right::hears(reach, coordinator) {
                Heard::Nothing => Heard::EstimateAndCommit(value_or_zero(coordinator)),
                heard => heard,
            },
            ..RIGHT
        },
    ),
    world(
        "the coordinator decides 0",
        &[
            Validity,
            Agreement,
            NoLater,
            LastRoundSettles,
            SettlingRoundIsOfRun,
            SettlingRoundQualifies,
            StaysSettled,
            DecisionIsSettled,
        ],
        Rules {
            receives: |step| {
                if step.coordinates() {
                    step.decides(0)
                } else {
                    right::receives(step)
                }
            },
            ..RIGHT
        },
    ),
    world(
        "a crashed coordinator sends 0",
        &[Validity, Agreement, NoLater, LastRoundSettles, StaysSettled, DecisionIsSettled],
        Rules {
            hears: |reach, coordinator| match coordinator {
                State::Crashed(_) => right::hears(reach, State::Undecided(0)),
                _ => right::hears(reach, coordinator),
            },
            ..RIGHT
        },
    ),
    world(
        "process n is taken for the coordinator",
        &[
            Agreement,
            Termination,
            EarlyDecision,
            CountsSpeakers,
            CountsBySets,
            CountsOwnRound,
            LastRoundSettles,
            SettlingRoundIsOfRun,
            SettlingRoundQualifies,
            NoneDecidesBeforeSettling,
            OneReasonIsTrue,
        ],
        Rules { coordinator: |_, n| n, ..RIGHT },
    ),
    world(
        "process 1 coordinates every round",
        &[
            Termination,
            CrashesAsSaid,
            CountsCrashed,
            CountsRounds,
            CountsSpeakers,
            CountsBySets,
            CountsOwnRound,
            LastRoundSettles,
            SettlingRoundIsOfRun,
            SettlingRoundQualifies,
        ],
        Rules { round_run: |_| 1, ..RIGHT },
    ),
];

/// The value of a process, 0 if it has crashed.
fn value_or_zero(state: State) -> u32 {
    right::value_held(state).unwrap_or(0)
}

/// Other counts.
const COUNTS: &[World] = &[
    world(
        "consensus/crashed-process-not-counted-in-f",
        &[
            EarlyDecision,
            Termination,
            CrashesAsSaid,
            CountsCrashed,
            SpeakersWithinBound,
            IdleLinesChangeNothing,
            IdleLinesTakenOut,
        ],
        Rules { is_idle: |round, end| has_crashed(end) || right::is_idle(round, end), ..RIGHT },
    ),
    world(
        "consensus/decided-in-the-round-of-its-line-is-idle",
        &[RefusesImpostors],
        Rules {
            is_idle: |round, end| matches!(end, State::Decided(decided, _) if decided <= round),
            ..RIGHT
        },
    ),
    world(
        "coordinator/decided-processes-keep-the-run-going",
        &[
            CountsRounds,
            CountsSpeakers,
            SpeakersWithinBound,
            MessagesWithinBound,
            CommitsWithinBound,
            CoordinatorsNotDecided,
        ],
        Rules {
            is_undecided: |state| !has_crashed(state),
            speaks: |state| !has_crashed(state),
            ..RIGHT
        },
    ),
    world(
        "coordinator/silent-coordinators-count-as-speakers",
        &[
            SpeakersWithinBound,
            MessagesWithinBound,
            CommitsWithinBound,
            CountsSpeakers,
            CountsOwnRound,
        ],
        Rules { speaks: |_| true, ..RIGHT },
    ),
    world(
        "coordinator/rounds-counted-after-the-end",
        &[CountsRounds, CoordinatorsNotDecided],
        Rules { round_counts: |_, _, _| true, ..RIGHT },
    ),
    world(
        "coordinator/silent-rounds-not-counted",
        &[CountsRounds],
        Rules { round_counts: |_, speaks, _| speaks, ..RIGHT },
    ),
    world(
        "rounds are not counted",
        &[CountsRounds, LastRoundSettles, SettlingRoundIsOfRun, SettlingRoundQualifies],
        Rules { round_counts: |_, _, _| false, ..RIGHT },
    ),
    world(
        "coordinator/rounds-without-counted-data-left-out",
        &[CountsRounds, LastRoundSettles, SettlingRoundIsOfRun, SettlingRoundQualifies],
        Rules { round_counts: |_, _, data| data > 0, ..RIGHT },
    ),
    world(
        "coordinator/speakers-without-counted-data-left-out",
        &[CountsSpeakers],
        Rules { speaker_counts: |data| data > 0, ..RIGHT },
    ),
    world(
        "coordinator/f-at-least-the-counted-commits",
        &[CountsLines, CountsCrashed],
        Rules { f_counted: |lines, commits| lines.max(commits as u8), ..RIGHT },
    ),
];

/// Other messages counted (01, "A round"; 02, Paper 4).
const CARRIED: &[World] = &[
    world(
        "coordinator/unsent-messages-counted",
        &[CountsCarried, CountsBySets, MessagesWithinBound, CommitsWithinBound],
        Rules { is_sent: |to, _| to.process > to.round, ..RIGHT },
    ),
    world(
        "coordinator/undecided-counted-as-data",
        &[CountsCarried, CountsBySets, MessagesWithinBound, CountsThoseAbove],
        Rules { is_sent: |to, kind| kind == Kind::Data || to.gets(kind), ..RIGHT },
    ),
    world(
        "coordinator/data-counted-as-the-commits",
        &[CountsCarried, CountsBySets],
        Rules { is_sent: |to, _| to.gets(Kind::Commit), ..RIGHT },
    ),
    world(
        "coordinator/unsent-commits-counted",
        &[CountsCarried, CountsBySets, MessagesWithinBound, CommitsWithinBound],
        Rules { is_sent: |to, _| to.gets(Kind::Data), ..RIGHT },
    ),
    world(
        "a coordinator is counted among those that it sends data to",
        &[CountsCarried, CountsBySets, MessagesWithinBound, CountsThoseAbove],
        Rules {
            is_sent: |to, kind| is_coordinator(to) && kind == Kind::Data || to.gets(kind),
            ..RIGHT
        },
    ),
    world(
        "a coordinator is counted among those that it sends commits to",
        &[CountsCarried, CountsBySets, MessagesWithinBound, CommitsWithinBound, CountsThoseAbove],
        Rules {
            is_sent: |to, kind| is_coordinator(to) && kind == Kind::Commit || to.gets(kind),
            ..RIGHT
        },
    ),
    world(
        "coordinator/messages-of-silent-coordinators-counted",
        &[CommitsWithinBound, CountsBySets, CountsOwnRound],
        Rules { silent_counts: true, ..RIGHT },
    ),
    world(
        "coordinator/every-addressee-counted",
        &[CountsCarried, CountsBySets, CommitsWithinBound],
        Rules { is_carried: |_, _| true, ..RIGHT },
    ),
    world(
        "data to the crashed and to the decided are counted",
        &[CountsCarried, CountsBySets],
        Rules {
            is_carried: |to, kind| kind == Kind::Data || right::is_undecided(to.before),
            ..RIGHT
        },
    ),
    world(
        "commits to the crashed and to the decided are counted",
        &[CountsCarried, CountsBySets, CommitsWithinBound],
        Rules {
            is_carried: |to, kind| kind == Kind::Commit || right::is_undecided(to.before),
            ..RIGHT
        },
    ),
    world(
        "coordinator/messages-to-the-crashed-counted",
        &[CountsCarried, CountsBySets, CommitsWithinBound],
        Rules { is_carried: |to, _| !has_decided(to.before), ..RIGHT },
    ),
    world(
        "coordinator/messages-to-the-decided-counted",
        &[CountsCarried, CountsBySets, CommitsWithinBound],
        Rules { is_carried: |to, _| !has_crashed(to.before), ..RIGHT },
    ),
    world(
        "coordinator/addressees-that-crash-in-the-round-left-out",
        &[CountsCarried, CountsBySets],
        Rules {
            is_carried: |to, _| right::is_undecided(to.before) && !has_crashed(to.after),
            ..RIGHT
        },
    ),
    world(
        "coordinator/addressees-counted-as-the-round-ends",
        &[CountsCarried, CountsBySets],
        Rules { is_carried: |to, _| right::is_undecided(to.after), ..RIGHT },
    ),
];

/// Whether a process is the round's coordinator.
fn is_coordinator(to: &Addressee) -> bool {
    to.process == to.round
}

/// Other counts by process (02, Paper 2).
const SHOWN: &[World] = &[
    world(
        "coordinator/commits-kept-as-data-of-their-sender",
        &[CountsOwnRound, CountsAddUp],
        Rules { shown: |line| (line.own().1, line.own().1), ..RIGHT },
    ),
    // The last process sends to none, so the sums stay.
    world(
        "coordinator/messages-kept-for-the-next-process",
        &[CountsOwnRound, CountsThoseAbove],
        Rules { shown: |line| line.counted_of(line.process - 1), ..RIGHT },
    ),
    world(
        "coordinator/every-process-has-the-total",
        &[CountsOwnRound, CountsAddUp, CountsThoseAbove],
        Rules { shown: |line| line.in_all, ..RIGHT },
    ),
    world(
        "coordinator/messages-of-the-last-round-left-out",
        &[CountsOwnRound, CountsAddUp],
        Rules {
            shown: |line| {
                let (data, commits) = line.own();
                (data, if line.process == line.last_round { 0 } else { commits })
            },
            ..RIGHT
        },
    ),
    world(
        "answers/commits-of-a-process-before-its-data",
        &[CountsOwnRound, CountsAddUp],
        Rules { shown: |line| (line.own().1, line.own().0), ..RIGHT },
    ),
    world(
        "answers/counts-of-the-next-process",
        &[CountsOwnRound, CountsAddUp],
        Rules { shown: |line| line.counted_of(line.process + 1), ..RIGHT },
    ),
    world(
        "answers/total-in-every-line",
        &[CountsOwnRound, CountsAddUp, CountsThoseAbove],
        Rules { shown: |line| line.in_all, ..RIGHT },
    ),
    world(
        "the counts of all stand in the first line",
        &[CountsOwnRound, CountsThoseAbove],
        Rules { shown: |line| if line.process == 1 { line.in_all } else { (0, 0) }, ..RIGHT },
    ),
    world(
        "answers/crashed-process-shows-no-messages",
        &[CountsOwnRound, CountsAddUp],
        Rules { shown: |line| if has_crashed(line.end) { (0, 0) } else { line.own() }, ..RIGHT },
    ),
    world(
        "a crashed process has no data",
        &[CountsOwnRound, CountsAddUp],
        Rules {
            shown: |line| if has_crashed(line.end) { (0, line.own().1) } else { line.own() },
            ..RIGHT
        },
    ),
    world(
        "counts are cut to one bit",
        &[CountsOwnRound, CountsAddUp],
        Rules { shown: |line| (line.own().0 % 2, line.own().1 % 2), ..RIGHT },
    ),
];

fn has_crashed(state: State) -> bool {
    matches!(state, State::Crashed(_))
}

fn has_decided(state: State) -> bool {
    matches!(state, State::Decided(..))
}

/// Other rounds that qualify for settling.
const SETTLING: &[World] = &[
    world(
        "coordinator/crashed-processes-hold-values",
        &[LastRoundSettles, SettlingRoundIsOfRun, SettlingRoundQualifies],
        CRASHED_HOLD_VALUES,
    ),
    world(
        "coordinator/settled-as-the-round-begins",
        &[
            LastRoundSettles,
            SettlingRoundIsOfRun,
            SettlingRoundQualifies,
            NoneDecidesBeforeSettling,
        ],
        SETTLED_AS_THE_ROUND_BEGINS,
    ),
    world(
        "coordinator/every-round-settles",
        &[DecisionIsSettled],
        Rules { one_value: |_| true, ..RIGHT },
    ),
    world("coordinator/settled-by-the-decided-alone", &[DecisionIsSettled], SETTLED_BY_THE_DECIDED),
    world(
        "coordinator/settled-by-who-never-crashes",
        &[StaysSettled, DecisionIsSettled],
        SETTLED_BY_WHO_NEVER_CRASHES,
    ),
    world("coordinator/round-0-settles", &[SettlingRoundIsLowest], ROUND_0_SETTLES),
    world(
        "coordinator/settles-after-the-end",
        &[WorkedRun("case 1")],
        Rules { may_settle: |round, _, last| 1 <= round && round <= last, ..RIGHT },
    ),
    world(
        "answers/only-the-last-round-settles",
        &[NoneDecidesBeforeSettling],
        Rules { may_settle: |round, rounds, _| round == rounds, ..RIGHT },
    ),
];

const CRASHED_HOLD_VALUES: Rules = Rules {
    value_held: |state, _| match state {
        State::Crashed(round) => Some(u32::from(round)),
        _ => right::value_held(state),
    },
    ..RIGHT
};

const SETTLED_AS_THE_ROUND_BEGINS: Rules =
    Rules { settled_at_end_of: |round| round.saturating_sub(1), ..RIGHT };

const SETTLED_BY_THE_DECIDED: Rules = Rules {
    value_held: |state, _| match state {
        State::Decided(_, value) => Some(value),
        State::Undecided(_) | State::Crashed(_) => None,
    },
    ..RIGHT
};

const SETTLED_BY_WHO_NEVER_CRASHES: Rules =
    Rules { value_held: |state, crashes| right::value_held(state).filter(|_| !crashes), ..RIGHT };

const ROUND_0_SETTLES: Rules = Rules { may_settle: |round, rounds, _| round <= rounds, ..RIGHT };

/// Other rounds named, of those that qualify by the right rules or of others (02,
/// Paper 6).
const NAMED: &[World] = &[
    world(
        "coordinator/last-that-qualifies-named",
        &[SettlingRoundIsLowest, NoneDecidesBeforeSettling],
        Rules { settling_round: |run, _| Some(run.counts.rounds), ..RIGHT },
    ),
    world(
        "coordinator/named-one-round-late",
        &[
            SettlingRoundIsLowest,
            SettlingRoundIsOfRun,
            SettlingRoundQualifies,
            NoneDecidesBeforeSettling,
        ],
        Rules { settling_round: |_, qualify| Some(qualify.first()? + 1), ..RIGHT },
    ),
    world(
        "coordinator/round-1-never-named",
        &[
            SettlingRoundIsLowest,
            SettlingRoundIsOfRun,
            SettlingRoundQualifies,
            NoneDecidesBeforeSettling,
        ],
        Rules {
            settling_round: |run, qualify| {
                let mut later = qualify.iter().copied().filter(|&round| round >= 2);
                later.next().or(Some(run.last_round() + 2))
            },
            ..RIGHT
        },
    ),
    world(
        "coordinator/round-0-named",
        &[SettlingRoundIsOfRun],
        Rules { settling_round: |_, qualify| qualify.first().copied(), ..ROUND_0_SETTLES },
    ),
    world(
        "coordinator/first-decision-named",
        &[SettlingRoundIsLowest],
        Rules { settling_round: |run, _| first_decision(run), ..RIGHT },
    ),
    world(
        "coordinator/silent-rounds-do-not-settle",
        &[
            SettlingRoundIsLowest,
            SettlingRoundIsOfRun,
            SettlingRoundQualifies,
            NoneDecidesBeforeSettling,
        ],
        Rules {
            settling_round: |run, qualify| {
                let has_data = |round: &u8| run.counted(*round, &RIGHT).0 >= 1;
                qualify.iter().copied().find(has_data).or(Some(run.last_round() + 1))
            },
            ..RIGHT
        },
    ),
    world(
        "the first round that begins with one value is named",
        &[
            SettlingRoundIsLowest,
            SettlingRoundIsOfRun,
            SettlingRoundQualifies,
            NoneDecidesBeforeSettling,
        ],
        Rules {
            settling_round: |run, _| run.settling_round(&SETTLED_AS_THE_ROUND_BEGINS),
            ..RIGHT
        },
    ),
    world(
        "the first round is named at whose end the crashed hold that value too",
        &[SettlingRoundQualifies, SettlingRoundIsOfRun],
        Rules { settling_round: |run, _| run.settling_round(&CRASHED_HOLD_VALUES), ..RIGHT },
    ),
    world(
        "the first round is named at whose end the decided hold one value",
        &[SettlingRoundQualifies, DecisionIsSettled],
        Rules { settling_round: |run, _| run.settling_round(&SETTLED_BY_THE_DECIDED), ..RIGHT },
    ),
    world(
        "the first round is named at whose end those hold one value that never crash",
        &[SettlingRoundQualifies, DecisionIsSettled],
        Rules {
            settling_round: |run, _| run.settling_round(&SETTLED_BY_WHO_NEVER_CRASHES),
            ..RIGHT
        },
    ),
    world(
        "round 0 is named, though it does not qualify, if all propose one value",
        &[SettlingRoundIsOfRun, SettlingRoundQualifies],
        Rules {
            settling_round: |run, _| run.settling_rounds(&ROUND_0_SETTLES).first().copied(),
            ..RIGHT
        },
    ),
];

/// Other reasons, and reasons given of what is not there (02, Paper 7).
const REASONED: &[World] = &[
    world(
        "coordinator/reasons-4-and-5-swapped",
        &[ReasonIsTrue],
        Rules { reason: |at| swapped_4_and_5(at.reason()), ..RIGHT },
    ),
    world(
        "coordinator/crashing-coordinator-has-reason-1",
        &[ReasonIsTrue, ReasonTellsTheEnd],
        Rules {
            reason: |at| if at.crashes() && at.coordinates() { 1 } else { at.reason() },
            ..RIGHT
        },
    ),
    world(
        "who hears a coordinator that crashes has reason 5",
        &[ReasonIsTrue, ReasonTellsTheEnd],
        Rules {
            reason: |at| match at.reason() {
                2 | 3 if at.coordinator_crashes() => 5,
                reason => reason,
            },
            ..RIGHT
        },
    ),
    world(
        "coordinator/crash-in-the-round-is-reason-7",
        &[ReasonIsTrue, ReasonTellsTheEnd],
        Rules { reason: |at| if at.crashes() { 7 } else { at.reason() }, ..RIGHT },
    ),
    world(
        "coordinator_laws/who-decides-has-reason-7-in-that-round",
        &[ReasonIsTrue, ReasonTellsTheEnd],
        Rules { reason: |at| if at.decides() { 7 } else { at.reason() }, ..RIGHT },
    ),
    world(
        "coordinator/crash-in-the-round-overlooked",
        &[ReasonIsTrue, ReasonTellsTheEnd],
        Rules { reason: |at| Situation { states: [at.states[0]; 2], ..*at }.reason(), ..RIGHT },
    ),
    world(
        "coordinator/value-and-commit-is-reason-3",
        &[ReasonIsTrue, ReasonTellsTheEnd],
        Rules { reason: |at| if at.reason() == 2 { 3 } else { at.reason() }, ..RIGHT },
    ),
    world(
        "a coordinator that decides has reason 2",
        &[ReasonIsTrue],
        Rules { reason: |at| if at.reason() == 1 { 2 } else { at.reason() }, ..RIGHT },
    ),
    world(
        "coordinator/silent-coordinator-taken-for-crashed-before",
        &[ReasonIsTrue],
        Rules { reason: |at| if at.reason() == 5 { 4 } else { at.reason() }, ..RIGHT },
    ),
    world(
        "coordinator_laws/reason-4-of-a-coordinator-crashed-as-the-round-ends",
        &[OneReasonIsTrue],
        Rules {
            reason_is_true: |at, reason| {
                let silent = at.is_true(5) && has_crashed(at.coordinator[1]);
                at.is_true(reason) || (reason == 4 && silent)
            },
            ..RIGHT
        },
    ),
    world(
        "coordinator_laws/reason-1-of-every-coordinator",
        &[OneReasonIsTrue],
        Rules {
            reason_is_true: |at, reason| {
                at.is_true(reason) || (reason == 1 && at.begins() && at.coordinates())
            },
            ..RIGHT
        },
    ),
    world(
        "coordinator_laws/reasons-2-to-5-of-who-crashes-too",
        &[OneReasonIsTrue],
        Rules {
            reason_is_true: |at, reason| {
                let stays_up = Situation { states: [at.states[0]; 2], ..*at };
                at.is_true(reason) || ((2..=5).contains(&reason) && stays_up.is_true(reason))
            },
            ..RIGHT
        },
    ),
    world(
        "coordinator_laws/reason-1-of-whoever-decides",
        &[OneReasonIsTrue],
        Rules {
            reason_is_true: |at, reason| at.is_true(reason) || (reason == 1 && at.decides()),
            ..RIGHT
        },
    ),
    world(
        "coordinator_laws/reason-7-of-who-has-ended-as-the-round-ends",
        &[OneReasonIsTrue],
        Rules {
            reason_is_true: |at, reason| {
                at.is_true(reason) || (reason == 7 && !right::is_undecided(at.states[1]))
            },
            ..RIGHT
        },
    ),
    world(
        "coordinator_laws/reason-5-of-who-hears-a-crashing-coordinator",
        &[OneReasonIsTrue],
        Rules {
            reason_is_true: |at, reason| {
                let stays_up = at.begins() && !at.crashes();
                at.is_true(reason) || (reason == 5 && stays_up && at.coordinator_crashes())
            },
            ..RIGHT
        },
    ),
    world(
        "coordinator_laws/coordinators-never-crash-before",
        &[CoordinatorsNotDecided],
        Rules { never_before: has_crashed, ..RIGHT },
    ),
    world(
        "coordinator_laws/reason-6-of-whoever-has-crashed",
        &[OneReasonIsTrue],
        Rules {
            reason_is_true: |at, reason| {
                at.is_true(reason) || (reason == 6 && has_crashed(at.states[1]))
            },
            ..RIGHT
        },
    ),
    world(
        "coordinator/value-of-a-crashing-coordinator-is-reason-5",
        &[ReasonIsTrue],
        Rules { reason: |at| if at.reason() == 3 { 5 } else { at.reason() }, ..RIGHT },
    ),
    world(
        "coordinator_laws/clauses-4-and-5-swapped",
        &[ReasonIsTrue],
        Rules { reason_is_true: |at, reason| at.is_true(swapped_4_and_5(reason)), ..RIGHT },
    ),
    world(
        "reasons 4 and 5 swapped, in the function and in the claim",
        &[WorkedRun("case 4")],
        Rules {
            reason: |at| swapped_4_and_5(at.reason()),
            reason_is_true: |at, reason| at.is_true(swapped_4_and_5(reason)),
            ..RIGHT
        },
    ),
    world(
        "coordinator/last-round-first",
        &[WorkedRun("case 1")],
        Rules {
            reasons_listed: |n, reasons| {
                reasons.chunks(usize::from(n)).rev().flatten().copied().collect()
            },
            ..RIGHT
        },
    ),
    world(
        "coordinator/reasons-of-the-process-before",
        &[WorkedRun("case 1")],
        Rules {
            reasons_listed: |n, mut reasons| {
                reasons.chunks_mut(usize::from(n)).for_each(|row| row.rotate_right(1));
                reasons
            },
            ..RIGHT
        },
    ),
    world(
        "reasons are given up to round t + 1",
        &[ReasonsOfTheRun],
        Rules {
            reason_given: |process, round, run| {
                (1..=run.n).contains(&process) && (1..=run.last_round()).contains(&round)
            },
            ..RIGHT
        },
    ),
    world(
        "a reason is given of process 0",
        &[ReasonsOfTheRun],
        Rules {
            reason_given: |process, round, run| {
                process <= run.n && (1..=run.counts.rounds).contains(&round)
            },
            ..RIGHT
        },
    ),
    world(
        "a reason is given of round 0",
        &[ReasonsOfTheRun],
        Rules {
            reason_given: |process, round, run| {
                (1..=run.n).contains(&process) && round <= run.counts.rounds
            },
            ..RIGHT
        },
    ),
];

/// Reason 5 for 4, and 4 for 5.
fn swapped_4_and_5(reason: u8) -> u8 {
    if matches!(reason, 4 | 5) {
        9 - reason
    } else {
        reason
    }
}

/// The first round in which a process decides.
fn first_decision(run: &Run) -> Option<u8> {
    let decided = |states: &Vec<State>| states.iter().any(|&state| has_decided(state));
    (0..).zip(&run.history).find(|(_, states)| decided(states)).map(|(round, _)| round)
}

/// Other claims of the right runs.
const CLAIMED: &[World] = &[
    world("none decides after round f", &[EarlyDecision], Rules { latest: |f| f, ..RIGHT }),
    world(
        "f is one more than the crashed",
        &[CountsCrashed],
        Rules { f_of_crashed: |crashed| crashed + 1, ..RIGHT },
    ),
    world(
        "coordinator_laws/a-round-after-the-end",
        &[CountsRounds],
        Rules { is_of_run: |round, rounds| round <= rounds + 1, ..RIGHT },
    ),
    world(
        "coordinator/one-round-more-to-decide",
        &[WorkedRun("case 1")],
        Rules { latest: |f| f + 2, ..RIGHT },
    ),
    world(
        "consensus/agreement-among-correct-processes-alone",
        &[RefusesImpostors],
        Rules { agrees: |has_line| !has_line, ..RIGHT },
    ),
    world(
        "consensus/decides-after-the-latest",
        &[RefusesImpostors],
        Rules { decides_by: |round, latest| round <= latest + 1, ..RIGHT },
    ),
    world(
        "consensus/f-of-the-process-after",
        &[CountsLines, CountsCrashed],
        Rules { ends_from: 2, ..RIGHT },
    ),
    world(
        "coordinator_laws/speakers-at-most-f",
        &[SpeakersWithinBound],
        Rules { most_speakers: |f| u64::from(f), ..RIGHT },
    ),
    world(
        "coordinator/bound-too-low",
        &[MessagesWithinBound],
        Rules { most_messages: |run| (RIGHT.most_messages)(run).saturating_sub(1), ..RIGHT },
    ),
    world(
        "coordinator/bound-too-high",
        &[WorkedRun("case 1")],
        Rules { most_messages: |run| (RIGHT.most_messages)(run) + 1, ..RIGHT },
    ),
    world(
        "coordinator/commit-bound-too-low",
        &[CommitsWithinBound],
        Rules { most_commits: |run| (RIGHT.most_commits)(run).saturating_sub(1), ..RIGHT },
    ),
    world(
        "coordinator/commit-bound-too-high",
        &[WorkedRun("case 1")],
        Rules { most_commits: |run| (RIGHT.most_commits)(run) + 1, ..RIGHT },
    ),
    world(
        "coordinator/ones-of-the-set-alone",
        &[CountsBySets],
        Rules { counted_among: |sent_to, _| sent_to, ..RIGHT },
    ),
    world(
        "coordinator_laws/counted-as-the-round-ends",
        &[CountsOwnRound],
        Rules { sends_after: |process| process, ..RIGHT },
    ),
    world("coordinator_laws/sum-without-process-1", &[CountsAddUp], Rules { summed_from: 2, ..RIGHT }),
    world(
        "coordinator_laws/one-message-fewer-than-processes-above",
        &[CountsThoseAbove],
        Rules { most_of_process: |n, process| u64::from(n - process).saturating_sub(1), ..RIGHT },
    ),
    world(
        "coordinator_laws/no-round-up-to-the-named-qualifies",
        &[SettlingRoundIsLowest],
        Rules { too_low_to_settle: |round, settled| round <= settled, ..RIGHT },
    ),
    world(
        "coordinator_laws/rounds-qualify-after-the-end",
        &[StaysSettled],
        Rules { settled_up_to: |rounds| rounds + 1, ..RIGHT },
    ),
    world(
        "coordinator_laws/every-round-of-the-run-qualifies",
        &[StaysSettled],
        Rules { settles_the_rest: |_| true, ..RIGHT },
    ),
    world(
        "coordinator_laws/nobody-decides-in-the-settling-round",
        &[NoneDecidesBeforeSettling],
        Rules { may_decide: |round, settled| settled < round, ..RIGHT },
    ),
    world(
        "coordinator_laws/decision-held-by-all-from-round-1",
        &[DecisionIsSettled],
        Rules { decision_held_from: |_| 1, ..RIGHT },
    ),
    world(
        "coordinator/every-line-taken-out",
        &[IdleLinesChangeNothing, IdleLinesTakenOut],
        Rules { line_left: |_| false, ..RIGHT },
    ),
    world(
        "coordinator/no-line-taken-out",
        &[IdleLinesTakenOut],
        Rules { line_left: |_| true, ..RIGHT },
    ),
];

/// Other pairs of tickets.
const PAIRED: &[World] = &[
    world(
        "coordinator_laws/fewer-commits-in-the-second",
        &[NoLater],
        Rules { counts_paired: |first, second| second <= first, ..RIGHT },
    ),
    world(
        "coordinator_laws/data-line-missing-in-the-second",
        &[NoLater],
        Rules {
            line_in_one: |first, second| {
                matches!((first, second), (Some(Crash::SendingData { .. }), None))
            },
            ..RIGHT
        },
    ),
    world(
        "coordinator_laws/line-more-in-the-second",
        &[NoLater],
        Rules {
            line_in_one: |first, second| first.is_none() && right::is_commit_line(second),
            ..RIGHT
        },
    ),
    world(
        "coordinator_laws/proposals-differ-in-the-second",
        &[NoLater],
        Rules { proposals_differ: true, ..RIGHT },
    ),
    world(
        "consensus/strictly-earlier-in-the-second",
        &[NoLater],
        Rules { no_later: |first, second| second < first, ..RIGHT },
    ),
    world(
        "consensus/another-value-in-the-second",
        &[RefusesImpostors],
        Rules { alike: |_, _| true, ..RIGHT },
    ),
    world(
        "the first no later than the second",
        &[NoLater],
        Rules {
            counts_paired: |first, second| (RIGHT.counts_paired)(second, first),
            line_in_one: |first, second| (RIGHT.line_in_one)(second, first),
            ..RIGHT
        },
    ),
];
