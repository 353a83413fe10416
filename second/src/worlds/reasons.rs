//! The reason of a process in a round (02, Paper 7): what it goes by, the right rule,
//! and what makes each reason true.

use super::model::{Heard, Run, Sending, State};
use super::rules::{right, Rules};

/// How many reasons there are, from 1 on.
pub const REASONS: u8 = 7;

/// A process in a round, as its reason goes by it.
#[derive(Clone, Copy, Debug)]
pub struct Situation {
    /// The process.
    pub process: u8,
    /// The round.
    pub round: u8,
    /// The process as the round begins, and as it ends.
    pub states: [State; 2],
    /// What the coordinator's messages let it hear, if it does not crash.
    pub heard: Heard,
    /// The coordinator as the round begins, and as it ends.
    pub coordinator: [State; 2],
}

impl Situation {
    /// Whether the process begins the round up and undecided.
    pub fn begins(&self) -> bool {
        right::is_undecided(self.states[0])
    }

    /// Whether it crashes in the round.
    pub fn crashes(&self) -> bool {
        self.begins() && has_crashed(self.states[1])
    }

    /// Whether it decides in the round.
    pub fn decides(&self) -> bool {
        self.begins() && matches!(self.states[1], State::Decided(..))
    }

    /// Whether it coordinates the round.
    pub fn coordinates(&self) -> bool {
        self.process == self.round
    }

    /// Whether the coordinator had crashed when the round began.
    pub fn coordinator_crashed_before(&self) -> bool {
        has_crashed(self.coordinator[0])
    }

    /// Whether it crashes in the round.
    pub fn coordinator_crashes(&self) -> bool {
        right::is_undecided(self.coordinator[0]) && has_crashed(self.coordinator[1])
    }

    /// The right reason.
    pub fn reason(&self) -> u8 {
        match self.heard {
            _ if !self.begins() => 7,
            _ if self.crashes() => 6,
            _ if self.coordinates() => 1,
            Heard::EstimateAndCommit(_) => 2,
            Heard::Estimate(_) => 3,
            Heard::Nothing if self.coordinator_crashed_before() => 4,
            Heard::Nothing => 5,
        }
    }

    /// Whether a reason is true, in the paper's words.
    pub fn is_true(&self, reason: u8) -> bool {
        let stays_up = self.begins() && !self.crashes();
        let hears_nothing = stays_up && self.heard == Heard::Nothing;
        match reason {
            1 => self.coordinates() && self.decides(),
            2 => stays_up && matches!(self.heard, Heard::EstimateAndCommit(_)),
            3 => stays_up && matches!(self.heard, Heard::Estimate(_)),
            4 => hears_nothing && self.coordinator_crashed_before(),
            5 => hears_nothing && self.coordinator_crashes(),
            6 => self.crashes(),
            7 => !self.begins(),
            _ => false,
        }
    }
}

/// Whether a process has crashed in this state.
fn has_crashed(state: State) -> bool {
    matches!(state, State::Crashed(_))
}

impl Run {
    /// A process in a round of the run.
    pub fn situation(&self, process: u8, round: u8, rules: &Rules) -> Situation {
        let [before, after] = [round - 1, round].map(|rounds| &self.history[usize::from(rounds)]);
        let of = |process: u8| [before, after].map(|states| states[usize::from(process) - 1]);
        let run = (rules.round_run)(round);
        let sending = self.sending(run, before);
        let listed = Sending { n: (rules.commit_list)(&sending, process), ..sending };
        let coordinator = of((rules.coordinator)(run, self.n));
        let heard = (rules.hears)(self.reach(&listed, process, rules), coordinator[0]);
        Situation { process, round, states: of(process), heard, coordinator }
    }

    /// All processes in all rounds of the run, round by round.
    pub fn situations(&self, rules: &Rules) -> Vec<Situation> {
        let rounds = 1..=self.counts.rounds.min(self.last_round());
        let of_round =
            |round| (1..=self.n).map(move |process| self.situation(process, round, rules));
        rounds.flat_map(of_round).collect()
    }

    /// The reasons, in the same order.
    pub fn reasons(&self, rules: &Rules) -> Vec<u8> {
        let reasons = self.situations(rules).iter().map(rules.reason).collect();
        (rules.reasons_listed)(self.n, reasons)
    }

    /// Whether of just the processes and rounds that there are a reason is given.
    pub fn gives_reasons_of_the_run(&self, rules: &Rules) -> bool {
        (0..=self.n + 1).all(|process| {
            (0..=self.last_round() + 1).all(|round| {
                let is_there =
                    (1..=self.n).contains(&process) && (1..=self.counts.rounds).contains(&round);
                (rules.reason_given)(process, round, self) == is_there
            })
        })
    }
}

/// Whether the reason given is true.
pub fn given_is_true(situation: &Situation, rules: &Rules) -> bool {
    (rules.reason_is_true)(situation, (rules.reason)(situation))
}

/// Whether exactly one is.
pub fn one_is_true(situation: &Situation, rules: &Rules) -> bool {
    (1..=REASONS).filter(|&reason| (rules.reason_is_true)(situation, reason)).count() == 1
}

/// Whether the reason given tells how the round ends for the process: it decides just
/// with 1 or 2, crashes just with 6, and had ended just with 7.
pub fn tells_the_end(situation: &Situation, rules: &Rules) -> bool {
    let reason = (rules.reason)(situation);
    situation.decides() == (reason == 1 || reason == 2)
        && situation.crashes() == (reason == 6)
        && situation.begins() == (reason != 7)
}
