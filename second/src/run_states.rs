//! The nine bytes of every process as each round of a ticket's run begins and as the run
//! ends (01, "The desk part"), by the run message by message. A process that crashes keeps
//! the bytes with which that round began (02, Paper 14).

use crate::local::STATE_LENGTH;
use crate::process::{Process, Status};
use crate::simulation::Simulation;
use crate::ticket::Ticket;

/// The bytes of a state.
pub type StateBytes = [u8; STATE_LENGTH];

const ROUND: usize = 3;
const MARK: usize = 4;
const OPEN: u8 = 0;
const DECIDED: u8 = 1;

/// The states of a ticket's run.
#[derive(Clone, Debug)]
pub struct RunStates<'a> {
    ticket: &'a Ticket,
    rounds: u8,
    /// Those of all processes in order as round 1 begins, then round 2 and so on, and then
    /// as the run ends.
    states: Vec<StateBytes>,
}

/// The bytes of a process, if it is in `round` or else has ended.
fn state_of(ticket: &Ticket, round: u8, process: &Process) -> StateBytes {
    let (round, mark) = match process.status() {
        Status::Active => (round, OPEN),
        Status::Decided(round) => (round, DECIDED),
        Status::Crashed(round) => (round, OPEN),
    };
    let [a, b, c, d] = process.estimate().to_be_bytes();
    [process.id(), ticket.n, ticket.t, round, mark, a, b, c, d]
}

impl<'a> RunStates<'a> {
    /// Those of `ticket`.
    pub fn of(ticket: &'a Ticket) -> Self {
        let mut simulation = Simulation::new(ticket);
        let mut states = Vec::new();
        let mut add = |round: u8, processes: &[Process]| {
            states.extend(processes.iter().map(|process| state_of(ticket, round, process)));
        };
        add(1, simulation.processes());
        let rounds = simulation.run(|round, processes| add(round + 1, processes)).rounds;
        RunStates { ticket, rounds, states }
    }

    /// The ticket.
    pub fn ticket(&self) -> &'a Ticket {
        self.ticket
    }

    /// How many rounds the run has.
    pub fn rounds(&self) -> u8 {
        self.rounds
    }

    /// The bytes of each process as `round` begins; if the run is over then, those with
    /// which it ended.
    pub fn begins(&self, round: u8) -> &[StateBytes] {
        let n = usize::from(self.ticket.n);
        let from = n * usize::from(round.min(self.rounds + 1) - 1);
        &self.states[from..from + n]
    }

    /// The bytes of each process when the run is over.
    pub fn ends(&self) -> &[StateBytes] {
        self.begins(u8::MAX)
    }

    /// The bytes of one process as `round` begins.
    pub fn state(&self, process: u8, round: u8) -> StateBytes {
        self.begins(round)[usize::from(process) - 1]
    }

    /// Whether a process begins `round` up and undecided.
    pub fn is_open(&self, process: u8, round: u8) -> bool {
        let state = self.state(process, round);
        state[MARK] == OPEN && state[ROUND] == round
    }

    /// Whether it crashes in `round`: closing would have changed its state.
    pub fn crashes(&self, process: u8, round: u8) -> bool {
        self.is_open(process, round) && self.state(process, round) == self.state(process, round + 1)
    }

    /// Whether it has decided when `round` begins.
    pub fn has_decided(&self, process: u8, round: u8) -> bool {
        self.state(process, round)[MARK] == DECIDED
    }
}

#[cfg(test)]
mod tests {
    use super::*;
    use crate::worked;

    fn bytes(digits: &str) -> StateBytes {
        let number = u128::from_str_radix(digits, 16).expect("18 digits").to_be_bytes();
        number[16 - STATE_LENGTH..].try_into().expect("nine bytes")
    }

    #[test]
    fn case_1_round_by_round() {
        let ticket = worked::case(1);
        let run = RunStates::of(&ticket);
        let states = |digits: [&str; 4]| digits.map(bytes);
        let first = [
            "01040201000000000A",
            "020402010000000014",
            "03040201000000001E",
            "040402010000000028",
        ];
        let second = [
            "01040201000000000A",
            "02040202000000000A",
            "03040202000000000A",
            "04040201010000000A",
        ];
        let ends = [
            "01040201000000000A",
            "02040202010000000A",
            "03040202010000000A",
            "04040201010000000A",
        ];
        assert_eq!(run.rounds(), 2);
        assert_eq!(run.begins(1), states(first));
        assert_eq!(run.begins(2), states(second));
        assert_eq!(run.begins(3), states(ends));
        assert_eq!([run.begins(4), run.ends()], [states(ends); 2]);
    }

    #[test]
    fn what_becomes_of_the_processes_of_case_1() {
        let ticket = worked::case(1);
        let run = RunStates::of(&ticket);
        let in_rounds = |is: &dyn Fn(u8, u8) -> bool| {
            [1, 2, 3].map(|round| [1, 2, 3, 4].map(|process| is(process, round)))
        };
        let (t, f) = (true, false);
        let open = [[t; 4], [f, t, t, f], [f; 4]];
        let crashes = [[t, f, f, f], [f; 4], [f; 4]];
        let decided = [[f; 4], [f, f, f, t], [f, t, t, t]];
        assert_eq!(in_rounds(&|process, round| run.is_open(process, round)), open);
        assert_eq!(in_rounds(&|process, round| run.crashes(process, round)), crashes);
        assert_eq!(in_rounds(&|process, round| run.has_decided(process, round)), decided);
    }
}
