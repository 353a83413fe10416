//! The operations on a ticket's text: running it, settling, giving reasons, and quoting.

use crate::pricing;
use crate::process::Process;
use crate::refusal::{Reason, Refusal};
use crate::report::{result_length, write_result};
use crate::round_reason::RoundReason;
use crate::simulation::Simulation;
use crate::ticket::Ticket;

/// Runs tickets one after the other in the same memory.
#[derive(Clone, Debug, Default)]
pub struct Simulator {
    ticket: Ticket,
    simulation: Simulation,
}

impl Simulator {
    /// A simulator that has run nothing yet.
    pub fn new() -> Self {
        Simulator::default()
    }

    /// Writes the result of the ticket `text` to the beginning of `output` and
    /// says how long it is, or refuses (1 to 9) and writes nothing.
    pub fn run(&mut self, text: &[u8], output: &mut [u8]) -> Result<usize, Refusal> {
        self.ticket.read(text)?;
        let length = result_length(self.ticket.n);
        if output.len() < length {
            return Err(Reason::OutputTooShort.at_no_line());
        }
        self.simulation.reset(&self.ticket);
        let totals = self.simulation.run(|_, _| {});
        write_result(self.simulation.processes(), &totals, output);
        Ok(length)
    }

    /// The rounds at whose end all processes not crashed by then hold one
    /// value, in order (01, "The result", last paragraph); refusals 1 to 8.
    pub fn settling_rounds(&mut self, text: &[u8]) -> Result<Vec<u8>, Refusal> {
        self.ticket.read(text)?;
        self.simulation.reset(&self.ticket);
        let mut rounds = Vec::new();
        self.simulation.run(|round, processes| {
            if hold_one_value(processes) {
                rounds.push(round);
            }
        });
        Ok(rounds)
    }

    /// The settling round, which is the lowest of these (02, Paper 6): the run goes
    /// no further. Refusals 1 to 8.
    pub fn settling_round(&mut self, text: &[u8]) -> Result<u8, Refusal> {
        self.ticket.read(text)?;
        self.simulation.reset(&self.ticket);
        loop {
            let round = self.simulation.next_round().expect("those that decide hold one value");
            if hold_one_value(self.simulation.processes()) {
                return Ok(round);
            }
        }
    }

    /// The reason of a process in a round (02, Paper 7): the run goes no further.
    /// Refusals 1 to 8, and then 13.
    pub fn reason(
        &mut self,
        text: &[u8],
        process: u64,
        round: u64,
    ) -> Result<RoundReason, Refusal> {
        self.ticket.read(text)?;
        if !(1..=u64::from(self.ticket.n)).contains(&process) {
            return Err(Reason::OutsideTheRun.at_no_line());
        }
        self.simulation.reset(&self.ticket);
        while let Some(done) = self.simulation.next_round() {
            if u64::from(done) == round {
                let mut reasons = self.simulation.reasons();
                return Ok(reasons.nth(process as usize - 1).expect("one for each process"));
            }
        }
        Err(Reason::OutsideTheRun.at_no_line())
    }

    /// Writes the reasons of all processes in all rounds of the run, round by round, to
    /// the beginning of `output` and says how many they are, or refuses (1 to 9) and
    /// writes nothing.
    pub fn reasons(&mut self, text: &[u8], output: &mut [u8]) -> Result<usize, Refusal> {
        self.ticket.read(text)?;
        self.simulation.reset(&self.ticket);
        let mut numbers = Vec::new();
        while self.simulation.next_round().is_some() {
            numbers.extend(self.simulation.reasons().map(RoundReason::number));
        }
        let room = output.get_mut(..numbers.len());
        room.ok_or(Reason::OutputTooShort.at_no_line())?.copy_from_slice(&numbers);
        Ok(numbers.len())
    }

    /// The quote for tender lines of these direct costs, by what a process decides (02,
    /// Paper 9). Refusals 1 to 8, and then 14 to 16.
    pub fn quote(&mut self, text: &[u8], costs: &[u64], process: u64) -> Result<u64, Refusal> {
        self.ticket.read(text)?;
        self.simulation.reset(&self.ticket);
        self.simulation.run(|_, _| {});
        let mut processes = self.simulation.processes().iter();
        let asked = processes.find(|other| u64::from(other.id()) == process);
        pricing::quote(asked.and_then(Process::decision), costs).map_err(Reason::at_no_line)
    }

    /// What the program prints for `text` with an output of `room` bytes: the
    /// result lines or the refusal line, each closed by 0A.
    pub fn print(&mut self, text: &[u8], room: usize) -> String {
        let mut output = vec![0; room];
        match self.run(text, &mut output) {
            Ok(length) => output[..length].iter().copied().map(char::from).collect(),
            Err(refusal) => format!("{refusal}\n"),
        }
    }
}

fn hold_one_value(processes: &[Process]) -> bool {
    let mut values =
        processes.iter().filter(|process| !process.has_crashed()).map(Process::estimate);
    let first = values.next();
    values.all(|value| Some(value) == first)
}
