//! A whole run, round by round (01, "A round").

use crate::process::{Course, Process, Status};
use crate::round_reason::RoundReason;
use crate::switch::{Fate, Switch, Uplink};
use crate::ticket::Ticket;

/// The numbers of a run's last result line.
#[derive(Clone, Copy, Debug, Default, PartialEq, Eq)]
pub struct Totals {
    /// The last round that began with an active process.
    pub rounds: u8,
    /// f: the failure lines that are not idle, so the processes that crashed.
    pub crashes: u8,
    /// Coordinators that began their own round active.
    pub speakers: u8,
    /// Data messages carried.
    pub data: u16,
    /// Commits carried.
    pub commits: u16,
}

/// What has become of each process, and the value that it holds, or held when it crashed.
pub type Standing = Vec<(Status, u32)>;

/// The standing before round 1 and after each round of a ticket's run.
pub fn history(ticket: &Ticket) -> Vec<Standing> {
    let standing = |processes: &[Process]| {
        processes.iter().map(|process| (process.status(), process.estimate())).collect()
    };
    let mut simulation = Simulation::new(ticket);
    let mut history = vec![standing(simulation.processes())];
    simulation.run(|_, processes| history.push(standing(processes)));
    history
}

/// The processes of a run and the switch between them.
#[derive(Clone, Debug, Default)]
pub struct Simulation {
    processes: Vec<Process>,
    courses: Vec<Course>,
    switch: Switch,
    rounds: u8,
    speakers: u8,
}

impl Simulation {
    /// The simulation of `ticket`, about to begin round 1.
    pub fn new(ticket: &Ticket) -> Self {
        let mut simulation = Simulation::default();
        simulation.reset(ticket);
        simulation
    }

    /// As [`Simulation::new`], in the memory of an old simulation.
    pub fn reset(&mut self, ticket: &Ticket) {
        self.switch = Switch::default();
        self.rounds = 0;
        self.speakers = 0;
        self.processes.truncate(ticket.proposals.len());
        let known = self.processes.len();
        for (process, &proposal) in self.processes.iter_mut().zip(&ticket.proposals) {
            process.restart(proposal);
        }
        for (id, &proposal) in (1..=ticket.n).zip(&ticket.proposals).skip(known) {
            self.processes.push(Process::new(id, proposal));
        }
        for &failure in &ticket.failures {
            self.processes[usize::from(failure.process) - 1].doom(failure);
        }
    }

    /// Runs to the end and shows `observe` the processes after each round.
    ///
    /// The run is over by round t + 1: of as many coordinators one does not
    /// crash, and no process is active after that one's round.
    pub fn run(&mut self, mut observe: impl FnMut(u8, &[Process])) -> Totals {
        while let Some(round) = self.next_round() {
            observe(round, &self.processes);
        }
        self.totals()
    }

    /// Runs the next round and says which it was; nothing if the run is over.
    pub fn next_round(&mut self) -> Option<u8> {
        if !self.processes.iter().any(Process::is_active) {
            return None;
        }
        self.rounds += 1;
        self.send_phase(self.rounds);
        let round = self.rounds;
        self.courses.clear();
        self.courses.extend(self.processes.iter_mut().map(|process| process.end_round(round)));
        Some(round)
    }

    /// The reason of each process, in order, in the round that was run last (02, Paper
    /// 7): what was in its mailbox, or what became of it, and of the coordinator.
    pub fn reasons(&self) -> impl Iterator<Item = RoundReason> + '_ {
        let coordinator = self.courses[usize::from(self.rounds) - 1];
        self.courses.iter().map(move |&course| RoundReason::of(course, coordinator))
    }

    /// The coordinator of `round` sends, if it is active, until it crashes.
    fn send_phase(&mut self, round: u8) {
        let n = self.processes.len() as u8;
        let (up_to_coordinator, above) = self.processes.split_at_mut(usize::from(round));
        let coordinator = &mut up_to_coordinator[usize::from(round) - 1];
        if !coordinator.is_active() {
            return;
        }
        self.speakers += 1;
        let mut uplink = Uplink::new(coordinator.crash_in(round));
        for (to, message) in coordinator.messages(n) {
            match uplink.fate(to, message) {
                Fate::Sent => {
                    let recipient = &mut above[usize::from(to - round) - 1];
                    if self.switch.carry(round, message, recipient) {
                        coordinator.charge(message);
                    }
                }
                Fate::Lost => {}
                Fate::Crashed => break,
            }
        }
    }

    fn totals(&self) -> Totals {
        let crashed = self.processes.iter().filter(|process| process.has_crashed());
        Totals {
            rounds: self.rounds,
            crashes: crashed.count() as u8,
            speakers: self.speakers,
            data: self.switch.data,
            commits: self.switch.commits,
        }
    }

    /// The processes, from process 1 on.
    pub fn processes(&self) -> &[Process] {
        &self.processes
    }
}
