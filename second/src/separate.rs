//! A ticket run by separate local parts, one state for each process, over lines
//! that let out exactly what the ticket says (demand 2, second half) and a switch
//! that drops what goes to a process that has crashed or decided (02, Paper 4).

use crate::interface::Agreement;
use crate::local::{DATA_LENGTH, SPEECH_LENGTH, STATE_LENGTH};
use crate::process::{Message, MessageCounts, Status};
use crate::switch::{Fate, Uplink};
use crate::ticket::{Failure, Ticket};

/// How a process ends, and what of its own was carried.
#[derive(Clone, Copy, Debug, PartialEq, Eq)]
pub struct End {
    /// What has become of it.
    pub status: Status,
    /// The value that it decides; 0 if it crashes.
    pub value: u32,
    /// The messages that left it and were carried.
    pub carried: MessageCounts,
}

/// A run by separate local parts.
#[derive(Clone, Debug, PartialEq, Eq)]
pub struct SeparateRun {
    /// How each process ends.
    pub ends: Vec<End>,
    /// Whether at the end of a round, from round 1 to t + 1, all processes that have
    /// not crashed hold one value.
    pub one_value: Vec<bool>,
    /// The reason of each process in order, by the bytes that its part closes on, in
    /// each round from 1 to t + 1; 0 for one that hears nothing of a coordinator that has
    /// neither crashed before nor crashes.
    pub reasons: Vec<Vec<u8>>,
    /// The state that each part is left in; one that crashes keeps the state with which
    /// that round began.
    pub states: Vec<[u8; STATE_LENGTH]>,
}

/// One process: its state, and what it has heard in this round.
#[derive(Clone, Debug)]
struct Local {
    id: u8,
    state: [u8; STATE_LENGTH],
    failure: Option<Failure>,
    crashed: Option<u8>,
    carried: MessageCounts,
    heard: Vec<u8>,
}

impl Local {
    fn round(&self) -> u8 {
        self.state[3]
    }

    fn mark(&self) -> u8 {
        self.state[4]
    }

    fn is_active(&self) -> bool {
        self.crashed.is_none() && self.mark() == 0
    }

    fn crashes_in(&self, round: u8) -> bool {
        let failure = self.failure.filter(|failure| failure.round == round);
        self.is_active() && failure.is_some()
    }

    fn value(&self) -> u32 {
        u32::from_be_bytes([self.state[5], self.state[6], self.state[7], self.state[8]])
    }

    fn end(&self) -> End {
        let (status, value) = match (self.crashed, self.mark()) {
            (Some(round), _) => (Status::Crashed(round), 0),
            (None, 1) => (Status::Decided(self.round()), self.value()),
            (None, _) => (Status::Active, self.value()),
        };
        End { status, value, carried: self.carried }
    }
}

/// What becomes of each process, with the value it decides and what was carried
/// of its messages, when all hold one value, and the reasons, if `module` is asked for
/// each of them in each round. An error says which call was refused.
pub fn run_separately(module: &mut impl Agreement, ticket: &Ticket) -> Result<SeparateRun, String> {
    let mut locals = start_all(module, ticket)?;
    let mut one_value = Vec::with_capacity(usize::from(ticket.t) + 1);
    let mut reasons = Vec::with_capacity(usize::from(ticket.t) + 1);
    for round in 1..=ticket.t + 1 {
        for sender in 0..locals.len() {
            if locals[sender].is_active() {
                speak(module, &mut locals, sender, round)?;
            }
        }
        reasons.push(locals.iter().map(|local| reason(&locals, local, round)).collect());
        for local in &mut locals {
            close(module, local, round)?;
        }
        one_value.push(hold_one_value(&locals));
    }
    Ok(SeparateRun {
        ends: locals.iter().map(Local::end).collect(),
        one_value,
        reasons,
        states: locals.iter().map(|local| local.state).collect(),
    })
}

/// Why a process will stand where it does when the round is closed (02, Paper 7): by
/// its state and crash, and else by how many bytes it has heard.
fn reason(locals: &[Local], local: &Local, round: u8) -> u8 {
    let coordinator = &locals[usize::from(round) - 1];
    match local.heard.len() {
        _ if !local.is_active() => 7,
        _ if local.crashes_in(round) => 6,
        _ if local.id == round => 1,
        SPEECH_LENGTH => 2,
        DATA_LENGTH => 3,
        _ if coordinator.crashed.is_some() => 4,
        _ if coordinator.crashes_in(round) => 5,
        _ => 0,
    }
}

/// Whether all processes that have not crashed hold one value.
fn hold_one_value(locals: &[Local]) -> bool {
    let mut up = locals.iter().filter(|local| local.crashed.is_none());
    let first = up.next().map(Local::value);
    up.all(|local| Some(local.value()) == first)
}

fn start_all(module: &mut impl Agreement, ticket: &Ticket) -> Result<Vec<Local>, String> {
    let mut locals = Vec::with_capacity(ticket.proposals.len());
    for (id, &value) in (1..=ticket.n).zip(&ticket.proposals) {
        let mut state = [0xEE; STATE_LENGTH];
        let (n, t) = (u64::from(ticket.n), u64::from(ticket.t));
        let answer = module.start(u64::from(id), n, t, value, &mut state);
        if answer != 0 {
            return Err(format!("starting process {id} answers {answer}"));
        }
        let failure = ticket.failures.iter().find(|failure| failure.process == id);
        locals.push(Local {
            id,
            state,
            failure: failure.copied(),
            crashed: None,
            carried: MessageCounts::default(),
            heard: Vec::with_capacity(SPEECH_LENGTH),
        });
    }
    Ok(locals)
}

/// Asks one process to speak, and passes on what its crash lets out and the switch
/// does not drop. None closes while one speaks, so a process is here what it was
/// when the round began.
fn speak(
    module: &mut impl Agreement,
    locals: &mut [Local],
    sender: usize,
    round: u8,
) -> Result<(), String> {
    let mut speech = [0xEE; SPEECH_LENGTH];
    let id = locals[sender].id;
    match module.speak(&locals[sender].state, &mut speech) {
        0 => return Ok(()),
        8 => {}
        answer => return Err(format!("process {id} speaking in round {round} answers {answer}")),
    }
    let (data, commit) = speech.split_at(DATA_LENGTH);
    let crash = locals[sender].failure.filter(|failure| failure.round == round);
    let mut uplink = Uplink::new(crash.map(|failure| failure.crash));
    let recipients = sender + 1..locals.len();
    let data_step = recipients.clone().map(|to| (to, Message::Data(0), data));
    let commit_step = recipients.rev().map(|to| (to, Message::Commit, commit));
    for (to, message, bytes) in data_step.chain(commit_step) {
        match uplink.fate(locals[to].id, message) {
            Fate::Sent if locals[to].is_active() => {
                locals[sender].carried.count(message);
                locals[to].heard.extend_from_slice(bytes);
            }
            Fate::Sent | Fate::Lost => {}
            Fate::Crashed => break,
        }
    }
    Ok(())
}

/// Closes the round of one process, or lets it crash.
fn close(module: &mut impl Agreement, local: &mut Local, round: u8) -> Result<(), String> {
    if local.crashes_in(round) {
        local.crashed = Some(round);
    } else if local.is_active() {
        let answer = module.close(&mut local.state, &local.heard);
        if answer != 0 {
            let Local { id, heard, .. } = local;
            return Err(format!(
                "process {id} closing round {round} on {heard:02X?} answers {answer}"
            ));
        }
    }
    local.heard.clear();
    Ok(())
}
