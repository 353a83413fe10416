//! A host that calls separate local parts as a list of calls says, of one instance or of
//! several (02, Paper 14), and what each call is to answer and to leave by the run message
//! by message. What a part yields when it speaks is kept until the others have closed that
//! round: a coordinator may have closed before them, and yields nothing then.

use crate::interface::Part;
use crate::local::{DATA_LENGTH, SPEECH_LENGTH, STATE_LENGTH};
use crate::orders::{Act, Call};
use crate::run_states::{RunStates, StateBytes};
use crate::ticket::{Crash, Ticket};

/// How many bytes are lent to speak into, some more than are ever yielded.
const ROOM: usize = 12;

/// What is lent and what stands behind it, which nobody may write to.
const GUARDED: usize = 16;

const FILL: u8 = 0xEE;

/// The refusal of a part that has decided.
const NOT_OPEN: u64 = 11;

/// Lent bytes with those behind them.
pub type Guarded = [u8; GUARDED];

/// A state as it is lent.
pub fn guarded(state: &StateBytes) -> Guarded {
    let mut bytes = [FILL; GUARDED];
    bytes[..STATE_LENGTH].copy_from_slice(state);
    bytes
}

/// What a call answers, and what it leaves in the output, which only speaking is lent.
#[derive(Clone, Copy, Debug, PartialEq, Eq)]
pub struct Answer {
    /// The number.
    pub number: u64,
    /// The output.
    pub output: Guarded,
}

/// How many of the bytes that `sender` yields in `round` the ticket lets through to another
/// process: both messages, the data alone, or nothing.
pub fn let_through(ticket: &Ticket, round: u8, sender: u8, to: u8) -> usize {
    let line = ticket.failures.binary_search_by_key(&sender, |failure| failure.process);
    let failure = line.ok().map(|place| ticket.failures[place]);
    match failure.filter(|failure| failure.round == round).map(|failure| failure.crash) {
        _ if to <= sender => 0,
        None => SPEECH_LENGTH,
        Some(Crash::BeforeSending) => 0,
        Some(Crash::SendingData { reached }) if reached >> (to - 1) & 1 == 0 => 0,
        Some(Crash::SendingData { .. }) => DATA_LENGTH,
        Some(Crash::SendingCommits { sent }) if to > ticket.n - sent => SPEECH_LENGTH,
        Some(Crash::SendingCommits { .. }) => DATA_LENGTH,
    }
}

/// The parts of one ticket's processes.
#[derive(Clone, Debug)]
struct Instance<'a> {
    ticket: &'a Ticket,
    states: Vec<Guarded>,
    /// The round of `kept`.
    round: u8,
    /// What was yielded in that round, and by whom.
    kept: Vec<(u8, [u8; SPEECH_LENGTH])>,
}

/// A host of one instance or of several.
#[derive(Clone, Debug)]
pub struct Host<'a> {
    instances: Vec<Instance<'a>>,
}

impl<'a> Host<'a> {
    /// Starts the parts of each ticket with its proposals. An error says which start was
    /// refused.
    pub fn start(module: &mut impl Part, tickets: &[&'a Ticket]) -> Result<Self, String> {
        let instances = tickets.iter().map(|ticket| start_all(module, ticket));
        Ok(Host { instances: instances.collect::<Result<_, _>>()? })
    }

    /// The states of an instance's parts.
    pub fn states(&self, instance: usize) -> &[Guarded] {
        &self.instances[instance].states
    }

    /// The state that a call is about.
    pub fn state(&mut self, call: Call) -> &mut Guarded {
        &mut self.instances[call.instance].states[usize::from(call.process) - 1]
    }

    /// Makes a call. A part closes on what the ticket lets through of what was yielded.
    pub fn make(&mut self, module: &mut impl Part, call: Call) -> Answer {
        match call.act {
            Act::Speak => self.speak(module, call),
            Act::Close => {
                let heard = self.heard(call);
                self.close(module, call, &heard)
            }
        }
    }

    /// Calls a part to speak, and keeps what it yields.
    pub fn speak(&mut self, module: &mut impl Part, call: Call) -> Answer {
        let mut output = [FILL; GUARDED];
        let state = &self.state(call)[..STATE_LENGTH];
        let number = module.speak(state, &mut output[..ROOM]);
        let instance = &mut self.instances[call.instance];
        if instance.round != call.round {
            instance.round = call.round;
            instance.kept.clear();
        }
        if number == SPEECH_LENGTH as u64 {
            let speech = output[..SPEECH_LENGTH].try_into().expect("eight bytes");
            instance.kept.push((call.process, speech));
        }
        Answer { number, output }
    }

    /// What the process of a call hears in its round.
    pub fn heard(&self, call: Call) -> Vec<u8> {
        let Instance { ticket, round, kept, .. } = &self.instances[call.instance];
        let kept = kept.iter().filter(|_| *round == call.round);
        let heard = kept.flat_map(|(sender, speech)| {
            &speech[..let_through(ticket, call.round, *sender, call.process)]
        });
        heard.copied().collect()
    }

    /// Calls a part to close its round on these bytes.
    pub fn close(&mut self, module: &mut impl Part, call: Call, heard: &[u8]) -> Answer {
        let state = &mut self.state(call)[..STATE_LENGTH];
        Answer { number: module.close(state, heard), output: [FILL; GUARDED] }
    }
}

fn start_all<'a>(module: &mut impl Part, ticket: &'a Ticket) -> Result<Instance<'a>, String> {
    let mut states = vec![[FILL; GUARDED]; ticket.proposals.len()];
    for ((id, &value), state) in (1..).zip(&ticket.proposals).zip(&mut states) {
        let (n, t) = (u64::from(ticket.n), u64::from(ticket.t));
        let answer = module.start(id, n, t, value, &mut state[..STATE_LENGTH]);
        if answer != 0 {
            return Err(format!("starting process {id} answers {answer}"));
        }
    }
    Ok(Instance { ticket, states, round: 0, kept: Vec::new() })
}

/// What a call is to answer by the run, and the state that it is to leave.
fn expected(run: &RunStates, call: Call) -> (Answer, Guarded) {
    let Call { round, act, process, .. } = call;
    let before = run.state(process, round);
    let mut output = [FILL; GUARDED];
    let number = match act {
        _ if !run.is_open(process, round) => NOT_OPEN,
        Act::Speak if process == round => {
            let [.., a, b, c, d] = before;
            output[..SPEECH_LENGTH].copy_from_slice(&[0x21, round, a, b, c, d, 0x22, round]);
            SPEECH_LENGTH as u64
        }
        _ => 0,
    };
    let after = match act {
        Act::Speak => before,
        Act::Close => run.state(process, round + 1),
    };
    (Answer { number, output }, guarded(&after))
}

/// What differs in one call, if anything does.
fn check_call(run: &RunStates, call: Call, answer: Answer, state: Guarded) -> Result<(), String> {
    let right = expected(run, call);
    if (answer, state) == right {
        return Ok(());
    }
    let shown = |(Answer { number, output }, state): (Answer, Guarded)| {
        format!("{number} with state {state:02X?} and output {output:02X?}")
    };
    Err(format!("{call} answers {}, by the run {}", shown((answer, state)), shown(right)))
}

/// Which part of an instance is in another state than by the run, if any is.
fn check_states(right: &[StateBytes], states: &[Guarded]) -> Result<(), String> {
    let mut pairs = (1..).zip(states.iter().zip(right));
    let differing = pairs.find(|(_, (state, right))| **state != guarded(right));
    differing.map_or(Ok(()), |(process, (state, right))| {
        Err(format!("process {process} is in state {state:02X?}, by the run {right:02X?}"))
    })
}

/// The calls of the round in which `calls` break off, for who wants to make them again.
fn last_calls(calls: &[Call]) -> String {
    let last = calls.last().expect("a call");
    let own = calls.iter().filter(|call| call.instance == last.instance);
    let own = own.filter(|call| call.round == last.round);
    let shown = own.map(|call| match call.act {
        Act::Speak => format!("speak {}", call.process),
        Act::Close => format!("close {}", call.process),
    });
    shown.collect::<Vec<_>>().join(", ")
}

/// Starts the parts of these runs and makes the calls, each as `make` does it. Every call
/// is to answer what the run says and to leave the part in the state that it says; and so
/// are all parts to be as each round begins, and in the end. An error says what differs.
pub fn play<'a, M: Part>(
    module: &mut M,
    runs: &[&RunStates<'a>],
    calls: &[Call],
    mut make: impl FnMut(&mut Host<'a>, &mut M, Call) -> Answer,
) -> Result<(), String> {
    let tickets: Vec<&Ticket> = runs.iter().map(|run| run.ticket()).collect();
    let mut host = Host::start(module, &tickets)?;
    let mut rounds = vec![0; runs.len()];
    for (place, &call) in calls.iter().enumerate() {
        let run = runs[call.instance];
        let so_far = |what| format!("{what}; its calls: {}", last_calls(&calls[..=place]));
        if rounds[call.instance] != call.round {
            rounds[call.instance] = call.round;
            check_states(run.begins(call.round), host.states(call.instance))
                .map_err(|what| so_far(format!("as round {} begins, {what}", call.round)))?;
        }
        let answer = make(&mut host, module, call);
        check_call(run, call, answer, *host.state(call)).map_err(so_far)?;
    }
    let mut ends = runs.iter().enumerate();
    ends.try_for_each(|(instance, run)| check_states(run.ends(), host.states(instance)))
        .map_err(|what| format!("in the end {what}"))
}

#[cfg(test)]
mod tests {
    use super::*;
    use crate::patterns::failures_of;
    use crate::process::{Message, Process};
    use crate::switch::{Fate, Uplink};
    use crate::{worked, Simulator};

    /// How many bytes of each process's messages go out to the others by its line.
    fn by_messages(ticket: &Ticket, sender: u8) -> Vec<usize> {
        let mut lengths = vec![0; ticket.proposals.len()];
        let crash = ticket.failures.first().filter(|failure| failure.round == sender);
        let mut uplink = Uplink::new(crash.map(|failure| failure.crash));
        for (to, message) in Process::new(sender, 0).messages(ticket.n) {
            let length = if message == Message::Commit { 2 } else { DATA_LENGTH };
            match uplink.fate(to, message) {
                Fate::Sent => lengths[usize::from(to) - 1] += length,
                Fate::Lost => {}
                Fate::Crashed => break,
            }
        }
        lengths
    }

    #[test]
    fn what_is_let_through_is_what_the_line_lets_out() {
        for (n, t, sender) in [(1, 0, 1), (4, 0, 1), (5, 3, 1), (5, 3, 3), (5, 4, 5)] {
            for failure in failures_of(sender, n, t) {
                let failures = vec![failure];
                let ticket = Ticket { n, t, proposals: vec![0; usize::from(n)], failures };
                let lengths: Vec<usize> =
                    (1..=n).map(|to| let_through(&ticket, sender, sender, to)).collect();
                assert_eq!(lengths, by_messages(&ticket, sender), "{ticket}");
            }
        }
    }

    #[test]
    fn what_is_yielded_is_kept_for_the_round_alone() {
        let ticket = Ticket { failures: Vec::new(), ..worked::case(1) };
        let mut module = Simulator::new();
        let mut host = Host::start(&mut module, &[&ticket]).expect("no refusal");
        let call = |round, act, process| Call { instance: 0, round, act, process };
        assert_eq!(host.heard(call(1, Act::Close, 3)), []);
        assert_eq!(host.make(&mut module, call(1, Act::Speak, 1)).number, 8);
        assert_eq!(host.make(&mut module, call(1, Act::Close, 1)).number, 0);
        // By now process 1 has decided.
        assert_eq!(host.make(&mut module, call(1, Act::Speak, 1)).number, NOT_OPEN);
        assert_eq!(host.heard(call(1, Act::Close, 3)), [0x21, 1, 0, 0, 0, 10, 0x22, 1]);
        assert_eq!(host.heard(call(1, Act::Close, 1)), []);
        assert_eq!(host.heard(call(2, Act::Close, 3)), []);
        host.make(&mut module, call(2, Act::Speak, 2));
        assert_eq!(host.heard(call(1, Act::Close, 3)), []);
    }
}
