//! The counts of a result, and the reasons of Paper 7, by another way than the
//! simulation's: read off the ticket and how the processes end, by sets or by document
//! 01's numbers, and not message by message. Tests hold counts to it, those of the rule
//! before Paper 4 too, and reasons.

use crate::process::{MessageCounts, Status};
use crate::round_reason::RoundReason;
use crate::ticket::{Crash, Ticket};

/// The round in which a process ends; none has ended that is active.
pub fn end_round(end: Status) -> u8 {
    match end {
        Status::Decided(round) | Status::Crashed(round) => round,
        Status::Active => u8::MAX,
    }
}

/// Whether a process that ends so has crashed when `round` begins.
pub fn crashed_before(end: Status, round: u8) -> bool {
    end_round(end) < round && matches!(end, Status::Crashed(_))
}

/// Whether it has decided when `round` begins.
pub fn decided_before(end: Status, round: u8) -> bool {
    end_round(end) < round && matches!(end, Status::Decided(_))
}

/// Whether it crashes in `round` itself.
pub fn crashes_in(end: Status, round: u8) -> bool {
    end == Status::Crashed(round)
}

/// What document 01 counts of process `id`, all that it sends, if it ends so: "n − r,
/// or, in step 01, the number of ones in its set, or 0 in step 00. Commits are n − r,
/// or the count."
pub fn sent(ticket: &Ticket, end: Status, id: u8) -> MessageCounts {
    let above = ticket.n - id;
    let line = ticket.failures.iter().find(|failure| failure.process == id);
    let (data, commits) = match (end, line.map(|failure| failure.crash)) {
        (end, _) if end_round(end) != id => (0, 0),
        (Status::Crashed(_), Some(Crash::BeforeSending)) => (0, 0),
        (Status::Crashed(_), Some(Crash::SendingData { reached })) => {
            (reached.count_ones() as u8, 0)
        }
        (Status::Crashed(_), Some(Crash::SendingCommits { sent })) => (above, sent),
        _ => (above, above),
    };
    MessageCounts { data, commits }
}

/// The processes to which `sender` sends data, and those to which it sends
/// commits, if the processes end so. It sends in its own round alone, and so
/// nothing if it ends before.
pub fn recipients(ticket: &Ticket, ends: &[Status], sender: u8) -> [Vec<u8>; 2] {
    let above: Vec<u8> = (sender + 1..=ticket.n).collect();
    let line = ticket.failures.iter().find(|failure| failure.process == sender);
    match (ends[usize::from(sender) - 1], line.map(|failure| failure.crash)) {
        (end, _) if end_round(end) != sender => [Vec::new(), Vec::new()],
        (Status::Crashed(_), Some(Crash::BeforeSending)) => [Vec::new(), Vec::new()],
        (Status::Crashed(_), Some(Crash::SendingData { reached })) => {
            let gets = |to: &u8| reached >> (to - 1) & 1 == 1;
            [above.into_iter().filter(gets).collect(), Vec::new()]
        }
        (Status::Crashed(_), Some(Crash::SendingCommits { sent })) => {
            [above, (ticket.n - sent + 1..=ticket.n).collect()]
        }
        _ => [above.clone(), above],
    }
}

/// How many messages of `sender` go to processes that end as `is_counted` says.
pub fn counted(
    ticket: &Ticket,
    ends: &[Status],
    sender: u8,
    is_counted: impl Fn(Status) -> bool,
) -> MessageCounts {
    let [data, commits] = recipients(ticket, ends, sender).map(|recipients| {
        let ends = recipients.into_iter().map(|to| ends[usize::from(to) - 1]);
        ends.filter(|&end| is_counted(end)).count() as u8
    });
    MessageCounts { data, commits }
}

/// The reason of process `id` in `round`, if the processes end so.
pub fn reason(ticket: &Ticket, ends: &[Status], id: u8, round: u8) -> RoundReason {
    let end = ends[usize::from(id) - 1];
    let [data, commits] = recipients(ticket, ends, round);
    if end_round(end) < round {
        RoundReason::EndedBefore
    } else if crashes_in(end, round) {
        RoundReason::Crashed
    } else if id == round {
        RoundReason::Coordinated
    } else if commits.contains(&id) {
        RoundReason::Committed
    } else if data.contains(&id) {
        RoundReason::ValueOnly
    } else if crashed_before(ends[usize::from(round) - 1], round) {
        RoundReason::CoordinatorCrashedBefore
    } else {
        RoundReason::CoordinatorCrashedNow
    }
}

#[cfg(test)]
mod tests {
    use super::*;
    use crate::patterns::failure_patterns;
    use crate::process::Process;
    use crate::simulation::Simulation;

    fn small_tickets() -> impl Iterator<Item = Ticket> {
        [(1, 0), (2, 1), (3, 2), (4, 3)].into_iter().flat_map(|(n, t)| {
            let proposals: Vec<u32> = (1..=u32::from(n)).collect();
            let patterns = failure_patterns(n, t).into_iter();
            patterns.map(move |failures| Ticket { n, t, proposals: proposals.clone(), failures })
        })
    }

    fn run(ticket: &Ticket) -> (Vec<Status>, Vec<MessageCounts>) {
        let mut simulation = Simulation::new(ticket);
        simulation.run(|_, _| {});
        let processes = simulation.processes().iter();
        (
            processes.clone().map(Process::status).collect(),
            processes.map(Process::carried).collect(),
        )
    }

    #[test]
    fn every_small_run_is_recounted() {
        for ticket in small_tickets() {
            let (ends, carried) = run(&ticket);
            for (id, &carried) in (1..).zip(&carried) {
                let end = ends[usize::from(id) - 1];
                let all = counted(&ticket, &ends, id, |_| true);
                assert_eq!(all, sent(&ticket, end, id), "process {id} of {ticket}");
                let up = counted(&ticket, &ends, id, |end| end_round(end) >= id);
                assert_eq!(up, carried, "process {id} of {ticket}");
            }
        }
    }

    #[test]
    fn every_small_run_has_its_reasons() {
        for ticket in small_tickets() {
            let (ends, _) = run(&ticket);
            let mut simulation = Simulation::new(&ticket);
            while let Some(round) = simulation.next_round() {
                for (id, told) in (1..).zip(simulation.reasons()) {
                    let by_ends = reason(&ticket, &ends, id, round);
                    assert_eq!(told, by_ends, "process {id} in round {round} of {ticket}");
                }
            }
        }
    }
}
