//! The search for counterexamples: every failure pattern of a few processes,
//! and the worked runs.

use std::fmt;

use super::claims::{answer, answer_of_simulation, is_case_1_without_idle, no_later, Claim};
use super::impostors;
use super::model::Run;
use super::rules::{right, Rules};
use crate::patterns::{combinations, failures_of};
use crate::ticket::{Crash, Failure, Ticket};
use crate::worked;

/// The most processes of a small ticket.
pub const FEW_PROCESSES: u8 = 4;

/// A ticket, or two paired ones, of which a claim does not hold.
#[derive(Clone, Debug)]
pub struct Counterexample {
    first: Ticket,
    second: Option<Ticket>,
}

/// The texts of the tickets, a blank in the place of each 0A.
impl fmt::Display for Counterexample {
    fn fmt(&self, f: &mut fmt::Formatter) -> fmt::Result {
        let on_one_line = |ticket: &Ticket| ticket.to_string().trim_end().replace('\n', " ");
        write!(f, "{}", on_one_line(&self.first))?;
        match &self.second {
            Some(second) => write!(f, " and then {}", on_one_line(second)),
            None => Ok(()),
        }
    }
}

/// A ticket and its run.
pub type TicketRun = (Ticket, Run);

/// The runs of every ticket of at most four processes that the rules let pass,
/// with every t and proposals all different, the smallest first; then those of
/// the worked runs.
pub fn runs(rules: &Rules) -> Vec<TicketRun> {
    let mut tickets = Vec::new();
    for n in 1..=FEW_PROCESSES {
        for t in 0..n {
            let lines: Vec<_> = (1..=n).map(|process| lines_of(process, n, t, rules)).collect();
            let mut patterns = combinations(&lines, usize::from((rules.most_failures)(t)));
            patterns.sort_by_key(Vec::len);
            let proposals: Vec<u32> = (1..=u32::from(n)).map(|process| 10 * process).collect();
            let ticket = |failures| Ticket { n, t, proposals: proposals.clone(), failures };
            tickets.extend(patterns.into_iter().map(ticket));
        }
    }
    tickets.extend(worked::runs().map(|(_, ticket)| ticket));
    let with_run = |ticket: Ticket| {
        let run = Run::new(&ticket, rules);
        (ticket, run)
    };
    tickets.into_iter().map(with_run).collect()
}

/// Every failure line that the rules let `process` have.
fn lines_of(process: u8, n: u8, t: u8, rules: &Rules) -> Vec<Failure> {
    let mut lines = failures_of(process, n, t);
    lines.retain(|line| !right::is_commit_line(Some(line.crash)));
    lines.extend(commit_lines_of(process, n, t, rules));
    lines
}

/// Those of the commit step.
fn commit_lines_of(process: u8, n: u8, t: u8, rules: &Rules) -> Vec<Failure> {
    let rounds = (1..=t + 1).filter(|&round| (rules.commit_step_in)(process, round));
    let in_round = |round| {
        let lines = (0..=n - process).map(|sent| Failure::sending_commits(process, sent));
        lines.map(move |line| Failure { round, ..line })
    };
    rounds.flat_map(in_round).collect()
}

/// The first counterexample to `claim` among the world's `runs`, if there is
/// one. Pairs are looked for among tickets of at most four processes alone.
pub fn counterexample(claim: Claim, runs: &[TicketRun], rules: &Rules) -> Option<Counterexample> {
    let alone = |ticket: &Ticket| Counterexample { first: ticket.clone(), second: None };
    match claim {
        Claim::NoLater => {
            let small = runs.iter().filter(|(ticket, _)| ticket.n <= FEW_PROCESSES);
            small.into_iter().find_map(|first| paired_counterexample(first, rules))
        }
        Claim::IdleLinesTakenOut => {
            let mut cases = [7, 1].map(worked::case).into_iter();
            cases.find(|ticket| !is_case_1_without_idle(ticket, rules)).as_ref().map(alone)
        }
        Claim::RefusesImpostors => impostors::passes(rules).as_ref().map(alone),
        Claim::WorkedRun(name) => {
            let differs = |ticket: &Ticket| answer(ticket, rules) != answer_of_simulation(ticket);
            let named = worked::runs().into_iter().filter(|(other, _)| *other == name);
            named.map(|(_, ticket)| ticket).find(differs).as_ref().map(alone)
        }
        _ => {
            let mut failing = runs.iter().filter(|(ticket, run)| !claim.holds(ticket, run, rules));
            failing.next().map(|(ticket, _)| alone(ticket))
        }
    }
}

/// A ticket paired with the first in which a process decides later, otherwise
/// or not at all.
fn paired_counterexample((first, run): &TicketRun, rules: &Rules) -> Option<Counterexample> {
    let is_later = |second: &Ticket| !no_later(run, &Run::of_rounds(second, rules), rules);
    let second = paired_with(first, rules).into_iter().find(is_later)?;
    Some(Counterexample { first: first.clone(), second: Some(second) })
}

/// Every ticket that the rules pair with `first` as its second.
fn paired_with(first: &Ticket, rules: &Rules) -> Vec<Ticket> {
    let Ticket { n, t, .. } = *first;
    let mut patterns = vec![Vec::new()];
    for process in 1..=n {
        let line = first.failures.iter().find(|failure| failure.process == process).copied();
        let commit_lines = commit_lines_of(process, n, t, rules).into_iter().map(Some);
        let others = commit_lines.chain([None]).filter(|&other| lines_paired(line, other, rules));
        let choices: Vec<_> = [line].into_iter().chain(others).collect();
        let with_choices = |pattern: &Vec<Failure>| {
            let longer =
                |choice: &Option<Failure>| pattern.iter().copied().chain(*choice).collect();
            choices.iter().map(longer).collect::<Vec<_>>()
        };
        patterns = patterns.iter().flat_map(with_choices).collect();
    }
    patterns.retain(|pattern| pattern.len() <= usize::from((rules.most_failures)(t)));
    let other = u32::from(rules.proposals_differ);
    let proposals: Vec<u32> = first.proposals.iter().map(|value| value + other).collect();
    let ticket = |failures| Ticket { n, t, proposals: proposals.clone(), failures };
    patterns.into_iter().map(ticket).collect()
}

/// Whether a process may have the one failure line in the first ticket and the
/// other, which is not the same, in the second.
fn lines_paired(first: Option<Failure>, second: Option<Failure>, rules: &Rules) -> bool {
    let crash = |line: Option<Failure>| line.map(|failure| failure.crash);
    match (first, second) {
        _ if first == second => false,
        (Some(a), Some(b)) => match (a.crash, b.crash) {
            (Crash::SendingCommits { sent }, Crash::SendingCommits { sent: other }) => {
                a.round == b.round && (rules.counts_paired)(sent, other)
            }
            _ => false,
        },
        _ => (rules.line_in_one)(crash(first), crash(second)),
    }
}
