//! What demands 2 and 3, the paper's bound and Papers 1, 2, 4, 6 and 7 of document 02
//! claim of every run, tried on random tickets. (Those of Paper 9 are in pricing.rs, those
//! of Paper 14 in orders.rs.)

mod tickets;

use std::collections::BTreeSet;

use second::generate;
use second::process::{Message, MessageCounts, Process, Status};
use second::recount::{self, counted, crashed_before, crashes_in, decided_before, sent};
use second::report::result_length;
use second::round_reason::MOST_REASONS;
use second::separate::{run_separately, End};
use second::simulation::{Simulation, Totals};
use second::switch::{Fate, Uplink};
use second::ticket::{Crash, Ticket};
use second::{RoundReason, Simulator};
use tickets::random_tickets;

/// What becomes of each process, with the value it decides, and the totals.
fn run(ticket: &Ticket) -> (Vec<(Status, u32)>, Totals) {
    let mut simulation = Simulation::new(ticket);
    let totals = simulation.run(|_, _| {});
    let processes = simulation.processes().iter();
    let ends = processes.map(|process| match process.status() {
        Status::Crashed(round) => (Status::Crashed(round), 0),
        status => (status, process.estimate()),
    });
    (ends.collect(), totals)
}

#[test]
fn validity_agreement_and_termination_by_round_f_plus_1() {
    for (_, ticket) in random_tickets(1) {
        let (ends, totals) = run(&ticket);
        let mut decided = ends.iter().filter(|(status, _)| matches!(status, Status::Decided(_)));
        let &(_, value) = decided.clone().next().expect("at least n - t decide");
        assert!(ticket.proposals.contains(&value), "{ticket}");
        assert!(decided.all(|&(_, other)| other == value), "{ticket}");
        for (status, _) in ends {
            match status {
                Status::Decided(round) => assert!(round <= totals.crashes + 1, "{ticket}"),
                Status::Crashed(_) => {}
                Status::Active => panic!("{ticket}"),
            }
        }
        assert!(totals.crashes <= ticket.t && totals.rounds <= totals.crashes + 1, "{ticket}");
    }
}

#[test]
fn more_commits_let_nobody_decide_later_or_otherwise() {
    for (mut rng, first) in random_tickets(2) {
        let mut second = first.clone();
        second.failures.retain_mut(|failure| match &mut failure.crash {
            Crash::SendingCommits { sent } => {
                *sent = rng.between(*sent, first.n - failure.process);
                !rng.one_in(4)
            }
            _ => true,
        });
        for (before, after) in run(&first).0.into_iter().zip(run(&second).0) {
            if let (Status::Decided(round), value) = before {
                let (Status::Decided(earlier), same) = after else {
                    panic!("{first}{second}");
                };
                assert!(earlier <= round && same == value, "{first}{second}");
            }
        }
    }
}

/// Document 01's bound by speakers, and Paper 4's on commits, which is met by
/// runs of one speaker and of several.
#[test]
fn messages_stay_within_the_papers_bounds() {
    let mut met = [0; 2];
    for (_, ticket) in random_tickets(3) {
        let (_, totals) = run(&ticket);
        let (n, k) = (u32::from(ticket.n), u32::from(totals.speakers));
        let [data, commits] = [totals.data, totals.commits].map(u32::from);
        assert!(k <= u32::from(totals.crashes) + 1, "{ticket}");
        assert!(data + commits + k * (k - 1) / 2 <= k * (2 * n - k - 1), "{ticket}");
        assert!(commits + k <= n, "{ticket}");
        met[usize::from(k > 1)] += usize::from(commits > 0 && commits + k == n);
    }
    assert!(met[0] > 500 && met[1] > 100, "{met:?}");
}

/// What was carried of each process.
fn carried(ticket: &Ticket) -> Vec<MessageCounts> {
    let mut simulation = Simulation::new(ticket);
    simulation.run(|_, _| {});
    simulation.processes().iter().map(Process::carried).collect()
}

/// Read off the ticket and the ends: what document 01 counts of a process, all that
/// it sends, is the number of those to whom it sends; and less what goes to processes
/// that crashed or decided in earlier rounds it is what was carried. A process that
/// crashes in the round itself counts as an addressee.
#[test]
fn the_counts_are_those_before_paper_4_less_what_is_dropped() {
    let mut tried = [[0; 2]; 3];
    for (_, ticket) in random_tickets(7) {
        let ends: Vec<Status> = run(&ticket).0.into_iter().map(|(status, _)| status).collect();
        for (id, carried) in (1..).zip(carried(&ticket)) {
            let sent_to = |whom: fn(Status, u8) -> bool| {
                let count = counted(&ticket, &ends, id, |end| whom(end, id));
                [count.data, count.commits]
            };
            let all = sent(&ticket, ends[usize::from(id) - 1], id);
            let all = [all.data, all.commits];
            assert_eq!(sent_to(|_, _| true), all, "process {id} of {ticket}");
            let [crashed, decided, crashing] =
                [crashed_before, decided_before, crashes_in].map(sent_to);
            for (kind, carried) in [carried.data, carried.commits].into_iter().enumerate() {
                let dropped = crashed[kind] + decided[kind];
                assert_eq!(carried, all[kind] - dropped, "process {id} of {ticket}");
            }
            for (tried, count) in tried.iter_mut().zip([crashed, decided, crashing]) {
                (0..2).for_each(|kind| tried[kind] += usize::from(count[kind] > 0));
            }
        }
    }
    assert!(tried.iter().flatten().all(|&count| count > 100), "{tried:?}");
}

/// The byte that two digits make.
fn byte_at(line: &str, place: usize) -> u8 {
    u8::from_str_radix(&line[2 * place..2 * place + 2], 16).expect("two digits")
}

#[test]
fn the_bytes_that_are_written_add_up_and_keep_the_bound_on_commits() {
    let mut simulator = Simulator::new();
    for (_, ticket) in random_tickets(8) {
        let printed = simulator.print(&ticket.text(), result_length(ticket.n));
        let lines: Vec<&str> = printed.lines().collect();
        let (last, processes) = lines.split_last().expect("a result");
        assert_eq!(processes.len(), usize::from(ticket.n), "{ticket}");
        assert!(processes.iter().all(|line| line.len() == 20) && last.len() == 16, "{ticket}");
        let [data, commits] = [4, 6]
            .map(|place| u16::from_be_bytes([byte_at(last, place), byte_at(last, place + 1)]));
        for (place, in_all) in [(8, data), (9, commits)] {
            let sum: u16 = processes.iter().map(|line| u16::from(byte_at(line, place))).sum();
            assert_eq!(sum, in_all, "{ticket}");
        }
        assert!(commits + u16::from(byte_at(last, 3)) <= u16::from(ticket.n), "{ticket}");
    }
}

#[test]
fn an_output_is_too_short_just_below_21n_plus_17_bytes() {
    let mut simulator = Simulator::new();
    for (_, ticket) in random_tickets(9).take(500) {
        let exact = 21 * usize::from(ticket.n) + 17;
        let whole = simulator.print(&ticket.text(), exact);
        assert_eq!(whole.len(), exact, "{ticket}");
        for room in [0, exact - 4 * usize::from(ticket.n), exact - 1] {
            let mut output = vec![0xEE; room];
            let refusal = simulator.run(&ticket.text(), &mut output).expect_err("a refusal");
            assert_eq!(refusal.to_string(), "1F090000", "{ticket}");
            assert!(output.iter().all(|&byte| byte == 0xEE), "{ticket}");
        }
        let mut output = vec![0xEE; exact + 1];
        assert_eq!(simulator.run(&ticket.text(), &mut output), Ok(exact), "{ticket}");
        assert_eq!((&output[..exact], output[exact]), (whole.as_bytes(), 0xEE), "{ticket}");
    }
}

#[test]
fn texts_that_differ_in_the_case_of_letters_alone_are_answered_alike() {
    let mut simulator = Simulator::new();
    let (mut differing, mut refused) = (0, 0);
    for (mut rng, ticket) in random_tickets(5) {
        let written = generate::written(&mut rng, &ticket);
        let damaged = generate::damaged(&mut rng, &ticket);
        for text in [written, damaged] {
            let other = generate::in_other_letters(&mut rng, &text);
            let room = result_length(ticket.n) - usize::from(rng.one_in(8));
            let printed = simulator.print(&text, room);
            let shown = text.escape_ascii();
            assert_eq!(simulator.print(&other, room), printed, "{shown}");
            assert!(!printed.bytes().any(|byte| byte.is_ascii_lowercase()), "{shown}");
            let round = simulator.settling_round(&text);
            assert_eq!(simulator.settling_round(&other), round, "{shown}");
            differing += usize::from(other != text);
            refused += usize::from(other != text && printed.starts_with("1F"));
        }
    }
    assert!(differing > 4000 && refused > 1000, "{differing} {refused}");
}

#[test]
fn separate_local_parts_decide_alike() {
    let mut simulator = Simulator::new();
    for (_, ticket) in random_tickets(4) {
        let separate = run_separately(&mut simulator, &ticket);
        let ends = run(&ticket).0.into_iter().zip(carried(&ticket));
        let ends = ends.map(|((status, value), carried)| End { status, value, carried });
        assert_eq!(separate.map(|run| run.ends), Ok(ends.collect()), "{ticket}");
    }
}

/// The values that the processes up at the end of each round hold, those up and
/// undecided and those that have decided apart.
fn values_by_round(ticket: &Ticket) -> Vec<[BTreeSet<u32>; 2]> {
    let mut by_round = Vec::new();
    Simulation::new(ticket).run(|_, processes| {
        let values = |is_of: fn(Status) -> bool| {
            let processes = processes.iter().filter(|process| is_of(process.status()));
            processes.map(Process::estimate).collect()
        };
        by_round.push([
            values(|status| status == Status::Active),
            values(|status| matches!(status, Status::Decided(_))),
        ]);
    });
    by_round
}

/// 02, Paper 6: the round named qualifies, no lower one does, and every later one of
/// the run does, by the value that is decided; nobody decides before it; and with one
/// proposal alone it is round 1.
#[test]
fn the_settling_round_is_the_lowest_and_every_later_round_qualifies() {
    let mut simulator = Simulator::new();
    let mut tried = [0; 4];
    for (_, ticket) in random_tickets(10) {
        let settled = simulator.settling_round(&ticket.text()).expect("an accepted ticket");
        let by_round = values_by_round(&ticket);
        let [_, decisions] = by_round.last().expect("a round").clone();
        for (round, [undecided, decided]) in (1..).zip(&by_round) {
            let held: BTreeSet<u32> = undecided.union(decided).copied().collect();
            assert_eq!(held.len() <= 1, round >= settled, "round {round} of {ticket}");
            assert!(round >= settled || decided.is_empty(), "round {round} of {ticket}");
            assert!(round < settled || held == decisions, "round {round} of {ticket}");
        }
        let rounds = by_round.len() as u8;
        assert!(1 <= settled && settled <= rounds, "{ticket}");
        let one_proposal = ticket.proposals.iter().all(|&value| value == ticket.proposals[0]);
        assert!(!one_proposal || settled == 1, "{ticket}");
        let [_, decided] = &by_round[usize::from(settled) - 1];
        tried[0] += usize::from(settled < rounds);
        tried[1] += usize::from(1 < settled && settled < rounds);
        tried[2] += usize::from(1 < settled && settled == rounds);
        tried[3] += usize::from(decided.is_empty());
    }
    assert!(tried.iter().all(|&count| count > 100), "{tried:?}");
}

/// What separate parts hold, round by round, settles where the run does.
#[test]
fn separate_local_parts_settle_alike() {
    let mut simulator = Simulator::new();
    for (_, ticket) in random_tickets(11) {
        let rounds = simulator.settling_rounds(&ticket.text()).expect("an accepted ticket");
        let separate = run_separately(&mut simulator, &ticket).expect("no refusal");
        let rounds_of_run = usize::from(run(&ticket).1.rounds);
        let by_parts = (1..).zip(&separate.one_value[..rounds_of_run]);
        let by_parts: Vec<u8> = by_parts.filter(|(_, &one)| one).map(|(round, _)| round).collect();
        assert_eq!(by_parts, rounds, "{ticket}");
    }
}

/// Whether each process hears the value, and whether a commit, in a round that begins
/// so: what the coordinator's line lets out, to those that are up and undecided and do
/// not crash in it.
fn heard(round: u8, before: &[Process]) -> Vec<[bool; 2]> {
    let coordinator = &before[usize::from(round) - 1];
    let mut heard = vec![[false; 2]; before.len()];
    if !coordinator.is_active() {
        return heard;
    }
    let mut uplink = Uplink::new(coordinator.crash_in(round));
    for (to, message) in coordinator.messages(before.len() as u8) {
        let recipient = &before[usize::from(to) - 1];
        let hears = recipient.is_active() && recipient.crash_in(round).is_none();
        if uplink.fate(to, message) == Fate::Sent && hears {
            heard[usize::from(to) - 1][usize::from(message == Message::Commit)] = true;
        }
    }
    heard
}

/// Which of the seven reasons are true, in the words of Paper 7, of a process in a
/// round that begins and ends so.
fn true_reasons(round: u8, id: u8, before: &[Process], after: &[Process]) -> Vec<u8> {
    let place = usize::from(id) - 1;
    let coordinator = usize::from(round) - 1;
    let stays_up = before[place].is_active() && !after[place].has_crashed();
    let decides = before[place].is_active() && after[place].status() == Status::Decided(round);
    let [value, commit] = heard(round, before)[place];
    let crashed_before = before[coordinator].has_crashed();
    let crashes = after[coordinator].status() == Status::Crashed(round);
    let reasons = [
        id == round && decides,
        stays_up && value && commit,
        stays_up && value && !commit,
        stays_up && !value && !commit && crashed_before,
        stays_up && !value && !commit && crashes,
        after[place].status() == Status::Crashed(round),
        !before[place].is_active(),
    ];
    (1..).zip(reasons).filter(|(_, is_true)| *is_true).map(|(reason, _)| reason).collect()
}

/// 02, Paper 7: exactly one reason applies, and it is the one that is given, process by
/// process and all at once; so it is by how the processes end.
#[test]
fn the_reason_given_is_the_one_that_applies() {
    let mut simulator = Simulator::new();
    let mut tried = [0; 8];
    for (mut rng, ticket) in random_tickets(12) {
        let ends: Vec<Status> = run(&ticket).0.into_iter().map(|(status, _)| status).collect();
        let mut simulation = Simulation::new(&ticket);
        let mut told = Vec::new();
        loop {
            let before = simulation.processes().to_vec();
            let Some(round) = simulation.next_round() else { break };
            let reasons: Vec<RoundReason> = simulation.reasons().collect();
            for (id, &reason) in (1..=ticket.n).zip(&reasons) {
                let applies = true_reasons(round, id, &before, simulation.processes());
                assert_eq!(applies, [reason.number()], "process {id}, round {round}: {ticket}");
                let by_ends = recount::reason(&ticket, &ends, id, round);
                assert_eq!(reason, by_ends, "process {id}, round {round}: {ticket}");
                tried[usize::from(reason.number())] += 1;
            }
            let one = rng.between(1, ticket.n);
            let given = simulator.reason(&ticket.text(), one.into(), round.into());
            assert_eq!(given, Ok(reasons[usize::from(one) - 1]), "round {round}: {ticket}");
            told.extend(reasons.into_iter().map(RoundReason::number));
        }
        let mut output = vec![0; told.len()];
        assert_eq!(simulator.reasons(&ticket.text(), &mut output), Ok(told.len()), "{ticket}");
        assert_eq!(output, told, "{ticket}");
    }
    assert!(tried[1..].iter().all(|&count| count > 1000), "{tried:?}");
}

/// A process decides in the round of its reason 1 or 2 and crashes in that of its
/// reason 6; it has one of these once, 3, 4 or 5 in every earlier round, and 7 in every
/// later one.
#[test]
fn reasons_tell_how_and_when_each_process_ends() {
    let mut simulator = Simulator::new();
    for (_, ticket) in random_tickets(13) {
        let mut output = vec![0; MOST_REASONS];
        let written = simulator.reasons(&ticket.text(), &mut output).expect("an accepted ticket");
        let (ends, totals) = run(&ticket);
        let n = usize::from(ticket.n);
        assert_eq!(written, n * usize::from(totals.rounds), "{ticket}");
        for (place, (status, _)) in ends.into_iter().enumerate() {
            let reasons = output[..written].chunks(n).map(|of_round| of_round[place]);
            let (end, endings): (u8, &[u8]) = match status {
                Status::Decided(round) if usize::from(round) == place + 1 => (round, &[1]),
                Status::Decided(round) => (round, &[2]),
                Status::Crashed(round) => (round, &[6]),
                Status::Active => panic!("{ticket}"),
            };
            for (round, reason) in (1..).zip(reasons) {
                let allowed: &[u8] = match round {
                    _ if round < end => &[3, 4, 5],
                    _ if round > end => &[7],
                    _ => endings,
                };
                assert!(allowed.contains(&reason), "process {}: {ticket}", place + 1);
            }
        }
    }
}

/// No reason is given of a process or a round that there is not, however large its
/// number; and a refused ticket has its refusal whatever is asked.
#[test]
fn reasons_outside_the_run_are_refused_with_13() {
    let mut simulator = Simulator::new();
    for (mut rng, ticket) in random_tickets(14).take(1000) {
        let (n, rounds) = (u64::from(ticket.n), u64::from(run(&ticket).1.rounds));
        let large = [257, 0x1_0000_0001, u64::MAX];
        let asked = [(0, 1), (n + 1, 1), (1, 0), (1, rounds + 1), (n, u64::from(ticket.t) + 2)];
        let asked = asked.into_iter().chain(large.map(|process| (process, 1)));
        for (process, round) in asked.chain(large.map(|round| (1, round))) {
            let refusal = simulator.reason(&ticket.text(), process, round).expect_err("a refusal");
            assert_eq!(refusal.to_string(), "1F0D0000", "{process} {round}: {ticket}");
        }
        let damaged = generate::damaged(&mut rng, &ticket);
        if let Err(refusal) = simulator.settling_round(&damaged) {
            for (process, round) in [(1, 1), (0, 0), (u64::MAX, u64::MAX)] {
                assert_eq!(simulator.reason(&damaged, process, round), Err(refusal));
            }
            assert_eq!(simulator.reasons(&damaged, &mut []), Err(refusal));
        }
    }
}

/// What separate parts hear, round by round, gives the same reasons.
#[test]
fn separate_local_parts_have_the_same_reasons() {
    let mut simulator = Simulator::new();
    for (_, ticket) in random_tickets(15) {
        let separate = run_separately(&mut simulator, &ticket).expect("no refusal");
        let mut output = vec![0; MOST_REASONS];
        let written = simulator.reasons(&ticket.text(), &mut output).expect("an accepted ticket");
        let by_parts = separate.reasons.concat();
        assert_eq!(by_parts[..written], output[..written], "{ticket}");
        assert!(by_parts[written..].iter().all(|&reason| reason == 7), "{ticket}");
    }
}
