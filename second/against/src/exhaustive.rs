//! Everything small, every byte at every place of a ticket, every count of a
//! process, every settling round, every reason and every quote of some runs of each n,
//! the stored tickets, and every call of start, speak, close and price near a valid one.

use second::corpus::{self, Entry};
use second::interface::Agreement;
use second::local::{SPEECH_LENGTH, STATE_LENGTH};
use second::patterns::failure_patterns;
use second::pricing::HIGHEST_COST;
use second::report::result_length;
use second::run_states::RunStates;
use second::tenders::{self, RATE_SETS};
use second::ticket::{processes_above, MOST_PROCESSES};
use second::worked;
use second::{Failure, Ticket};

use crate::comparison::{rooms_around, rooms_at_limits, Comparison, Difference};

/// Every t and every accepted failure pattern of n ≤ 4 processes, each with
/// every proposal from two values and with all proposals different rate sets, and each
/// in other letters too.
pub fn tickets<M: Agreement>(comparison: &mut Comparison<M>) -> Result<(), Difference> {
    for n in 1..=4 {
        let rooms = rooms_around(n, 2);
        for t in 0..n {
            for failures in failure_patterns(n, t) {
                for proposals in proposals(n) {
                    let failures = failures.clone();
                    let text = Ticket { n, t, proposals, failures }.text();
                    comparison.ticket(&text, &rooms)?;
                    comparison.in_other_letters(&text, result_length(n))?;
                }
            }
        }
    }
    Ok(())
}

/// Cases 1 to 8, of up to 4 processes, with their parts called in every order (02, Paper
/// 14).
pub fn orders<M: Agreement>(comparison: &mut Comparison<M>) -> Result<(), Difference> {
    (1..=8).map(worked::case).try_for_each(|ticket| {
        let differs = |what| Difference::Ticket { text: ticket.text(), what };
        comparison.in_every_order(&RunStates::of(&ticket)).map_err(differs)
    })
}

/// Every mix of the calls of any two runs of n ≤ 2 processes, each in some order (02, Paper
/// 14). All proposals of the two are different.
pub fn mixes<M: Agreement>(comparison: &mut Comparison<M>) -> Result<(), Difference> {
    let of_two = |proposals: [u32; 2]| -> Vec<Vec<u8>> {
        let sizes = [(1, 0), (2, 0), (2, 1)];
        let tickets = sizes.into_iter().flat_map(|(n, t)| {
            let proposals = proposals[..usize::from(n)].to_vec();
            let patterns = failure_patterns(n, t).into_iter();
            patterns.map(move |failures| Ticket { n, t, proposals: proposals.clone(), failures })
        });
        tickets.map(|ticket| ticket.text()).collect()
    };
    let seconds = of_two([3, 4]);
    for first in of_two([1, 2]) {
        seconds.iter().try_for_each(|second| comparison.mixed(&first, second))?;
    }
    Ok(())
}

/// Two values in every way, and all different rate sets.
fn proposals(n: u8) -> Vec<Vec<u32>> {
    let two_values = (0..1 << n).map(|choice: u32| {
        let chosen = |process: u8| choice >> process & 1 == 1;
        (0..n).map(|process| if chosen(process) { u32::MAX } else { 0 }).collect()
    });
    let different = RATE_SETS[..usize::from(n)].to_vec();
    two_values.chain([different]).collect()
}

/// A ticket of each n with output buffers of every length up to its result's
/// and some more.
pub fn rooms<M: Agreement>(comparison: &mut Comparison<M>) -> Result<(), Difference> {
    for n in 1..=MOST_PROCESSES {
        let proposals = (1..=u32::from(n)).map(|process| process << 24).collect();
        let ticket = Ticket { n, t: n - 1, proposals, failures: Vec::new() };
        let longest = *rooms_around(n, 40).last().expect("some rooms");
        let rooms: Vec<usize> = (0..=longest).collect();
        comparison.ticket(&ticket.text(), &rooms)?;
        comparison.in_other_letters(&ticket.text(), longest)?;
    }
    Ok(())
}

/// For each n, every count of data and every count of commits that a process can
/// have in its line.
pub fn counts<M: Agreement>(comparison: &mut Comparison<M>) -> Result<(), Difference> {
    (1..=MOST_PROCESSES).try_for_each(|n| counts_of(comparison, n))
}

/// Those of every one of `n` processes.
pub fn counts_of<M: Agreement>(comparison: &mut Comparison<M>, n: u8) -> Result<(), Difference> {
    crashing_one_after_the_other(comparison, n)?;
    dropped(comparison, n)?;
    commits(comparison, n)
}

/// Every count of data: up to the last the processes crash, each while it sends
/// data to so many of those above it, who are all up, or while it sends so many
/// commits. Those who have a commit of the first decide, and what goes to them
/// after that is dropped. Then none sends anything; and then the first alone, to
/// all. Output buffers are of the lengths that may be taken for the result's.
fn crashing_one_after_the_other<M: Agreement>(
    comparison: &mut Comparison<M>,
    n: u8,
) -> Result<(), Difference> {
    let rooms = rooms_at_limits(n);
    let mut compare = |how: &dyn Fn(u8) -> Failure, crashing: u8| {
        let proposals = (1..=u32::from(n)).map(|process| process * 0x0101_0101).collect();
        let failures = (1..=crashing).map(how).collect();
        comparison.ticket(&Ticket { n, t: n - 1, proposals, failures }.text(), &rooms)
    };
    for count in 0..n {
        let some = |process: u8| count.min(n - process);
        let reached = |process: u8| processes_above(process, process + some(process));
        compare(&|process| Failure::sending_data(process, reached(process)), n - 1)?;
        compare(&|process| Failure::sending_commits(process, some(process)), n - 1)?;
    }
    compare(&|process| Failure::before_sending(process, process), n - 1)?;
    compare(&|process| Failure::before_sending(process, process), 0)
}

/// Every count of commits: those below a process crash before their first commit,
/// so that all above it are up, and it crashes after so many of its own.
fn commits<M: Agreement>(comparison: &mut Comparison<M>, n: u8) -> Result<(), Difference> {
    for last in 1..n {
        for count in 0..=n - last {
            let sent = |process| if process == last { count } else { 0 };
            let failures =
                (1..=last).map(|process| Failure::sending_commits(process, sent(process)));
            compare_failures(comparison, n, failures.collect())?;
        }
    }
    Ok(())
}

/// What process 2 sends while the last so many processes have decided in round 1,
/// have crashed in it, or crash in this very round; it sends to all, or crashes
/// after the first commit to another one, or while it sends data to the third
/// process and the last (02, Paper 4).
fn dropped<M: Agreement>(comparison: &mut Comparison<M>, n: u8) -> Result<(), Difference> {
    for count in 0..n.saturating_sub(1) {
        let last = n - count + 1..=n;
        let silent_in = |round| last.clone().map(move |id| Failure::before_sending(id, round));
        let fates: [Vec<Failure>; 3] = [
            vec![Failure::sending_commits(1, count)],
            [Failure::sending_commits(1, 0)].into_iter().chain(silent_in(1)).collect(),
            [Failure::sending_commits(1, 0)].into_iter().chain(silent_in(2)).collect(),
        ];
        let crashes_of_2 = [
            None,
            Some(Failure::sending_commits(2, (count + 1).min(n - 2))),
            Some(Failure::sending_data(2, processes_above(2, n) & (1 << 2 | 1 << (n - 1)))),
        ];
        for fate in &fates {
            for crash in crashes_of_2 {
                let (of_1, of_last) = fate.split_at(1);
                let failures = of_1.iter().copied().chain(crash).chain(of_last.iter().copied());
                let failures: Vec<Failure> = failures.collect();
                if failures.len() < usize::from(n) {
                    compare_failures(comparison, n, failures)?;
                }
            }
        }
    }
    Ok(())
}

/// For each n every settling round that a run of so many rounds can have (02,
/// Paper 6).
pub fn settling_rounds<M: Agreement>(comparison: &mut Comparison<M>) -> Result<(), Difference> {
    (1..=MOST_PROCESSES).try_for_each(|n| settling_rounds_of(comparison, n))
}

/// Those of `n` processes: the coordinators before that round crash before they
/// send anything, those from then on after all their data, and the last decides.
pub fn settling_rounds_of<M: Agreement>(
    comparison: &mut Comparison<M>,
    n: u8,
) -> Result<(), Difference> {
    for rounds in 1..=n {
        for settled in 1..=rounds {
            let crash = |process| {
                if process < settled {
                    Failure::before_sending(process, process)
                } else {
                    Failure::sending_commits(process, 0)
                }
            };
            compare_failures(comparison, n, (1..rounds).map(crash).collect())?;
        }
    }
    settled_in_silence(comparison, n)
}

/// Nobody sends anything before the last round. All propose one value, and settle in
/// round 1; or the last process proposes another one and crashes in the round before
/// the last, and the others settle then.
fn settled_in_silence<M: Agreement>(
    comparison: &mut Comparison<M>,
    n: u8,
) -> Result<(), Difference> {
    let mut compare = |of_last: u32, failures: Vec<Failure>| {
        let mut proposals = vec![1; usize::from(n)];
        proposals[usize::from(n) - 1] = of_last;
        let ticket = Ticket { n, t: n - 1, proposals, failures };
        comparison.ticket(&ticket.text(), &[result_length(n)])
    };
    for rounds in 1..=n {
        let silent = (1..rounds).map(|process| Failure::before_sending(process, process));
        compare(1, silent.clone().collect())?;
        if 1 < rounds && rounds < n {
            compare(2, silent.chain([Failure::before_sending(n, rounds - 1)]).collect())?;
        }
    }
    Ok(())
}

/// For each n every reason that a process can have in a round (02, Paper 7), and every
/// single reason of some runs.
pub fn reasons<M: Agreement>(comparison: &mut Comparison<M>) -> Result<(), Difference> {
    (1..=MOST_PROCESSES).try_for_each(|n| {
        reasons_of(comparison, n)?;
        single_reasons_of(comparison, n)
    })
}

/// Those of `n` processes: the first few crash, each before it sends anything in its
/// own round, after all its data there, or in round 1; then the next coordinates, and
/// those above it hear it, crash in its round, or have crashed in round 1.
pub fn reasons_of<M: Agreement>(comparison: &mut Comparison<M>, n: u8) -> Result<(), Difference> {
    let silent = |process| Failure::before_sending(process, process);
    for first in 0..n {
        let crash_in =
            |round| (first + 2..=n).map(move |other| Failure::before_sending(other, round));
        let ways: [Vec<Failure>; 5] = [
            (1..=first).map(silent).collect(),
            (1..=first).map(|process| Failure::sending_commits(process, 0)).collect(),
            (1..=first).map(|process| Failure::before_sending(process, 1)).collect(),
            (1..=first).map(silent).chain(crash_in(first + 1)).collect(),
            (1..=first).map(silent).chain(crash_in(1)).collect(),
        ];
        for failures in ways {
            compare_failures(comparison, n, failures)?;
        }
    }
    Ok(())
}

/// Every single reason of runs of `n` processes, of which none crashes; or all but the
/// last do, in their own rounds or at once before they send anything, or in their own
/// while they send data to every second process, no commit, or two; or every third
/// crashes in round 1, in which process 1 decides.
pub fn single_reasons_of<M: Agreement>(
    comparison: &mut Comparison<M>,
    n: u8,
) -> Result<(), Difference> {
    let every_second = |process: u8| 0x5555_5555_5555_5555 & processes_above(process, n);
    let crashing: [&dyn Fn(u8) -> Option<Failure>; 7] = [
        &|_| None,
        &|process| Some(Failure::before_sending(process, process)),
        &|process| Some(Failure::before_sending(process, 1)),
        &|process| Some(Failure::sending_data(process, every_second(process))),
        &|process| Some(Failure::sending_commits(process, 0)),
        &|process| Some(Failure::sending_commits(process, (n - process).min(2))),
        &|process| (process % 3 == 0).then(|| Failure::before_sending(process, 1)),
    ];
    for failure in crashing {
        let failures: Vec<Failure> = (1..n).filter_map(failure).collect();
        let proposals = (1..=u32::from(n)).map(|process| 10 * process).collect();
        let ticket = Ticket { n, t: n - 1, proposals, failures };
        let differs = |what| Difference::Ticket { text: ticket.text(), what };
        comparison.every_reason(&ticket).map_err(differs)?;
    }
    Ok(())
}

/// For each n every quote of some runs (02, Paper 9), and every percentage.
pub fn quotes<M: Agreement>(comparison: &mut Comparison<M>) -> Result<(), Difference> {
    (1..=MOST_PROCESSES).try_for_each(|n| quotes_of(comparison, n))?;
    percentages(comparison)
}

/// Those of runs of `n` processes that propose rate sets, of which none crashes; or every
/// second does in round 1 before it sends anything; or all but the last do, each in its own
/// round after one commit; or process 1 after all its commits, so that all others decide.
pub fn quotes_of<M: Agreement>(comparison: &mut Comparison<M>, n: u8) -> Result<(), Difference> {
    let commits = |process: u8| Failure::sending_commits(process, (n - process).min(1));
    let ways: [Vec<Failure>; 4] = [
        Vec::new(),
        (1..n).step_by(2).map(|process| Failure::before_sending(process, 1)).collect(),
        (1..n).map(commits).collect(),
        (1..n).take(1).map(|process| Failure::sending_commits(process, n - 1)).collect(),
    ];
    for failures in ways {
        let proposals = RATE_SETS.into_iter().cycle().take(n.into()).collect();
        let ticket = Ticket { n, t: n - 1, proposals, failures };
        let differs = |what| Difference::Ticket { text: ticket.text(), what };
        comparison.every_quote(&ticket).map_err(differs)?;
    }
    Ok(())
}

/// Every overhead and every markup, each by itself and both alike, on amounts around
/// where it comes to a half; and some rate sets on every amount up to 20,000 pence.
pub fn percentages<M: Agreement>(comparison: &mut Comparison<M>) -> Result<(), Difference> {
    let mut price = |value: u32, cost: u64| {
        let [a, b, c, d] = value.to_be_bytes();
        comparison.price(&[2, 4, 2, 1, 1, a, b, c, d], &[cost])
    };
    for rate in 0..=u16::MAX {
        let half = tenders::first_half(rate).unwrap_or(5000);
        for value in [u32::from(rate) << 16, rate.into(), u32::from(rate) << 16 | u32::from(rate)] {
            (half - 1..=half + 1).try_for_each(|cost| price(value, cost))?;
        }
    }
    for value in RATE_SETS {
        (0..=20_000).try_for_each(|cost| price(value, cost))?;
    }
    Ok(())
}

/// The stored tickets, each with its own output buffer.
pub fn stored<M: Agreement>(comparison: &mut Comparison<M>) -> Result<(), Difference> {
    corpus::stored().into_iter().try_for_each(|Entry { text, room }| {
        comparison.ticket(&text, &[room])?;
        comparison.in_other_letters(&text, room)
    })
}

/// A ticket of `n` processes, all proposals different, with the least t that allows
/// the failures, 1 at least where n allows it, and an output buffer of the result's
/// length.
fn compare_failures<M: Agreement>(
    comparison: &mut Comparison<M>,
    n: u8,
    failures: Vec<Failure>,
) -> Result<(), Difference> {
    let t = (failures.len() as u8).max(1).min(n - 1);
    let proposals = (1..=u32::from(n)).collect();
    comparison.ticket(&Ticket { n, t, proposals, failures }.text(), &[result_length(n)])
}

/// Each of the 256 bytes at every place of a ticket, and each two of them as the
/// digits of one byte: a byte that is taken for another digit, or for none, shows
/// in these, beside whatever other byte it is.
pub fn bytes<M: Agreement>(comparison: &mut Comparison<M>) -> Result<(), Difference> {
    (0..=u8::MAX).try_for_each(|byte| {
        byte_at_every_place(comparison, byte)?;
        byte_before_every_byte(comparison, byte)
    })
}

/// `byte` at every place of cases 1 and 5, in capitals and in small letters.
/// They have each kind of line. Decided is what process 1 proposes in case 1 and
/// process 2 in case 5, so the digits' values are seen there.
fn byte_at_every_place<M: Agreement>(
    comparison: &mut Comparison<M>,
    byte: u8,
) -> Result<(), Difference> {
    let capitals = [1, 5].map(|number| worked::case(number).text());
    let small = [&capitals[0], &capitals[1]].map(|text| text.to_ascii_lowercase());
    for sound in capitals.into_iter().chain(small) {
        for place in 0..sound.len() {
            let mut text = sound.clone();
            text[place] = byte;
            changed_ticket(comparison, &text, 4)?;
        }
    }
    Ok(())
}

/// `byte` and any other where the last two digits of a proposal stand.
fn byte_before_every_byte<M: Agreement>(
    comparison: &mut Comparison<M>,
    byte: u8,
) -> Result<(), Difference> {
    (0..=u8::MAX).try_for_each(|other| {
        let text = [&b"010100\n0201000000"[..], &[byte, other], b"\n04\n"].concat();
        changed_ticket(comparison, &text, 1)
    })
}

fn changed_ticket<M: Agreement>(
    comparison: &mut Comparison<M>,
    text: &[u8],
    n: u8,
) -> Result<(), Difference> {
    comparison.counts.with_each_byte += 1;
    comparison.ticket(text, &[result_length(n)])?;
    comparison.in_other_letters(text, result_length(n))
}

/// Every start with numbers up to 66 and some large ones, and lent lengths
/// around nine.
pub fn starts<M: Agreement>(comparison: &mut Comparison<M>) -> Result<(), Difference> {
    let large = [255, 256, 257, 260, 320, 1 << 32 | 2, u64::MAX];
    let numbers: Vec<u64> = (0..=66).chain(large).collect();
    for &process in &numbers {
        for &n in &numbers {
            for &t in &numbers {
                comparison.start(process, n, t, 0x0102_0304, STATE_LENGTH)?;
            }
        }
    }
    for length in 0..=20 {
        for (process, n, t) in [(1, 1, 0), (3, 4, 2), (64, 64, 63), (0, 4, 2)] {
            comparison.start(process, n, t, 0xFFFF_FFFF, length)?;
        }
    }
    Ok(())
}

/// Speak, close and price on every state whose first bytes are near the limits, with
/// outputs, hearings and tender lines that are right or just not right.
pub fn states<M: Agreement>(comparison: &mut Comparison<M>) -> Result<(), Difference> {
    let sizes = [(0, 0), (1, 0), (1, 1), (2, 0), (2, 1), (4, 0), (4, 1), (4, 2), (4, 3), (4, 4)];
    let large = [(4, 255), (63, 62), (64, 0), (64, 62), (64, 63), (64, 64), (65, 2), (255, 254)];
    for (n, t) in sizes.into_iter().chain(large) {
        for process in near_limits(n, t) {
            for round in near_limits(n, t) {
                for mark in [0, 1, 2, 3, 0xFF] {
                    let state = [process, n, t, round, mark, 0xDE, 0xAD, 0xBE, 0xEF];
                    speak_and_close(comparison, &state, round)?;
                    prices_in(comparison, &state)?;
                }
            }
        }
    }
    let state = [2, 4, 2, 2, 0, 0, 0, 0, 7, 0, 0];
    for length in 0..=state.len() {
        speak_and_close(comparison, &state[..length], 2)?;
        prices_in(comparison, &state[..length])?;
    }
    Ok(())
}

/// Pricing in a state: lines that are quoted, no lines, and a line that costs too much.
pub fn prices_in<M: Agreement>(
    comparison: &mut Comparison<M>,
    state: &[u8],
) -> Result<(), Difference> {
    let lists: [&[u64]; 3] = [&[5, HIGHEST_COST, 12_345], &[], &[5, HIGHEST_COST + 1]];
    lists.into_iter().try_for_each(|costs| comparison.price(state, costs))
}

fn near_limits(n: u8, t: u8) -> Vec<u8> {
    let mut numbers = vec![0, 1, 2, 3, 4, 5, 63, 64, 65, 255];
    for limit in [n, t] {
        numbers.extend((0..3).map(|more| limit.wrapping_add(more)));
        numbers.push(limit.wrapping_sub(1));
    }
    numbers.sort_unstable();
    numbers.dedup();
    numbers
}

fn speak_and_close<M: Agreement>(
    comparison: &mut Comparison<M>,
    state: &[u8],
    round: u8,
) -> Result<(), Difference> {
    for room in [0, SPEECH_LENGTH - 1, SPEECH_LENGTH, SPEECH_LENGTH + 3] {
        comparison.speak(state, room)?;
    }
    let full = [0x21, round, 1, 2, 3, 4, 0x22, round, 0];
    for length in 0..=full.len() {
        comparison.close(state, &full[..length])?;
    }
    for (place, value) in [
        (0, 0x22),
        (0, 0x20),
        (1, round.wrapping_add(1)),
        (1, round.wrapping_sub(1)),
        (6, 0x21),
        (6, 0x02),
        (7, round.wrapping_add(1)),
        (7, 0),
    ] {
        let mut heard = full;
        heard[place] = value;
        comparison.close(state, &heard[..6])?;
        comparison.close(state, &heard[..8])?;
    }
    comparison.close(state, &[0x22, round])?;
    comparison.close(state, &[0x22, round, 0x21, round, 1, 2, 3, 4])
}

#[cfg(test)]
mod tests {
    use super::*;
    use second::interface::REFUSED;
    use second::simulation::Simulation;
    use second::Simulator;
    use std::cell::RefCell;
    use std::collections::BTreeSet;
    use std::rc::Rc;

    /// The second implementation with one mistake about digits: it takes a byte
    /// for another.
    struct Misreads {
        second: Simulator,
        byte: u8,
        taken_for: u8,
    }

    impl Misreads {
        fn misread(&self, ticket: &[u8]) -> Vec<u8> {
            let read = |&byte: &u8| if byte == self.byte { self.taken_for } else { byte };
            ticket.iter().map(read).collect()
        }
    }

    impl Agreement for Misreads {
        fn run(&mut self, ticket: &[u8], output: &mut [u8]) -> u64 {
            let ticket = self.misread(ticket);
            Agreement::run(&mut self.second, &ticket, output)
        }

        fn settle(&mut self, ticket: &[u8]) -> u64 {
            let ticket = self.misread(ticket);
            self.second.settle(&ticket)
        }

        fn reason(&mut self, ticket: &[u8], process: u64, round: u64) -> u64 {
            let ticket = self.misread(ticket);
            Agreement::reason(&mut self.second, &ticket, process, round)
        }

        fn reasons(&mut self, ticket: &[u8], output: &mut [u8]) -> u64 {
            let ticket = self.misread(ticket);
            Agreement::reasons(&mut self.second, &ticket, output)
        }

        fn quote(&mut self, ticket: &[u8], costs: &[u64], process: u64, quote: &mut u64) -> u64 {
            let ticket = self.misread(ticket);
            Agreement::quote(&mut self.second, &ticket, costs, process, quote)
        }

        fn price(&mut self, state: &[u8], costs: &[u64], quote: &mut u64) -> u64 {
            self.second.price(state, costs, quote)
        }

        fn start(&mut self, process: u64, n: u64, t: u64, value: u32, state: &mut [u8]) -> u64 {
            self.second.start(process, n, t, value, state)
        }

        fn speak(&mut self, state: &[u8], output: &mut [u8]) -> u64 {
            self.second.speak(state, output)
        }

        fn close(&mut self, state: &mut [u8], heard: &[u8]) -> u64 {
            self.second.close(state, heard)
        }
    }

    /// What is found, for `byte` by itself and beside others, in a module that
    /// takes it for `taken_for`.
    fn found(byte: u8, taken_for: u8) -> [Result<(), Difference>; 2] {
        let misreads = || Misreads { second: Simulator::new(), byte, taken_for };
        [
            byte_at_every_place(&mut Comparison::new(misreads()), byte),
            byte_before_every_byte(&mut Comparison::new(misreads()), byte),
        ]
    }

    /// What the second implementation was asked for: the counts that stand in its
    /// results, of which process, which of the two, and how many; each settling round
    /// with the rounds of its run; the reasons, of which process in which round; and the
    /// quotes, of which process, for how many lines, and with which refusal.
    #[derive(Default)]
    struct Record {
        quotes: BTreeSet<(u64, usize, u64)>,
        counts: BTreeSet<(u8, usize, u8)>,
        settled: BTreeSet<(u64, u8)>,
        reasons: BTreeSet<(u8, u8, u8)>,
    }

    /// The second implementation, with a record.
    struct Recorded {
        second: Simulator,
        record: Rc<RefCell<Record>>,
    }

    impl Agreement for Recorded {
        fn run(&mut self, ticket: &[u8], output: &mut [u8]) -> u64 {
            let answer = Agreement::run(&mut self.second, ticket, output);
            let result = if answer < REFUSED { &output[..answer as usize] } else { &[] };
            let text = String::from_utf8_lossy(result);
            for (process, line) in (1..).zip(text.lines().filter(|line| line.starts_with("11"))) {
                for (kind, at) in [16, 18].into_iter().enumerate() {
                    let count = u8::from_str_radix(&line[at..at + 2], 16).expect("two digits");
                    self.record.borrow_mut().counts.insert((process, kind, count));
                }
            }
            answer
        }

        fn settle(&mut self, ticket: &[u8]) -> u64 {
            let answer = self.second.settle(ticket);
            if let Ok(ticket) = Ticket::parse(ticket) {
                let rounds = Simulation::new(&ticket).run(|_, _| {}).rounds;
                self.record.borrow_mut().settled.insert((answer, rounds));
            }
            answer
        }

        fn reason(&mut self, ticket: &[u8], process: u64, round: u64) -> u64 {
            Agreement::reason(&mut self.second, ticket, process, round)
        }

        fn reasons(&mut self, ticket: &[u8], output: &mut [u8]) -> u64 {
            let answer = Agreement::reasons(&mut self.second, ticket, output);
            let Some(table) = output.get(..answer as usize) else {
                return answer;
            };
            let n = Ticket::parse(ticket).expect("an accepted ticket").n;
            for (round, reasons) in (1..).zip(table.chunks(n.into())) {
                for (process, &reason) in (1..).zip(reasons) {
                    self.record.borrow_mut().reasons.insert((process, round, reason));
                }
            }
            answer
        }

        fn quote(&mut self, ticket: &[u8], costs: &[u64], process: u64, quote: &mut u64) -> u64 {
            let answer = Agreement::quote(&mut self.second, ticket, costs, process, quote);
            self.record.borrow_mut().quotes.insert((process, costs.len(), answer / REFUSED));
            answer
        }

        fn price(&mut self, state: &[u8], costs: &[u64], quote: &mut u64) -> u64 {
            self.second.price(state, costs, quote)
        }

        fn start(&mut self, process: u64, n: u64, t: u64, value: u32, state: &mut [u8]) -> u64 {
            self.second.start(process, n, t, value, state)
        }

        fn speak(&mut self, state: &[u8], output: &mut [u8]) -> u64 {
            self.second.speak(state, output)
        }

        fn close(&mut self, state: &mut [u8], heard: &[u8]) -> u64 {
            self.second.close(state, heard)
        }
    }

    type Part = fn(&mut Comparison<Recorded>, u8) -> Result<(), Difference>;

    /// What a part of the comparison asks for, of `n` processes.
    fn recorded(part: Part, n: u8) -> Record {
        let record = Rc::new(RefCell::new(Record::default()));
        let recorded = Recorded { second: Simulator::new(), record: record.clone() };
        assert_eq!(part(&mut Comparison::new(recorded), n), Ok(()));
        record.take()
    }

    #[test]
    fn every_count_of_every_process_stands_in_a_line() {
        for n in [1, 2, 3, 7, 12] {
            let of_process = |process: u8| {
                (0..2).flat_map(move |kind| {
                    (0..=n - process).map(move |count| (process, kind, count))
                })
            };
            let all: BTreeSet<_> = (1..=n).flat_map(of_process).collect();
            assert_eq!(recorded(counts_of, n).counts, all, "{n}");
        }
    }

    /// With more than one process round n settles nothing that round n - 1 has not: if
    /// nobody has decided by then, all but the last process have crashed.
    #[test]
    fn every_settling_round_of_runs_of_every_length_is_named() {
        for n in [1, 2, 3, 7, 12] {
            let settled_in = |rounds: u8| {
                let latest = u64::from(rounds.min((n - 1).max(1)));
                (1..=latest).map(move |settled| (settled, rounds))
            };
            let all: BTreeSet<_> = (1..=n).flat_map(settled_in).collect();
            assert_eq!(recorded(settling_rounds_of, n).settled, all, "{n}");
        }
    }

    /// Whether a process of `n` can have a reason in a round. Up and undecided in a round
    /// are none but its coordinator and those above, and the last process in the last
    /// round is alone.
    fn is_possible(n: u8, process: u8, round: u8, reason: u8) -> bool {
        let alone = process == n && round == n;
        match reason {
            1 => process == round,
            2 | 3 | 5 => process > round,
            4 => process > round && round > 1,
            6 => process >= round && !alone,
            _ => round > 1 && !alone,
        }
    }

    #[test]
    fn every_reason_that_a_process_can_have_in_a_round_is_given() {
        for n in [1, 2, 3, 7, 12] {
            let places = (1..=n).flat_map(|process| (1..=n).map(move |round| (process, round)));
            let all: BTreeSet<_> = places
                .flat_map(|(process, round)| (1..=7).map(move |reason| (process, round, reason)))
                .filter(|&(process, round, reason)| is_possible(n, process, round, reason))
                .collect();
            assert_eq!(recorded(reasons_of, n).reasons, all, "{n}");
        }
    }

    /// Every process decides in one of the runs, and all but the last crash in another.
    #[test]
    fn every_process_is_asked_for_a_quote_at_every_limit() {
        for n in [1, 2, 3, 7, 12] {
            let quotes = recorded(quotes_of, n).quotes;
            let is_answered = |process: u64, refusal: u64| {
                quotes.iter().any(|&(other, _, given)| (other, given) == (process, refusal))
            };
            for process in 1..=u64::from(n) {
                let crashes = process < u64::from(n);
                assert!(is_answered(process, 0), "{process} of {n}");
                assert_eq!(is_answered(process, 16), crashes, "{process} of {n}");
            }
            for process in [0, u64::from(n) + 1, 257, 1 << 32 | 1, u64::MAX] {
                let refusals: BTreeSet<u64> =
                    (0..=16).filter(|&refusal| is_answered(process, refusal)).collect();
                let all = if [0, u64::from(n) + 1].contains(&process) { 14..=16 } else { 16..=16 };
                assert_eq!(refusals, all.collect(), "{process} of {n}");
            }
            for length in [0, 1, 199, 200, 201, 65_537] {
                assert!(quotes.iter().any(|&(_, other, _)| other == length), "{length}");
            }
        }
    }

    #[test]
    fn every_stored_ticket_is_run_and_settled() {
        let mut comparison = Comparison::new(Simulator::new());
        assert_eq!(stored(&mut comparison), Ok(()));
        let counts = comparison.counts;
        assert_eq!([counts.runs, counts.settlings], [corpus::STORED as u64; 2]);
        assert!(counts.settled == counts.accepted && counts.accepted > 0, "{counts:?}");
    }

    #[test]
    fn each_byte_taken_for_another_digit_or_for_none_is_seen() {
        for byte in 0..=u8::MAX {
            let right = if byte.is_ascii_hexdigit() { byte.to_ascii_uppercase() } else { b'G' };
            // The 16 values, and no digit.
            for &entry in b"0123456789ABCDEFG".iter().filter(|&&entry| entry != right) {
                let found = found(byte, entry);
                assert!(found.iter().all(Result::is_err), "{byte:02X} as {entry:02X}");
            }
        }
        assert_eq!(found(b'a', b'A'), [Ok(()), Ok(())]);
        assert_eq!(found(0xFF, b'G'), [Ok(()), Ok(())]);
    }
}
