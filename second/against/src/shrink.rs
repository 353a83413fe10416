//! The smallest ticket that shows a difference.

use second::{Crash, Failure, Ticket};

/// Shrinks `text` step by step as long as `differs` holds of it. A ticket
/// stays a ticket, in capitals or else in small letters, if it differs so;
/// another text is cut by lines, processes and bytes.
pub fn shrink(text: &[u8], mut differs: impl FnMut(&[u8]) -> bool) -> Vec<u8> {
    let writings: [fn(&Ticket) -> Vec<u8>; 2] = [Ticket::text, in_small_letters];
    for written in writings {
        let ticket = Ticket::parse(text).ok().filter(|ticket| differs(&written(ticket)));
        if let Some(ticket) = ticket {
            return written(&shrink_ticket(ticket, |ticket| differs(&written(ticket))));
        }
    }
    shrink_text(text.to_vec(), differs)
}

fn in_small_letters(ticket: &Ticket) -> Vec<u8> {
    ticket.text().to_ascii_lowercase()
}

fn shrink_ticket(mut ticket: Ticket, mut differs: impl FnMut(&Ticket) -> bool) -> Ticket {
    while let Some(smaller) = smaller_tickets(&ticket).into_iter().find(&mut differs) {
        ticket = smaller;
    }
    ticket
}

/// Simpler tickets, the much simpler ones first: fewer failures, fewer
/// processes, a lower t, earlier crashes, smaller values.
fn smaller_tickets(ticket: &Ticket) -> Vec<Ticket> {
    let mut smaller = Vec::new();
    for at in (0..ticket.failures.len()).rev() {
        let mut fewer = ticket.clone();
        fewer.failures.remove(at);
        smaller.push(fewer);
    }
    smaller.extend((1..=ticket.n).rev().filter_map(|process| without(ticket, process)));
    smaller.extend(with_lower_t(ticket));
    for (at, &failure) in ticket.failures.iter().enumerate() {
        for simpler in simpler_failures(failure) {
            let mut changed = ticket.clone();
            changed.failures[at] = simpler;
            smaller.push(changed);
        }
    }
    for (at, &value) in ticket.proposals.iter().enumerate() {
        let process = at as u32 + 1;
        for simpler in [0, process] {
            if simpler < value {
                let mut changed = ticket.clone();
                changed.proposals[at] = simpler;
                smaller.push(changed);
            }
        }
    }
    smaller
}

/// The ticket without `process`; those above it move down by one, and so do
/// their rounds.
fn without(ticket: &Ticket, process: u8) -> Option<Ticket> {
    let n = ticket.n.checked_sub(1).filter(|&n| n > 0)?;
    let t = ticket.t.min(n - 1);
    let moved = |number: u8| number - u8::from(number > process);
    let others = ticket.failures.iter().filter(|failure| failure.process != process);
    let failures: Vec<Failure> = others
        .map(|failure| {
            let id = moved(failure.process);
            let (round, crash) = match failure.crash {
                Crash::BeforeSending => (moved(failure.round).min(t + 1), failure.crash),
                Crash::SendingData { reached } => {
                    let reached = without_member(reached, process);
                    (id, Crash::SendingData { reached })
                }
                Crash::SendingCommits { sent } => {
                    let sent = sent.min(n - id);
                    (id, Crash::SendingCommits { sent })
                }
            };
            Failure { process: id, round, crash }
        })
        .collect();
    let mut proposals = ticket.proposals.clone();
    proposals.remove(usize::from(process) - 1);
    let smaller = Ticket { n, t, proposals, failures };
    fits(&smaller).then_some(smaller)
}

/// The set without `process`; those above it move down by one.
fn without_member(set: u64, process: u8) -> u64 {
    let below = (1 << (process - 1)) - 1;
    set & below | set >> 1 & !below
}

/// Whether t allows the ticket's failures and their rounds.
fn fits(ticket: &Ticket) -> bool {
    let rounds = ticket.failures.iter().map(|failure| failure.round);
    ticket.failures.len() <= usize::from(ticket.t) && rounds.max().unwrap_or(1) <= ticket.t + 1
}

fn with_lower_t(ticket: &Ticket) -> Option<Ticket> {
    let t = ticket.t.checked_sub(1)?;
    let smaller = Ticket { t, ..ticket.clone() };
    fits(&smaller).then_some(smaller)
}

/// Failures that come before `failure`: less is sent, or an earlier round.
fn simpler_failures(failure: Failure) -> Vec<Failure> {
    let with = |crash| Failure { crash, ..failure };
    match failure.crash {
        Crash::BeforeSending => {
            let rounds = 1..failure.round;
            rounds.map(|round| Failure { round, ..failure }).collect()
        }
        Crash::SendingData { reached } => {
            let members = (0..64).filter(|index| reached >> index & 1 == 1);
            let fewer =
                members.map(|index| Crash::SendingData { reached: reached & !(1 << index) });
            [Crash::BeforeSending].into_iter().chain(fewer).map(with).collect()
        }
        Crash::SendingCommits { sent } => {
            let fewer = (0..sent).map(|sent| Crash::SendingCommits { sent });
            [Crash::BeforeSending].into_iter().chain(fewer).map(with).collect()
        }
    }
}

/// Leaves out lines and lowers n and t, then leaves out ever shorter pieces,
/// and at last writes 0 for other digits, as long as `differs` holds.
fn shrink_text(mut text: Vec<u8>, mut differs: impl FnMut(&[u8]) -> bool) -> Vec<u8> {
    while let Some(smaller) = smaller_texts(&text).into_iter().find(|text| differs(text)) {
        text = smaller;
    }
    let mut piece = text.len() / 2;
    while piece > 0 {
        let mut at = 0;
        while at + piece <= text.len() {
            let shorter = [&text[..at], &text[at + piece..]].concat();
            if differs(&shorter) {
                text = shorter;
            } else {
                at += piece;
            }
        }
        piece /= 2;
    }
    for at in 0..text.len() {
        let digit = text[at];
        if digit.is_ascii_hexdigit() && digit != b'0' {
            text[at] = b'0';
            if !differs(&text) {
                text[at] = digit;
            }
        }
    }
    text
}

/// The text without one line, and with n or t lower in its first line, and
/// with both.
fn smaller_texts(text: &[u8]) -> Vec<Vec<u8>> {
    let lines: Vec<&[u8]> = text.split_inclusive(|&byte| byte == b'\n').collect();
    let mut smaller = Vec::new();
    for at in (0..lines.len()).rev() {
        let others = [&lines[..at], &lines[at + 1..]].concat();
        if at > 0 {
            for size in lower_sizes(lines[0]) {
                smaller.push([&[&size[..]], &others[1..]].concat().concat());
            }
        }
        smaller.push(others.concat());
    }
    if let Some((first, others)) = lines.split_first() {
        for size in lower_sizes(first) {
            smaller.push([&[&size[..]], others].concat().concat());
        }
    }
    smaller
}

/// A size line with n, t, or both lower by one.
fn lower_sizes(line: &[u8]) -> Vec<Vec<u8>> {
    let digits = std::str::from_utf8(line).unwrap_or("").trim_end();
    let size = digits.strip_prefix("01").filter(|size| size.len() == 4);
    let Some(Ok(size)) = size.map(|size| u16::from_str_radix(size, 16)) else {
        return Vec::new();
    };
    let [n, t] = size.to_be_bytes();
    let [less_n, less_t] = [n.checked_sub(1), t.checked_sub(1)];
    let lower = [(less_n, less_t), (less_n, Some(t)), (Some(n), less_t)];
    let line = |(n, t): (Option<u8>, Option<u8>)| Some(format!("01{:02X}{:02X}\n", n?, t?));
    lower.into_iter().filter_map(line).map(String::into_bytes).collect()
}

#[cfg(test)]
mod tests {
    use super::*;
    use second::generate;
    use second::rng::Rng;
    use second::Reason;

    #[test]
    fn smaller_tickets_are_tickets() {
        let mut rng = Rng::new(3);
        for _ in 0..300 {
            for smaller in smaller_tickets(&generate::ticket(&mut rng, 12)) {
                assert_eq!(Ticket::parse(&smaller.text()), Ok(smaller));
            }
        }
    }

    #[test]
    fn a_set_without_a_member_closes_the_gap() {
        assert_eq!(without_member(0b1011_0110, 5), 0b101_0110);
        assert_eq!(without_member(1 << 63, 64), 0);
        assert_eq!(without_member(1 << 63, 1), 1 << 62);
    }

    #[test]
    fn a_large_ticket_shrinks_to_what_matters() {
        let sends_commits = |text: &[u8]| {
            let failures = Ticket::parse(text).map_or(Vec::new(), |ticket| ticket.failures);
            let mut crashes = failures.iter().map(|failure| failure.crash);
            crashes.any(|crash| matches!(crash, Crash::SendingCommits { sent: 1.. }))
        };
        let mut rng = Rng::new(4);
        let mut tickets = (0..500).map(|_| generate::ticket(&mut rng, 64).text());
        let large = tickets.find(|text| text.len() > 1000 && sends_commits(text));
        let shrunk = shrink(&large.expect("one of 500"), sends_commits);
        let failure = "03010102000000000000000001";
        let smallest = format!("010201\n020100000000\n020200000000\n{failure}\n04\n");
        assert_eq!(String::from_utf8_lossy(&shrunk), smallest);
    }

    #[test]
    fn a_ticket_in_small_letters_shrinks_in_small_letters() {
        let text = b"010201\n0201AAAAAAAA\n0202bBbBbBbB\n03010102000000000000000001\n04\n";
        let small =
            |text: &[u8]| Ticket::parse(text).is_ok() && text.iter().any(u8::is_ascii_lowercase);
        let shrunk = shrink(text, small);
        assert_eq!(String::from_utf8_lossy(&shrunk), "010100\n0201aaaaaaaa\n04\n");
    }

    #[test]
    fn a_text_that_differs_in_mixed_letters_alone_keeps_them() {
        let both = |text: &[u8]| text.contains(&b'a') && text.contains(&b'A');
        let shrunk = shrink(b"010100\n020100aA0000\n04\n", both);
        assert_eq!(String::from_utf8_lossy(&shrunk), "aA");
    }

    #[test]
    fn a_damaged_text_shrinks_to_its_fault() {
        let text = b"010100\n020100000000\n0x4\n04\n";
        let shrunk = shrink(text, |text| text.contains(&b'x'));
        assert_eq!(shrunk, b"x");
    }

    #[test]
    fn a_refused_ticket_shrinks_by_processes_too() {
        let text = b"010402\n020100000001\n020200000002\n020300000003\n020400000004\n\
                     03010100000000000000000000\n03020100000000000000000000\n\
                     03030100000000000000000000\n04\n";
        let too_many = |text: &[u8]| {
            let refusal = Ticket::parse(text).err();
            refusal.is_some_and(|refusal| refusal.reason == Reason::TooManyFailures)
        };
        let shrunk = shrink(text, too_many);
        let smallest = "010100\n020100000000\n03000000000000000000000000\n";
        assert_eq!(String::from_utf8_lossy(&shrunk), smallest);
    }
}
