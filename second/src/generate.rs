//! Random tickets, well formed and damaged.

use crate::rng::Rng;
use crate::tenders;
use crate::ticket::{processes_above, Failure, Ticket, MOST_PROCESSES};

/// The bit by which a small letter differs from its capital. In other bytes it
/// is damage: 0A becomes 2A, and the digits 0 to 9 become bytes 10 to 19.
const CASE: u8 = b'a' ^ b'A';

/// Values at which implementations are likely to differ.
const EDGE_VALUES: [u32; 5] = [0, 1, 0x7FFF_FFFF, 0x8000_0000, 0xFFFF_FFFF];

/// A random ticket for at most `most` processes. Small ones, and failures of
/// the first coordinators, are more frequent than by pure chance.
pub fn ticket(rng: &mut Rng, most: u8) -> Ticket {
    let limit = rng.pick(&[6, 16, 64]).min(most);
    let n = rng.between(1, limit);
    let t = if rng.one_in(3) { n - 1 } else { rng.between(0, n - 1) };
    let proposals = proposals(rng, n);
    let failures = failures(rng, n, t);
    Ticket { n, t, proposals, failures }
}

fn proposals(rng: &mut Rng, n: u8) -> Vec<u32> {
    let style = rng.below(3);
    let value = |process: u8| match style {
        0 => 10 * u32::from(process),
        1 => rng.pick(&EDGE_VALUES),
        _ => rng.next_u64() as u32,
    };
    (1..=n).map(value).collect()
}

/// The ticket with a rate set as each proposal (02, Paper 9).
pub fn with_rate_sets(rng: &mut Rng, ticket: Ticket) -> Ticket {
    let proposals = ticket.proposals.iter().map(|_| tenders::rate_set(rng)).collect();
    Ticket { proposals, ..ticket }
}

fn failures(rng: &mut Rng, n: u8, t: u8) -> Vec<Failure> {
    let count = if rng.one_in(2) { t } else { rng.between(0, t) };
    let mut processes: Vec<u8> = (1..=n).collect();
    if rng.one_in(2) {
        rng.shuffle(&mut processes);
    }
    processes.truncate(usize::from(count));
    processes.sort_unstable();
    let failures = processes.into_iter();
    failures.map(|process| failure(rng, process, n, t)).collect()
}

fn failure(rng: &mut Rng, process: u8, n: u8, t: u8) -> Failure {
    let last_round = t + 1;
    let steps = if process <= last_round { 3 } else { 1 };
    match rng.below(steps) {
        0 => {
            let any = rng.between(1, last_round);
            Failure::before_sending(process, rng.pick(&[any, process.min(last_round)]))
        }
        1 => {
            let sparse = rng.next_u64() & rng.next_u64();
            let set = rng.pick(&[0, sparse, !sparse, !0]);
            Failure::sending_data(process, set & processes_above(process, n))
        }
        _ => {
            let most = n - process;
            let few = rng.between(0, most.min(3));
            Failure::sending_commits(process, rng.pick(&[few, few, most]))
        }
    }
}

/// The text in other letters: each of them, digit or not, goes from small to
/// capital or back, or only some do. One without letters stays as it is.
pub fn in_other_letters(rng: &mut Rng, text: &[u8]) -> Vec<u8> {
    let times = rng.pick(&[1, 2]);
    let mut changed = text.to_vec();
    for letter in changed.iter_mut().filter(|byte| byte.is_ascii_alphabetic()) {
        if rng.one_in(times) {
            *letter ^= CASE;
        }
    }
    changed
}

/// The text in its own letters or, every other time, in others.
fn lettered(rng: &mut Rng, text: Vec<u8>) -> Vec<u8> {
    if rng.one_in(2) {
        in_other_letters(rng, &text)
    } else {
        text
    }
}

/// A ticket's text: half of them in capitals, the others in small and in mixed
/// letters.
pub fn written(rng: &mut Rng, ticket: &Ticket) -> Vec<u8> {
    lettered(rng, ticket.text())
}

/// A ticket's text, in any letters, with one to three faults in it. Not every
/// fault makes it a text that is refused.
pub fn damaged(rng: &mut Rng, ticket: &Ticket) -> Vec<u8> {
    let mut lines = decoded_lines(ticket);
    for _ in 0..rng.below(3) {
        damage_lines(rng, ticket, &mut lines);
    }
    let mut text = encode_lines(&lines);
    if rng.one_in(2) {
        damage_text(rng, &mut text);
    } else {
        damage_lines(rng, ticket, &mut lines);
        text = encode_lines(&lines);
    }
    lettered(rng, text)
}

/// The ticket's lines as the bytes that their digits make.
pub fn decoded_lines(ticket: &Ticket) -> Vec<Vec<u8>> {
    ticket.to_string().lines().map(decode_line).collect()
}

/// The bytes that a line's digits make.
pub fn decode_line(line: &str) -> Vec<u8> {
    let pairs = (0..line.len()).step_by(2).map(|at| &line[at..at + 2]);
    let bytes = pairs.map(|pair| u8::from_str_radix(pair, 16));
    bytes.collect::<Result<_, _>>().expect("pairs of digits")
}

/// Lines from the bytes that their digits make.
pub fn encode_lines(lines: &[Vec<u8>]) -> Vec<u8> {
    let mut text = String::new();
    for line in lines {
        text.extend(line.iter().map(|byte| format!("{byte:02X}")));
        text.push('\n');
    }
    text.into_bytes()
}

/// Puts a wrong byte into a line, or leaves lines or bytes out, or adds some.
fn damage_lines(rng: &mut Rng, ticket: &Ticket, lines: &mut Vec<Vec<u8>>) {
    if lines.is_empty() {
        return;
    }
    // Half of the faults hit the lines behind the proposals.
    let behind = (usize::from(ticket.n) + 1).min(lines.len() - 1);
    let first = if rng.one_in(2) { behind } else { 0 };
    let at = first + rng.below(lines.len() - first);
    match rng.below(10) {
        0 => {
            lines.remove(at);
        }
        1 => lines.insert(at, lines[at].clone()),
        2 => {
            let other = rng.below(lines.len());
            lines.swap(at, other);
        }
        3 => lines[at].push(rng.pick(&[0, 4, 0xFF])),
        4 => {
            lines[at].pop();
        }
        5 => {
            let process = rng.between(1, ticket.n);
            let added = failure(rng, process, ticket.n, ticket.t);
            lines.insert(at, decode_line(&added.to_string()));
        }
        _ if lines[at].is_empty() => {}
        _ => {
            let place = rng.below(lines[at].len());
            let old = lines[at][place];
            let near = [old.wrapping_add(1), old.wrapping_sub(1), old ^ 1 << rng.below(8)];
            let limits = [0, 2, 3, ticket.n, ticket.n + 1, ticket.t, ticket.t + 1, ticket.t + 2];
            let far = [MOST_PROCESSES, MOST_PROCESSES + 1, 0xFF, rng.byte()];
            let values = [rng.pick(&near), rng.pick(&limits), rng.pick(&far)];
            lines[at][place] = rng.pick(&values);
        }
    }
}

/// Changes, leaves out or adds bytes anywhere.
fn damage_text(rng: &mut Rng, text: &mut Vec<u8>) {
    let at = rng.below(text.len() + 1);
    match rng.below(8) {
        0 => text.truncate(at),
        1 => text.insert(at, rng.byte()),
        2 => text.insert(at, rng.pick(b"0AF\n\r ax")),
        3 => text.extend_from_slice(rng.pick(&[&b"\n"[..], b"04\n", b"04", b"0", b"\0", b"05\n"])),
        4 => text.resize(rng.pick(&[4095, 4096, 4097, 4098]), rng.pick(b"04\n\0")),
        _ if at == text.len() => text.clear(),
        5 => text[at] ^= CASE,
        6 => {
            text.remove(at);
        }
        _ => {
            let any = rng.byte();
            text[at] = rng.pick(&[any, b'0', b'/', b':', b'@', b'G', b'`', b'g', b'\n']);
        }
    }
}

#[cfg(test)]
mod tests {
    use super::*;
    use std::collections::BTreeSet;

    #[test]
    fn tickets_are_accepted_as_what_they_are() {
        let mut rng = Rng::new(1);
        for _ in 0..2000 {
            let ticket = ticket(&mut rng, MOST_PROCESSES);
            assert_eq!(Ticket::parse(&ticket.text()), Ok(ticket));
        }
    }

    /// Whether a text has a small letter that is a digit, and a byte that has
    /// one of its digits as a small letter and the other as a capital.
    fn small_and_mixed(text: &[u8]) -> (bool, bool) {
        let small = |byte: &u8| matches!(byte, b'a'..=b'f');
        let capital = |byte: &u8| matches!(byte, b'A'..=b'F');
        let mut bytes = text.split(|&byte| byte == b'\n').flat_map(|line| line.chunks_exact(2));
        let mixed = bytes.any(|pair| pair.iter().any(small) && pair.iter().any(capital));
        (text.iter().any(small), mixed)
    }

    #[test]
    fn tickets_are_written_in_letters_of_each_case() {
        let mut rng = Rng::new(3);
        let (mut small, mut mixed, mut capital) = (0, 0, 0);
        for _ in 0..2000 {
            let ticket = ticket(&mut rng, MOST_PROCESSES);
            let text = written(&mut rng, &ticket);
            let (is_small, is_mixed) = small_and_mixed(&text);
            small += usize::from(is_small);
            mixed += usize::from(is_mixed);
            capital += usize::from(text == ticket.text());
            assert_eq!(Ticket::parse(&text), Ok(ticket));
        }
        assert!(small > 500 && mixed > 100 && capital > 500, "{small} {mixed} {capital}");
    }

    #[test]
    fn other_letters_are_of_the_same_text_and_change_nothing_else() {
        let mut rng = Rng::new(4);
        let every_byte: Vec<u8> = (0..=u8::MAX).collect();
        let mut flipped = every_byte.clone();
        for letter in flipped.iter_mut().filter(|byte| byte.is_ascii_alphabetic()) {
            *letter ^= 0x20;
        }
        let mut counts = [0; 2];
        for _ in 0..100 {
            let other = in_other_letters(&mut rng, &every_byte);
            assert!(other.eq_ignore_ascii_case(&every_byte) && other != every_byte);
            counts[usize::from(other == flipped)] += 1;
        }
        assert!(counts[0] > 20 && counts[1] > 20, "{counts:?}");
    }

    #[test]
    fn damage_shows_every_refusal_of_a_ticket() {
        let mut rng = Rng::new(2);
        let (mut shown, mut in_small_letters) = (BTreeSet::new(), BTreeSet::new());
        for _ in 0..5000 {
            let ticket = ticket(&mut rng, MOST_PROCESSES);
            let text = damaged(&mut rng, &ticket);
            if let Err(refusal) = Ticket::parse(&text) {
                shown.insert(refusal.reason.number());
                if small_and_mixed(&text).0 {
                    in_small_letters.insert(refusal.reason.number());
                }
            }
        }
        assert_eq!(shown, (1..=8).collect());
        assert_eq!(in_small_letters, shown);
    }
}
