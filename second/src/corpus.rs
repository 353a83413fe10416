//! A fixed corpus of tickets: what the papers name, each size, each step, each
//! refusal at its first, a middle and its last possible line, letters of either
//! case and what is no digit, messages that are dropped, and random ones.

use std::collections::HashSet;

use crate::generate::{damaged, decode_line, decoded_lines, encode_lines, ticket, written};
use crate::report::{result_length, LONGEST_RESULT};
use crate::rng::Rng;
use crate::ticket::{processes_above, Failure, Ticket, LONGEST_TICKET, MOST_PROCESSES};
use crate::worked;

/// How many tickets the stored corpus of `replay` has: the 600 from before
/// Paper 2, seven with outputs around the lengths of then, and the 21 of Paper 4.
pub const STORED: usize = 628;

/// The longest text of a corpus, and the most that `replay` takes.
pub const LONGEST_TEXT: usize = 4200;

/// The longest output buffer of a corpus, and the most that `replay` has.
pub const LONGEST_ROOM: usize = 1500;

/// A ticket's text, and how long the output buffer is that it is run with.
#[derive(Clone, Debug, PartialEq, Eq, Hash)]
pub struct Entry {
    /// The text, well formed or not.
    pub text: Vec<u8>,
    /// The buffer's length.
    pub room: usize,
}

impl Entry {
    /// `text` with room for every result.
    fn ample(text: impl Into<Vec<u8>>) -> Entry {
        Entry { text: text.into(), room: LONGEST_RESULT }
    }
}

/// The corpus of `seed`: the systematic entries, and random ones until there
/// are `count`. No entry stands in it twice.
pub fn corpus(seed: u64, count: usize) -> Vec<Entry> {
    let mut rng = Rng::new(seed);
    let mut entries = systematic(&mut rng);
    let mut known = HashSet::new();
    entries.retain(|entry| known.insert(entry.clone()));
    while entries.len() < count {
        let entry = random_entry(&mut rng);
        if known.insert(entry.clone()) {
            entries.push(entry);
        }
    }
    entries
}

/// The corpus that is stored.
pub fn stored() -> Vec<Entry> {
    corpus(1, STORED)
}

fn systematic(rng: &mut Rng) -> Vec<Entry> {
    let mut entries: Vec<Entry> =
        (1..=worked::CASES).map(|number| Entry::ample(worked::case(number).text())).collect();
    entries.extend(each_size(rng));
    entries.extend(each_step());
    entries.extend(wrong_lengths());
    entries.extend(wrong_texts());
    entries.extend(misplaced_lines());
    entries.extend(wrong_sizes());
    entries.extend(wrong_numbers());
    entries.extend(wrong_sets_and_counts());
    entries.extend(too_many_failures());
    entries.extend(last_lines());
    entries.extend(small_and_mixed_letters());
    entries.extend(refused_in_other_letters());
    entries.extend(wrong_bytes());
    entries.extend(each_room());
    entries.extend(addressees());
    entries
}

fn random_entry(rng: &mut Rng) -> Entry {
    let ticket = ticket(rng, 24);
    let text = if rng.one_in(3) { written(rng, &ticket) } else { damaged(rng, &ticket) };
    let room =
        if rng.one_in(6) { result_length(ticket.n) - 2 + rng.below(4) } else { LONGEST_RESULT };
    Entry { text, room }
}

/// Process p proposes 10p.
fn plain(n: u8, t: u8, failures: Vec<Failure>) -> Ticket {
    let proposals = (1..=u32::from(n)).map(|process| 10 * process).collect();
    Ticket { n, t, proposals, failures }
}

/// The first `crashing` processes crash, each as `how` says.
fn first_crash(n: u8, t: u8, crashing: u8, how: impl Fn(u8) -> Failure) -> Ticket {
    plain(n, t, (1..=crashing).map(how).collect())
}

/// Each n from 1 to 64: once as small a ticket as can be, and once with the
/// largest t and crashes of each step, in capitals, small letters and both.
fn each_size(rng: &mut Rng) -> Vec<Entry> {
    let mut entries = Vec::new();
    for n in 1..=MOST_PROCESSES {
        entries.push(Entry::ample(plain(n, 0, vec![]).text()));
        let crashing = rng.between(0, n - 1);
        let every_other = 0x5555_5555_5555_5555;
        let busy = first_crash(n, n - 1, crashing, |process| match process % 3 {
            0 => Failure::before_sending(process, process),
            1 => Failure::sending_commits(process, 1),
            _ => Failure::sending_data(process, processes_above(process, n) & every_other),
        });
        entries.push(Entry::ample(match n % 3 {
            0 => busy.text(),
            1 => busy.text().to_ascii_lowercase(),
            _ => mixed(&busy.text(), 0),
        }));
    }
    entries
}

/// Each step at each place of five processes, and the longest runs of 64.
fn each_step() -> Vec<Entry> {
    let mut failures = Vec::new();
    for process in 1..=5 {
        failures.extend((1..=5).map(|round| Failure::before_sending(process, round)));
        failures.extend((0..=5 - process).map(|sent| Failure::sending_commits(process, sent)));
    }
    failures.extend((0..16).map(|set| Failure::sending_data(1, set << 1)));
    let mut tickets: Vec<Ticket> = failures.iter().map(|&one| plain(5, 4, vec![one])).collect();

    let most = MOST_PROCESSES;
    let long_runs: [fn(u8) -> Failure; 6] = [
        |process| Failure::before_sending(process, process),
        |process| Failure::before_sending(process, 1),
        |process| Failure::sending_data(process, 0),
        |process| Failure::sending_data(process, processes_above(process, MOST_PROCESSES)),
        |process| Failure::sending_commits(process, 0),
        |process| Failure::sending_commits(process, MOST_PROCESSES - process),
    ];
    tickets.extend(long_runs.map(|how| first_crash(most, most - 1, most - 1, how)));
    tickets.push(plain(most, most - 1, vec![Failure::sending_data(63, 1 << 63)]));
    tickets.iter().map(|ticket| Entry::ample(ticket.text())).collect()
}

/// Texts of 4,096 bytes and of more: refusal 1, or another if 1 is not due.
fn wrong_lengths() -> Vec<Entry> {
    let small = worked::case(1).text();
    let mut entries = Vec::new();
    for length in [LONGEST_TICKET, LONGEST_TICKET + 1] {
        let ends: Vec<u8> = b"04\n".iter().copied().cycle().take(length).collect();
        let mut followed = small.clone();
        followed.extend(&ends);
        followed.truncate(length);
        let mut one_line = vec![b'0'; length - 1];
        one_line.push(b'\n');
        let mut last_line = small[..small.len() - 3].to_vec();
        last_line.resize(length - 1, b'0');
        last_line.push(b'\n');
        let texts = [ends, followed, one_line, last_line, vec![b'\n'; length], vec![0; length]];
        entries.extend(texts.map(Entry::ample));
    }
    entries.push(Entry::ample(vec![b'0'; LONGEST_TEXT]));
    entries
}

/// The ticket that faults are put into: n = 6, t = 3, three failure lines, so
/// lines 2 to 7 are proposals, 8 to 10 failures, and 11 the end.
fn sound() -> Ticket {
    first_crash(6, 3, 3, |process| Failure::sending_commits(process, process - 1))
}

/// The entries of texts that are given as the bytes their digits make.
fn entries_of(texts: &[Vec<Vec<u8>>]) -> Vec<Entry> {
    texts.iter().map(|lines| Entry::ample(encode_lines(lines))).collect()
}

/// The first line of [`sound`], a middle one, the last ones and one past the
/// last, from 0 on: where every fault is put.
const EVERY_FAULT: [usize; 5] = [0, 5, 8, 10, 11];

/// Refusal 2 at each line, one past the last, and without the last 0A.
fn wrong_texts() -> Vec<Entry> {
    let text = sound().to_string();
    let lines: Vec<&str> = text.lines().collect();
    let mut texts = Vec::new();
    for at in 0..=lines.len() {
        let line = lines.get(at).copied().unwrap_or("05");
        let broken = [
            String::new(),
            line[1..].to_string(),
            line.replacen('0', "o", 1),
            format!("{line}0"),
            format!(" {line}"),
            format!("{line}\r"),
            format!("{}{}", &line[..line.len() - 1], if at % 2 == 0 { 'g' } else { '`' }),
        ];
        // Each fault at some lines; one elsewhere.
        let kept = if EVERY_FAULT.contains(&at) { broken.len() } else { 1 };
        for wrong in &broken[broken.len() - kept..] {
            let mut lines = lines.clone();
            lines.splice(at..lines.len().min(at + 1), [wrong.as_str()]);
            texts.push(lines.join("\n") + "\n");
        }
        let unclosed = [&lines[..at.min(lines.len() - 1)], &[line]].concat().join("\n");
        texts.push(unclosed);
    }
    texts.push(text.clone() + "x");
    texts.push(text.clone() + "0");
    texts.push(text.replace('\n', "\r\n"));
    texts.into_iter().map(Entry::ample).collect()
}

/// Refusal 3 at each line and one past the last: a kind that is not allowed
/// there, a wrong length, or the text over.
fn misplaced_lines() -> Vec<Entry> {
    let lines = decoded_lines(&sound());
    let mut texts = vec![lines.clone()];
    for at in 0..=lines.len() {
        texts.push(lines[..at].to_vec());
        let kinds = [0x01, 0x02, 0x03, 0x04, 0x05, 0x00, 0xFF];
        let kept = if EVERY_FAULT.contains(&at) { kinds.len() } else { 5 };
        for &kind in &kinds[..kept] {
            let mut changed = lines.clone();
            if at < lines.len() {
                changed[at][0] = kind;
            } else {
                changed.push(vec![kind]);
            }
            texts.push(changed);
        }
        if at < lines.len() {
            let mut longer = lines.clone();
            longer[at].push(0);
            let mut shorter = lines.clone();
            shorter[at].truncate(lines[at].len().max(2) - 1);
            let mut twice = lines.clone();
            twice.insert(at, lines[at].clone());
            let mut missing = lines.clone();
            missing.remove(at);
            texts.extend([longer, shorter, twice, missing]);
        }
    }
    entries_of(&texts)
}

/// Refusal 4.
fn wrong_sizes() -> Vec<Entry> {
    let outside =
        [(0, 0), (0, 255), (1, 1), (4, 4), (4, 5), (64, 64), (65, 0), (65, 64), (255, 254)];
    outside.iter().map(|&(n, t)| Entry::ample(plain(n, t, vec![]).text())).collect()
}

/// Refusals 5, 7 and 8: a wrong number in a line of the right form. Some of
/// the numbers are right.
fn wrong_numbers() -> Vec<Entry> {
    let lines = decoded_lines(&sound());
    let mut texts = Vec::new();
    let mut change = |line: usize, place: usize, values: &[u8]| {
        for &value in values {
            let mut changed = lines.clone();
            changed[line - 1][place] = value;
            texts.push(changed);
        }
    };
    for (line, process) in (2..=7).zip(1..) {
        change(line, 1, &[0, process - 1, process + 1, 255]);
    }
    for (line, process) in (8..=10).zip(1..) {
        change(line, 1, &[0, process - 1, process + 1, 6, 7, 255]);
        change(line, 2, &[0, process - 1, process + 1, 4, 5, 255]);
        change(line, 3, &[0, 1, 3, 255]);
        change(line, 4, &[1]);
        change(line, 11, &[1, 2, 0x20, 0x40]);
        change(line, 12, &[6 - process, 7 - process, 255]);
    }
    entries_of(&texts)
}

/// Refusal 8: step, set and count of process 2's failure line.
fn wrong_sets_and_counts() -> Vec<Entry> {
    let tried = [
        "01000000000000003C00",
        "01000000000000007C00",
        "01000000000000003E00",
        "01000000000000000100",
        "01800000000000000000",
        "01000000000000000401",
        "00000000000000000400",
        "00000000000000000001",
        "02000000000000000400",
        "02000000000000000004",
        "02000000000000000005",
    ];
    let texts = tried.map(|rest| {
        let mut lines = decoded_lines(&sound());
        lines[8] = decode_line(&format!("030202{rest}"));
        lines
    });
    entries_of(&texts)
}

/// Refusal 6 at the first, a middle and the last possible line.
fn too_many_failures() -> Vec<Entry> {
    let mut texts = Vec::new();
    for (n, t) in [(1, 0), (4, 0), (6, 3), (64, 63)] {
        let most = first_crash(n, t, t, |process| Failure::before_sending(process, process));
        let sound = Failure::before_sending(t + 1, 1).to_string();
        let all_wrong = format!("03{}", "FF".repeat(12));
        for extra in [&sound, &all_wrong, "03"] {
            let mut lines = decoded_lines(&most);
            lines.insert(lines.len() - 1, decode_line(extra));
            texts.push(lines);
        }
    }
    entries_of(&texts)
}

/// Refusals 2, 3, 5, 7 and 8 at their last possible lines: the longest ticket
/// has proposals to line 65, failures to line 128, and 129 lines.
fn last_lines() -> Vec<Entry> {
    let most = MOST_PROCESSES;
    let longest = first_crash(most, most - 1, most - 1, |process| {
        Failure::sending_commits(process, most - process)
    });
    let lines = decoded_lines(&longest);
    let mut texts: Vec<Vec<u8>> = vec![];
    for (line, place, value) in [(65, 1, 63), (128, 1, 65), (128, 3, 3), (128, 3, 1), (128, 12, 2)]
    {
        let mut changed = lines.clone();
        changed[line - 1][place] = value;
        texts.push(encode_lines(&changed));
    }
    let whole = encode_lines(&lines);
    texts.push(encode_lines(&lines[..lines.len() - 1]));
    for after in ["04\n", "0\n", "\n", "04"] {
        texts.push([&whole, after.as_bytes()].concat());
    }
    texts.into_iter().map(Entry::ample).collect()
}

/// A ticket that has letters in every field that can have some: lines 2 to 13
/// are proposals, 14 to 18 failures.
fn full_of_letters() -> Ticket {
    let proposals = (0..12).map(|place| 0x1111_1111 * (10 + place % 6)).collect();
    let failures = vec![
        Failure::sending_commits(1, 0x0B),
        Failure::sending_data(2, 0xABC),
        Failure::sending_data(3, 0xDE8),
        Failure::sending_data(4, 0xFF0),
        Failure::before_sending(10, 0x0B),
    ];
    Ticket { n: 12, t: 11, proposals, failures }
}

/// The text with every other of its letters small, from the first or from the
/// second on.
fn mixed(text: &[u8], first: usize) -> Vec<u8> {
    let mut text = text.to_vec();
    let letters = text.iter_mut().filter(|byte| byte.is_ascii_alphabetic());
    letters.skip(first).step_by(2).for_each(|letter| letter.make_ascii_lowercase());
    text
}

/// Accepted tickets in small letters, and in small letters and capitals mixed,
/// within one byte too.
fn small_and_mixed_letters() -> Vec<Entry> {
    let [case_1, case_9] = [1, 9].map(|number| worked::case(number).text());
    let letters = full_of_letters().text();
    let small = [&case_1, &case_9, &letters].map(|text| text.to_ascii_lowercase());
    let mixed = [mixed(&case_9, 1), mixed(&letters, 0), mixed(&letters, 1)];
    small.into_iter().chain(mixed).map(Entry::ample).collect()
}

/// Refusals 3 to 8 of texts in small and in mixed letters, which are digits:
/// each for one wrong byte in a line.
fn refused_in_other_letters() -> Vec<Entry> {
    let changes = [
        (2, 0, 0xAF),
        (1, 2, 0x0C),
        (11, 1, 0x0F),
        (1, 2, 0x04),
        (18, 2, 0x0D),
        (14, 3, 0xEF),
        (15, 10, 0x1A),
        (14, 12, 0x0C),
    ];
    let texts = changes.map(|(line, place, value)| {
        let mut lines = decoded_lines(&full_of_letters());
        lines[line - 1][place] = value;
        let text = encode_lines(&lines);
        if line % 2 == 0 {
            text.to_ascii_lowercase()
        } else {
            mixed(&text, 0)
        }
    });
    texts.into_iter().map(Entry::ample).collect()
}

/// Refusal 2 for a byte that is next to the digits, or is a digit or 0A but for
/// one bit.
fn wrong_bytes() -> Vec<Entry> {
    let sound = plain(1, 0, vec![]).text();
    let next_to_digits = b"/:@G`g\xC1\xE1".iter().copied();
    let mut texts = Vec::new();
    for (at, byte) in (11..19).cycle().zip(next_to_digits.chain(0x10..=0x19)) {
        let mut text = sound.clone();
        text[at] = byte;
        texts.push(text);
    }
    let ends = (0..sound.len()).filter(|&at| sound[at] == b'\n');
    for end in ends {
        let mut text = sound.clone();
        text[end] = b'*';
        texts.push(text);
    }
    texts.into_iter().map(Entry::ample).collect()
}

/// Refusal 9, and just not refusal 9. Before Paper 2 a line had 17 bytes; and if
/// the last line grew too, a result would have 21(n + 1).
fn each_room() -> Vec<Entry> {
    let mut entries = Vec::new();
    for n in [1, 4, 64] {
        let text = plain(n, n - 1, vec![]).text();
        let exact = result_length(n);
        let rooms = [0, 1, 17, exact - 17, exact - 1, exact, exact + 1, exact + 17, LONGEST_ROOM];
        let lines = usize::from(n) + 1;
        for room in rooms.into_iter().chain([17 * lines, 21 * lines]) {
            let text = text.clone();
            entries.push(Entry { text, room });
        }
    }
    // Refusals 1 to 8 come first.
    let refused = [worked::case(10).text(), worked::case(12).text(), vec![b'0'; 4097]];
    entries.extend(refused.map(|text| Entry { text, room: 0 }));
    entries
}

/// What process 2 of five sends while the last two have crashed, crash in this
/// very round, have decided, or one has crashed and one has decided; it does not
/// crash, or does in each way. Then larger ones, and the two worked runs of the kind
/// (02, Paper 4).
fn addressees() -> Vec<Entry> {
    let silent = Failure::before_sending;
    let fates = [
        (silent(1, 1), vec![silent(4, 1), silent(5, 1)]),
        (Failure::sending_commits(1, 0), vec![silent(4, 2), silent(5, 2)]),
        (Failure::sending_commits(1, 2), vec![]),
        (Failure::sending_commits(1, 1), vec![silent(4, 1)]),
    ];
    let crashes = [
        None,
        Some(Failure::sending_data(2, 0b1_0100)),
        Some(Failure::sending_commits(2, 1)),
        Some(Failure::sending_commits(2, 3)),
    ];
    let mut tickets = Vec::new();
    for (first, last_two) in &fates {
        for crash in crashes {
            let failures = [*first].into_iter().chain(crash).chain(last_two.iter().copied());
            tickets.push(plain(5, 4, failures.collect()));
        }
    }
    tickets.extend(many_addressees());
    tickets.extend([worked::set_partly_counted(), worked::commits_partly_counted()]);
    tickets.iter().map(|ticket| Entry::ample(ticket.text())).collect()
}

/// Of 64 processes: all but the first crash in its round; half of them do, and the
/// others one after the other; many decide in round 1, crash in it or in the next.
fn many_addressees() -> [Ticket; 3] {
    let most = MOST_PROCESSES;
    let silent_in = |round| move |process| Failure::before_sending(process, round);
    let sending = |commits| move |process| Failure::sending_commits(process, commits);
    let halves = (1..=31).map(sending(0)).chain((33..=most).map(silent_in(1)));
    let thirds = (1..=20).map(sending(30)).chain((21..=40).map(silent_in(2)));
    let thirds = thirds.chain((41..=60).map(silent_in(1)));
    [
        plain(most, most - 1, (2..=most).map(silent_in(1)).collect()),
        plain(most, most - 1, halves.collect()),
        plain(most, most - 1, thirds.collect()),
    ]
}

#[cfg(test)]
mod tests {
    use super::*;
    use crate::process::{Process, Status};
    use crate::recount::{counted, crashed_before, crashes_in, decided_before};
    use crate::refusal::{Reason, Refusal};
    use crate::simulation::Simulation;
    use crate::Simulator;
    use std::collections::BTreeSet;

    #[test]
    fn equal_seeds_give_equal_corpora() {
        assert_eq!(corpus(7, 900), corpus(7, 900));
        assert_ne!(corpus(7, 900), corpus(8, 900));
    }

    #[test]
    fn replay_takes_every_entry() {
        let entries = stored();
        assert_eq!(entries.len(), STORED);
        assert!(entries.iter().all(|entry| entry.text.len() <= LONGEST_TEXT));
        assert!(entries.iter().all(|entry| entry.room <= LONGEST_ROOM));
    }

    /// What the second implementation answers, without writing it down.
    fn answers(entries: &[Entry]) -> Vec<Result<usize, Refusal>> {
        let mut simulator = Simulator::new();
        let mut output = vec![0; LONGEST_ROOM];
        let entries = entries.iter();
        entries.map(|Entry { text, room }| simulator.run(text, &mut output[..*room])).collect()
    }

    const SMALL: &[u8] = b"abcdef";
    const CAPITAL: &[u8] = b"ABCDEF";

    fn has(text: &[u8], digits: &[u8]) -> bool {
        text.iter().any(|byte| digits.contains(byte))
    }

    #[test]
    fn small_and_mixed_letters_are_accepted() {
        let entries = small_and_mixed_letters();
        assert!(answers(&entries).iter().all(Result::is_ok));
        let in_one_byte = |digits: &[u8]| {
            let bytes = entries.iter().flat_map(|entry| entry.text.split(|&byte| byte == b'\n'));
            let mut bytes = bytes.flat_map(|line| line.chunks_exact(2));
            bytes.any(|pair| pair == digits)
        };
        for letter in b'a'..=b'f' {
            let capital = letter.to_ascii_uppercase();
            assert!(in_one_byte(&[letter, capital]) && in_one_byte(&[capital, letter]));
            assert!(in_one_byte(&[letter, letter]));
        }
        let corpus = stored();
        assert!(entries.iter().all(|entry| corpus.contains(entry)));
        let accepted = corpus.iter().zip(answers(&corpus)).filter(|(_, answer)| answer.is_ok());
        let (mut small, mut mixed) = (0, 0);
        for (Entry { text, .. }, _) in accepted.filter(|(entry, _)| has(&entry.text, SMALL)) {
            let counted = if has(text, CAPITAL) { &mut mixed } else { &mut small };
            *counted += 1;
        }
        assert!(small >= 20 && mixed >= 20, "{small} {mixed}");
    }

    #[test]
    fn refusals_in_other_letters_are_for_what_their_bytes_say() {
        let answers = answers(&refused_in_other_letters());
        let refused: Vec<(u8, u16)> = answers
            .into_iter()
            .map(|answer| answer.expect_err("a refusal"))
            .map(|refusal| (refusal.reason.number(), refusal.line))
            .collect();
        let expected = [(3, 2), (4, 1), (5, 11), (6, 18), (7, 18), (7, 14), (8, 15), (8, 14)];
        assert_eq!(refused, expected);
    }

    #[test]
    fn wrong_bytes_are_refused_with_2() {
        let entries = wrong_bytes();
        for (entry, answer) in entries.iter().zip(answers(&entries)) {
            assert_eq!(answer.expect_err("a refusal").reason, Reason::NotALine, "{entry:?}");
        }
        for byte in [b'`', b'g', b'G', b'@', b'/', b':', b'*'].into_iter().chain(0x10..=0x19) {
            assert!(entries.iter().any(|entry| entry.text.contains(&byte)));
        }
    }

    #[test]
    fn one_byte_less_than_the_result_is_refused_with_9() {
        let entries = each_room();
        let answered = |n: u8, room| {
            let text = plain(n, n - 1, vec![]).text();
            let entry = Entry { text, room };
            assert!(entries.contains(&entry), "{n} {room}");
            answers(&[entry])[0]
        };
        let too_short = Err(Reason::OutputTooShort.at_no_line());
        for (n, before, exact) in [(1, 34, 38), (4, 85, 101), (64, 1105, 1361)] {
            for room in [0, before, exact - 1] {
                assert_eq!(answered(n, room), too_short, "{n} {room}");
            }
            for room in [exact, exact + 1, exact + 4, LONGEST_ROOM] {
                assert_eq!(answered(n, room), Ok(exact), "{n} {room}");
            }
        }
    }

    /// Whether data, and whether commits, go to processes that have crashed, have
    /// decided, and crash in the round.
    fn addressed(ticket: &Ticket) -> [[bool; 2]; 3] {
        let mut simulation = Simulation::new(ticket);
        simulation.run(|_, _| {});
        let ends: Vec<Status> = simulation.processes().iter().map(Process::status).collect();
        let mut addressed = [[false; 2]; 3];
        for id in 1..=ticket.n {
            let kinds: [fn(Status, u8) -> bool; 3] = [crashed_before, decided_before, crashes_in];
            let counts = kinds.map(|is_of| counted(ticket, &ends, id, |end| is_of(end, id)));
            for (addressed, count) in addressed.iter_mut().zip(counts) {
                addressed[0] |= count.data > 0;
                addressed[1] |= count.commits > 0;
            }
        }
        addressed
    }

    #[test]
    fn messages_go_to_each_kind_of_addressee_alone_and_to_all() {
        let (entries, corpus) = (addressees(), stored());
        assert!(entries.len() == 21 && entries.iter().all(|entry| corpus.contains(entry)));
        let tickets = entries.iter().map(|entry| Ticket::parse(&entry.text).expect("accepted"));
        let shown: Vec<_> = tickets.map(|ticket| addressed(&ticket)).collect();
        let (neither, data, both) = ([false, false], [true, false], [true, true]);
        for kind in 0..3 {
            let mut alone = [neither; 3];
            alone[kind] = both;
            assert!(shown.contains(&alone), "{alone:?}");
        }
        assert!(shown.contains(&[both, both, data]) && shown.contains(&[both; 3]));
    }

    /// 02, Paper 6: the stored tickets tell the first settling round from the last
    /// round, from the one behind it, and from that of the first decision.
    #[test]
    fn stored_tickets_settle_in_the_first_a_middle_and_the_last_round() {
        let (mut first, mut middle, mut last, mut undecided) = (0, 0, 0, 0);
        for ticket in stored().iter().filter_map(|entry| Ticket::parse(&entry.text).ok()) {
            let settled = Simulator::new().settling_round(&ticket.text()).expect("accepted");
            let mut decides_then = false;
            let rounds = Simulation::new(&ticket).run(|round, processes| {
                let decided = |process: &Process| process.status() == Status::Decided(round);
                decides_then |= round == settled && processes.iter().any(decided);
            });
            let rounds = rounds.rounds;
            first += usize::from(settled == 1 && rounds > 1);
            middle += usize::from(1 < settled && settled < rounds);
            last += usize::from(1 < settled && settled == rounds);
            undecided += usize::from(!decides_then);
        }
        let tried = [first, middle, last, undecided];
        assert!(tried.iter().all(|&count| count > 5), "{tried:?}");
    }

    #[test]
    fn the_systematic_part_shows_what_it_is_for() {
        let (mut refusals, mut sizes) = (BTreeSet::new(), BTreeSet::new());
        let entries = systematic(&mut Rng::new(1));
        for answer in answers(&entries) {
            match answer {
                Ok(length) => sizes.insert((length - 17) / 21),
                Err(refusal) => refusals.insert((refusal.reason.number(), refusal.line)),
            };
        }
        assert_eq!(sizes, (1..=64).collect());
        let shown = |number: u8, lines: &[u16]| {
            lines.iter().all(|&line| refusals.contains(&(number, line)))
        };
        let every_line: Vec<u16> = (1..=12).collect();
        assert!(shown(1, &[0]) && shown(9, &[0]));
        assert!(shown(2, &every_line) && shown(3, &every_line));
        assert!(shown(2, &[130]) && shown(3, &[129, 130]));
        assert!(shown(4, &[1]));
        assert!(shown(5, &[2, 3, 4, 5, 6, 7, 65]));
        assert!(shown(6, &[3, 6, 11, 129]));
        assert!(shown(7, &[8, 9, 10, 128]) && shown(8, &[8, 9, 10, 128]));
        for length in [4096, 4097] {
            assert!(entries.iter().any(|entry| entry.text.len() == length));
        }
    }
}
