//! One call or one ticket, given to the implementation under test and to the
//! second one; and a ticket in other letters, given to the one under test.

use std::fmt;

use second::generate;
use second::interface::{Agreement, REFUSED};
use second::report::{process_line, result_length, write_line};
use second::report::{LAST_LINE_LENGTH, LONGEST_RESULT, PROCESS_LINE_LENGTH};
use second::rng::Rng;
use second::separate::{run_separately, SeparateRun};
use second::{Simulator, Ticket};

/// Bytes kept behind each lent buffer, to see that nobody writes there.
const GUARD: usize = 24;

/// How many calls and runs have been compared.
#[derive(Clone, Copy, Debug, Default, PartialEq, Eq)]
pub struct Counts {
    /// Tickets that the second implementation accepts.
    pub accepted: u64,
    /// Tickets that it refuses.
    pub refused: u64,
    /// Calls that run a ticket.
    pub runs: u64,
    /// Calls that settle.
    pub settlings: u64,
    /// Settling rounds of the module under test that were held to their definition.
    pub settled: u64,
    /// Calls that give one reason.
    pub reasons: u64,
    /// Calls that give all reasons of a run.
    pub tables: u64,
    /// Tables of the module under test that were held to what its separate parts hear.
    pub heard: u64,
    /// Calls that quote by a ticket.
    pub quotes: u64,
    /// Calls that quote by a state.
    pub prices: u64,
    /// Runs of which all that decide were held to one quote of the module under test.
    pub quoted_alike: u64,
    /// Runs by separate local parts.
    pub separate_runs: u64,
    /// Runs by separate local parts that are called in any order.
    pub in_any_order: u64,
    /// Mixes of two such runs.
    pub mixes: u64,
    /// Results of the module under test whose counts by process were added up.
    pub added_up: u64,
    /// Results of it whose counts were held to the bounds by speakers.
    pub within_bounds: u64,
    /// Tickets, of those above, with each of the 256 bytes in place of another.
    pub with_each_byte: u64,
    /// Tickets that the module under test ran and settled in other letters too.
    pub in_other_letters: u64,
    /// Calls of start.
    pub starts: u64,
    /// Calls of speak.
    pub speeches: u64,
    /// Calls of close.
    pub closings: u64,
}

impl fmt::Display for Counts {
    fn fmt(&self, f: &mut fmt::Formatter) -> fmt::Result {
        write!(
            f,
            "{} tickets ({} accepted, {} refused) in {} runs, {} settlings, \
             {} settling rounds held to what separate parts hold, \
             {} single reasons, {} tables of reasons and {} held to what separate parts hear, \
             {} quotes by tickets, {} by states and {} runs held to one quote, \
             {} runs by separate parts, {} by parts called in any order and {} mixes of two runs, \
             {} results added up and {} held to the bounds on messages and on commits; \
             {} of these tickets with each of the 256 bytes in place of another; \
             {} of these tickets in other letters too; {} starts, {} speeches, {} closings",
            self.accepted + self.refused,
            self.accepted,
            self.refused,
            self.runs,
            self.settlings,
            self.settled,
            self.reasons,
            self.tables,
            self.heard,
            self.quotes,
            self.prices,
            self.quoted_alike,
            self.separate_runs,
            self.in_any_order,
            self.mixes,
            self.added_up,
            self.within_bounds,
            self.with_each_byte,
            self.in_other_letters,
            self.starts,
            self.speeches,
            self.closings,
        )
    }
}

/// Where two implementations differ.
#[derive(Clone, Debug, PartialEq, Eq)]
pub enum Difference {
    /// On a ticket's text, which can be shrunk.
    Ticket {
        /// The text.
        text: Vec<u8>,
        /// The call and both answers.
        what: String,
    },
    /// On two tickets' texts, which can be shrunk too.
    Pair {
        /// The texts.
        texts: [Vec<u8>; 2],
        /// The call, what it answers and what it is to answer.
        what: String,
    },
    /// On a call of start, speak, close or price.
    Call {
        /// The call and both answers.
        what: String,
    },
}

/// Compares an implementation with the second one and counts.
#[derive(Clone, Debug)]
pub struct Comparison<M> {
    pub(crate) module: M,
    pub(crate) second: Simulator,
    /// What has been compared so far.
    pub counts: Counts,
    fill: u8,
}

/// A buffer of `length` bytes and its guard, filled with bytes from `fill` on.
pub(crate) fn filled(length: usize, fill: u8) -> Vec<u8> {
    (0..length + GUARD).map(|at| fill.wrapping_add(at as u8)).collect()
}

pub(crate) fn hex(bytes: &[u8]) -> String {
    let digits: String = bytes.iter().map(|byte| format!("{byte:02X}")).collect();
    format!("[{digits}]")
}

/// An answer about a ticket in words.
pub(crate) fn in_words(answer: u64) -> String {
    match (answer / REFUSED, answer % REFUSED) {
        (0, answer) => answer.to_string(),
        (number, line) => format!("refusal {number} at line {line}"),
    }
}

/// What the answers of the implementation under test are compared with.
pub(crate) const IN_SECOND: &str = "in the second implementation";
pub(crate) const IN_LETTERS: &str = "in other letters";

/// The first place where two equally long buffers differ.
pub(crate) fn first_difference(under_test: &[u8], other: &[u8], in_other: &str) -> String {
    let mut pairs = under_test.iter().zip(other);
    match pairs.position(|(a, b)| a != b) {
        Some(at) => {
            format!("byte {at} is {:02X}, {in_other} {:02X}", under_test[at], other[at])
        }
        None => String::from("all bytes are equal"),
    }
}

/// The first result line that differs after two equal answers, or else the
/// first byte.
fn differing_line(under_test: &[u8], other: &[u8], written: u64, in_other: &str) -> String {
    let written = under_test.len().min(written as usize);
    let [lines, others] =
        [under_test, other].map(|output| output[..written].split(|&byte| byte == b'\n'));
    match lines.zip(others).find(|(line, other)| line != other) {
        Some((line, other)) => {
            format!("a line is {}, {in_other} {}", line.escape_ascii(), other.escape_ascii())
        }
        None => first_difference(under_test, other, in_other),
    }
}

/// An answer about a ticket, and the output with its guard afterwards.
type Ran = (u64, Vec<u8>);

/// Nothing if two runs of a ticket are alike, and else how they differ.
fn alike(under_test: &Ran, other: &Ran, in_other: &str) -> Result<(), String> {
    if under_test == other {
        return Ok(());
    }
    let ((answer, output), (other_answer, other_output)) = (under_test, other);
    let bytes = if answer == other_answer && *answer < REFUSED {
        differing_line(output, other_output, *answer, in_other)
    } else {
        first_difference(output, other_output, in_other)
    };
    let [answer, other_answer] = [answer, other_answer].map(|&answer| in_words(answer));
    Err(format!("answers {answer}, {in_other} {other_answer}; {bytes}"))
}

/// One run into a buffer of `room` bytes with its guard, filled from `fill` on.
fn run_into(module: &mut impl Agreement, text: &[u8], room: usize, fill: u8) -> Ran {
    let mut output = filled(room, fill);
    let answer = module.run(text, &mut output[..room]);
    (answer, output)
}

/// The number that `bytes` bytes of a line make from byte `place` on; nothing if
/// they are not digits as results have them.
fn number_at(line: &[u8], place: usize, bytes: usize) -> Option<u64> {
    let mut digits = line.get(2 * place..2 * (place + bytes))?.iter();
    digits.try_fold(0, |number, &digit| match digit {
        b'0'..=b'9' => Some(16 * number + u64::from(digit - b'0')),
        b'A'..=b'F' => Some(16 * number + u64::from(digit - b'A') + 10),
        _ => None,
    })
}

/// The rounds in the last line of a result.
pub(crate) fn rounds_in(result: &[u8]) -> Option<u64> {
    number_at(&result[result.len() - LAST_LINE_LENGTH..], 1, 1)
}

/// Whether a round is the settling round of a run whose rounds, from 1 on, qualify
/// or not: it does, no lower one does, and every later one does (02, Paper 6).
fn is_settling_round(round: u64, qualifies: &[bool]) -> bool {
    let is_of_run = 1 <= round && round <= qualifies.len() as u64;
    is_of_run && (1..).zip(qualifies).all(|(other, &one)| one == (round <= other))
}

/// A seed for what is by chance about a text; equal texts give equal ones.
pub(crate) fn seed_of(text: &[u8]) -> u64 {
    text.iter().fold(0u64, |sum, &byte| sum.wrapping_mul(31).wrapping_add(u64::from(byte)))
}

/// The text in other letters, if it has any; equal texts give equal ones.
fn relettered(text: &[u8]) -> Option<Vec<u8>> {
    if !text.iter().any(u8::is_ascii_alphabetic) {
        return None;
    }
    let mut rng = Rng::new(seed_of(text));
    loop {
        let other = generate::in_other_letters(&mut rng, text);
        if other != text {
            return Some(other);
        }
    }
}

impl<M> Comparison<M> {
    /// A comparison of `module` that has compared nothing yet.
    pub fn new(module: M) -> Self {
        Comparison { module, second: Simulator::new(), counts: Counts::default(), fill: 0 }
    }
}

impl<M: Agreement> Comparison<M> {
    /// Another fill each time, so that no byte is right by chance for long.
    pub(crate) fn next_fill(&mut self) -> u8 {
        self.fill = self.fill.wrapping_add(101);
        self.fill
    }

    /// Everything about one ticket: runs with output buffers of the lengths
    /// `rooms`, settling, reasons, separate local parts, by which settling and reasons
    /// are right too, in any order as well, quotes, and the sums of the counts and their
    /// bounds.
    pub fn ticket(&mut self, text: &[u8], rooms: &[usize]) -> Result<(), Difference> {
        let differs = |what| Difference::Ticket { text: text.to_vec(), what };
        for &room in rooms {
            self.run(text, room).map_err(differs)?;
        }
        let settled = self.settle(text).map_err(differs)?;
        match Ticket::parse(text) {
            Ok(ticket) => {
                self.counts.accepted += 1;
                self.accepted_reasons(text, &ticket).map_err(differs)?;
                let (_, output) = run_into(&mut self.module, text, LONGEST_RESULT, 0);
                let result = &output[..result_length(ticket.n)];
                let separate = self.separate_run(&ticket, result).map_err(differs)?;
                self.in_any_order(text, &ticket).map_err(differs)?;
                self.keep_settled(settled, result, &separate).map_err(differs)?;
                self.keep_reasons(text, result, &separate).map_err(differs)?;
                self.accepted_quotes(text, &separate).map_err(differs)?;
                self.add_up(result).map_err(differs)?;
                self.keep_bounds(result).map_err(differs)
            }
            Err(_) => {
                self.counts.refused += 1;
                self.refused_reasons(text, settled).map_err(differs)?;
                self.refused_quotes(text).map_err(differs)
            }
        }
    }

    /// One run: the answer, and every byte of the output and behind it.
    fn run(&mut self, text: &[u8], room: usize) -> Result<(), String> {
        self.counts.runs += 1;
        let fill = self.next_fill();
        let under_test = run_into(&mut self.module, text, room, fill);
        let second = run_into(&mut self.second, text, room, fill);
        alike(&under_test, &second, IN_SECOND)
            .map_err(|what| format!("running with {room} bytes of output {what}"))
    }

    /// Settling: the same round, or the same refusal.
    fn settle(&mut self, text: &[u8]) -> Result<u64, String> {
        self.counts.settlings += 1;
        let answer = self.module.settle(text);
        let second = Agreement::settle(&mut self.second, text);
        if answer == second {
            return Ok(answer);
        }
        let [answer, second] = [answer, second].map(in_words);
        Err(format!("settling answers {answer}, {IN_SECOND} {second}"))
    }

    /// The claim of Paper 6 about the module alone: the round that it names is the
    /// settling round by what its own separate parts hold at the end of each of the
    /// rounds that its own result has.
    fn keep_settled(
        &mut self,
        round: u64,
        result: &[u8],
        separate: &SeparateRun,
    ) -> Result<(), String> {
        self.counts.settled += 1;
        let rounds = rounds_in(result);
        let qualifies = rounds.and_then(|rounds| separate.one_value.get(..rounds as usize));
        match qualifies {
            Some(qualifies) if is_settling_round(round, qualifies) => Ok(()),
            Some(qualifies) => {
                let rounds = (1..).zip(qualifies).filter(|(_, &one)| one);
                let rounds: Vec<u8> = rounds.map(|(round, _)| round).collect();
                Err(format!("settling answers {round}; by separate parts {rounds:?} qualify"))
            }
            None => Err(format!("the run has {rounds:?} rounds")),
        }
    }

    /// The claim of Paper 1 about one ticket: in other letters, into an equal
    /// buffer of `room` bytes, it is answered alike, leaves the same bytes, and
    /// settles alike, for the same reasons and with the same quotes. A text that has no
    /// letters is not counted.
    pub fn in_other_letters(&mut self, text: &[u8], room: usize) -> Result<(), Difference> {
        let Some(other) = relettered(text) else {
            return Ok(());
        };
        self.counts.in_other_letters += 1;
        let differs = |what| Difference::Ticket { text: text.to_vec(), what };
        let fill = self.next_fill();
        let [ran, other_ran] =
            [text, &other].map(|text| run_into(&mut self.module, text, room, fill));
        alike(&ran, &other_ran, IN_LETTERS)
            .map_err(|what| differs(format!("running with {room} bytes of output {what}")))?;
        let [round, other_round] = [text, &other].map(|text| self.module.settle(text));
        if round != other_round {
            let [round, other_round] = [round, other_round].map(in_words);
            return Err(differs(format!("settling answers {round}, {IN_LETTERS} {other_round}")));
        }
        self.reasons_in_other_letters(text, &other).map_err(differs)?;
        self.quotes_in_other_letters(text, &other).map_err(differs)
    }

    /// Separate local parts against the lines of the module's own result: the
    /// ends, and the counts of what left each part and was carried.
    fn separate_run(&mut self, ticket: &Ticket, result: &[u8]) -> Result<SeparateRun, String> {
        self.counts.separate_runs += 1;
        let separate = run_separately(&mut self.module, ticket)?;
        let lines = result.chunks_exact(PROCESS_LINE_LENGTH);
        for ((id, end), line) in (1..).zip(&separate.ends).zip(lines) {
            let mut separate = [0; PROCESS_LINE_LENGTH];
            write_line(&process_line(id, end.status, end.value, end.carried), &mut separate);
            if separate != line {
                return Err(format!(
                    "process {id} on its own ends with {}, in the run with {}",
                    separate.trim_ascii_end().escape_ascii(),
                    line.trim_ascii_end().escape_ascii()
                ));
            }
        }
        Ok(separate)
    }

    /// The claim of Paper 2 about the module's own result: the counts of the
    /// process lines add up to those of the last line.
    fn add_up(&mut self, result: &[u8]) -> Result<(), String> {
        self.counts.added_up += 1;
        let (lines, last) = result.split_at(result.len() - LAST_LINE_LENGTH);
        for (name, place, in_all) in [("data messages", 8, 4), ("commits", 9, 6)] {
            let counts = lines.chunks(PROCESS_LINE_LENGTH).map(|line| number_at(line, place, 1));
            let sum: Option<u64> = counts.sum();
            let in_all = number_at(last, in_all, 2);
            if sum.is_none() || sum != in_all {
                return Err(format!("the {name} add up to {sum:?}, in the last line {in_all:?}"));
            }
        }
        Ok(())
    }

    /// The bounds on the counts of the module's own last line, by its speakers:
    /// document 01's on all messages, and Paper 4's on commits, which are at most n
    /// less the speakers. n is the number of process lines.
    fn keep_bounds(&mut self, result: &[u8]) -> Result<(), String> {
        self.counts.within_bounds += 1;
        let (lines, last) = result.split_at(result.len() - LAST_LINE_LENGTH);
        let n = (lines.len() / PROCESS_LINE_LENGTH) as u64;
        let numbers = [(3, 1), (4, 2), (6, 2)].map(|(place, bytes)| number_at(last, place, bytes));
        let [Some(k), Some(data), Some(commits)] = numbers else {
            return Err(format!("the last line is {}", last.escape_ascii()));
        };
        let most = (k * (2 * n).saturating_sub(k + 1)).saturating_sub(k * k.saturating_sub(1) / 2);
        if data + commits > most {
            return Err(format!("{n} processes, {k} speakers: {data} + {commits} messages"));
        }
        if commits + k > n {
            return Err(format!("{n} processes, {k} speakers: {commits} commits"));
        }
        Ok(())
    }

    /// One call of start, with `length` bytes lent.
    pub fn start(
        &mut self,
        process: u64,
        n: u64,
        t: u64,
        value: u32,
        length: usize,
    ) -> Result<(), Difference> {
        self.counts.starts += 1;
        let mut state = filled(length, self.next_fill());
        let mut expected = state.clone();
        let answer = self.module.start(process, n, t, value, &mut state[..length]);
        let second = self.second.start(process, n, t, value, &mut expected[..length]);
        if answer == second && state == expected {
            return Ok(());
        }
        let what = format!(
            "starting process {process} of {n}, t = {t}, value {value}, in {length} bytes \
             answers {answer}, in the second implementation {second}; {}",
            first_difference(&state, &expected, IN_SECOND)
        );
        Err(Difference::Call { what })
    }

    /// One call of speak, with an output of `room` bytes.
    pub fn speak(&mut self, state: &[u8], room: usize) -> Result<(), Difference> {
        self.counts.speeches += 1;
        let mut output = filled(room, self.next_fill());
        let mut expected = output.clone();
        let answer = self.module.speak(state, &mut output[..room]);
        let second = self.second.speak(state, &mut expected[..room]);
        if answer == second && output == expected {
            return Ok(());
        }
        let what = format!(
            "speaking in state {} with {room} bytes of output answers {answer}, \
             in the second implementation {second}; {}",
            hex(state),
            first_difference(&output, &expected, IN_SECOND)
        );
        Err(Difference::Call { what })
    }

    /// One call of close on what was heard.
    pub fn close(&mut self, state: &[u8], heard: &[u8]) -> Result<(), Difference> {
        self.counts.closings += 1;
        let length = state.len();
        let mut after = [state, &[0xA5; GUARD]].concat();
        let mut expected = after.clone();
        let answer = self.module.close(&mut after[..length], heard);
        let second = self.second.close(&mut expected[..length], heard);
        if answer == second && after == expected {
            return Ok(());
        }
        let what = format!(
            "closing state {} on {} answers {answer}, in the second implementation {second}; {}",
            hex(state),
            hex(heard),
            first_difference(&after, &expected, IN_SECOND)
        );
        Err(Difference::Call { what })
    }
}

/// The output lengths at which one may take a result of `n` processes for too
/// long or not: around its own, 21n + 17; around 17(n + 1), the length before
/// Paper 2; and around 21(n + 1), which it would be if the last line grew too.
pub fn rooms_at_limits(n: u8) -> Vec<usize> {
    let lines = usize::from(n) + 1;
    let limits = [17 * lines, result_length(n), 21 * lines];
    limits.into_iter().flat_map(|limit| limit - 1..=limit + 1).collect()
}

/// The output lengths around the result's of `n` processes, `by` to each side.
pub fn rooms_around(n: u8, by: usize) -> Vec<usize> {
    let exact = result_length(n);
    (exact.saturating_sub(by)..=exact + by).collect()
}

#[cfg(test)]
mod tests {
    use super::*;
    use crate::exhaustive;
    use second::process::{MessageCounts, Status};
    use second::recount::{counted, crashed_before, crashes_in, decided_before, end_round};
    use second::simulation::{history, Simulation, Standing};
    use second::worked;
    use second::{Crash, Failure};

    /// A mistake that the comparison must see.
    #[derive(Clone, Copy, Debug, PartialEq)]
    enum Mistake {
        None,
        CountsOneCommitMore,
        WritesBehindTheResult,
        WritesOnRefusal,
        RefusesMixedLetters,
        WritesTheLettersOfTheTicket,
        SettlesLaterForSmallLetters,
        SettlesInTheLastRound,
        SettlesOneRoundLate,
        SettlesAfterTheRun,
        SettlesAsTheRoundBegins,
        SettlesWithTheValuesOfTheCrashed,
        SettlesByTheDecidedAlone,
        SettlesByWhoNeverCrashes,
        SettlesInRound0,
        SettlesWithTheFirstDecision,
        SwapsTheCounts,
        CountsAtTheProcessAfter,
        CountsOfAllInEveryLine,
        CountsOfAllInTheFirstLine,
        NoCountsOfACrashedProcess,
        CutsCountsTo5Bits,
        CutsCountsAt62,
        CountsCrashedAddressees,
        CountsDecidedAddressees,
        CountsEveryAddressee,
        LeavesOutAddresseesThatCrash,
        CountsAsTheRoundEnds,
        LeavesOutRoundsWithoutData,
        CountsNoMoreCrashesThanData,
        SkipsTheEndedInTheCommitList,
        TakesRoomFor17BytesALine,
        AsksForOneByteMore,
        WritesALongerLastLine,
        WritesNoCounts,
        StartsInRound0,
        SpeaksOnRefusal,
        DecidesOnDataAlone,
    }

    /// The mistakes about the counts in a process's line.
    const ABOUT_COUNTS: [Mistake; 7] = [
        Mistake::SwapsTheCounts,
        Mistake::CountsAtTheProcessAfter,
        Mistake::CountsOfAllInEveryLine,
        Mistake::CountsOfAllInTheFirstLine,
        Mistake::NoCountsOfACrashedProcess,
        Mistake::CutsCountsTo5Bits,
        Mistake::CutsCountsAt62,
    ];

    /// The mistakes about what is carried (02, Paper 4), the last three of them about
    /// what the new counts must not change.
    const ABOUT_CARRYING: [Mistake; 8] = [
        Mistake::CountsCrashedAddressees,
        Mistake::CountsDecidedAddressees,
        Mistake::CountsEveryAddressee,
        Mistake::LeavesOutAddresseesThatCrash,
        Mistake::CountsAsTheRoundEnds,
        Mistake::LeavesOutRoundsWithoutData,
        Mistake::CountsNoMoreCrashesThanData,
        Mistake::SkipsTheEndedInTheCommitList,
    ];

    /// The mistakes about the settling round (02, Paper 6).
    const ABOUT_SETTLING: [Mistake; 9] = [
        Mistake::SettlesInTheLastRound,
        Mistake::SettlesOneRoundLate,
        Mistake::SettlesAfterTheRun,
        Mistake::SettlesAsTheRoundBegins,
        Mistake::SettlesWithTheValuesOfTheCrashed,
        Mistake::SettlesByTheDecidedAlone,
        Mistake::SettlesByWhoNeverCrashes,
        Mistake::SettlesInRound0,
        Mistake::SettlesWithTheFirstDecision,
    ];

    /// The mistakes about a result's length.
    const ABOUT_LENGTHS: [Mistake; 4] = [
        Mistake::TakesRoomFor17BytesALine,
        Mistake::AsksForOneByteMore,
        Mistake::WritesALongerLastLine,
        Mistake::WritesNoCounts,
    ];

    /// The counts that stand in the line at `place`, from 0 on, by a mistake, if
    /// those of `lines` are right.
    fn miscounted(mistake: Mistake, lines: &[[u64; 3]], place: usize) -> [u64; 2] {
        let [end, data, commits] = lines[place];
        let in_all = lines.iter().fold([0, 0], |sum, line| [sum[0] + line[1], sum[1] + line[2]]);
        match mistake {
            Mistake::SwapsTheCounts => [commits, data],
            Mistake::CountsAtTheProcessAfter if place == 0 => [0, 0],
            Mistake::CountsAtTheProcessAfter => [lines[place - 1][1], lines[place - 1][2]],
            Mistake::CountsOfAllInEveryLine => in_all,
            Mistake::CountsOfAllInTheFirstLine if place == 0 => in_all,
            Mistake::CountsOfAllInTheFirstLine => [0, 0],
            Mistake::NoCountsOfACrashedProcess if end == 2 => [0, 0],
            Mistake::CutsCountsTo5Bits => [data % 32, commits % 32],
            Mistake::CutsCountsAt62 => [data.min(62), commits.min(62)],
            _ => [data, commits],
        }
    }

    /// Changes the counts in a right result.
    fn miscount(mistake: Mistake, result: &mut [u8]) {
        let lines: Vec<[u64; 3]> = result[..result.len() - LAST_LINE_LENGTH]
            .chunks(PROCESS_LINE_LENGTH)
            .map(|line| [2, 8, 9].map(|place| number_at(line, place, 1).expect("digits")))
            .collect();
        for (place, line) in result.chunks_exact_mut(PROCESS_LINE_LENGTH).enumerate() {
            let [data, commits] = miscounted(mistake, &lines, place).map(|count| count as u8);
            write_line(&[data, commits], &mut line[16..]);
        }
    }

    /// Whether a message of `round` to a process that ends so is counted by a
    /// mistake.
    fn is_counted(mistake: Mistake, end: Status, round: u8) -> bool {
        let begins = round <= end_round(end);
        match mistake {
            Mistake::CountsCrashedAddressees => !decided_before(end, round),
            Mistake::CountsDecidedAddressees => !crashed_before(end, round),
            Mistake::CountsEveryAddressee => true,
            Mistake::LeavesOutAddresseesThatCrash => begins && !crashes_in(end, round),
            Mistake::CountsAsTheRoundEnds => round < end_round(end),
            _ => begins,
        }
    }

    /// How the process of a line ends.
    fn end_in(line: &[u8]) -> Status {
        let [end, round] = [2, 3].map(|place| number_at(line, place, 1).expect("digits"));
        if end == 1 {
            Status::Decided(round as u8)
        } else {
            Status::Crashed(round as u8)
        }
    }

    /// Counts anew in a right result what is carried, and with it what must not
    /// change.
    fn recount(mistake: Mistake, ticket: &Ticket, result: &mut [u8]) {
        let (lines, last) = result.split_at_mut(result.len() - LAST_LINE_LENGTH);
        let ends: Vec<Status> = lines.chunks(PROCESS_LINE_LENGTH).map(end_in).collect();
        let mut in_all = [0u16; 2];
        let [mut rounds, mut f, speakers] =
            [1, 2, 3].map(|place| number_at(last, place, 1).expect("digits") as u8);
        let mut last_with_data = 0;
        for (id, line) in (1..).zip(lines.chunks_exact_mut(PROCESS_LINE_LENGTH)) {
            let MessageCounts { data, commits } =
                counted(ticket, &ends, id, |end| is_counted(mistake, end, id));
            write_line(&[data, commits], &mut line[16..]);
            in_all = [in_all[0] + u16::from(data), in_all[1] + u16::from(commits)];
            last_with_data = if data > 0 { id } else { last_with_data };
        }
        match mistake {
            Mistake::LeavesOutRoundsWithoutData => rounds = last_with_data,
            Mistake::CountsNoMoreCrashesThanData => f = f.min(in_all[0].min(255) as u8),
            _ => {}
        }
        let [[a, b], [c, d]] = in_all.map(u16::to_be_bytes);
        write_line(&[rounds, f, speakers, a, b, c, d], &mut last[2..]);
    }

    /// The ticket whose run is that of `ticket` if dropped commits are taken for not
    /// sent: a failure line's count then goes by the processes above that begin the
    /// round up and undecided, and the last of them to have a commit is further down.
    fn with_the_ended_skipped(ticket: &Ticket) -> Ticket {
        let mut skipping = ticket.clone();
        for place in 0..ticket.failures.len() {
            let Failure { process, crash, .. } = ticket.failures[place];
            let Crash::SendingCommits { sent: sent @ 1.. } = crash else {
                continue;
            };
            // Who has ended goes by earlier rounds, whose lines are changed already.
            let mut simulation = Simulation::new(&skipping);
            simulation.run(|_, _| {});
            let ended = |to: &u8| {
                let end = simulation.processes()[usize::from(*to) - 1].status();
                end_round(end) < process
            };
            let mut list = (process + 1..=ticket.n).rev().filter(|to| !ended(to));
            let last = list.nth(usize::from(sent) - 1).unwrap_or(process + 1);
            skipping.failures[place] = Failure::sending_commits(process, ticket.n - last + 1);
        }
        skipping
    }

    /// Whether the processes of a status hold one value.
    fn one_value(states: &Standing, is_compared: impl Fn(Status) -> bool) -> bool {
        let mut held = states.iter().filter(|(status, _)| is_compared(*status));
        let first = held.next();
        held.all(|(_, value)| first.is_some_and(|(_, other)| value == other))
    }

    fn has_crashed(status: Status) -> bool {
        matches!(status, Status::Crashed(_))
    }

    fn has_decided(status: Status) -> bool {
        matches!(status, Status::Decided(_))
    }

    /// The round that settling names by a mistake, the run's last if it finds none.
    fn missettled(mistake: Mistake, ticket: &Ticket) -> u64 {
        let history = history(ticket);
        let last = history.len() - 1;
        let first = |from: usize, is_settled: &dyn Fn(usize) -> bool| {
            (from..last).find(|&round| is_settled(round)).unwrap_or(last)
        };
        let settled = |round: usize| one_value(&history[round], |status| !has_crashed(status));
        let never_crash = |states: &Standing| {
            let ends = history[last].iter().zip(states);
            ends.filter(|((end, _), _)| !has_crashed(*end)).map(|(_, &state)| state).collect()
        };
        let round = match mistake {
            Mistake::SettlesInTheLastRound => last,
            Mistake::SettlesOneRoundLate => last.min(first(1, &settled) + 1),
            Mistake::SettlesAfterTheRun => last + 1,
            Mistake::SettlesAsTheRoundBegins => first(1, &|round| settled(round - 1)),
            Mistake::SettlesWithTheValuesOfTheCrashed => {
                first(1, &|round| one_value(&history[round], |_| true))
            }
            Mistake::SettlesByTheDecidedAlone => {
                first(1, &|round| one_value(&history[round], has_decided))
            }
            Mistake::SettlesByWhoNeverCrashes => {
                first(1, &|round| one_value(&never_crash(&history[round]), |_| true))
            }
            Mistake::SettlesInRound0 => first(0, &settled),
            Mistake::SettlesWithTheFirstDecision => {
                first(1, &|round| history[round].iter().any(|&(status, _)| has_decided(status)))
            }
            _ => first(1, &settled),
        };
        round as u64
    }

    /// What a module answers that is mistaken about lengths.
    fn mistake_length(mistake: Mistake, ticket: &[u8], output: &mut [u8]) -> Option<u64> {
        let n = Ticket::parse(ticket).ok()?.n;
        let mut whole = vec![0; result_length(n)];
        Simulator::new().run(ticket, &mut whole).expect("room");
        let room = output.len();
        let lines = usize::from(n) + 1;
        let enough = match mistake {
            Mistake::TakesRoomFor17BytesALine | Mistake::WritesNoCounts => 17 * lines,
            Mistake::AsksForOneByteMore => whole.len() + 1,
            Mistake::WritesALongerLastLine => 21 * lines,
            _ => return None,
        };
        if room < enough {
            return Some(9 * REFUSED);
        }
        if mistake == Mistake::WritesALongerLastLine {
            whole.splice(whole.len() - 1.., *b"0000\n");
        }
        if mistake == Mistake::WritesNoCounts {
            let counts =
                |place: usize| place < 21 * usize::from(n) && (16..20).contains(&(place % 21));
            whole = (0..whole.len()).filter(|&place| !counts(place)).map(|at| whole[at]).collect();
        }
        let fits = whole.len().min(room);
        output[..fits].copy_from_slice(&whole[..fits]);
        Some(whole.len() as u64)
    }

    fn has_small_letters(text: &[u8]) -> bool {
        text.iter().any(u8::is_ascii_lowercase)
    }

    fn has_mixed_letters(text: &[u8]) -> bool {
        has_small_letters(text) && text.iter().any(u8::is_ascii_uppercase)
    }

    /// The second implementation with a mistake.
    struct Mistaken(Simulator, Mistake);

    impl Agreement for Mistaken {
        fn run(&mut self, ticket: &[u8], output: &mut [u8]) -> u64 {
            if self.1 == Mistake::RefusesMixedLetters && has_mixed_letters(ticket) {
                return 2 * REFUSED + 1;
            }
            if ABOUT_LENGTHS.contains(&self.1) {
                if let Some(answer) = mistake_length(self.1, ticket, output) {
                    return answer;
                }
            }
            if self.1 == Mistake::SkipsTheEndedInTheCommitList {
                let skipping =
                    Ticket::parse(ticket).map(|read| with_the_ended_skipped(&read).text());
                let ticket = skipping.as_deref().unwrap_or(ticket);
                return Agreement::run(&mut self.0, ticket, output);
            }
            let answer = Agreement::run(&mut self.0, ticket, output);
            let length = answer as usize;
            match self.1 {
                Mistake::CountsOneCommitMore if answer < REFUSED => output[length - 2] += 1,
                Mistake::WritesBehindTheResult if length < output.len() => output[length] = b'\n',
                Mistake::WritesOnRefusal if answer > REFUSED => output.fill(0),
                Mistake::WritesTheLettersOfTheTicket
                    if answer < REFUSED && has_small_letters(ticket) =>
                {
                    output[..length].make_ascii_lowercase()
                }
                mistake if answer < REFUSED && ABOUT_COUNTS.contains(&mistake) => {
                    miscount(mistake, &mut output[..length])
                }
                mistake if answer < REFUSED && ABOUT_CARRYING.contains(&mistake) => {
                    let ticket = Ticket::parse(ticket).expect("an accepted ticket");
                    recount(mistake, &ticket, &mut output[..length])
                }
                _ => {}
            }
            answer
        }

        fn settle(&mut self, ticket: &[u8]) -> u64 {
            let answer = Agreement::settle(&mut self.0, ticket);
            match (self.1, Ticket::parse(ticket)) {
                // In capitals this is right.
                (Mistake::SettlesLaterForSmallLetters, _) if has_small_letters(ticket) => {
                    answer + 1
                }
                (mistake, Ok(ticket)) if ABOUT_SETTLING.contains(&mistake) => {
                    missettled(mistake, &ticket)
                }
                _ => answer,
            }
        }

        fn reason(&mut self, ticket: &[u8], process: u64, round: u64) -> u64 {
            Agreement::reason(&mut self.0, ticket, process, round)
        }

        fn reasons(&mut self, ticket: &[u8], output: &mut [u8]) -> u64 {
            Agreement::reasons(&mut self.0, ticket, output)
        }

        fn quote(&mut self, ticket: &[u8], costs: &[u64], process: u64, quote: &mut u64) -> u64 {
            Agreement::quote(&mut self.0, ticket, costs, process, quote)
        }

        fn price(&mut self, state: &[u8], costs: &[u64], quote: &mut u64) -> u64 {
            self.0.price(state, costs, quote)
        }

        fn start(&mut self, process: u64, n: u64, t: u64, value: u32, state: &mut [u8]) -> u64 {
            let answer = self.0.start(process, n, t, value, state);
            if self.1 == Mistake::StartsInRound0 && answer == 0 {
                state[3] = 0;
            }
            answer
        }

        fn speak(&mut self, state: &[u8], output: &mut [u8]) -> u64 {
            let answer = self.0.speak(state, output);
            if self.1 == Mistake::SpeaksOnRefusal && answer == 9 {
                output.fill(0x21);
            }
            answer
        }

        fn close(&mut self, state: &mut [u8], heard: &[u8]) -> u64 {
            let answer = self.0.close(state, heard);
            if self.1 == Mistake::DecidesOnDataAlone && answer == 0 && heard.len() == 6 {
                state[4] = 1;
            }
            answer
        }
    }

    fn compared(mistake: Mistake) -> Result<(), Difference> {
        let mut comparison = Comparison::new(Mistaken(Simulator::new(), mistake));
        comparison.ticket(&worked::case(1).text(), &rooms_around(4, 2))?;
        for number in 1..=worked::CASES {
            comparison.in_other_letters(&worked::case(number).text(), result_length(10))?;
        }
        comparison.start(3, 4, 2, 30, 9)?;
        comparison.speak(&[2, 4, 2, 2, 0, 0, 0, 0, 10], 7)?;
        comparison.close(&[3, 4, 2, 1, 0, 0, 0, 0, 30], &[0x21, 1, 0, 0, 0, 10])?;
        exhaustive::settling_rounds_of(&mut comparison, 7)?;
        exhaustive::counts_of(&mut comparison, 64)
    }

    #[test]
    fn each_mistake_is_seen() {
        assert_eq!(compared(Mistake::None), Ok(()));
        let others = [
            Mistake::CountsOneCommitMore,
            Mistake::WritesBehindTheResult,
            Mistake::WritesOnRefusal,
            Mistake::RefusesMixedLetters,
            Mistake::WritesTheLettersOfTheTicket,
            Mistake::SettlesLaterForSmallLetters,
            Mistake::StartsInRound0,
            Mistake::SpeaksOnRefusal,
            Mistake::DecidesOnDataAlone,
        ];
        let about_results = ABOUT_COUNTS.into_iter().chain(ABOUT_CARRYING).chain(ABOUT_LENGTHS);
        for mistake in others.into_iter().chain(about_results).chain(ABOUT_SETTLING) {
            assert!(compared(mistake).is_err(), "{mistake:?}");
        }
    }

    /// What is said of a module's result by the sums alone, by separate parts alone,
    /// and by the bounds alone.
    fn seen_by_itself(mistake: Mistake, ticket: &Ticket) -> [bool; 3] {
        let mut comparison = Comparison::new(Mistaken(Simulator::new(), mistake));
        let room = result_length(ticket.n);
        let (_, output) = run_into(&mut comparison.module, &ticket.text(), room, 0);
        let result = &output[..room];
        [
            comparison.add_up(result),
            comparison.separate_run(ticket, result).map(drop),
            comparison.keep_bounds(result),
        ]
        .map(|seen| seen.is_err())
    }

    #[test]
    fn mistakes_about_counts_are_seen_without_the_second_implementations_result() {
        let proposals = (1..=64).collect();
        let largest = Ticket { n: 64, t: 63, proposals, failures: Vec::new() };
        for ticket in [worked::case(1), worked::case(9), largest.clone()] {
            assert_eq!(seen_by_itself(Mistake::None, &ticket), [false; 3]);
        }
        for mistake in ABOUT_COUNTS {
            let ticket = match mistake {
                Mistake::CutsCountsTo5Bits | Mistake::CutsCountsAt62 => largest.clone(),
                _ => worked::case(1),
            };
            // The last process sends to none, so the sums stay if counts move on by one line;
            // and they stay if all counts are put together in one.
            let sums_stay = [Mistake::CountsAtTheProcessAfter, Mistake::CountsOfAllInTheFirstLine];
            // The last line is right, and so within its bounds.
            let expected = [!sums_stay.contains(&mistake), true, false];
            assert_eq!(seen_by_itself(mistake, &ticket), expected, "{mistake:?}");
        }
    }

    /// In case 9 counts that are too high are against a bound as well. The sums are
    /// always right; and f and the rounds are no counts of messages, so the second
    /// implementation's result alone shows that they are wrong.
    #[test]
    fn mistakes_about_carrying_are_seen_without_it_too() {
        let figures = [
            (Mistake::CountsCrashedAddressees, [true, true]),
            (Mistake::CountsDecidedAddressees, [true, true]),
            (Mistake::CountsEveryAddressee, [true, true]),
            (Mistake::LeavesOutAddresseesThatCrash, [true, false]),
            (Mistake::CountsAsTheRoundEnds, [true, false]),
            (Mistake::LeavesOutRoundsWithoutData, [false, false]),
            (Mistake::CountsNoMoreCrashesThanData, [false, false]),
            (Mistake::SkipsTheEndedInTheCommitList, [true, false]),
        ];
        assert_eq!(figures.map(|(mistake, _)| mistake), ABOUT_CARRYING);
        for (mistake, [by_parts, by_bounds]) in figures {
            let seen = seen_by_itself(mistake, &worked::case(9));
            assert_eq!(seen, [false, by_parts, by_bounds], "{mistake:?}");
        }
    }

    /// A run worked out by hand.
    fn worked_run(name: &str) -> Ticket {
        let found = worked::runs().into_iter().find(|(other, _)| *other == name);
        found.expect(name).1
    }

    /// What is said of the round that a module names, by its own parts alone.
    fn settled_by_itself(mistake: Mistake, ticket: &Ticket) -> (u64, bool) {
        let mut comparison = Comparison::new(Mistaken(Simulator::new(), mistake));
        let (_, output) = run_into(&mut comparison.module, &ticket.text(), LONGEST_RESULT, 0);
        let result = &output[..result_length(ticket.n)];
        let separate = comparison.separate_run(ticket, result).expect("as the result says");
        let round = comparison.module.settle(&ticket.text());
        (round, comparison.keep_settled(round, result, &separate).is_ok())
    }

    /// The round that each mistake names in a run that shows it. In the fifth run
    /// process 1 crashes with a value that nobody else ever holds, and process 2 sends
    /// its own to all before it crashes.
    #[test]
    fn mistakes_about_settling_are_seen_without_it_too() {
        let after_a_silent_round = Ticket {
            failures: vec![Failure::before_sending(1, 1), Failure::sending_commits(2, 0)],
            ..worked::case(1)
        };
        let figures = [
            (Mistake::SettlesInTheLastRound, worked::case(1), 1, 2),
            (Mistake::SettlesOneRoundLate, worked::case(1), 1, 2),
            (Mistake::SettlesAfterTheRun, worked::case(1), 1, 3),
            (Mistake::SettlesAsTheRoundBegins, worked::case(1), 1, 2),
            (Mistake::SettlesWithTheValuesOfTheCrashed, after_a_silent_round, 2, 3),
            (Mistake::SettlesByTheDecidedAlone, worked::case(4), 2, 1),
            (Mistake::SettlesByWhoNeverCrashes, worked_run("one crashes later"), 2, 1),
            (Mistake::SettlesInRound0, worked::case(2), 1, 0),
            (Mistake::SettlesWithTheFirstDecision, worked_run("no commit"), 1, 2),
        ];
        assert_eq!(figures.clone().map(|(mistake, ..)| mistake), ABOUT_SETTLING);
        for (mistake, ticket, right, wrong) in figures {
            assert_eq!(settled_by_itself(Mistake::None, &ticket), (right, true), "{mistake:?}");
            assert_eq!(settled_by_itself(mistake, &ticket), (wrong, false), "{mistake:?}");
        }
    }

    #[test]
    fn a_settling_round_is_the_first_of_all_that_qualify() {
        assert!(is_settling_round(2, &[false, true, true]));
        for (round, qualifies) in [
            (1, [false, true, true]),
            (3, [false, true, true]),
            (2, [true, true, true]),
            (2, [false, true, false]),
            (0, [true, true, true]),
            (4, [false, false, false]),
        ] {
            assert!(!is_settling_round(round, &qualifies), "{round} {qualifies:?}");
        }
    }

    #[test]
    fn mistakes_about_lengths_are_seen_at_the_limits() {
        for n in [1, 2, 4, 64] {
            let proposals = (1..=u32::from(n)).collect();
            let text = Ticket { n, t: 0, proposals, failures: Vec::new() }.text();
            let compared = |mistake| {
                let mut comparison = Comparison::new(Mistaken(Simulator::new(), mistake));
                rooms_at_limits(n).into_iter().try_for_each(|room| comparison.run(&text, room))
            };
            assert_eq!(compared(Mistake::None), Ok(()));
            for mistake in ABOUT_LENGTHS {
                assert!(compared(mistake).is_err(), "{n} {mistake:?}");
            }
        }
    }
}
