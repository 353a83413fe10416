//! Tickets: the size, the proposals and the failure pattern (01, "The ticket").

use std::fmt;

use crate::lines::{Line, Lines};
use crate::refusal::{Reason, Refusal};

/// The most bytes that a ticket may have.
pub const LONGEST_TICKET: usize = 4096;

/// The most processes.
pub const MOST_PROCESSES: u8 = 64;

/// Kind and length in bytes of each line.
const SIZE: (u8, usize) = (0x01, 3);
const PROPOSAL: (u8, usize) = (0x02, 6);
const FAILURE: (u8, usize) = (0x03, 13);
const END: (u8, usize) = (0x04, 1);

/// An accepted ticket.
#[derive(Clone, Debug, Default, PartialEq, Eq, Hash)]
pub struct Ticket {
    /// How many processes there are, 1 to 64.
    pub n: u8,
    /// How many may crash at most; below n.
    pub t: u8,
    /// What each process proposes, from process 1 on.
    pub proposals: Vec<u32>,
    /// The failure pattern, by rising process.
    pub failures: Vec<Failure>,
}

/// How the ticket lets one process crash, unless it has decided before.
#[derive(Clone, Copy, Debug, PartialEq, Eq, Hash)]
pub struct Failure {
    /// Which process, 1 to n.
    pub process: u8,
    /// In which round, 1 to t + 1.
    pub round: u8,
    /// Where in that round.
    pub crash: Crash,
}

impl Failure {
    /// Step 00: `process` crashes in `round` before it sends anything.
    pub fn before_sending(process: u8, round: u8) -> Failure {
        Failure { process, round, crash: Crash::BeforeSending }
    }

    /// Step 01: it crashes in its own round, with data sent to `reached` only.
    pub fn sending_data(process: u8, reached: u64) -> Failure {
        Failure { process, round: process, crash: Crash::SendingData { reached } }
    }

    /// Step 02: it crashes in its own round, with `sent` commits sent.
    pub fn sending_commits(process: u8, sent: u8) -> Failure {
        Failure { process, round: process, crash: Crash::SendingCommits { sent } }
    }
}

/// Where in a round a process crashes: the steps of a failure line.
#[derive(Clone, Copy, Debug, PartialEq, Eq, Hash)]
pub enum Crash {
    /// Step 00: before it sends anything.
    BeforeSending,
    /// Step 01: while sending data in its own round.
    SendingData {
        /// The processes that were sent the data; bit j − 1 stands for process j.
        reached: u64,
    },
    /// Step 02: while sending commits in its own round.
    SendingCommits {
        /// How many commits went out.
        sent: u8,
    },
}

/// Whether 1 ≤ n ≤ 64 and t < n.
pub fn size_is_valid(n: u8, t: u8) -> bool {
    (1..=MOST_PROCESSES).contains(&n) && t < n
}

/// The set of the processes above `process` and at most `n` ≤ 64.
pub fn processes_above(process: u8, n: u8) -> u64 {
    (process..n).fold(0, |set, index| set | 1 << index)
}

impl Ticket {
    /// The ticket that `text` is, or why it is none (refusals 1 to 8).
    pub fn parse(text: &[u8]) -> Result<Ticket, Refusal> {
        let mut ticket = Ticket::default();
        ticket.read(text)?;
        Ok(ticket)
    }

    /// As [`Ticket::parse`], into an old ticket and its memory. After a
    /// refusal the ticket holds what was read until then.
    pub fn read(&mut self, text: &[u8]) -> Result<(), Refusal> {
        self.proposals.clear();
        self.failures.clear();
        if text.len() > LONGEST_TICKET {
            return Err(Reason::TicketTooLong.at_no_line());
        }
        let mut lines = Lines::of(text);
        let line = lines.expect(&[SIZE])?;
        (self.n, self.t) = (line.byte(1), line.byte(2));
        if !size_is_valid(self.n, self.t) {
            return Err(line.refused(Reason::SizeOutsideLimits));
        }
        for process in 1..=self.n {
            let line = lines.expect(&[PROPOSAL])?;
            if line.byte(1) != process {
                return Err(line.refused(Reason::NotTheNextProcess));
            }
            self.proposals.push(line.number_at(2, 4) as u32);
        }
        loop {
            let line = lines.expect(&[FAILURE, END])?;
            if line.kind() == END.0 {
                break;
            }
            let failure = self.next_failure(&line).map_err(|why| line.refused(why))?;
            self.failures.push(failure);
        }
        match lines.next() {
            None => Ok(()),
            Some(line) => Err(line?.refused(Reason::MisplacedLine)),
        }
    }

    /// The failure that `line` adds to those read so far (refusals 6 to 8).
    fn next_failure(&self, line: &Line) -> Result<Failure, Reason> {
        if self.failures.len() >= usize::from(self.t) {
            return Err(Reason::TooManyFailures);
        }
        let [process, round, step] = [1, 2, 3].map(|index| line.byte(index));
        let set = line.number_at(4, 8);
        let count = line.byte(12);

        let last = self.failures.last().map_or(0, |failure| failure.process);
        let rising = last < process && process <= self.n;
        if !rising || !(1..=self.t + 1).contains(&round) || step > 2 {
            return Err(Reason::FailureOutsideLimits);
        }
        let fits = match step {
            0 => set == 0 && count == 0,
            1 => round == process && set & !processes_above(process, self.n) == 0 && count == 0,
            _ => round == process && set == 0 && count <= self.n - process,
        };
        if !fits {
            return Err(Reason::FailureAgainstItsStep);
        }
        let crash = match step {
            0 => Crash::BeforeSending,
            1 => Crash::SendingData { reached: set },
            _ => Crash::SendingCommits { sent: count },
        };
        Ok(Failure { process, round, crash })
    }

    /// The ticket's text.
    pub fn text(&self) -> Vec<u8> {
        self.to_string().into_bytes()
    }
}

/// The ticket's text, every line closed by 0A.
impl fmt::Display for Ticket {
    fn fmt(&self, f: &mut fmt::Formatter) -> fmt::Result {
        writeln!(f, "01{:02X}{:02X}", self.n, self.t)?;
        for (process, value) in (1..).zip(&self.proposals) {
            writeln!(f, "02{:02X}{value:08X}", process as u8)?;
        }
        for failure in &self.failures {
            writeln!(f, "{failure}")?;
        }
        writeln!(f, "04")
    }
}

/// The failure line, without its closing 0A.
impl fmt::Display for Failure {
    fn fmt(&self, f: &mut fmt::Formatter) -> fmt::Result {
        let (step, set, count) = match self.crash {
            Crash::BeforeSending => (0, 0, 0),
            Crash::SendingData { reached } => (1, reached, 0),
            Crash::SendingCommits { sent } => (2, 0, sent),
        };
        let Failure { process, round, .. } = self;
        write!(f, "03{process:02X}{round:02X}{step:02X}{set:016X}{count:02X}")
    }
}

#[cfg(test)]
mod tests {
    use super::*;

    /// n = 4, t = 2 with the given failure lines; the first of them is line 6.
    fn refusal_of(failure_lines: &[&str]) -> String {
        let mut text = String::from("010402\n");
        for process in 1..=4 {
            text += &format!("02{process:02X}00000000\n");
        }
        for line in failure_lines {
            text += &format!("{line}\n");
        }
        text += "04\n";
        match Ticket::parse(text.as_bytes()) {
            Ok(ticket) => {
                assert_eq!(ticket.to_string(), text);
                String::from("accepted")
            }
            Err(refusal) => refusal.to_string(),
        }
    }

    #[test]
    fn failure_lines_are_checked_in_the_papers_order() {
        let tried = [
            ("03010101000000000000000E00", "accepted"),
            ("03020201000000000000000000", "accepted"),
            ("03040300000000000000000000", "accepted"),
            ("030101020000000000000000FF", "1F080006"),
            ("03000000000000000000000000", "1F070006"),
            ("03050100000000000000000000", "1F070006"),
            ("03010000000000000000000000", "1F070006"),
            ("03010400000000000000000000", "1F070006"),
            ("03010103000000000000000000", "1F070006"),
            ("03010100000000000000000100", "1F080006"),
            ("03010100000000000000000001", "1F080006"),
            ("03010201000000000000000000", "1F080006"),
            ("03010101000000000000000100", "1F080006"),
            ("03010101000000000000001000", "1F080006"),
            ("03010101000000000000000201", "1F080006"),
            ("03010102000000000000000003", "accepted"),
            ("03010102000000000000000004", "1F080006"),
            ("03010102000000000000000201", "1F080006"),
            ("030101020000000000000001", "1F030006"),
            ("0301010200000000000000000100", "1F030006"),
        ];
        for (line, expected) in tried {
            assert_eq!(refusal_of(&[line]), expected, "{line}");
        }
    }

    #[test]
    fn the_failure_line_past_the_last_allowed_is_6_whatever_else_is_wrong_with_it() {
        let ok = ["03010100000000000000000000", "03020100000000000000000000"];
        assert_eq!(refusal_of(&ok), "accepted");
        assert_eq!(refusal_of(&[ok[1], ok[0]]), "1F070007");
        assert_eq!(refusal_of(&[ok[0], ok[0]]), "1F070007");
        let third = "030000FFFFFFFFFFFFFFFFFFFF";
        assert_eq!(refusal_of(&[ok[0], ok[1], third]), "1F060008");
        assert_eq!(refusal_of(&[ok[0], ok[1], "0300"]), "1F030008");
    }

    #[test]
    fn cases_10_to_12() {
        let size = |n: u8, t: u8| {
            let proposals = vec![0; usize::from(n)];
            let failures = Vec::new();
            let ticket = Ticket { n, t, proposals, failures };
            Ticket::parse(&ticket.text()).map_err(|refusal| refusal.to_string())
        };
        assert_eq!(size(65, 2).unwrap_err(), "1F040001");
        assert!(size(64, 2).is_ok());
        assert_eq!(size(4, 4).unwrap_err(), "1F040001");
        assert_eq!(refusal_of(&["03030202000000000000000000"]), "1F080006");
    }

    #[test]
    fn after_the_end_nothing_follows() {
        let after = |rest: &str| {
            let text = format!("010100\n020100000000\n04\n{rest}");
            Ticket::parse(text.as_bytes()).map_err(|refusal| refusal.to_string())
        };
        assert!(after("").is_ok());
        assert_eq!(after("04\n").unwrap_err(), "1F030004");
        assert_eq!(after("0401\n").unwrap_err(), "1F030004");
        assert_eq!(after("\n").unwrap_err(), "1F020004");
        assert_eq!(after("04").unwrap_err(), "1F020004");
    }

    #[test]
    fn the_length_is_looked_at_first() {
        let spaces = |count| Ticket::parse(&vec![b' '; count]).unwrap_err().to_string();
        assert_eq!(spaces(4096), "1F020001");
        assert_eq!(spaces(4097), "1F010000");
        assert_eq!(spaces(0), "1F030001");
    }

    #[test]
    fn sets_above_a_process_end_at_n() {
        assert_eq!(processes_above(1, 4), 0b1110);
        assert_eq!(processes_above(63, 64), 1 << 63);
        assert_eq!(processes_above(64, 64), 0);
    }
}
