//! Refusals (01, "Refused calls, by operation"; 02, Papers 7 and 9).

use std::fmt;

/// Why a call is refused. The discriminants are the paper's numbers.
#[derive(Clone, Copy, Debug, PartialEq, Eq, PartialOrd, Ord, Hash)]
#[repr(u8)]
pub enum Reason {
    /// The ticket has more than 4,096 bytes.
    TicketTooLong = 1,
    /// Not an even, non-zero count of digits closed by byte 0A.
    NotALine = 2,
    /// A kind not allowed here, a wrong length, or no 04 line at all.
    MisplacedLine = 3,
    /// n or t outside the limits.
    SizeOutsideLimits = 4,
    /// A proposal that is not the next process's.
    NotTheNextProcess = 5,
    /// More than t failure lines.
    TooManyFailures = 6,
    /// A failure line's process, round or step is outside the limits.
    FailureOutsideLimits = 7,
    /// A failure line's round, set or count is against its step.
    FailureAgainstItsStep = 8,
    /// The output is shorter than what is to be written.
    OutputTooShort = 9,
    /// Not a valid process state, or nothing from which to start one.
    InvalidState = 10,
    /// The process has decided, or its rounds are over.
    NotOpen = 11,
    /// What was heard cannot have been sent to this process in this round.
    InvalidHearing = 12,
    /// No such process, or no such round in the run (02, Paper 7).
    OutsideTheRun = 13,
    /// No tender lines, or more than 200 (02, Paper 9).
    LinesOutsideLimits = 14,
    /// A direct cost above its limit (02, Paper 9).
    CostOutsideLimits = 15,
    /// No decision to quote by: no such process, or it has crashed or not decided (02,
    /// Paper 9).
    NoDecision = 16,
}

impl Reason {
    /// The paper's number.
    pub fn number(self) -> u8 {
        self as u8
    }

    /// The refusal of line `line` for this reason.
    pub fn at_line(self, line: u16) -> Refusal {
        Refusal { reason: self, line }
    }

    /// The refusal for this reason that concerns no ticket line.
    pub fn at_no_line(self) -> Refusal {
        self.at_line(0)
    }
}

/// A refused ticket: the reason, and the first wrong line, or 0.
#[derive(Clone, Copy, Debug, PartialEq, Eq, Hash)]
pub struct Refusal {
    /// Why.
    pub reason: Reason,
    /// Where; lines count from 1.
    pub line: u16,
}

/// The refusal line of 01, "The result", without its closing 0A.
impl fmt::Display for Refusal {
    fn fmt(&self, f: &mut fmt::Formatter) -> fmt::Result {
        write!(f, "1F{:02X}{:04X}", self.reason.number(), self.line)
    }
}
