//! The reason beside each process in each round (02, Paper 7), from what was in its
//! mailbox when the round ended. ([`crate::refusal::Reason`] is why a call is
//! refused.)

use crate::process::Course;

/// The most reasons of a run: 64 processes through 64 rounds.
pub const MOST_REASONS: usize = 64 * 64;

/// Why a process stands where it does after a round. The discriminants are the
/// paper's numbers.
#[derive(Clone, Copy, Debug, PartialEq, Eq, PartialOrd, Ord, Hash)]
#[repr(u8)]
pub enum RoundReason {
    /// It coordinated and decided.
    Coordinated = 1,
    /// It heard value and commit.
    Committed = 2,
    /// It heard the value only.
    ValueOnly = 3,
    /// It heard nothing; the coordinator had crashed before this round.
    CoordinatorCrashedBefore = 4,
    /// It heard nothing; the coordinator crashed in this round.
    CoordinatorCrashedNow = 5,
    /// It crashed itself.
    Crashed = 6,
    /// It had crashed or decided in an earlier round.
    EndedBefore = 7,
}

impl RoundReason {
    /// The paper's number.
    pub fn number(self) -> u8 {
        self as u8
    }

    /// The reason of a process for which the round went so, if it went so for its
    /// coordinator.
    ///
    /// Who hears nothing has a coordinator that crashes or has crashed: one that is up
    /// sends to all above it, and one that has decided has left nobody undecided.
    pub fn of(course: Course, coordinator: Course) -> RoundReason {
        match course {
            Course::CrashedBefore | Course::DecidedBefore => RoundReason::EndedBefore,
            Course::Crashed => RoundReason::Crashed,
            Course::Coordinated => RoundReason::Coordinated,
            Course::HeardValueAndCommit => RoundReason::Committed,
            Course::HeardValue => RoundReason::ValueOnly,
            Course::HeardNothing => match coordinator {
                Course::CrashedBefore => RoundReason::CoordinatorCrashedBefore,
                Course::Crashed => RoundReason::CoordinatorCrashedNow,
                other => panic!("nothing is heard of a coordinator whose round went so: {other:?}"),
            },
        }
    }
}
