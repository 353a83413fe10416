//! One process of a simulated run: document 001's figure 1, as condensed in
//! 01, "A round".

use crate::ticket::{Crash, Failure};

/// What a coordinator sends. Messages arrive in the round they are sent in.
#[derive(Clone, Copy, Debug, PartialEq, Eq)]
pub enum Message {
    /// The coordinator's estimate.
    Data(u32),
    /// Every process was sent that estimate.
    Commit,
}

/// What has become of a process.
#[derive(Clone, Copy, Debug, PartialEq, Eq)]
pub enum Status {
    /// Up and undecided.
    Active,
    /// Decided its estimate in this round.
    Decided(u8),
    /// Crashed undecided in this round.
    Crashed(u8),
}

/// How a round went for one process.
#[derive(Clone, Copy, Debug, PartialEq, Eq)]
pub enum Course {
    /// It had crashed before.
    CrashedBefore,
    /// It had decided before.
    DecidedBefore,
    /// It crashed.
    Crashed,
    /// It coordinated, did not crash, and decided.
    Coordinated,
    /// Its mailbox held the value and a commit.
    HeardValueAndCommit,
    /// Its mailbox held the value alone.
    HeardValue,
    /// Its mailbox was empty.
    HeardNothing,
}

/// How many messages of a process the switch has carried (02, Papers 2 and 4); in
/// [`crate::recount`] also how many it sends.
#[derive(Clone, Copy, Debug, Default, PartialEq, Eq)]
pub struct MessageCounts {
    /// Data messages.
    pub data: u8,
    /// Commits.
    pub commits: u8,
}

impl MessageCounts {
    /// Counts one more.
    pub fn count(&mut self, message: Message) {
        match message {
            Message::Data(_) => self.data += 1,
            Message::Commit => self.commits += 1,
        }
    }
}

/// A process with its mailbox.
#[derive(Clone, Debug)]
pub struct Process {
    id: u8,
    estimate: u32,
    status: Status,
    failure: Option<Failure>,
    carried: MessageCounts,
    mailbox: Vec<Message>,
}

impl Process {
    /// Process `id`, about to begin round 1 with its proposal as its estimate.
    pub fn new(id: u8, proposal: u32) -> Self {
        Process {
            id,
            estimate: proposal,
            status: Status::Active,
            failure: None,
            carried: MessageCounts::default(),
            mailbox: Vec::with_capacity(2),
        }
    }

    /// As a new process of the same id, in the old one's memory.
    pub fn restart(&mut self, proposal: u32) {
        self.estimate = proposal;
        self.status = Status::Active;
        self.failure = None;
        self.carried = MessageCounts::default();
        self.mailbox.clear();
    }

    /// Lets the process crash as `failure` says, unless it decides before.
    pub fn doom(&mut self, failure: Failure) {
        self.failure = Some(failure);
    }

    /// Its number, 1 to n.
    pub fn id(&self) -> u8 {
        self.id
    }

    /// The value it holds: decided, adopted or its own proposal.
    pub fn estimate(&self) -> u32 {
        self.estimate
    }

    /// What has become of it.
    pub fn status(&self) -> Status {
        self.status
    }

    /// The value that it has decided, if it has.
    pub fn decision(&self) -> Option<u32> {
        matches!(self.status, Status::Decided(_)).then_some(self.estimate)
    }

    /// The messages that it was charged for.
    pub fn carried(&self) -> MessageCounts {
        self.carried
    }

    /// Whether it is up and undecided.
    pub fn is_active(&self) -> bool {
        self.status == Status::Active
    }

    /// Whether it has crashed.
    pub fn has_crashed(&self) -> bool {
        matches!(self.status, Status::Crashed(_))
    }

    /// Where in `round` the process crashes, if it does.
    pub fn crash_in(&self, round: u8) -> Option<Crash> {
        match self.failure {
            Some(failure) if self.is_active() && failure.round == round => Some(failure.crash),
            _ => None,
        }
    }

    /// What a coordinator sends, in order: its estimate upward, then commits
    /// from process n downward, to crashed and decided processes too.
    pub fn messages(&self, n: u8) -> impl Iterator<Item = (u8, Message)> {
        let data = Message::Data(self.estimate);
        let above = self.id + 1..=n;
        let data_step = above.clone().map(move |to| (to, data));
        let commit_step = above.rev().map(|to| (to, Message::Commit));
        data_step.chain(commit_step)
    }

    /// Charges this process, which has sent it, for a message that was carried.
    pub fn charge(&mut self, message: Message) {
        self.carried.count(message);
    }

    /// Puts a message of `round` into the mailbox, if the process hears in it.
    pub fn hear(&mut self, round: u8, message: Message) {
        if self.is_active() && self.crash_in(round).is_none() {
            self.mailbox.push(message);
        }
    }

    /// The end of `round`: the process crashes, decides as its coordinator, or
    /// goes through its mailbox. The answer is how the round went for it.
    #[inline]
    pub fn end_round(&mut self, round: u8) -> Course {
        match self.status {
            Status::Crashed(_) => Course::CrashedBefore,
            Status::Decided(_) => Course::DecidedBefore,
            Status::Active if self.crash_in(round).is_some() => {
                self.status = Status::Crashed(round);
                Course::Crashed
            }
            Status::Active if self.id == round => {
                self.status = Status::Decided(round);
                Course::Coordinated
            }
            Status::Active => self.read_mailbox(round),
        }
    }

    /// Adopts the value heard, and decides it if a commit was heard as well.
    fn read_mailbox(&mut self, round: u8) -> Course {
        let mut course = Course::HeardNothing;
        for message in self.mailbox.drain(..) {
            match message {
                Message::Data(value) => {
                    self.estimate = value;
                    course = Course::HeardValue;
                }
                Message::Commit if course == Course::HeardValue => {
                    self.status = Status::Decided(round);
                    course = Course::HeardValueAndCommit;
                }
                Message::Commit => {}
            }
        }
        course
    }
}

#[cfg(test)]
mod tests {
    use super::*;

    #[test]
    fn data_goes_upward_and_commits_come_downward() {
        let sent: Vec<_> = Process::new(2, 7).messages(4).collect();
        let data = Message::Data(7);
        let commit = Message::Commit;
        assert_eq!(sent, [(3, data), (4, data), (4, commit), (3, commit)]);
        assert_eq!(Process::new(64, 7).messages(64).count(), 0);
    }

    #[test]
    fn what_is_carried_is_charged_by_its_kind() {
        let mut process = Process::new(1, 7);
        for (_, message) in process.messages(64).take(63 + 2) {
            process.charge(message);
        }
        assert_eq!(process.carried(), MessageCounts { data: 63, commits: 2 });
        process.restart(8);
        assert_eq!(process.carried(), MessageCounts::default());
    }

    #[test]
    fn a_commit_decides_only_with_the_value() {
        let after = |messages: &[Message]| {
            let mut process = Process::new(3, 30);
            for &message in messages {
                process.hear(1, message);
            }
            let course = process.end_round(1);
            (process.status(), process.estimate(), course)
        };
        let data = Message::Data(10);
        let both = [data, Message::Commit];
        assert_eq!(after(&[]), (Status::Active, 30, Course::HeardNothing));
        assert_eq!(after(&[data]), (Status::Active, 10, Course::HeardValue));
        assert_eq!(after(&both), (Status::Decided(1), 10, Course::HeardValueAndCommit));
        assert_eq!(after(&[Message::Commit]), (Status::Active, 30, Course::HeardNothing));
    }

    #[test]
    fn a_process_hears_nothing_in_the_round_it_crashes_in() {
        let mut process = Process::new(3, 30);
        process.doom(Failure::before_sending(3, 1));
        process.hear(1, Message::Data(10));
        process.hear(1, Message::Commit);
        assert_eq!(process.end_round(1), Course::Crashed);
        assert_eq!((process.status(), process.estimate()), (Status::Crashed(1), 30));
        assert_eq!(process.end_round(2), Course::CrashedBefore);
    }

    #[test]
    fn a_coordinator_decides_unless_it_crashes() {
        let mut process = Process::new(3, 30);
        assert_eq!(
            [1, 2, 3, 4].map(|round| process.end_round(round)),
            [
                Course::HeardNothing,
                Course::HeardNothing,
                Course::Coordinated,
                Course::DecidedBefore,
            ]
        );
        process.restart(30);
        process.doom(Failure::sending_commits(3, 1));
        assert_eq!(process.end_round(3), Course::Crashed);
    }
}
