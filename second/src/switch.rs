//! Between a coordinator and the mailboxes: the line on which a crash cuts
//! messages off, and the switch that drops or carries the others, counts what it
//! carries and delivers it (01, "A round"; 02, Paper 4).

use crate::process::{Message, Process};
use crate::ticket::Crash;

/// What becomes of a message that a coordinator is about to send.
#[derive(Clone, Copy, Debug, PartialEq, Eq)]
pub enum Fate {
    /// It goes out.
    Sent,
    /// It is among the data that a crash in the data step keeps back.
    Lost,
    /// The coordinator has crashed; neither this nor a later one goes out.
    Crashed,
}

/// The line from a coordinator to the switch, through one round.
#[derive(Clone, Debug)]
pub struct Uplink {
    crash: Option<Crash>,
    commits: u8,
}

impl Uplink {
    /// The line of a coordinator that crashes in its round as `crash` says.
    pub fn new(crash: Option<Crash>) -> Self {
        Uplink { crash, commits: 0 }
    }

    /// The fate of the next message in sending order, to process `to`.
    pub fn fate(&mut self, to: u8, message: Message) -> Fate {
        match (self.crash, message) {
            (None, _) => Fate::Sent,
            (Some(Crash::BeforeSending), _) => Fate::Crashed,
            (Some(Crash::SendingData { reached }), Message::Data(_)) => {
                if reached >> (to - 1) & 1 == 1 {
                    Fate::Sent
                } else {
                    Fate::Lost
                }
            }
            (Some(Crash::SendingData { .. }), Message::Commit) => Fate::Crashed,
            (Some(Crash::SendingCommits { .. }), Message::Data(_)) => Fate::Sent,
            (Some(Crash::SendingCommits { sent }), Message::Commit) => {
                if self.commits == sent {
                    Fate::Crashed
                } else {
                    self.commits += 1;
                    Fate::Sent
                }
            }
        }
    }
}

/// The switch, with its counts of the messages that it has carried.
#[derive(Clone, Debug, Default)]
pub struct Switch {
    /// Data messages.
    pub data: u16,
    /// Commits.
    pub commits: u16,
}

impl Switch {
    /// Drops a message to a process that has crashed or decided. Any other one of
    /// `round` is counted, and delivered if the process hears in it. The answer
    /// is whether it was carried.
    ///
    /// What a process is changes at the end of a round, so this is what it was
    /// when the round began: one that crashes in the round is carried to, and
    /// hears nothing.
    pub fn carry(&mut self, round: u8, message: Message, to: &mut Process) -> bool {
        if !to.is_active() {
            return false;
        }
        match message {
            Message::Data(_) => self.data += 1,
            Message::Commit => self.commits += 1,
        }
        to.hear(round, message);
        true
    }
}

#[cfg(test)]
mod tests {
    use super::*;
    use crate::process::Status;
    use crate::ticket::Failure;

    /// Processes of four that are sent data, and commits, by process 1.
    fn sent(crash: Option<Crash>) -> (Vec<u8>, Vec<u8>) {
        let mut uplink = Uplink::new(crash);
        let (mut data, mut commits) = (Vec::new(), Vec::new());
        for (to, message) in Process::new(1, 10).messages(4) {
            match (uplink.fate(to, message), message) {
                (Fate::Sent, Message::Data(_)) => data.push(to),
                (Fate::Sent, Message::Commit) => commits.push(to),
                (Fate::Lost, _) => {}
                (Fate::Crashed, _) => break,
            }
        }
        (data, commits)
    }

    #[test]
    fn each_step_cuts_off_where_it_says() {
        let all = vec![2, 3, 4];
        assert_eq!(sent(None), (all.clone(), vec![4, 3, 2]));
        assert_eq!(sent(Some(Crash::BeforeSending)), (vec![], vec![]));
        let reached = 0b1010;
        assert_eq!(sent(Some(Crash::SendingData { reached })), (vec![2, 4], vec![]));
        for count in 0..=3 {
            let (data, commits) = sent(Some(Crash::SendingCommits { sent: count }));
            assert_eq!(data, all);
            assert_eq!(commits, [4, 3, 2][..usize::from(count)]);
        }
    }

    /// Process 3 after round 1, in which it hears `messages` or crashes.
    fn after_round_1(messages: &[Message], failure: Option<Failure>) -> Process {
        let mut process = Process::new(3, 30);
        failure.into_iter().for_each(|failure| process.doom(failure));
        messages.iter().for_each(|&message| process.hear(1, message));
        process.end_round(1);
        process
    }

    #[test]
    fn what_goes_to_a_process_up_and_undecided_is_carried() {
        let data = Message::Data(10);
        let both = [data, Message::Commit];
        let silent_in = |round| Some(Failure::before_sending(3, round));
        let tried = [
            (after_round_1(&[], None), true),
            (after_round_1(&[data], None), true),
            (after_round_1(&[], silent_in(3)), true),
            (after_round_1(&[], silent_in(2)), true),
            (after_round_1(&[], silent_in(1)), false),
            (after_round_1(&both, None), false),
            (after_round_1(&both, silent_in(2)), false),
        ];
        for (mut process, carried) in tried {
            let mut switch = Switch::default();
            let shown = format!("{process:?}");
            assert_eq!(both.map(|message| switch.carry(2, message, &mut process)), [carried; 2]);
            let counted = u16::from(carried);
            assert_eq!((switch.data, switch.commits), (counted, counted), "{shown}");
        }
    }

    #[test]
    fn one_that_crashes_in_the_round_is_carried_to_and_hears_nothing() {
        let mut switch = Switch::default();
        let mut process = Process::new(3, 30);
        process.doom(Failure::before_sending(3, 1));
        assert!(switch.carry(1, Message::Data(10), &mut process));
        assert!(switch.carry(1, Message::Commit, &mut process));
        process.end_round(1);
        assert_eq!((process.status(), process.estimate()), (Status::Crashed(1), 30));
        assert!(!switch.carry(2, Message::Data(20), &mut process));
        assert_eq!((switch.data, switch.commits), (1, 1));
    }
}
