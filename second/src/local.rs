//! The part of the protocol that runs at one process, in the hands of its host
//! (01, "The desk part"): the host lends nine bytes of state, asks the process
//! to speak, and closes each round with what was heard.

use crate::refusal::Reason;
use crate::ticket::size_is_valid;

/// How many bytes a state has.
pub const STATE_LENGTH: usize = 9;

/// How many bytes a coordinator yields: data, then commit.
pub const SPEECH_LENGTH: usize = 8;

/// How many of these are data; the rest is the commit.
pub const DATA_LENGTH: usize = 6;

const DATA: u8 = 0x21;
const COMMIT: u8 = 0x22;

#[derive(Clone, Copy, Debug, PartialEq, Eq)]
enum Mark {
    Open,
    Decided,
    RoundsOver,
}

/// A valid state.
#[derive(Clone, Copy, Debug)]
struct State {
    process: u8,
    n: u8,
    t: u8,
    round: u8,
    mark: Mark,
    value: [u8; 4],
}

impl State {
    /// The state that `bytes` are, if it is one that the protocol can reach
    /// (refusal 10).
    fn decode(bytes: &[u8]) -> Result<State, Reason> {
        let &[process, n, t, round, mark, a, b, c, d] = bytes else {
            return Err(Reason::InvalidState);
        };
        let mark = match mark {
            0 => Mark::Open,
            1 => Mark::Decided,
            2 => Mark::RoundsOver,
            _ => return Err(Reason::InvalidState),
        };
        if !size_is_valid(n, t) || !(1..=n).contains(&process) {
            return Err(Reason::InvalidState);
        }
        let last_round = t + 1;
        let reachable = match mark {
            Mark::Open | Mark::Decided => 1 <= round && round <= last_round.min(process),
            Mark::RoundsOver => round == last_round && round < process,
        };
        if !reachable {
            return Err(Reason::InvalidState);
        }
        let value = [a, b, c, d];
        Ok(State { process, n, t, round, mark, value })
    }

    /// As [`State::decode`], of an open process only (refusals 10 and 11).
    fn decode_open(bytes: &[u8]) -> Result<State, Reason> {
        let state = State::decode(bytes)?;
        match state.mark {
            Mark::Open => Ok(state),
            Mark::Decided | Mark::RoundsOver => Err(Reason::NotOpen),
        }
    }

    fn encode(&self) -> [u8; STATE_LENGTH] {
        let mark = match self.mark {
            Mark::Open => 0,
            Mark::Decided => 1,
            Mark::RoundsOver => 2,
        };
        let [a, b, c, d] = self.value;
        [self.process, self.n, self.t, self.round, mark, a, b, c, d]
    }

    fn coordinates(&self) -> bool {
        self.process == self.round
    }
}

/// What a process hears in a round that it does not coordinate.
enum Heard {
    Nothing,
    Data([u8; 4]),
    DataAndCommit([u8; 4]),
}

impl Heard {
    /// What `bytes` say in `round` (refusal 12).
    fn decode(bytes: &[u8], round: u8) -> Result<Heard, Reason> {
        match *bytes {
            [] => Ok(Heard::Nothing),
            [DATA, of, a, b, c, d] if of == round => Ok(Heard::Data([a, b, c, d])),
            [DATA, of, a, b, c, d, COMMIT, by] if of == round && by == round => {
                Ok(Heard::DataAndCommit([a, b, c, d]))
            }
            _ => Err(Reason::InvalidHearing),
        }
    }
}

/// Starts process `process` of `n`, of which at most `t` crash, in round 1
/// (refusal 10).
pub fn start(process: u64, n: u64, t: u64, value: u32, state: &mut [u8]) -> Result<(), Reason> {
    let byte = |number: u64| u8::try_from(number).map_err(|_| Reason::InvalidState);
    let first = State {
        process: byte(process)?,
        n: byte(n)?,
        t: byte(t)?,
        round: 1,
        mark: Mark::Open,
        value: value.to_be_bytes(),
    };
    let bytes = first.encode();
    State::decode(&bytes)?;
    if state.len() != STATE_LENGTH {
        return Err(Reason::InvalidState);
    }
    state.copy_from_slice(&bytes);
    Ok(())
}

/// Writes what an open process sends in its round to the beginning of `output`
/// and says how many bytes that is (refusals 10, 11 and 9).
pub fn speak(state: &[u8], output: &mut [u8]) -> Result<usize, Reason> {
    let state = State::decode_open(state)?;
    if !state.coordinates() {
        return Ok(0);
    }
    let speech = output.get_mut(..SPEECH_LENGTH).ok_or(Reason::OutputTooShort)?;
    let State { round, value: [a, b, c, d], .. } = state;
    speech.copy_from_slice(&[DATA, round, a, b, c, d, COMMIT, round]);
    Ok(SPEECH_LENGTH)
}

/// Closes an open process's round with the bytes it heard (refusals 10 to 12).
pub fn close(state: &mut [u8], heard: &[u8]) -> Result<(), Reason> {
    let mut next = State::decode_open(state)?;
    if next.coordinates() {
        if !heard.is_empty() {
            return Err(Reason::InvalidHearing);
        }
        next.mark = Mark::Decided;
    } else {
        match Heard::decode(heard, next.round)? {
            Heard::Nothing => {}
            Heard::Data(value) => next.value = value,
            Heard::DataAndCommit(value) => {
                next.value = value;
                next.mark = Mark::Decided;
            }
        }
    }
    if next.mark == Mark::Open {
        if next.round <= next.t {
            next.round += 1;
        } else {
            next.mark = Mark::RoundsOver;
        }
    }
    state.copy_from_slice(&next.encode());
    Ok(())
}

/// The value that a process has decided, if it has (refusal 10).
pub fn decision(state: &[u8]) -> Result<Option<u32>, Reason> {
    let state = State::decode(state)?;
    Ok(match state.mark {
        Mark::Decided => Some(u32::from_be_bytes(state.value)),
        Mark::Open | Mark::RoundsOver => None,
    })
}

#[cfg(test)]
mod tests {
    use super::*;

    /// The state of `process` of 4, t = 1, value 5.
    fn state(process: u8, round: u8, mark: u8) -> [u8; 9] {
        [process, 4, 1, round, mark, 0, 0, 0, 5]
    }

    fn closed(mut bytes: [u8; 9], heard: &[u8]) -> Result<[u8; 9], Reason> {
        let before = bytes;
        let answer = close(&mut bytes, heard);
        assert!(answer.is_ok() || bytes == before, "a refused call changed the state");
        answer.map(|()| bytes)
    }

    #[test]
    fn starting_writes_round_1_or_nothing() {
        let mut bytes = [9; 9];
        assert_eq!(start(2, 4, 1, 5, &mut bytes), Ok(()));
        assert_eq!(bytes, state(2, 1, 0));
        let outside = [(0, 4, 1), (5, 4, 1), (1, 0, 0), (1, 65, 1), (4, 4, 4)];
        let above_255 = [(257, 4, 1), (1, 260, 1), (1, 4, 256)];
        for (process, n, t) in outside.into_iter().chain(above_255) {
            assert_eq!(start(process, n, t, 0, &mut bytes), Err(Reason::InvalidState));
        }
        assert_eq!(bytes, state(2, 1, 0));
        assert_eq!(start(2, 4, 1, 5, &mut [0; 8]), Err(Reason::InvalidState));
        assert_eq!(start(2, 4, 1, 5, &mut [0; 10]), Err(Reason::InvalidState));
    }

    #[test]
    fn only_the_coordinator_speaks() {
        let mut output = [7; 10];
        assert_eq!(speak(&state(2, 1, 0), &mut output), Ok(0));
        assert_eq!(output, [7; 10]);
        assert_eq!(speak(&state(2, 2, 0), &mut output), Ok(8));
        assert_eq!(output, [0x21, 2, 0, 0, 0, 5, 0x22, 2, 7, 7]);
        assert_eq!(speak(&state(2, 2, 0), &mut [0; 7]), Err(Reason::OutputTooShort));
        assert_eq!(speak(&state(2, 1, 0), &mut []), Ok(0));
        assert_eq!(speak(&state(2, 2, 1), &mut []), Err(Reason::NotOpen));
    }

    #[test]
    fn states_that_no_run_reaches_are_refused() {
        let reachable = [(1, 1, 0), (2, 2, 1), (4, 2, 0), (4, 2, 2), (3, 2, 2)];
        let wrong_rounds = [(1, 0, 0), (1, 2, 0), (2, 3, 1), (4, 3, 0)];
        let wrong_marks = [(4, 1, 2), (2, 2, 2), (4, 3, 2), (4, 1, 3)];
        let wrong_processes = [(0, 1, 0), (5, 1, 0)];
        let unreachable = [&wrong_rounds[..], &wrong_marks, &wrong_processes].concat();
        for (process, round, mark) in reachable {
            assert!(State::decode(&state(process, round, mark)).is_ok());
        }
        for (process, round, mark) in unreachable {
            let bytes = state(process, round, mark);
            assert_eq!(decision(&bytes), Err(Reason::InvalidState));
            assert_eq!(speak(&bytes, &mut [0; 8]), Err(Reason::InvalidState));
            assert_eq!(closed(bytes, &[]), Err(Reason::InvalidState));
        }
    }

    #[test]
    fn a_decision_is_that_of_a_decided_process_alone() {
        for (process, round, mark) in [(2, 2, 1), (1, 1, 1), (4, 2, 1)] {
            assert_eq!(decision(&state(process, round, mark)), Ok(Some(5)));
        }
        for (process, round, mark) in [(1, 1, 0), (4, 2, 0), (4, 2, 2)] {
            assert_eq!(decision(&state(process, round, mark)), Ok(None));
        }
        assert_eq!(decision(&state(2, 2, 1)[..8]), Err(Reason::InvalidState));
    }

    #[test]
    fn closing_keeps_adopts_or_decides() {
        let mut adopted = state(4, 2, 0);
        adopted[8] = 6;
        let mut decided = state(4, 1, 1);
        decided[8] = 6;
        let data = [0x21, 1, 0, 0, 0, 6];
        let both = [0x21, 1, 0, 0, 0, 6, 0x22, 1];
        assert_eq!(closed(state(4, 1, 0), &[]), Ok(state(4, 2, 0)));
        assert_eq!(closed(state(4, 1, 0), &data), Ok(adopted));
        assert_eq!(closed(state(4, 1, 0), &both), Ok(decided));
        assert_eq!(closed(state(4, 2, 0), &[]), Ok(state(4, 2, 2)));
        assert_eq!(closed(state(2, 2, 0), &[]), Ok(state(2, 2, 1)));
    }

    #[test]
    fn what_cannot_have_been_heard_is_refused() {
        let wrong: [&[u8]; 7] = [
            &[0x22, 1],
            &[0x21, 2, 0, 0, 0, 6],
            &[0x21, 1, 0, 0, 0, 6, 0x22, 2],
            &[0x21, 1, 0, 0, 0, 6, 0x22],
            &[0x21, 1, 0, 0, 0, 6, 0x21, 1],
            &[0x22, 1, 0, 0, 0, 6],
            &[0x22, 1, 0x21, 1, 0, 0, 0, 6],
        ];
        for heard in wrong {
            assert_eq!(closed(state(4, 1, 0), heard), Err(Reason::InvalidHearing));
        }
        let own = [0x21, 2, 0, 0, 0, 6];
        assert_eq!(closed(state(2, 2, 0), &own), Err(Reason::InvalidHearing));
        assert_eq!(closed(state(2, 2, 1), &own), Err(Reason::NotOpen));
    }
}
