//! The result's text (01, "The result"; 02, Papers 2 and 4).

use crate::process::{MessageCounts, Process, Status};
use crate::simulation::Totals;
use crate::ticket::MOST_PROCESSES;

/// A process's line has ten bytes in two digits each, and its closing 0A.
pub const PROCESS_LINE_LENGTH: usize = 21;

/// The last line has eight bytes.
pub const LAST_LINE_LENGTH: usize = 17;

/// The longest result.
pub const LONGEST_RESULT: usize = result_length(MOST_PROCESSES);

/// How long the result for `n` processes is: 21n + 17.
pub const fn result_length(n: u8) -> usize {
    PROCESS_LINE_LENGTH * n as usize + LAST_LINE_LENGTH
}

/// Writes a line for each process and the totals to the beginning of `output`,
/// which has room for them, and leaves the bytes after them.
pub fn write_result(processes: &[Process], totals: &Totals, output: &mut [u8]) {
    let (lines, rest) = output.split_at_mut(PROCESS_LINE_LENGTH * processes.len());
    for (process, line) in processes.iter().zip(lines.chunks_exact_mut(PROCESS_LINE_LENGTH)) {
        let (status, estimate) = (process.status(), process.estimate());
        write_line(&process_line(process.id(), status, estimate, process.carried()), line);
    }
    write_line(&totals_line(totals), &mut rest[..LAST_LINE_LENGTH]);
}

/// The bytes of a process's line. No process is active when a run ends; the
/// line of one that is has an end of its own, 00.
pub fn process_line(id: u8, status: Status, estimate: u32, carried: MessageCounts) -> [u8; 10] {
    let (end, round, value) = match status {
        Status::Active => (0x00, 0, estimate),
        Status::Decided(round) => (0x01, round, estimate),
        Status::Crashed(round) => (0x02, round, 0),
    };
    let [a, b, c, d] = value.to_be_bytes();
    [0x11, id, end, round, a, b, c, d, carried.data, carried.commits]
}

fn totals_line(totals: &Totals) -> [u8; 8] {
    let [data_high, data_low] = totals.data.to_be_bytes();
    let [commits_high, commits_low] = totals.commits.to_be_bytes();
    [
        0x12,
        totals.rounds,
        totals.crashes,
        totals.speakers,
        data_high,
        data_low,
        commits_high,
        commits_low,
    ]
}

/// Writes bytes in two digits each, and 0A, to a part of just that length.
pub fn write_line(bytes: &[u8], line: &mut [u8]) {
    const DIGITS: &[u8; 16] = b"0123456789ABCDEF";
    let (digits, end) = line.split_at_mut(2 * bytes.len());
    for (byte, pair) in bytes.iter().zip(digits.chunks_exact_mut(2)) {
        pair[0] = DIGITS[usize::from(byte >> 4)];
        pair[1] = DIGITS[usize::from(byte & 15)];
    }
    end[0] = b'\n';
}

#[cfg(test)]
mod tests {
    use super::*;

    #[test]
    fn a_result_has_21_bytes_a_process_and_17() {
        assert_eq!([1, 4, 64].map(result_length), [38, 101, 1361]);
        assert_eq!(LONGEST_RESULT, 1361);
    }

    #[test]
    fn the_counts_stand_behind_the_value() {
        let line = |status, carried| {
            let mut line = [0; PROCESS_LINE_LENGTH];
            write_line(&process_line(1, status, 10, carried), &mut line);
            line
        };
        let some = MessageCounts { data: 3, commits: 1 };
        assert_eq!(&line(Status::Crashed(1), some), b"11010201000000000301\n");
        let most = MessageCounts { data: 63, commits: 63 };
        assert_eq!(&line(Status::Decided(1), most), b"110101010000000A3F3F\n");
    }
}
