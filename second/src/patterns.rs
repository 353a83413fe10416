//! Every accepted failure pattern of a few processes.

use crate::ticket::Failure;

/// Every accepted failure pattern of `n` processes, at most `t` of which crash.
pub fn failure_patterns(n: u8, t: u8) -> Vec<Vec<Failure>> {
    let failures: Vec<_> = (1..=n).map(|process| failures_of(process, n, t)).collect();
    combinations(&failures, usize::from(t))
}

/// Every choice of at most `most` failures, no more than one from each list.
pub fn combinations(failures: &[Vec<Failure>], most: usize) -> Vec<Vec<Failure>> {
    let mut patterns = vec![Vec::new()];
    for of_one_process in failures {
        let mut longer = Vec::new();
        for pattern in patterns.iter().filter(|pattern| pattern.len() < most) {
            for &failure in of_one_process {
                longer.push([&pattern[..], &[failure]].concat());
            }
        }
        patterns.extend(longer);
    }
    patterns
}

/// Every way in which `process` may crash.
pub fn failures_of(process: u8, n: u8, t: u8) -> Vec<Failure> {
    let rounds = 1..=t + 1;
    let coordinates = rounds.contains(&process);
    let mut failures: Vec<Failure> =
        rounds.map(|round| Failure::before_sending(process, round)).collect();
    if coordinates {
        let subsets = 0..1 << (n - process);
        failures
            .extend(subsets.map(|subset: u64| Failure::sending_data(process, subset << process)));
        failures.extend((0..=n - process).map(|sent| Failure::sending_commits(process, sent)));
    }
    failures
}

#[cfg(test)]
mod tests {
    use super::*;
    use crate::ticket::Ticket;

    #[test]
    fn every_pattern_is_accepted_and_no_pattern_comes_twice() {
        let mut counts = Vec::new();
        for t in 0..4 {
            let patterns = failure_patterns(4, t);
            let distinct: std::collections::HashSet<_> = patterns.iter().collect();
            assert_eq!(distinct.len(), patterns.len());
            for failures in &patterns {
                let failures = failures.clone();
                let ticket = Ticket { n: 4, t, proposals: vec![0; 4], failures };
                assert_eq!(Ticket::parse(&ticket.text()), Ok(ticket));
            }
            counts.push(patterns.len());
        }
        // For t = 3 the four processes have 16, 11, 8 and 6 ways to crash.
        let all_but_four_crashes = 17 * 12 * 9 * 7 - 16 * 11 * 8 * 6;
        assert_eq!((counts[0], counts[3]), (1, all_but_four_crashes));
    }
}
