//! The tickets of the twelve marked cases (01, "Worked runs"), and of other runs
//! worked out by hand.

use crate::ticket::{Failure, Ticket};

/// How many cases are marked.
pub const CASES: u8 = 12;

/// Case 1's size and proposals with another failure pattern.
fn four(failures: Vec<Failure>) -> Ticket {
    Ticket { n: 4, t: 2, proposals: vec![10, 20, 30, 40], failures }
}

/// Case `number`, 1 to 12. Cases 10 to 12 are refused as texts.
pub fn case(number: u8) -> Ticket {
    let silent = Failure::before_sending;
    let after_data = Failure::sending_data;
    let after_commits = Failure::sending_commits;
    match number {
        1 => four(vec![after_commits(1, 1)]),
        2 => Ticket { n: 1, t: 0, proposals: vec![10], failures: vec![] },
        3 => four(vec![after_commits(1, 3)]),
        4 => four(vec![after_data(1, 0b0010)]),
        5 => four(vec![after_data(1, 0b1000)]),
        6 => four(vec![silent(1, 1), silent(2, 1)]),
        7 => four(vec![after_commits(1, 1), silent(4, 2)]),
        8 => four(vec![silent(3, 2)]),
        9 => {
            let mut failures: Vec<_> = (1..=7).map(|process| after_commits(process, 3)).collect();
            failures.extend([silent(8, 1), silent(9, 1)]);
            let proposals = (1..=10).map(|process| 10 * process).collect();
            Ticket { n: 10, t: 9, proposals, failures }
        }
        10 => Ticket { n: 65, t: 2, proposals: vec![0; 65], failures: vec![] },
        11 => Ticket { t: 4, ..four(vec![]) },
        12 => four(vec![Failure { round: 2, ..after_commits(3, 0) }]),
        _ => panic!("no case {number} is marked"),
    }
}

/// The runs worked out by hand: cases 1 to 9, and eight that show what no case
/// does. They are those of `../crates/coordinator/specs/WorkedTable.antt`.
pub fn runs() -> [(&'static str, Ticket); 17] {
    let silent = Failure::before_sending;
    let three = Ticket { n: 3, t: 2, proposals: vec![10, 20, 30], failures: vec![] };
    let three_crash = vec![Failure::sending_commits(1, 1), silent(2, 1), silent(3, 2)];
    [
        ("case 1", case(1)),
        ("case 2", case(2)),
        ("case 3", case(3)),
        ("case 4", case(4)),
        ("case 5", case(5)),
        ("case 6", case(6)),
        ("case 7", case(7)),
        ("case 8", case(8)),
        ("case 9", case(9)),
        ("one crashes later", Ticket { failures: vec![silent(1, 1), silent(2, 2)], ..three }),
        ("silent at last", Ticket { t: 3, ..four(three_crash) }),
        ("no commit", four(vec![Failure::sending_commits(1, 0)])),
        ("two reached", four(vec![Failure::sending_data(1, 0b0110)])),
        ("set partly counted", set_partly_counted()),
        ("commits partly counted", commits_partly_counted()),
        ("equal proposals", silent_in_round_1([7, 7, 7])),
        ("value zero", silent_in_round_1([10, 0, 20])),
    ]
}

/// Process 1 of three crashes before it sends. If the proposals are equal, round 1
/// settles without a message (02, Paper 6); a 0 is a value like any other.
fn silent_in_round_1(proposals: [u32; 3]) -> Ticket {
    let failures = vec![Failure::before_sending(1, 1)];
    Ticket { n: 3, t: 1, proposals: proposals.to_vec(), failures }
}

/// In round 2 process 2 sends data to one that stays up, one that crashes in that
/// round, one that has crashed and one that has decided (02, Paper 4); in round 3
/// process 3 sends to none that is up and undecided.
pub fn set_partly_counted() -> Ticket {
    let failures = vec![
        Failure::sending_commits(1, 1),
        Failure::sending_data(2, 0b11_1100),
        Failure::before_sending(4, 2),
        Failure::before_sending(5, 1),
    ];
    Ticket { n: 6, t: 4, proposals: vec![10, 20, 30, 40, 50, 60], failures }
}

/// In round 2 of the two commits of process 2 one goes to a process that has
/// decided (02, Paper 4); in round 3 process 3, which stays up, sends to one that
/// crashes in that round and to two that have decided.
pub fn commits_partly_counted() -> Ticket {
    let failures = vec![
        Failure::sending_commits(1, 1),
        Failure::sending_commits(2, 2),
        Failure::before_sending(4, 3),
    ];
    Ticket { n: 6, t: 3, proposals: vec![10, 20, 30, 40, 50, 60], failures }
}

#[cfg(test)]
mod tests {
    use super::*;
    use crate::process::{Process, Status};
    use crate::simulation::{Simulation, Totals};
    use crate::Simulator;

    /// The end of each process of case `number`, with the value if decided.
    fn ends(number: u8) -> (Vec<(Status, u32)>, Totals) {
        let mut simulation = Simulation::new(&case(number));
        let totals = simulation.run(|_, _| {});
        let end = |process: &Process| match process.status() {
            Status::Decided(_) => (process.status(), process.estimate()),
            status => (status, 0),
        };
        (simulation.processes().iter().map(end).collect(), totals)
    }

    fn decided(round: u8, value: u32) -> (Status, u32) {
        (Status::Decided(round), value)
    }

    fn crashed(round: u8) -> (Status, u32) {
        (Status::Crashed(round), 0)
    }

    fn totals(rounds: u8, crashes: u8, speakers: u8, data: u16, commits: u16) -> Totals {
        Totals { rounds, crashes, speakers, data, commits }
    }

    fn printed(number: u8) -> String {
        Simulator::new().print(&case(number).text(), 2000)
    }

    #[test]
    fn case_1_whole() {
        let ticket = "010402\n02010000000A\n020200000014\n02030000001E\n020400000028\n\
                      03010102000000000000000001\n04\n";
        let result = "11010201000000000301\n110201020000000A0101\n110301020000000A0000\n\
                      110401010000000A0000\n1202010200040002\n";
        assert_eq!(case(1).to_string(), ticket);
        assert_eq!(printed(1), result);
        let rounds = Simulator::new().settling_rounds(ticket.as_bytes());
        assert_eq!(rounds, Ok(vec![1, 2]));
    }

    #[test]
    fn case_2_one_process() {
        assert_eq!(ends(2), (vec![decided(1, 10)], totals(1, 0, 1, 0, 0)));
    }

    #[test]
    fn case_3_all_commits_went_out() {
        let all = vec![crashed(1), decided(1, 10), decided(1, 10), decided(1, 10)];
        assert_eq!(ends(3), (all, totals(1, 1, 1, 3, 3)));
    }

    #[test]
    fn case_4_data_reached_process_2() {
        let all = vec![crashed(1), decided(2, 10), decided(2, 10), decided(2, 10)];
        assert_eq!(ends(4), (all, totals(2, 1, 2, 3, 2)));
    }

    #[test]
    fn case_5_data_reached_process_4() {
        let all = vec![crashed(1), decided(2, 20), decided(2, 20), decided(2, 20)];
        assert_eq!(ends(5), (all, totals(2, 1, 2, 3, 2)));
    }

    #[test]
    fn case_6_two_silent_rounds() {
        let all = vec![crashed(1), crashed(1), decided(3, 30), decided(3, 30)];
        assert_eq!(ends(6), (all, totals(3, 2, 2, 1, 1)));
    }

    #[test]
    fn case_7_an_idle_line_changes_nothing() {
        assert_eq!(printed(7), printed(1));
    }

    #[test]
    fn case_8_only_an_idle_line() {
        assert_eq!(ends(8), (vec![decided(1, 10); 4], totals(1, 0, 1, 3, 3)));
    }

    #[test]
    fn case_9_has_a_commit_for_each_process_that_does_not_speak() {
        let (ends, totals) = ends(9);
        assert_eq!(ends[9], decided(1, 10));
        assert_eq!((totals.rounds, totals.crashes, totals.speakers), (7, 9, 7));
        assert_eq!((totals.data, totals.commits), (24, 3));
        assert_eq!(totals.commits, 10 - u16::from(totals.speakers));
        assert!(printed(9).ends_with("1207090700180003\n"));
    }

    #[test]
    fn what_was_carried_of_each_process_of_cases_1_to_9() {
        let figures: [&[(u8, u8)]; 9] = [
            &[(3, 1), (1, 1)],
            &[],
            &[(3, 3)],
            &[(1, 0), (2, 2)],
            &[(1, 0), (2, 2)],
            &[(0, 0), (0, 0), (1, 1)],
            &[(3, 1), (1, 1)],
            &[(3, 3)],
            &[(9, 3), (5, 0), (4, 0), (3, 0), (2, 0), (1, 0)],
        ];
        for (number, carried) in (1..).zip(figures) {
            let mut simulation = Simulation::new(&case(number));
            let totals = simulation.run(|_, _| {});
            let mut carried = carried.to_vec();
            carried.resize(simulation.processes().len(), (0, 0));
            let counted = simulation.processes().iter().map(Process::carried);
            let counted: Vec<_> = counted.map(|count| (count.data, count.commits)).collect();
            assert_eq!(counted, carried, "case {number}");
            let data: u16 = carried.iter().map(|&(data, _)| u16::from(data)).sum();
            let commits: u16 = carried.iter().map(|&(_, commits)| u16::from(commits)).sum();
            assert_eq!((data, commits), (totals.data, totals.commits), "case {number}");
        }
    }

    /// Holds the worked run of this name to its result lines and to its rounds that
    /// qualify for settling, of which the first is named.
    fn holds_whole(run: &str, result: &str, qualify: &[u8]) {
        let named = runs().into_iter().find(|(name, _)| *name == run);
        let (text, mut simulator) = (named.expect(run).1.text(), Simulator::new());
        assert_eq!(simulator.print(&text, 2000), result);
        assert_eq!(simulator.settling_rounds(&text).as_deref(), Ok(qualify));
        assert_eq!(simulator.settling_round(&text), Ok(qualify[0]));
    }

    #[test]
    fn one_crashes_later_whole() {
        let result = "11010201000000000000\n11020202000000000000\n110301030000001E0000\n\
                      1203020300000000\n";
        holds_whole("one crashes later", result, &[2, 3]);
    }

    #[test]
    fn equal_proposals_whole() {
        let result = "11010201000000000000\n11020102000000070101\n11030102000000070000\n\
                      1202010200010001\n";
        holds_whole("equal proposals", result, &[1, 2]);
    }

    #[test]
    fn value_zero_whole() {
        let result = "11010201000000000000\n11020102000000000101\n11030102000000000000\n\
                      1202010200010001\n";
        holds_whole("value zero", result, &[2]);
    }

    #[test]
    fn set_partly_counted_whole() {
        let result = "11010201000000000501\n11020202000000000200\n110301030000000A0000\n\
                      11040202000000000000\n11050201000000000000\n110601010000000A0000\n\
                      1203040300070001\n";
        let ticket = set_partly_counted().text();
        assert_eq!(Simulator::new().print(&ticket, 2000), result);
    }

    #[test]
    fn commits_partly_counted_whole() {
        let result = "11010201000000000501\n11020202000000000301\n110301030000000A0101\n\
                      11040203000000000000\n110501020000000A0000\n110601010000000A0000\n\
                      1203030300090003\n";
        assert_eq!(Simulator::new().print(&commits_partly_counted().text(), 2000), result);
    }

    #[test]
    fn cases_10_to_12_are_refused() {
        assert_eq!(printed(10), "1F040001\n");
        assert_eq!(printed(11), "1F040001\n");
        assert_eq!(printed(12), "1F080006\n");
    }

    #[test]
    fn settling_looks_at_the_processes_up_at_the_end_of_the_round() {
        let ticket = Ticket {
            n: 3,
            t: 2,
            proposals: vec![1, 2, 3],
            failures: vec![Failure::before_sending(1, 1), Failure::before_sending(2, 2)],
        };
        let rounds = Simulator::new().settling_rounds(&ticket.text());
        assert_eq!(rounds, Ok(vec![2, 3]));
        assert_eq!(Simulator::new().settling_round(&ticket.text()), Ok(2));
    }

    /// 02, Paper 6: "Case 1 gives 1."
    #[test]
    fn the_settling_rounds_of_cases_1_to_9() {
        let settling_round = |number| Simulator::new().settling_round(&case(number).text());
        let figures = [1, 1, 1, 2, 2, 3, 1, 1, 1];
        assert_eq!([1, 2, 3, 4, 5, 6, 7, 8, 9].map(settling_round), figures.map(Ok));
        for number in 10..=CASES {
            let refusal = settling_round(number).expect_err("a refusal");
            assert_eq!(format!("{refusal}\n"), printed(number));
        }
    }
}
