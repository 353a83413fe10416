//! Ends that the claims of demand 3 refuse, one or more for each claim, so that
//! none of them is empty (01, "Which impostors must it catch?").

use super::claims::{decides_by, no_later, Claim};
use super::model::Run;
use super::model::State::{self, Crashed, Decided, Undecided};
use super::rules::{Rules, RIGHT};
use crate::ticket::Ticket;
use crate::worked::case;

/// The ticket of the first of these ends that its claim lets pass.
pub fn passes(rules: &Rules) -> Option<Ticket> {
    let five = case(5);
    let run_of_five = |ends: [State; 4]| Run::of_states(&five, ends.to_vec());
    let wrong_by: [(Claim, [State; 4]); 6] = [
        // Process 4 decides on the value alone.
        (Claim::Agreement, [Crashed(1), Decided(2, 20), Decided(2, 20), Decided(1, 10)]),
        // One value for all tickets.
        (Claim::Validity, [Crashed(1), Decided(2, 50), Decided(2, 50), Decided(2, 50)]),
        // Process 2 waits on.
        (Claim::Termination, [Crashed(1), Undecided(20), Decided(2, 20), Decided(2, 20)]),
        // Process 1 decides in the round of its crash.
        (Claim::CrashesAsSaid, [Decided(1, 10), Decided(2, 10), Decided(2, 10), Decided(2, 10)]),
        // Process 1 crashes in a later round than its line's.
        (Claim::CrashesAsSaid, [Crashed(2), Decided(2, 20), Decided(2, 20), Decided(2, 20)]),
        // Process 2 crashes without a line.
        (Claim::CrashesAsSaid, [Crashed(1), Crashed(2), Decided(3, 30), Decided(3, 30)]),
    ];
    if wrong_by.into_iter().any(|(claim, ends)| claim.holds(&five, &run_of_five(ends), rules)) {
        return Some(five);
    }
    let late = run_of_five([Crashed(1), Decided(2, 20), Decided(2, 20), Decided(3, 20)]);
    if decides_by(2, &late, rules) {
        return Some(five);
    }
    // Process 4, whose line is idle, decides on the value alone.
    let seven = case(7);
    let ends = vec![Crashed(1), Decided(2, 20), Decided(2, 20), Decided(1, 10)];
    if Claim::Agreement.holds(&seven, &Run::of_states(&seven, ends), rules) {
        return Some(seven);
    }
    let eight = case(8);
    let idle_counted = Run { f: 1, ..Run::of_states(&eight, vec![Decided(1, 10); 4]) };
    if Claim::CountsLines.holds(&eight, &idle_counted, rules) {
        return Some(eight);
    }
    let one = case(1);
    let first = Run::new(&one, &RIGHT);
    // In the second process 4 decides another value, waits on, decides later.
    let passes = [Decided(1, 20), Undecided(10), Decided(2, 10)].into_iter().any(|end| {
        let ends = vec![Crashed(1), Decided(2, 10), Decided(2, 10), end];
        no_later(&first, &Run::of_states(&one, ends), rules)
    });
    passes.then_some(one)
}
