//! For every wrong world, the claims that fail in it, on every failure pattern
//! of at most four processes and on the worked runs.

use std::collections::BTreeSet;
use std::fs;
use std::path::Path;

use second::generate;
use second::rng::Rng;
use second::ticket::{Ticket, MOST_PROCESSES};
use second::worked;
use second::worlds::claims::{answer, answer_of_simulation, Answer, Claim, CLAIMS};
use second::worlds::model::State::{Crashed, Decided};
use second::worlds::model::{Counts, Messages};
use second::worlds::rules::{Rules, RIGHT};
use second::worlds::search::{counterexample, runs};
use second::worlds::wrong::worlds;
use second::worlds::World;

/// Every ticket of at most four processes, the worked runs, and some random ones.
fn small_and_random_tickets() -> impl Iterator<Item = Ticket> {
    let random = (0..500).map(|seed| generate::ticket(&mut Rng::new(seed), MOST_PROCESSES));
    runs(&RIGHT).into_iter().map(|(ticket, _)| ticket).chain(random)
}

#[test]
fn under_the_right_rules_the_model_is_the_second_implementation() {
    for ticket in small_and_random_tickets() {
        assert_eq!(answer(&ticket, &RIGHT), answer_of_simulation(&ticket), "{ticket}");
    }
}

#[test]
fn under_the_right_rules_no_claim_has_a_counterexample() {
    let runs = runs(&RIGHT);
    let worked_runs = worked::runs().map(|(name, _)| Claim::WorkedRun(name));
    for claim in CLAIMS.into_iter().chain(worked_runs) {
        if let Some(found) = counterexample(claim, &runs, &RIGHT) {
            panic!("{claim}: {found}");
        }
    }
}

#[test]
fn in_a_wrong_world_just_the_claims_fail_that_it_names() {
    for world in worlds() {
        let runs = runs(&world.rules);
        assert!(!world.breaks.is_empty(), "{}", world.name);
        for &claim in world.breaks {
            let found = counterexample(claim, &runs, &world.rules);
            assert!(found.is_some(), "{}: {claim} holds", world.name);
        }
        let by_a_worked_run = world.breaks.iter().any(|claim| matches!(claim, Claim::WorkedRun(_)));
        assert!(!by_a_worked_run || world.breaks.len() == 1, "{}", world.name);
        for claim in CLAIMS.into_iter().filter(|claim| !world.breaks.contains(claim)) {
            if let Some(found) = counterexample(claim, &runs, &world.rules) {
                panic!("{}: {claim}: {found}", world.name);
            }
        }
    }
}

/// The crates whose definitions the worlds are wrong about.
const PROTOCOL: [&str; 3] = ["consensus", "coordinator", "coordinator_laws"];

/// The crate of answers, of whose edits some have a world.
const ANSWERS: &str = "answers";

/// A crate's edits, by name: those that the gate tries, and those beside it.
fn edits_of(of_crate: &str) -> BTreeSet<String> {
    let place = Path::new(env!("CARGO_MANIFEST_DIR")).join("../crates").join(of_crate);
    let folders = ["must-fail", "wrong-programs"].map(|name| place.join(name));
    let entries = folders.iter().filter_map(|folder| fs::read_dir(folder).ok()).flatten();
    let paths = entries.map(|entry| entry.expect("an entry").path());
    paths.filter_map(|path| Some(path.file_stem()?.to_str()?.to_owned())).collect()
}

#[test]
fn every_edit_of_the_protocol_has_a_world() {
    let names: BTreeSet<&str> = worlds().map(|world| world.name).collect();
    assert_eq!(names.len(), worlds().count());
    for of_crate in PROTOCOL {
        let edits = edits_of(of_crate);
        assert!(!edits.is_empty(), "{of_crate}");
        for name in edits {
            assert!(names.contains(format!("{of_crate}/{name}").as_str()), "{of_crate}/{name}");
        }
    }
}

#[test]
fn a_world_that_is_named_by_an_edit_has_it() {
    for (of_crate, name) in worlds().filter_map(World::edit) {
        assert!(PROTOCOL.contains(&of_crate) || of_crate == ANSWERS, "{of_crate}/{name}");
        assert!(edits_of(of_crate).contains(name), "{of_crate}/{name}");
    }
}

/// What is said of a worked run under `rules`.
fn said_under(rules: &Rules, run: &str) -> Answer {
    let named = worked::runs().into_iter().find(|(name, _)| *name == run);
    answer(&named.expect(run).1, rules)
}

/// What is said of a worked run in a world.
fn said(world: &str, run: &str) -> Answer {
    let world = worlds().find(|other| other.name == world).expect(world);
    said_under(&world.rules, run)
}

/// The rules of before Paper 4.
fn rule_before_paper_4() -> Rules {
    let every = worlds().find(|world| world.name == "coordinator/every-addressee-counted");
    every.expect("the rule before").rules
}

/// Of a worked run: the rounds, f, the speakers, data and commits; the last
/// round to decide in, the most messages and the most commits; the settling round,
/// and all rounds that qualify; data and commits of the processes that come first,
/// the others' being 0.
type Figures = (&'static str, [u64; 5], (u8, u64, u64), Settling, &'static [Messages]);
type Settling = (u8, &'static [u8]);

const FIGURES: [Figures; 17] = [
    ("case 1", [2, 1, 2, 4, 2], (2, 9, 2), (1, &[1, 2]), &[(3, 1), (1, 1)]),
    ("case 2", [1, 0, 1, 0, 0], (1, 0, 0), (1, &[1]), &[]),
    ("case 3", [1, 1, 1, 3, 3], (2, 6, 3), (1, &[1]), &[(3, 3)]),
    ("case 4", [2, 1, 2, 3, 2], (2, 9, 2), (2, &[2]), &[(1, 0), (2, 2)]),
    ("case 5", [2, 1, 2, 3, 2], (2, 9, 2), (2, &[2]), &[(1, 0), (2, 2)]),
    ("case 6", [3, 2, 2, 1, 1], (3, 9, 2), (3, &[3]), &[(0, 0), (0, 0), (1, 1)]),
    ("case 7", [2, 1, 2, 4, 2], (2, 9, 2), (1, &[1, 2]), &[(3, 1), (1, 1)]),
    ("case 8", [1, 0, 1, 3, 3], (1, 6, 3), (1, &[1]), &[(3, 3)]),
    (
        "case 9",
        [7, 9, 7, 24, 3],
        (10, 63, 3),
        (1, &[1, 2, 3, 4, 5, 6, 7]),
        &[(9, 3), (5, 0), (4, 0), (3, 0), (2, 0), (1, 0)],
    ),
    ("one crashes later", [3, 2, 3, 0, 0], (3, 3, 0), (2, &[2, 3]), &[]),
    ("silent at last", [2, 3, 1, 3, 1], (4, 6, 3), (1, &[1, 2]), &[(3, 1)]),
    ("no commit", [2, 1, 2, 5, 2], (2, 9, 2), (1, &[1, 2]), &[(3, 0), (2, 2)]),
    ("two reached", [2, 1, 2, 4, 2], (2, 9, 2), (2, &[2]), &[(2, 0), (2, 2)]),
    ("set partly counted", [3, 4, 3, 7, 1], (5, 21, 3), (1, &[1, 2, 3]), &[(5, 1), (2, 0)]),
    (
        "commits partly counted",
        [3, 3, 3, 9, 3],
        (4, 21, 3),
        (1, &[1, 2, 3]),
        &[(5, 1), (3, 1), (1, 1)],
    ),
    ("equal proposals", [2, 1, 2, 1, 1], (2, 5, 1), (1, &[1, 2]), &[(0, 0), (1, 1)]),
    ("value zero", [2, 1, 2, 1, 1], (2, 5, 1), (2, &[2]), &[(0, 0), (1, 1)]),
];

#[test]
fn the_figures_of_the_worked_runs() {
    assert_eq!(FIGURES.map(|(name, ..)| name), worked::runs().map(|(name, _)| name));
    for (name, counted, limits, (settling_round, settling_rounds), shown) in FIGURES {
        let said = said_under(&RIGHT, name);
        let (first, others) = said.shown.split_at(shown.len());
        assert_eq!(first, shown, "{name}");
        assert!(others.iter().all(|&shown| shown == (0, 0)), "{name}");
        let Counts { rounds, speakers, data, commits } = said.counts;
        assert_eq!([rounds.into(), said.f.into(), speakers, data, commits], counted, "{name}");
        assert_eq!(said.limits, limits, "{name}");
        assert_eq!(said.settling_rounds, settling_rounds, "{name}");
        assert_eq!(said.settling_round, Some(settling_round), "{name}");
    }
}

/// The reasons of cases 1 and 6 (02, Paper 7), which have all seven, and what the
/// nearest mistakes make of them.
#[test]
fn the_reasons_of_cases_1_and_6() {
    let case_1 = [[6, 3, 3, 2], [7, 1, 2, 7]].concat();
    let case_6 = [[6, 6, 5, 5], [7, 7, 4, 4], [7, 7, 1, 2]].concat();
    assert_eq!(said_under(&RIGHT, "case 1").reasons, case_1);
    assert_eq!(said_under(&RIGHT, "case 6").reasons, case_6);
    let figures = [
        (
            "coordinator/reasons-4-and-5-swapped",
            "case 6",
            [6, 6, 4, 4, 7, 7, 5, 5, 7, 7, 1, 2].as_slice(),
        ),
        ("coordinator/crashing-coordinator-has-reason-1", "case 1", &[1, 3, 3, 2, 7, 1, 2, 7]),
        ("who hears a coordinator that crashes has reason 5", "case 1", &[6, 5, 5, 5, 7, 1, 2, 7]),
        ("coordinator/crash-in-the-round-is-reason-7", "case 1", &[7, 3, 3, 2, 7, 1, 2, 7]),
        ("coordinator_laws/who-decides-has-reason-7-in-that-round", "case 1", &[6, 3, 3, 7, 7, 7, 7, 7]),
    ];
    for (world, run, reasons) in figures {
        assert_eq!(said(world, run).reasons, reasons, "{world}");
    }
}

/// 01, "Mistakes this must shut out".
#[test]
fn the_five_mistakes_in_worked_cases() {
    // "Station r + 1 then decides and stays silent in its round while higher
    // ones wait."
    let upward = said("coordinator/commits-go-upward", "case 1");
    assert_eq!(upward.ends, [Crashed(1), Decided(1, 10), Decided(3, 10), Decided(3, 10)]);

    // "In case 5 station 4 would keep 10 and the rest 20."
    let on_data = said("coordinator/decides-on-data-alone", "case 5");
    assert_eq!(on_data.ends, [Crashed(1), Decided(2, 20), Decided(2, 20), Decided(1, 10)]);

    // "Leaving dark stations out of the commit list, which shifts who gets the
    // first commits": 7 and 6, in the place of 9 and 8.
    let left_out = said("coordinator/crashed-left-out-of-the-commit-list", "case 9");
    let (first, rest) = left_out.ends.split_at(5);
    assert_eq!(first, [1, 2, 3, 4, 5].map(Crashed));
    assert_eq!(rest, [Decided(1, 10), Decided(1, 10), Crashed(1), Crashed(1), Decided(1, 10)]);

    // "Counting idle lines in f, which loosens the bound on rounds."
    let idle = said("consensus/idle-lines-counted-in-f", "case 8");
    assert_eq!((idle.f, idle.limits.0), (1, 2));

    // "Letting a station hear in the round it goes dark": 8 and 9 decide.
    let hears = said("coordinator/hears-in-the-round-of-its-crash", "case 9");
    let (first, rest) = hears.ends.split_at(7);
    assert_eq!(first, [1, 2, 3, 4, 5, 6, 7].map(Crashed));
    assert_eq!(rest, [Decided(1, 10); 3]);
}

/// 01, "Which impostors must it catch?": "running round 1 and marking the rest
/// decided (demand 2, case 6)".
#[test]
fn the_nearest_impostor_in_case_6() {
    let marked = said("round 1 is run and the rest marked decided", "case 6");
    assert_eq!(marked.ends, [Crashed(1), Crashed(1), Decided(1, 30), Decided(1, 40)]);
    assert_eq!(marked.counts, Counts { rounds: 1, speakers: 1, data: 0, commits: 0 });
}

#[test]
fn counts_that_no_bound_refuses() {
    assert_eq!(said("coordinator/silent-rounds-not-counted", "silent at last").counts.rounds, 1);
    assert_eq!(said("coordinator/data-counted-as-the-commits", "case 9").counts.data, 3);
    assert_eq!(said("coordinator/unsent-messages-counted", "case 6").counts.data, 4);
}

/// 02, Paper 4: "Case 1 then ends 1202010200040002, and case 9 has data 24,
/// commits 3." The first of the other rules is that of before.
#[test]
fn other_messages_counted_in_cases_1_and_9() {
    let figures = [
        ("coordinator/every-addressee-counted", (5, 3), (42, 21)),
        ("coordinator/messages-to-the-crashed-counted", (4, 2), (36, 15)),
        ("coordinator/messages-to-the-decided-counted", (5, 3), (30, 9)),
        ("coordinator/addressees-that-crash-in-the-round-left-out", (4, 2), (22, 1)),
        ("coordinator/addressees-counted-as-the-round-ends", (2, 0), (21, 0)),
        ("data to the crashed and to the decided are counted", (5, 2), (42, 3)),
        ("commits to the crashed and to the decided are counted", (4, 3), (24, 21)),
    ];
    let messages = |said: Answer| (said.counts.data, said.counts.commits);
    assert_eq!(messages(said_under(&RIGHT, "case 1")), (4, 2));
    assert_eq!(messages(said_under(&RIGHT, "case 9")), (24, 3));
    for (world, in_case_1, in_case_9) in figures {
        assert_eq!(messages(said(world, "case 1")), in_case_1, "{world}");
        assert_eq!(messages(said(world, "case 9")), in_case_9, "{world}");
    }
    // Process 7 sends in round 7 to 8, 9 and 10 alone.
    let rounds = said("coordinator/rounds-without-counted-data-left-out", "case 9");
    assert_eq!(rounds.counts.rounds, 6);
    let speakers = said("coordinator/speakers-without-counted-data-left-out", "case 9");
    assert_eq!(speakers.counts.speakers, 6);
    assert_eq!(said("coordinator/f-at-least-the-counted-commits", "case 8").f, 3);
}

/// 02, Paper 4: "The commit list stays fixed". If processes that began the round
/// crashed or decided were left out of it, the three commits of process 2 would go to
/// 7, 6 and 5, in the place of 10, 9 and 8, and the first of process 3 to 4.
#[test]
fn a_commit_list_without_those_that_have_ended_in_case_9() {
    let left_out = said("coordinator/ended-left-out-of-the-commit-list", "case 9");
    let (first, rest) = left_out.ends.split_at(3);
    assert_eq!(first, [1, 2, 3].map(Crashed));
    let (next, last) = rest.split_at(4);
    assert_eq!(next, [Decided(3, 10), Decided(2, 10), Decided(2, 10), Decided(2, 10)]);
    assert_eq!(last, [Crashed(1), Crashed(1), Decided(1, 10)]);
}

/// 02, Paper 4: "who hears what is untouched; only the counts in lines 11 and 12
/// change", and none of them rises.
#[test]
fn the_rule_before_paper_4_differs_in_the_counts_alone() {
    let before = rule_before_paper_4();
    let mut fewer = 0;
    for ticket in small_and_random_tickets() {
        let [then, now] = [&before, &RIGHT].map(|rules| answer(&ticket, rules));
        let data_and_commits = |said: &Answer| (said.counts.data, said.counts.commits);
        let (data, commits) = data_and_commits(&now);
        let counts = Counts { data, commits, ..then.counts };
        let shown = now.shown.clone();
        assert_eq!(Answer { counts, shown, ..then.clone() }, now, "{ticket}");
        for (then, now) in then.shown.iter().zip(&now.shown) {
            assert!(now.0 <= then.0 && now.1 <= then.1, "{ticket}");
        }
        fewer += usize::from(data_and_commits(&then) != (data, commits));
    }
    assert!(fewer > 500, "{fewer}");
}

/// 02, Papers 2 and 4: the counts that stand in the lines of case 1 are 3 and 1,
/// 1 and 1, 0 and 0, 0 and 0.
#[test]
fn other_counts_by_process_in_case_1() {
    assert_eq!(said_under(&RIGHT, "case 1").shown, [(3, 1), (1, 1), (0, 0), (0, 0)]);
    let figures = [
        ("coordinator/commits-kept-as-data-of-their-sender", [(1, 1), (1, 1), (0, 0), (0, 0)]),
        ("coordinator/messages-kept-for-the-next-process", [(0, 0), (3, 1), (1, 1), (0, 0)]),
        ("coordinator/every-process-has-the-total", [(4, 2); 4]),
        ("answers/commits-of-a-process-before-its-data", [(1, 3), (1, 1), (0, 0), (0, 0)]),
        ("answers/counts-of-the-next-process", [(1, 1), (0, 0), (0, 0), (0, 0)]),
        ("answers/total-in-every-line", [(4, 2); 4]),
        ("the counts of all stand in the first line", [(4, 2), (0, 0), (0, 0), (0, 0)]),
        ("answers/crashed-process-shows-no-messages", [(0, 0), (1, 1), (0, 0), (0, 0)]),
        ("a crashed process has no data", [(0, 1), (1, 1), (0, 0), (0, 0)]),
        ("counts are cut to one bit", [(1, 1), (1, 1), (0, 0), (0, 0)]),
    ];
    for (world, shown) in figures {
        assert_eq!(said(world, "case 1").shown, shown, "{world}");
    }
    // In case 6 alone of the cases is something of process t + 1 carried.
    assert_eq!(said_under(&RIGHT, "case 6").shown, [(0, 0), (0, 0), (1, 1), (0, 0)]);
    let left_out = said("coordinator/messages-of-the-last-round-left-out", "case 6");
    assert_eq!(left_out.shown, [(0, 0), (0, 0), (1, 0), (0, 0)]);
}

/// Case 9 has as many commits as its limit allows, and 27 messages of 63.
#[test]
fn other_limits_of_case_9() {
    assert_eq!(said_under(&RIGHT, "case 9").limits, (10, 63, 3));
    assert_eq!(said("coordinator/bound-too-low", "case 9").limits, (10, 62, 3));
    assert_eq!(said("coordinator/bound-too-high", "case 9").limits, (10, 64, 3));
    assert_eq!(said("coordinator/commit-bound-too-low", "case 9").limits, (10, 63, 2));
    assert_eq!(said("coordinator/commit-bound-too-high", "case 9").limits, (10, 63, 4));
    assert_eq!(said("coordinator/one-round-more-to-decide", "case 9").limits, (11, 63, 3));
}

/// Document 001's Theorem 2 gives (f + 1)(2n − 1 − 3f/2), "which fails for large f:
/// see case 9" (01): of the messages sent. Of those carried it holds.
#[test]
fn the_bound_of_document_001_fails_of_messages_sent_alone() {
    let before = rule_before_paper_4();
    let bound = |n: u64, f: u64| (f + 1) * (4 * n - 2).saturating_sub(3 * f) / 2;
    let holds = |ticket: &Ticket, rules: &Rules| {
        let Answer { f, counts, .. } = answer(ticket, rules);
        counts.data + counts.commits <= bound(ticket.n.into(), f.into())
    };
    assert!(!holds(&worked::case(9), &before));
    for ticket in small_and_random_tickets() {
        assert!(holds(&ticket, &RIGHT), "{ticket}");
    }
}

#[test]
fn other_rounds_that_settle() {
    let figures: [(&str, &str, &[u8]); 8] = [
        ("coordinator/crashed-processes-hold-values", "case 1", &[]),
        ("coordinator/settled-as-the-round-begins", "case 5", &[]),
        ("coordinator/every-round-settles", "case 5", &[1, 2]),
        ("coordinator/settled-by-the-decided-alone", "case 5", &[1, 2]),
        ("coordinator/settled-by-who-never-crashes", "one crashes later", &[1, 2, 3]),
        ("coordinator/round-0-settles", "case 2", &[0, 1]),
        ("coordinator/settles-after-the-end", "case 1", &[1, 2, 3]),
        ("answers/only-the-last-round-settles", "case 1", &[2]),
    ];
    for (world, run, settling_rounds) in figures {
        assert_eq!(said(world, run).settling_rounds, settling_rounds, "{world}");
    }
}

/// 02, Paper 6: case 1 gives 1, cases 4 and 5 give 2, and the run in which one crashes
/// later 2. If silent rounds do not settle, that run has none, and t + 2 is named.
#[test]
fn other_rounds_that_are_named() {
    let figures = [
        ("coordinator/last-that-qualifies-named", "case 1", Some(2)),
        ("coordinator/named-one-round-late", "case 1", Some(2)),
        ("coordinator/round-1-never-named", "case 2", Some(3)),
        ("coordinator/silent-rounds-do-not-settle", "case 2", Some(2)),
        ("coordinator/silent-rounds-do-not-settle", "one crashes later", Some(4)),
        ("coordinator/silent-rounds-do-not-settle", "equal proposals", Some(2)),
        ("the first round that begins with one value is named", "case 1", Some(2)),
        (
            "the first round is named at whose end the crashed hold that value too",
            "one crashes later",
            None,
        ),
        ("the first round is named at whose end the decided hold one value", "case 5", Some(1)),
        (
            "the first round is named at whose end those hold one value that never crash",
            "one crashes later",
            Some(1),
        ),
        (
            "round 0 is named, though it does not qualify, if all propose one value",
            "case 2",
            Some(0),
        ),
        ("coordinator/first-decision-named", "no commit", Some(2)),
    ];
    for (world, run, named) in figures {
        assert_eq!(said(world, run).settling_round, named, "{world}");
        assert_eq!(said(world, run).settling_rounds, said_under(&RIGHT, run).settling_rounds);
    }
    for (world, named) in [("coordinator/round-0-settles", 1), ("coordinator/round-0-named", 0)] {
        let said = said(world, "case 2");
        assert_eq!((said.settling_round, said.settling_rounds), (Some(named), vec![0, 1]));
    }
}
