//! All vectors of the repository's tests/vectors. Those of the papers say what is
//! written when all papers have landed, which for a coordinator ticket is what is
//! written since Paper 4; and what was written when their own had landed, which is
//! that but for counts. The results of base.jsonl are those of a program without
//! Papers 2 and 4: what is written now, with two bytes of each line 11 struck out,
//! and both without the counts of line 12. The counts of before Paper 4 are compared
//! by themselves, with what is carried and what is dropped. Of the rounds that
//! base.jsonl says qualify for settling, the first is the settling round; paper-06.jsonl
//! says it by itself. paper-07.jsonl has the reasons of whole runs and single ones,
//! paper-09.jsonl quotes, paper-14.jsonl the states in which parts end that are called in
//! the orders it gives.

mod json;

use std::fs;
use std::path::Path;

use json::{Object, Value};
use second::generate::decode_line;
use second::host::{play, Host};
use second::interface::{Agreement, REFUSED};
use second::lines::Lines;
use second::orders::{calls_of, in_given_order, Act, Call};
use second::process::{Process, Status};
use second::recount::{counted, crashed_before, decided_before};
use second::run_states::{RunStates, StateBytes};
use second::simulation::Simulation;
use second::{Simulator, Ticket};

fn vectors(name: &str) -> Vec<Object> {
    let folder = Path::new(env!("CARGO_MANIFEST_DIR")).join("../tests/vectors");
    let text = fs::read_to_string(folder.join(name)).expect("the vectors");
    text.lines().map(Object::parse).collect()
}

/// The output's length; ample if the vector does not say it.
fn room(vector: &Object) -> usize {
    if vector.has("room") {
        vector.number("room") as usize
    } else {
        2000
    }
}

/// How many digits of a line of a result stand before its counts.
fn digits_before_counts(line: &str) -> usize {
    match &line[..2] {
        "11" => 16,
        "12" => 8,
        _ => line.len(),
    }
}

/// A result without its counts: the two bytes behind the value of each line 11,
/// if there are any, and the last four bytes of line 12.
fn without_counts(printed: &str) -> String {
    printed.lines().map(|line| line[..digits_before_counts(line)].to_string() + "\n").collect()
}

/// The two counts with which a line of a result ends.
fn counts_in(line: &str) -> [u16; 2] {
    let counts = &line[digits_before_counts(line)..];
    let (data, commits) = counts.split_at(counts.len() / 2);
    [data, commits].map(|digits| u16::from_str_radix(digits, 16).expect("digits"))
}

/// The data messages and the commits of each process in a ticket's run: those that
/// are carried, and by the recount those that are dropped.
fn carried_and_dropped(ticket: &Ticket) -> Vec<[[u16; 2]; 2]> {
    let mut simulation = Simulation::new(ticket);
    simulation.run(|_, _| {});
    let ends: Vec<Status> = simulation.processes().iter().map(Process::status).collect();
    let of_process = |process: &Process| {
        let id = process.id();
        let is_dropped = |end| crashed_before(end, id) || decided_before(end, id);
        [process.carried(), counted(ticket, &ends, id, is_dropped)]
            .map(|count| [count.data, count.commits].map(u16::from))
    };
    simulation.processes().iter().map(of_process).collect()
}

/// What the vector of a paper says is written now: of a coordinator ticket, what
/// is written when all papers have landed; of a flood ticket, which is refused
/// until Paper 5 lands, what is written when the vector's own paper has.
fn written_now(vector: &Object, ticket: &[u8]) -> String {
    let is_flood = ticket.starts_with(b"05") || ticket.starts_with(b"06");
    let field = if is_flood { "result" } else { "result_when_all_have_landed" };
    vector.text(field).to_string()
}

#[test]
fn tickets() {
    let mut simulator = Simulator::new();
    let vectors = vectors("base.jsonl");
    for (line, vector) in (1..).zip(&vectors) {
        let about = format!("line {line}: {}", vector.text("about"));
        let ticket = vector.bytes("ticket");
        // The output is longer by what Paper 2 adds.
        let n = Ticket::parse(&ticket).map_or(0, |ticket| ticket.n);
        let printed = simulator.print(&ticket, room(vector) + 4 * usize::from(n));
        let lines = printed.lines().filter(|line| line.starts_with("11"));
        assert!(lines.clone().all(|line| line.len() == 20), "{about}");
        let result = vector.text("result");
        assert_eq!(without_counts(&printed), without_counts(result), "{about}");

        let rounds = simulator.settling_rounds(&ticket);
        let settled = simulator.settling_round(&ticket);
        if vector.has("settling_rounds_that_qualify") {
            let rounds: Vec<u64> = rounds.expect(&about).into_iter().map(u64::from).collect();
            assert_eq!(rounds, vector.list("settling_rounds_that_qualify"), "{about}");
            assert_eq!(u64::from(settled.expect(&about)), rounds[0], "{about}");
        } else {
            for refusal in [rounds.expect_err(&about), settled.expect_err(&about)] {
                assert_eq!(format!("{refusal}\n"), vector.text("result"), "{about}");
            }
        }
    }
    assert!(vectors.len() >= 600);
}

#[test]
fn settling_rounds_of_paper_6() {
    let mut simulator = Simulator::new();
    let vectors = vectors("paper-06.jsonl");
    let (mut before_the_last, mut accepted) = (0, 0);
    for (line, vector) in (1..).zip(&vectors) {
        let about = format!("line {line}: {}", vector.text("about"));
        let text = vector.written("ticket").expect(&about);
        let settled = simulator.settle(&text);
        if vector.has("refusal") {
            assert_eq!(settled, refused(vector), "{about}");
            continue;
        }
        let [round, rounds] = ["settling_round", "run_rounds"].map(|name| vector.number(name));
        let ticket = Ticket::parse(&text).expect(&about);
        assert_eq!(settled, round, "{about}");
        assert_eq!(u64::from(Simulation::new(&ticket).run(|_, _| {}).rounds), rounds, "{about}");
        accepted += 1;
        before_the_last += usize::from(round < rounds);
    }
    let figures = [vectors.len(), accepted, before_the_last];
    assert!(vectors.len() >= 290 && accepted >= 185 && before_the_last >= 67, "{figures:?}");
}

/// The answer that a vector's refusal is.
fn refused(vector: &Object) -> u64 {
    let refusal = vector.object("refusal");
    let [number, line] = ["number", "line"].map(|name| refusal.number(name));
    number * REFUSED + line
}

/// The reasons of a whole run: each by itself and all at once, into an output of just
/// that length, of more, and of less, which is refused.
fn reasons_of_a_run(simulator: &mut Simulator, text: &[u8], rounds: &[Vec<u64>], about: &str) {
    let [n, last] = [rounds[0].len(), rounds.len()].map(|count| count as u64);
    for (round, reasons) in (1..).zip(rounds) {
        for (process, &reason) in (1..).zip(reasons) {
            assert_eq!(Agreement::reason(simulator, text, process, round), reason, "{about}");
        }
    }
    for (process, round) in [(n + 1, 1), (1, last + 1), (0, last), (n, 0)] {
        let answer = Agreement::reason(simulator, text, process, round);
        assert_eq!(answer, 13 * REFUSED, "process {process}, round {round}: {about}");
    }
    let all: Vec<u8> = rounds.iter().flatten().map(|&reason| reason as u8).collect();
    for more in [0, 1, 100] {
        let mut output = vec![0xEE; all.len() + more];
        let answer = Agreement::reasons(simulator, text, &mut output);
        assert_eq!(answer, all.len() as u64, "{about}");
        assert!(output.starts_with(&all), "{about}");
        assert!(output[all.len()..].iter().all(|&byte| byte == 0xEE), "{about}");
    }
    let mut short = vec![0xEE; all.len() - 1];
    assert_eq!(Agreement::reasons(simulator, text, &mut short), 9 * REFUSED, "{about}");
    assert!(short.iter().all(|&byte| byte == 0xEE), "{about}");
}

#[test]
fn reasons_of_paper_7() {
    let mut simulator = Simulator::new();
    let vectors = vectors("paper-07.jsonl");
    let (mut runs, mut outside, mut shown) = (0, 0, [0; 8]);
    for (line, vector) in (1..).zip(&vectors) {
        let about = format!("line {line}: {}", vector.text("about"));
        let text = vector.written("ticket").expect(&about);
        if vector.has("reasons_by_round_then_station") {
            let rounds = vector.lists("reasons_by_round_then_station");
            reasons_of_a_run(&mut simulator, &text, &rounds, &about);
            rounds.iter().flatten().for_each(|&reason| shown[reason as usize] += 1);
            runs += 1;
            continue;
        }
        let [process, round] = ["station", "round"].map(|name| vector.number(name));
        let right = if vector.has("refusal") { refused(vector) } else { vector.number("reason") };
        assert_eq!(Agreement::reason(&mut simulator, &text, process, round), right, "{about}");
        outside += usize::from(right == 13 * REFUSED);
        if right >= REFUSED && right != 13 * REFUSED {
            assert_eq!(Agreement::reasons(&mut simulator, &text, &mut []), right, "{about}");
        }
    }
    let figures = [vectors.len(), runs, outside];
    assert!(vectors.len() >= 290 && runs >= 173 && outside >= 10, "{figures:?}");
    assert!(shown[0] == 0 && shown[1..].iter().all(|&count| count > 50), "{shown:?}");
}

#[test]
fn quotes_of_paper_9() {
    let mut simulator = Simulator::new();
    let vectors = vectors("paper-09.jsonl");
    let (mut quoted, mut shown) = (0, [0; 17]);
    for (line, vector) in (1..).zip(&vectors) {
        let about = format!("line {line}: {}", vector.text("about"));
        let text = vector.written("ticket").expect(&about);
        let (costs, process) = (vector.list("direct_costs"), vector.number("desk"));
        let before = 0xEEEE_EEEE_EEEE_EEEE;
        let right = if vector.has("refusal") {
            (refused(vector), before)
        } else {
            (0, vector.number("quote"))
        };
        let mut quote = before;
        let answer = Agreement::quote(&mut simulator, &text, &costs, process, &mut quote);
        assert_eq!((answer, quote), right, "{about}");
        quoted += usize::from(answer == 0);
        shown[(answer / REFUSED) as usize] += 1;
    }
    let figures = [vectors.len(), quoted];
    assert!(vectors.len() >= 270 && quoted >= 190, "{figures:?}");
    let numbers = (1..=8).chain(14..=16);
    assert!(numbers.into_iter().all(|number| shown[number] > 0), "{shown:?}");
}

fn processes_in(list: &Value) -> Vec<u8> {
    list.numbers().into_iter().map(|process| process as u8).collect()
}

/// The calls of one run in the orders that a vector gives for each round.
fn calls_by_round(vector: &Object, run: &RunStates) -> Vec<Call> {
    let [speaking, closing] =
        ["speaking_order_by_round", "closing_order_by_round"].map(|name| vector.values(name));
    assert_eq!([speaking.len(), closing.len()], [usize::from(run.rounds()); 2]);
    in_given_order(run, 0, run.rounds(), |round, act| {
        let orders = if act == Act::Speak { speaking } else { closing };
        processes_in(&orders[usize::from(round) - 1])
    })
}

/// The calls of two runs whose rounds come in the order of a vector's steps.
fn calls_by_steps(vector: &Object, runs: &[RunStates]) -> Vec<Call> {
    let mut rounds = vec![0; runs.len()];
    let mut calls = Vec::new();
    for step in vector.values("steps").iter().map(Value::object) {
        let instance = step.number("tender") as usize - 1;
        rounds[instance] += 1;
        for (act, order) in [(Act::Speak, "speaking_order"), (Act::Close, "closing_order")] {
            let order = processes_in(step.value(order));
            calls.extend(calls_of(&runs[instance], instance, rounds[instance], act, &order));
        }
    }
    assert!(runs.iter().zip(rounds).all(|(run, rounds)| run.rounds() == rounds));
    calls
}

/// The tickets of a vector, and the states in which the parts of each end.
fn tickets_and_ends(vector: &Object) -> (Vec<Ticket>, Vec<Vec<StateBytes>>) {
    let ticket = |text: &str| Ticket::parse(text.as_bytes()).expect("an accepted ticket");
    let state = |digits: &Value| decode_line(digits.text()).try_into().expect("nine bytes");
    let ends = |states: &[Value]| states.iter().map(state).collect();
    if vector.has("ticket") {
        return (
            vec![ticket(vector.text("ticket"))],
            vec![ends(vector.values("states_at_the_end"))],
        );
    }
    let by_instance = vector.values("states_at_the_end_by_tender").iter();
    (
        vector.values("tickets").iter().map(|text| ticket(text.text())).collect(),
        by_instance.map(|states| ends(states.values())).collect(),
    )
}

#[test]
fn orders_of_paper_14() {
    let vectors = vectors("paper-14.jsonl");
    let (mut instances, mut of_decided, mut crashes) = ([0; 3], 0, 0);
    for (line, vector) in (1..).zip(&vectors) {
        let about = format!("line {line}: {}", vector.text("about"));
        let (tickets, ends) = tickets_and_ends(vector);
        let runs: Vec<RunStates> = tickets.iter().map(RunStates::of).collect();
        let calls = match &runs[..] {
            [run] => calls_by_round(vector, run),
            runs => calls_by_steps(vector, runs),
        };
        for (run, ends) in runs.iter().zip(&ends) {
            assert_eq!(run.ends(), ends, "{about}");
        }
        let borrowed: Vec<&RunStates> = runs.iter().collect();
        let played = play(&mut Simulator::new(), &borrowed, &calls, Host::make);
        assert_eq!(played, Ok(()), "{about}");
        instances[runs.len()] += 1;
        let has_decided = |call: &&Call| runs[call.instance].has_decided(call.process, call.round);
        of_decided += calls.iter().filter(has_decided).count();
        crashes += ends.iter().flatten().filter(|state| state[4] == 0).count();
    }
    assert_eq!(instances, [0, 180, 50]);
    assert!(of_decided > 100 && crashes > 100, "{of_decided} {crashes}");
}

fn sum_of(a: [u16; 2], b: [u16; 2]) -> [u16; 2] {
    [a[0] + b[0], a[1] + b[1]]
}

/// Compares the counts of one accepted ticket's result of before Paper 4, which are
/// of all that is sent: those of its last line, and of its process lines, which have
/// them since Paper 2. Answers whether anything is dropped.
fn counts_as_sent(ticket: &Ticket, result: &str) -> bool {
    let counts = carried_and_dropped(ticket);
    let lines: Vec<&str> = result.lines().collect();
    let (last, processes) = lines.split_last().expect("a result");
    assert_eq!(processes.len(), counts.len(), "{ticket}");
    for (line, &[carried, dropped]) in processes.iter().zip(&counts) {
        let has_counts = line.len() > digits_before_counts(line);
        assert!(!has_counts || counts_in(line) == sum_of(carried, dropped), "{line} of {ticket}");
    }
    let in_all = counts.iter().flatten().fold([0, 0], |sum, &count| sum_of(sum, count));
    assert_eq!(counts_in(last), in_all, "{ticket}");
    counts.iter().any(|&[_, dropped]| dropped != [0, 0])
}

#[test]
fn counts_before_paper_4_are_of_what_is_carried_and_of_what_is_dropped() {
    for (file, least) in [("base.jsonl", 33), ("paper-01.jsonl", 22), ("paper-02.jsonl", 38)] {
        let mut dropping = 0;
        for vector in vectors(file).iter().filter(|vector| vector.text("result").starts_with("11"))
        {
            let text = if file == "base.jsonl" {
                vector.bytes("ticket")
            } else {
                vector.written("ticket").expect(file)
            };
            let ticket = Ticket::parse(&text).expect("an accepted ticket");
            dropping += usize::from(counts_as_sent(&ticket, vector.text("result")));
        }
        assert!(dropping >= least, "{file}: {dropping}");
    }
}

#[test]
fn tickets_of_paper_1() {
    let mut simulator = Simulator::new();
    let vectors = vectors("paper-01.jsonl");
    let mut in_other_letters = 0;
    for (line, vector) in (1..).zip(&vectors) {
        let about = format!("line {line}: {}", vector.text("about"));
        let ticket = vector.written("ticket").expect(&about);
        let other = vector.written("ticket_in_other_letters").unwrap_or(ticket.clone());
        assert!(other.eq_ignore_ascii_case(&ticket), "{about}");
        in_other_letters += usize::from(other != ticket);
        for text in [&ticket, &other] {
            let printed = simulator.print(text, room(vector));
            assert_eq!(printed, written_now(vector, text), "{about}");
        }
        let settled = [&ticket, &other].map(|text| simulator.settle(text));
        assert_eq!(settled[0], settled[1], "{about}");
    }
    assert!(vectors.len() >= 300 && in_other_letters >= 140);
}

/// The results of one paper's vectors, which have the counts of today; how many
/// tickets are accepted, and of how many Paper 4 has changed the counts.
fn results(file: &str) -> (usize, usize, usize) {
    let mut simulator = Simulator::new();
    let vectors = vectors(file);
    let (mut accepted, mut changed) = (0, 0);
    for (line, vector) in (1..).zip(&vectors) {
        let about = format!("{file}, line {line}: {}", vector.text("about"));
        let ticket = vector.written("ticket").expect(&about);
        let printed = simulator.print(&ticket, room(vector));
        assert_eq!(printed, written_now(vector, &ticket), "{about}");
        let then = vector.text("result");
        assert_eq!(without_counts(&printed), without_counts(then), "{about}");
        accepted += usize::from(printed.starts_with("11"));
        changed += usize::from(printed != then);
    }
    (vectors.len(), accepted, changed)
}

#[test]
fn tickets_of_paper_2() {
    let (vectors, accepted, changed) = results("paper-02.jsonl");
    assert!(vectors >= 280 && accepted >= 160 && changed >= 38, "{accepted} {changed}");
}

#[test]
fn tickets_of_paper_4() {
    let (vectors, accepted, changed) = results("paper-04.jsonl");
    assert!(vectors >= 280 && accepted >= 160 && changed == 0, "{accepted} {changed}");
}

/// The byte that two digits make; none if they are not both digits.
fn byte_of(digits: [u8; 2]) -> Option<u64> {
    let text = [digits[0], digits[1], b'\n'];
    let line = Lines::of(&text).next()?.ok()?;
    Some(line.kind().into())
}

#[test]
fn entries_of_paper_3() {
    let mut simulator = Simulator::new();
    let vectors = vectors("paper-03.jsonl");
    for (byte, vector) in (0..=u8::MAX).zip(&vectors) {
        let about = vector.text("about");
        assert_eq!(vector.number("byte"), u64::from(byte), "{about}");
        let value = vector.number_if_any("digit_value");
        assert_eq!(byte_of([byte, b'0']), value.map(|value| 16 * value), "{about}");
        assert_eq!(byte_of([b'0', byte]), value, "{about}");

        let ticket = vector.written("ticket").expect(about);
        let with_the_byte = [&b"010100\n0201000000"[..], &[byte, byte], b"\n04\n"].concat();
        assert_eq!(ticket, with_the_byte, "{about}");
        let printed = simulator.print(&ticket, room(vector));
        assert_eq!(printed, written_now(vector, &ticket), "{about}");
        match simulator.settling_round(&ticket) {
            Ok(round) => assert_eq!((round, value.is_some()), (1, true), "{about}"),
            Err(refusal) => assert_eq!(format!("{refusal}\n"), vector.text("result"), "{about}"),
        }
    }
    assert_eq!(vectors.len(), 256);
}

#[test]
fn local_parts() {
    let mut simulator = Simulator::new();
    let vectors = vectors("desk.jsonl");
    for (line, vector) in (1..).zip(&vectors) {
        let refusal = vector.number("refusal");
        match vector.text("call") {
            "start" => {
                let [process, n, t] = ["station", "n", "t"].map(|name| vector.number(name));
                let value = vector.number("value").try_into().expect("four bytes");
                let mut state = vector.bytes("lent");
                let answer = simulator.start(process, n, t, value, &mut state);
                assert_eq!((answer, state), (refusal, vector.bytes("lent_after")), "line {line}");
            }
            "speak" => {
                let mut output = vector.bytes("output");
                let answer = simulator.speak(&vector.bytes("state"), &mut output);
                let expected = if refusal == 0 { vector.number("bytes_yielded") } else { refusal };
                assert_eq!(
                    (answer, output),
                    (expected, vector.bytes("output_after")),
                    "line {line}"
                );
            }
            "close" => {
                let mut state = vector.bytes("state");
                let answer = simulator.close(&mut state, &vector.bytes("heard"));
                assert_eq!((answer, state), (refusal, vector.bytes("state_after")), "line {line}");
            }
            call => panic!("line {line}: no call {call}"),
        }
    }
    assert!(vectors.len() >= 1500);
}
