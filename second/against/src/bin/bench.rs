//! Times the proved library and the second implementation in one run.
//!
//! `bench [--seconds NUMBER]`: how long each measurement lasts (2).

use std::env;
use std::hint::black_box;
use std::process::ExitCode;
use std::time::{Duration, Instant};

use against::proved::Proved;
use second::interface::Agreement;
use second::pricing::MOST_LINES;
use second::report::LONGEST_RESULT;
use second::round_reason::MOST_REASONS;
use second::simulation::Simulation;
use second::worked;
use second::{Failure, Simulator, Ticket};

/// Calls between two looks at the clock.
const BATCH: u32 = 64;

/// Turns that each implementation takes in a measurement. The best one counts,
/// so that what else the machine does weighs little.
const TURNS: u32 = 20;

/// Calls of `call` per second, over at least `time`.
fn per_second(time: Duration, mut call: impl FnMut()) -> f64 {
    let begun = Instant::now();
    let mut calls = 0u64;
    while begun.elapsed() < time {
        for _ in 0..BATCH {
            call();
        }
        calls += u64::from(BATCH);
    }
    calls as f64 / begun.elapsed().as_secs_f64()
}

/// Calls per second of the proved and of the second implementation, in turns
/// that add up to `time` for each.
fn rates(time: Duration, mut call: impl FnMut(&mut dyn Agreement)) -> [f64; 2] {
    let mut second = Simulator::new();
    let mut modules: [&mut dyn Agreement; 2] = [&mut Proved, &mut second];
    let mut best = [0.0f64; 2];
    for _ in 0..TURNS {
        for (module, best) in modules.iter_mut().zip(&mut best) {
            *best = best.max(per_second(time / TURNS, || call(*module)));
        }
    }
    best
}

/// 64 processes, of which the first `crashing` crash, each as `how` says.
fn sixty_four(t: u8, crashing: u8, how: impl Fn(u8) -> Failure) -> Ticket {
    Ticket {
        n: 64,
        t,
        proposals: (1..=64).map(|process| process * 0x0101_0101).collect(),
        failures: (1..=crashing).map(how).collect(),
    }
}

/// 64 processes, of which the first `crashing` crash in their own rounds before they
/// send anything.
fn silent(crashing: u8) -> Ticket {
    sixty_four(63, crashing, |process| Failure::before_sending(process, process))
}

/// 64 processes, of which 63 crash in their own rounds after all their data.
fn without_commits() -> Ticket {
    sixty_four(63, 63, |process| Failure::sending_commits(process, 0))
}

/// The tickets that are run.
fn tickets() -> Vec<(&'static str, Vec<u8>)> {
    let typical = sixty_four(31, 2, |process| Failure::sending_data(process, 1 << 63));
    let worst = without_commits();
    let mut early = typical.text();
    early[0] = b'x';
    let mut late = worst.text();
    let last = late.len() - 2;
    late[last] = b'x';
    vec![
        ("small: n 4, case 1", worked::case(1).text()),
        ("typical: n 64, 2 crashes", typical.text()),
        ("the same in small letters", typical.text().to_ascii_lowercase()),
        ("worst: n 64, t 63, 63 crashes", worst.text()),
        ("the same, but nothing is sent", silent(63).text()),
        ("damaged: refused at line 1", early),
        ("damaged: refused at line 129", late),
    ]
}

/// The tickets that are settled: in round 1 of 2, of 1, and of 64; in round 63 of 64,
/// at whose end one process is up; and none.
fn settled_tickets() -> Vec<(&'static str, Vec<u8>)> {
    let mut refused = silent(63).text();
    refused[0] = b'x';
    vec![
        ("n 4, case 1: round 1", worked::case(1).text()),
        ("n 64, no crash: round 1", silent(0).text()),
        ("n 64, 63 crashes: round 1", without_commits().text()),
        ("n 64, nothing sent: round 63", silent(63).text()),
        ("refused at line 1", refused),
    ]
}

/// Calls per second, of each implementation.
fn row(name: &str, [proved, second]: [f64; 2]) {
    println!("{name:<32}{proved:>14.0}{second:>14.0}{:>8.2}", proved / second);
}

fn time_tickets(time: Duration) {
    println!("{:<32}{:>14}{:>14}{:>8}", "tickets per second", "proved", "second", "ratio");
    for (name, text) in tickets() {
        let mut output = [0; LONGEST_RESULT];
        let run = |module: &mut dyn Agreement| {
            black_box(module.run(black_box(&text), black_box(&mut output)));
        };
        row(name, rates(time, run));
    }
    println!("settled, per second");
    for (name, text) in settled_tickets() {
        let settle = |module: &mut dyn Agreement| {
            black_box(module.settle(black_box(&text)));
        };
        row(name, rates(time, settle));
    }
}

/// One reason, of the last process in the last round, and all of them, for the tickets
/// that are run; and beside a table what as many single calls as it has reasons take.
fn time_reasons(time: Duration) {
    println!("one reason, per second");
    for (name, text) in tickets() {
        let (process, round) = last_place(&text);
        let reason = |module: &mut dyn Agreement| {
            black_box(module.reason(black_box(&text), process, round));
        };
        row(name, rates(time, reason));
    }
    println!("all reasons of a run, per second");
    for (name, text) in tickets() {
        let mut output = [0; MOST_REASONS];
        let reasons = |module: &mut dyn Agreement| {
            black_box(module.reasons(black_box(&text), black_box(&mut output)));
        };
        row(name, rates(time, reasons));
    }
    println!();
    println!("{:<32}{:>14}{:>14}{:>8}", "microseconds", "table", "single calls", "ratio");
    for (name, text) in tickets() {
        if Ticket::parse(&text).is_ok() {
            table_beside_single_calls(time, name, &text);
        }
    }
}

/// As many tender lines as a quote may have.
fn tender_lines() -> [u64; MOST_LINES] {
    std::array::from_fn(|line| 12_345 + 1000 * line as u64)
}

/// Quotes of one line and of as many as there may be, for the last process, which decides
/// in all of these tickets.
fn time_quotes(time: Duration) {
    let costs = tender_lines();
    let tickets = [
        ("n 4, case 1", worked::case(1).text()),
        ("n 64, no crash", silent(0).text()),
        ("n 64, 63 crashes", without_commits().text()),
    ];
    for (lines, costs) in [("one line", &costs[..1]), ("200 lines", &costs)] {
        println!("quotes of {lines}, per second");
        for (name, text) in &tickets {
            let (process, _) = last_place(text);
            let quote = |module: &mut dyn Agreement| {
                let mut pence = 0;
                black_box(module.quote(black_box(text), black_box(costs), process, &mut pence));
                black_box(pence);
            };
            row(name, rates(time, quote));
        }
    }
}

/// The last process and the last round of a ticket's run; 1 and 1 if it is refused.
fn last_place(text: &[u8]) -> (u64, u64) {
    Ticket::parse(text).map_or((1, 1), |ticket| {
        let rounds = Simulation::new(&ticket).run(|_, _| {}).rounds;
        (ticket.n.into(), rounds.into())
    })
}

/// What the proved library takes for a ticket's table, and for its reasons one by one.
fn table_beside_single_calls(time: Duration, name: &str, text: &[u8]) {
    let (n, rounds) = last_place(text);
    let mut output = [0; MOST_REASONS];
    let table = per_second(time, || {
        black_box(Proved.reasons(black_box(text), black_box(&mut output)));
    });
    let mut place = 0;
    let single = per_second(time, || {
        place = (place + 1) % (n * rounds);
        black_box(Proved.reason(black_box(text), place % n + 1, place / n + 1));
    });
    let [table, single] = [1e6 / table, 1e6 / single * (n * rounds) as f64];
    println!("{name:<32}{table:>14.2}{single:>14.2}{:>8.2}", single / table);
}

fn time_local_calls(time: Duration) {
    println!();
    println!("{:<32}{:>14}{:>14}{:>8}", "nanoseconds per call", "proved", "second", "ratio");
    let coordinator = [3, 64, 63, 3, 0, 0, 0, 0, 7];
    let listener = [9, 64, 63, 3, 0, 0, 0, 0, 7];
    let heard = [0x21, 3, 0, 0, 0, 9, 0x22, 3];
    type Call<'a> = (&'a str, &'a dyn Fn(&mut dyn Agreement) -> u64);
    let calls: [Call; 4] = [
        ("start", &|module| {
            let mut state = [0; 9];
            let answer = module.start(black_box(3), 64, 63, 7, &mut state);
            answer + u64::from(black_box(state)[0])
        }),
        ("speak, own round", &|module| {
            let mut output = [0; 8];
            let answer = module.speak(black_box(&coordinator), &mut output);
            answer + u64::from(black_box(output)[0])
        }),
        ("speak, another's round", &|module| module.speak(black_box(&listener), &mut [0; 8])),
        ("close on data and commit", &|module| {
            let mut state = black_box(listener);
            let answer = module.close(&mut state, black_box(&heard));
            answer + u64::from(black_box(state)[0])
        }),
    ];
    for (name, call) in calls {
        time_local_call(time, name, call);
    }
    let (decided, costs) = ([9, 64, 63, 3, 1, 0x05, 0xDC, 0x03, 0xE8], tender_lines());
    for (name, costs) in [("price, one line", &costs[..1]), ("price, 200 lines", &costs)] {
        time_local_call(time, name, |module| {
            let mut pence = 0;
            module.price(black_box(&decided), black_box(costs), &mut pence) + black_box(pence)
        });
    }
}

fn time_local_call(time: Duration, name: &str, call: impl Fn(&mut dyn Agreement) -> u64) {
    let [proved, second] = rates(time, |module| {
        black_box(call(module));
    })
    .map(|calls| 1e9 / calls);
    println!("{name:<32}{proved:>14.1}{second:>14.1}{:>8.2}", proved / second);
}

fn seconds() -> Option<f64> {
    let arguments: Vec<String> = env::args().skip(1).collect();
    match arguments.iter().map(String::as_str).collect::<Vec<_>>()[..] {
        [] => Some(2.0),
        ["--seconds", number] => number.parse().ok().filter(|&seconds| seconds > 0.0),
        _ => None,
    }
}

fn main() -> ExitCode {
    let Some(seconds) = seconds() else {
        eprintln!("usage: bench [--seconds NUMBER]");
        return ExitCode::from(2);
    };
    if cfg!(debug_assertions) {
        println!("warning: the second implementation is not built for release");
    }
    let time = Duration::from_secs_f64(seconds);
    time_tickets(time);
    time_reasons(time);
    time_quotes(time);
    time_local_calls(time);
    println!();
    println!("The best of {TURNS} turns that both take alternately, {seconds} s in all for each.");
    println!("Compared with the second implementation, which goes message by message: a guard against a step backwards, no measure of what could be had.");
    println!("Tickets: one output buffer of {LONGEST_RESULT} bytes, {MOST_REASONS} for reasons, not cleared between the calls.");
    println!("A table beside single calls: of the proved library, as many calls as the table has reasons.");
    println!("Local calls: each with a state and an output written afresh, which is timed too.");
    ExitCode::SUCCESS
}
