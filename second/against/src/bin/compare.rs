//! Compares the proved library with the second implementation.
//!
//! `compare [--short] [--seed NUMBER] [--count NUMBER]`: the stored tickets,
//! everything small, every byte at every place of a ticket, every count of a process,
//! every settling round, every reason and every quote of some runs, every order of the parts
//! of some runs, every mix of two small runs, and then `count` random tickets, some mixed with another, with calls of start,
//! speak, close and price. The last line says what was compared; a difference is shown by
//! the smallest ticket, or the two smallest, that could be found, and the exit status is 1.

use std::env;
use std::process::ExitCode;
use std::time::Instant;

use against::comparison::{rooms_at_limits, Comparison, Difference};
use against::proved::Proved;
use against::shrink::shrink;
use against::{exhaustive, random};
use second::rng::Rng;
use second::Ticket;

/// Random tickets of the short and of the long comparison.
const SHORT: u64 = 100_000;
const LONG: u64 = 1_000_000;

struct Options {
    seed: u64,
    count: u64,
}

fn options() -> Option<Options> {
    let mut options = Options { seed: 1, count: LONG };
    let mut arguments = env::args().skip(1);
    while let Some(name) = arguments.next() {
        match name.as_str() {
            "--short" => options.count = SHORT,
            "--seed" => options.seed = arguments.next()?.parse().ok()?,
            "--count" => options.count = arguments.next()?.parse().ok()?,
            _ => return None,
        }
    }
    Some(options)
}

/// A part of the comparison, with its name.
type Part<'a> = (&'a str, &'a dyn Fn(&mut Comparison<Proved>) -> Result<(), Difference>);

fn compare(
    comparison: &mut Comparison<Proved>,
    Options { seed, count }: Options,
) -> Result<(), Difference> {
    let random_part = |comparison: &mut Comparison<Proved>| {
        let mut rng = Rng::new(seed);
        (0..count).try_for_each(|_| random::ticket_and_calls(comparison, &mut rng))
    };
    let parts: [Part; 13] = [
        ("every stored ticket", &exhaustive::stored),
        ("every ticket of up to 4 processes", &exhaustive::tickets),
        ("every byte at every place of a ticket", &exhaustive::bytes),
        ("every output length for each n", &exhaustive::rooms),
        ("every count of every process for each n", &exhaustive::counts),
        ("every settling round for each n", &exhaustive::settling_rounds),
        ("every reason of some runs for each n", &exhaustive::reasons),
        ("every quote of some runs for each n, and every percentage", &exhaustive::quotes),
        ("every order of the parts of cases 1 to 8", &exhaustive::orders),
        ("every mix of two runs of up to 2 processes", &exhaustive::mixes),
        ("every start near the limits", &exhaustive::starts),
        ("speak, close and price near the limits", &exhaustive::states),
        ("random tickets and calls", &random_part),
    ];
    for (name, part) in parts {
        let begun = Instant::now();
        part(comparison)?;
        println!("{name}: equal ({:.1} s)", begun.elapsed().as_secs_f64());
    }
    Ok(())
}

/// The difference on a text, if there is one with any of the usual rooms.
fn difference_on(text: &[u8]) -> Option<String> {
    let n = Ticket::parse(text).map_or(1, |ticket| ticket.n);
    let rooms = [vec![0, 2000], rooms_at_limits(n)].concat();
    let mut comparison = Comparison::new(Proved);
    let compared = comparison
        .ticket(text, &rooms)
        .and_then(|()| rooms.iter().try_for_each(|&room| comparison.in_other_letters(text, room)));
    compared.err().map(in_words)
}

/// The difference on two texts that are mixed, if there is one.
fn difference_on_mix(first: &[u8], second: &[u8]) -> Option<String> {
    Comparison::new(Proved).mixed(first, second).err().map(in_words)
}

fn in_words(difference: Difference) -> String {
    match difference {
        Difference::Ticket { what, .. }
        | Difference::Pair { what, .. }
        | Difference::Call { what } => what,
    }
}

/// A text line by line, with long runs of one byte cut short.
fn shown(text: &[u8]) -> String {
    let mut shown = String::new();
    for run in text.chunk_by(|a, b| a == b) {
        let byte = run[0].escape_ascii().to_string();
        if run.len() > 40 {
            shown += &format!("({byte}, {} times)", run.len());
        } else if run[0] == b'\n' {
            shown += &"\n".repeat(run.len());
        } else {
            shown += &byte.repeat(run.len());
        }
    }
    shown
}

fn report(difference: Difference) {
    match difference {
        Difference::Call { what } => println!("DIFFERENCE: {what}"),
        Difference::Ticket { text, what } => {
            println!("DIFFERENCE on a ticket of {} bytes: {what}", text.len());
            let smallest = shrink(&text, |text| difference_on(text).is_some());
            let what = difference_on(&smallest).unwrap_or(what);
            println!("The smallest that shows one: {what}");
            println!("{}", shown(&smallest));
        }
        Difference::Pair { texts: [first, second], what } => {
            println!(
                "DIFFERENCE on two tickets of {} and {} bytes: {what}",
                first.len(),
                second.len()
            );
            let first = shrink(&first, |text| difference_on_mix(text, &second).is_some());
            let second = shrink(&second, |text| difference_on_mix(&first, text).is_some());
            let what = difference_on_mix(&first, &second).unwrap_or(what);
            println!("The smallest that show one: {what}");
            println!("{}and\n{}", shown(&first), shown(&second));
        }
    }
}

fn main() -> ExitCode {
    let Some(options) = options() else {
        eprintln!("usage: compare [--short] [--seed NUMBER] [--count NUMBER]");
        return ExitCode::from(2);
    };
    let Options { seed, count } = options;
    let mut comparison = Comparison::new(Proved);
    let result = compare(&mut comparison, options);
    let counts = comparison.counts;
    match result {
        Ok(()) => {
            println!(
                "no difference: the stored tickets, every ticket with n <= 4 and {count} random \
                 ones of seed {seed}, up to n = 64, well formed and damaged; in all {counts}"
            );
            ExitCode::SUCCESS
        }
        Err(difference) => {
            report(difference);
            println!("a difference, random seed {seed}, in the last of {counts}");
            ExitCode::FAILURE
        }
    }
}
