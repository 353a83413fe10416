//! Writes a corpus of tickets and what the program `replay` writes for each.
//!
//! `make-tickets [--seed NUMBER] [--count NUMBER] [--folder FOLDER]` writes
//!
//! - `stdin`: a line for each ticket, in digits 0-9, A-F: the output buffer's
//!   length (2 bytes, most significant byte first), then the ticket's bytes;
//! - `stdout`: a block for each ticket, the result lines or the refusal line,
//!   and then an empty line.

use std::fmt::Write;
use std::path::PathBuf;
use std::process::ExitCode;
use std::{env, fs, io};

use second::corpus::{corpus, Entry, STORED};
use second::Simulator;

struct Options {
    seed: u64,
    count: usize,
    folder: PathBuf,
}

fn options() -> Option<Options> {
    let mut options = Options { seed: 1, count: STORED, folder: PathBuf::from(".") };
    let mut arguments = env::args().skip(1);
    while let Some(name) = arguments.next() {
        let value = arguments.next()?;
        match name.as_str() {
            "--seed" => options.seed = value.parse().ok()?,
            "--count" => options.count = value.parse().ok()?,
            "--folder" => options.folder = PathBuf::from(value),
            _ => return None,
        }
    }
    Some(options)
}

fn write_corpus(options: &Options) -> io::Result<usize> {
    let entries = corpus(options.seed, options.count);
    let mut simulator = Simulator::new();
    let (mut tickets, mut expected) = (String::new(), String::new());
    for Entry { text, room } in &entries {
        write!(tickets, "{room:04X}").expect("a string takes everything");
        for byte in text {
            write!(tickets, "{byte:02X}").expect("a string takes everything");
        }
        tickets.push('\n');
        expected += &simulator.print(text, *room);
        expected.push('\n');
    }
    fs::write(options.folder.join("stdin"), tickets)?;
    fs::write(options.folder.join("stdout"), expected)?;
    Ok(entries.len())
}

fn main() -> ExitCode {
    let Some(options) = options() else {
        eprintln!("usage: make-tickets [--seed NUMBER] [--count NUMBER] [--folder FOLDER]");
        return ExitCode::from(2);
    };
    match write_corpus(&options) {
        Ok(count) => {
            println!("{count} tickets of seed {}", options.seed);
            ExitCode::SUCCESS
        }
        Err(error) => {
            eprintln!("{}: {error}", options.folder.display());
            ExitCode::FAILURE
        }
    }
}
