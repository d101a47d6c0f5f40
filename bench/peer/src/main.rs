//! The work of `filing` as plain Rust without proofs, to measure by: the same lines, replies and histories.
//!
//! Versions are persistent B-trees behind `Arc`, each entry has the number of the last commit that touched it, and one `Mutex`
//! guards the core. It is what a programmer writes who knows the trade: no text is read twice, and no reply is kept. It has no
//! journal and explains nothing.
//!
//!     peer run [--numeric TABLE] [--history FILE] < SCRIPT
//!     peer threads [--numeric TABLE] SCRIPT..
//!     peer check [--numeric TABLE] HISTORY
//!
//! The status is 0, or 1 for a fault of a file, 2 for wrong words, 4 for a history that departs.
mod checking;
mod facts;
mod lines;
mod map;
mod reading;
mod repository;
mod running;
mod sessions;
mod steps;
mod threads;
mod versions;
mod writing;

use facts::Table;
use reading::read_table;
use std::fs::File;
use std::io::{stdin, stdout, BufReader, BufWriter, Error, ErrorKind, Result, Write};
use std::process::ExitCode;
use std::sync::Arc;

const BUFFER: usize = 1 << 16;

/// What stands behind the command.
#[derive(Default)]
struct Words {
    numeric: Option<String>,
    history: Option<String>,
    files: Vec<String>,
}

impl Words {
    fn read(words: impl Iterator<Item = String>) -> Option<Words> {
        let (mut words, mut found) = (words, Words::default());
        while let Some(word) = words.next() {
            match &*word {
                "--numeric" => found.numeric = Some(words.next()?),
                "--history" => found.history = Some(words.next()?),
                _ => found.files.push(word),
            }
        }
        Some(found)
    }

    fn table(&self) -> Result<Arc<Table>> {
        let table = match &self.numeric {
            None => Table::new(),
            Some(path) => read_table(&std::fs::read_to_string(path)?)
                .map_err(|line| Error::new(ErrorKind::InvalidData, format!("numeric table, line {line}")))?,
        };
        Ok(Arc::new(table))
    }
}

fn run(words: &Words) -> Result<ExitCode> {
    let history = words.history.as_ref().map(File::create).transpose()?;
    let input = BufReader::with_capacity(BUFFER, stdin().lock());
    let output = BufWriter::with_capacity(BUFFER, stdout().lock());
    running::run(&words.table()?, input, output, history)?;
    Ok(ExitCode::SUCCESS)
}

fn run_threads(words: &Words) -> Result<ExitCode> {
    let scripts: Vec<Vec<u8>> = words.files.iter().map(std::fs::read).collect::<Result<_>>()?;
    let mut output = stdout().lock();
    for replies in threads::run(&words.table()?, &scripts) {
        output.write_all(&replies)?;
    }
    Ok(ExitCode::SUCCESS)
}

fn check(words: &Words) -> Result<ExitCode> {
    let input = BufReader::with_capacity(BUFFER, File::open(&words.files[0])?);
    match checking::departs(&words.table()?, input)? {
        None => println!("[\"lawful\"]"),
        Some(index) => {
            println!("[\"departs\",{index}]");
            return Ok(ExitCode::from(4));
        }
    }
    Ok(ExitCode::SUCCESS)
}

fn main() -> ExitCode {
    let mut given = std::env::args().skip(1);
    let command = given.next().unwrap_or_default();
    let words = Words::read(given);
    let done = match (&*command, &words) {
        ("run", Some(words)) if words.files.is_empty() => run(words),
        ("threads", Some(words)) if !words.files.is_empty() => run_threads(words),
        ("check", Some(words)) if words.files.len() == 1 => check(words),
        _ => {
            eprintln!("peer run|threads|check: see src/main.rs");
            return ExitCode::from(2);
        }
    };
    done.unwrap_or_else(|fault| {
        eprintln!("peer: {fault}");
        ExitCode::FAILURE
    })
}
