//! `assise_plain SCRIPT [--turns N] [--threads]` serves a script as `assise` does, with nothing
//! proved: what `bench/compare` holds the proved program against.

mod area;
mod cluster;
mod coalesce;
mod engine;
mod frame;
mod leases;
mod pending;
mod plan;
mod script;
mod tree;
mod types;

use std::io::{BufWriter, Write};
use std::process::ExitCode;

const USAGE: &str = "usage: assise_plain SCRIPT [--turns N] [--threads]";

struct Options {
    script: String,
    turns: u64,
    /// The calls are made one after another all the same.
    threads: bool,
}

fn options(mut words: impl Iterator<Item = String>) -> Option<Options> {
    let (mut script, mut turns, mut threads) = (None, None, false);
    while let Some(word) = words.next() {
        let value = match word.strip_prefix("--turns") {
            Some("") => Some(words.next()?),
            Some(rest) => Some(rest.strip_prefix('=')?.to_string()),
            None => None,
        };
        if let Some(value) = value {
            let number = value
                .parse()
                .ok()
                .filter(|number| (1..=1_000_000).contains(number) && !value.starts_with('+'))?;
            if turns.replace(number).is_some() {
                return None;
            }
        } else if word == "--threads" && !threads {
            threads = true;
        } else if word.starts_with('-') && word != "-" || script.replace(word).is_some() {
            return None;
        }
    }
    Some(Options {
        script: script?,
        turns: turns.unwrap_or(100_000),
        threads,
    })
}

/// The first line of a command that the program doesn't take with `--threads`.
fn serial_line(commands: &[(usize, script::Command)]) -> Option<(u8, String)> {
    commands.iter().find_map(|(line, command)| {
        let word = match command {
            script::Command::Manual => "manual",
            script::Command::Link { .. } => "link",
            _ => return None,
        };
        Some((
            2,
            format!("script line {line}: {word} needs the serial mode"),
        ))
    })
}

/// An error is a status and what is told of it.
fn run_script(options: &Options) -> Result<(), (u8, String)> {
    let cannot_read = |_| (3, format!("cannot read {}", options.script));
    let bytes = std::fs::read(&options.script).map_err(cannot_read)?;
    let commands = script::parse(&bytes)
        .map_err(|(line, fault)| (2, format!("script line {line}: {}", fault.text())))?;
    if let Some(refused) = serial_line(&commands).filter(|_| options.threads) {
        return Err(refused);
    }
    let mut out = BufWriter::with_capacity(1 << 16, std::io::stdout().lock());
    engine::run(commands, options.turns, &mut out)
        .and_then(|()| out.flush())
        .map_err(|_| (1, "cannot write".to_string()))
}

fn main() -> ExitCode {
    let Some(options) = options(std::env::args().skip(1)) else {
        eprintln!("{USAGE}");
        return ExitCode::from(2);
    };
    match run_script(&options) {
        Ok(()) => ExitCode::SUCCESS,
        Err((status, text)) => {
            eprintln!("assise: {text}");
            ExitCode::from(status)
        }
    }
}
