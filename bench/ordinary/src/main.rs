//! An ordinary program for a part of what gm does, to measure gm beside it: README.md says which part.

mod campaign;
mod sqlite;
mod world;

use campaign::Campaign;
use sqlite::{Connection, Result};
use std::collections::HashMap;
use std::io::{Write, stdout};
use std::process::ExitCode;
use std::{env, fmt};

/// Why a command is refused, by its number (docs/MODERATOR.md, "Refusals").
#[derive(Clone, Copy, Debug)]
enum Refusal {
    NoFaction = 5,
    WrongPass = 6,
}

impl fmt::Display for Refusal {
    fn fmt(&self, out: &mut fmt::Formatter) -> fmt::Result {
        write!(out, "refused: {} {self:?}", *self as u8)
    }
}

impl std::error::Error for Refusal {}

fn main() -> ExitCode {
    match run(env::args().skip(1).collect()) {
        Ok(()) => ExitCode::SUCCESS,
        Err(error) => {
            eprintln!("{error}");
            ExitCode::FAILURE
        }
    }
}

fn run(words: Vec<String>) -> Result<()> {
    match words.split_first() {
        Some((command, options)) if command == "report" => report(&read_options(options)?),
        _ => Err("usage: ordinary report --db FILE --faction N --pass TEXT".into()),
    }
}

/// The values of options by their names: `--db FILE` is `FILE` under `db`.
fn read_options(words: &[String]) -> Result<HashMap<&str, &str>> {
    let mut options = HashMap::new();
    for pair in words.chunks(2) {
        match pair {
            [name, value] if name.starts_with("--") => options.insert(&name[2..], value.as_str()),
            _ => return Err(format!("{} is no option with a value", pair[0]).into()),
        };
    }
    Ok(options)
}

fn option<'a>(options: &HashMap<&str, &'a str>, name: &str) -> Result<&'a str> {
    options
        .get(name)
        .copied()
        .ok_or_else(|| format!("--{name} is missing").into())
}

/// Prints the report that is stored for a faction.
fn report(options: &HashMap<&str, &str>) -> Result<()> {
    let number: u32 = option(options, "faction")?.parse()?;
    let pass = option(options, "pass")?;
    let file = Connection::open(option(options, "db")?)?;
    let campaign = Campaign::read(&file)?;
    let faction = campaign.factions.get(&number).ok_or(Refusal::NoFaction)?;
    if faction.pass != pass {
        return Err(Refusal::WrongPass.into());
    }
    stdout().write_all(faction.report.as_bytes())?;
    Ok(())
}
