//! An independent simulator of the card (document 01). It says what the programs `bench`, `schedules` (document 02, order 13), `sweep` (order 12),
//! `waves` and `readings` (order 7) must print, compares programs with that on generated cases, and looks for long waits (order 3).
//! A program that runs a session on a card in lent words (order 10) is compared as a bench program is.
//! Sessions of several machines (order 14) are compared with the program `machines`.
//! Standard library only.

mod calls;
mod compare;
mod coverage;
mod dumps;
mod generate;
mod lent;
mod machine;
mod machines;
mod reached;
mod replay;
mod schedules;
mod selftest;
mod session;
mod sweeps;
mod waits;
mod waves;
mod wavetest;

use std::fs;
use std::io::Write;
use std::path::Path;
use std::process::ExitCode;

const USAGE: &str = "usage: simulator simulate DIR
       simulator compare PROGRAM FIRST_SEED COUNT
       simulator lent PROGRAM FIRST_SEED COUNT SCHEDULES FOLDER
       simulator coverage FIRST_SEED COUNT
       simulator write SEED DIR
       simulator schedules DIR LENGTH
       simulator compare-schedules PROGRAM FIRST_SEED COUNT
       simulator write-schedules SEED DIR
       simulator sweep DIR [ARGUMENT..]
       simulator compare-sweeps PROGRAM FIRST_SEED COUNT
       simulator write-sweep SEED DIR
       simulator replay INPUT
       simulator waits
       simulator waves DIR
       simulator readings DUMP [STEP]
       simulator compare-waves WAVES READINGS FIRST_SEED COUNT
       simulator damaged-dumps READINGS FIRST_SEED COUNT
       simulator machines DIR [ARGUMENT..]
       simulator compare-machines PROGRAM FIRST_SEED COUNT [BENCH]
       simulator write-machines SEED DIR
       simulator selftest";

fn main() -> ExitCode {
    let arguments: Vec<String> = std::env::args().skip(1).collect();
    let arguments: Vec<&str> = arguments.iter().map(String::as_str).collect();
    match perform(&arguments) {
        Ok(true) => ExitCode::SUCCESS,
        Ok(false) => ExitCode::from(1),
        Err(message) => {
            eprintln!("{message}");
            ExitCode::from(2)
        }
    }
}

fn perform(arguments: &[&str]) -> Result<bool, String> {
    match arguments {
        ["simulate", folder] => simulate(Path::new(folder)),
        ["compare", program, first, count] => compare::compare(program, seed(first)?, seed(count)?),
        ["lent", program, first, count, schedules, folder] => {
            lent::compare(program, seed(first)?, seed(count)?, Path::new(schedules), Path::new(folder))
        }
        ["coverage", first, count] => Ok(compare::cover(seed(first)?, seed(count)?)),
        ["write", number, folder] => compare::write_case(seed(number)?, folder).map(|()| true),
        ["schedules", folder, length] => list(Path::new(folder), seed(length)?),
        ["compare-schedules", program, first, count] => schedules::compare(program, seed(first)?, seed(count)?),
        ["write-schedules", number, folder] => schedules::write_case(seed(number)?, folder).map(|()| true),
        ["sweep", folder, words @ ..] => sweep(Path::new(folder), words),
        ["compare-sweeps", program, first, count] => sweeps::compare(program, seed(first)?, seed(count)?),
        ["write-sweep", number, folder] => sweeps::write_case(seed(number)?, folder).map(|()| true),
        ["replay", input] => print(replay::expected(&String::from_utf8_lossy(&file(Path::new(input)))).as_bytes()),
        ["waits"] => Ok(waits::report()),
        ["waves", folder] => waves(Path::new(folder)),
        ["readings", dump] => readings(dump, None),
        ["readings", dump, step] => readings(dump, Some(waves::step_of(step).ok_or(USAGE)?)),
        ["compare-waves", waves, readings, first, count] => dumps::compare(waves, readings, seed(first)?, seed(count)?),
        ["damaged-dumps", readings, first, count] => dumps::damaged(readings, seed(first)?, seed(count)?),
        ["machines", folder] => print(&machines::expected(&machines::Files::of(Path::new(folder)))),
        ["machines", _, _, ..] => print(machines::USAGE.as_bytes()),
        ["compare-machines", program, first, count, bench @ ..] if bench.len() < 2 => {
            machines::compare::compare(program, seed(first)?, seed(count)?, bench.first().copied())
        }
        ["write-machines", number, folder] => machines::compare::write_case(seed(number)?, folder).map(|()| true),
        ["selftest"] => Ok(selftest::selftest()),
        _ => Err(USAGE.to_string()),
    }
}

fn seed(text: &str) -> Result<u64, String> {
    text.parse().map_err(|_| format!("not a number: {text}\n{USAGE}"))
}

/// Prints what the bench program must print.
fn simulate(folder: &Path) -> Result<bool, String> {
    let (card, calls) = files(folder);
    print(&session::expected(&card, &calls))
}

/// Prints what the program `schedules` must print.
fn list(folder: &Path, length: u64) -> Result<bool, String> {
    let length = u32::try_from(length).map_err(|_| format!("not below 4294967296: {length}"))?;
    let (card, calls) = files(folder);
    print(&schedules::expected(&card, &calls, length))
}

/// Prints the dump that the program `waves` must print.
fn waves(folder: &Path) -> Result<bool, String> {
    let (card, calls) = files(folder);
    print(&waves::printed(&card, &calls))
}

/// Prints what the program `readings` must print.
fn readings(dump: &str, step: Option<u64>) -> Result<bool, String> {
    print(waves::readings(&file(Path::new(dump)), step).as_bytes())
}

/// The card and the calls of a folder.
fn files(folder: &Path) -> (Vec<u8>, Vec<u8>) {
    (file(&folder.join("card.txt")), file(&folder.join("calls.txt")))
}

/// Prints what the program `sweep` must print, on either stream.
fn sweep(folder: &Path, words: &[&str]) -> Result<bool, String> {
    let words: Vec<String> = words.iter().map(|word| word.to_string()).collect();
    let (card, calls) = files(folder);
    print(&sweeps::expected(&card, &calls, &words))
}

/// A file that cannot be opened counts as empty.
fn file(path: &Path) -> Vec<u8> {
    fs::read(path).unwrap_or_default()
}

fn print(bytes: &[u8]) -> Result<bool, String> {
    std::io::stdout().write_all(bytes).map_err(|error| error.to_string())?;
    Ok(true)
}
