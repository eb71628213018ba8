//! The program `waves` as straightforward Rust: plays a session on the simulator's machine and writes what changes as it goes.
//! It reads card.txt and calls.txt in the current folder.
#[allow(dead_code)]
#[path = "../../simulator/coverage.rs"]
mod coverage;
#[allow(dead_code)]
#[path = "../../simulator/machine.rs"]
mod machine;
#[allow(dead_code)]
#[path = "../../simulator/session.rs"]
mod session;

use std::fs;
use std::io::{self, BufWriter, Write};
use std::process::ExitCode;

use machine::{open, Machine};
use session::{Command, Commands, CALLS_LIMIT};

fn code(variable: usize) -> char {
    char::from(33 + variable as u8)
}

fn write_dump(mut machine: Machine, calls: &[u8], out: &mut impl Write) -> io::Result<()> {
    let variables = machine.card.starting.len();
    out.write_all(b"$timescale 1 us $end\n$scope module card $end\n")?;
    for variable in 0..variables {
        writeln!(out, "$var wire 32 {} v{variable} $end", code(variable))?;
    }
    out.write_all(b"$upscope $end\n$enddefinitions $end\n#0\n")?;
    let mut row = machine.card.starting.clone();
    for (variable, value) in row.iter().enumerate() {
        writeln!(out, "b{value:b} {}", code(variable))?;
    }
    let (mut looked, mut told) = (0, 0);
    for command in Commands::new(calls).filter_map(|numbered| numbered.command.ok()) {
        match command {
            Command::Step { process } | Command::Trace { process } => drop(machine.step(process)),
            Command::Call { process, program, inputs } => drop(machine.call(process, program, inputs)),
            Command::RequestExit { process } => drop(machine.request_exit(process)),
            Command::Change { program, from, text, .. } => drop(machine.change(program, from.into(), text)),
            Command::Read { .. } => (),
        }
        if machine.steps == looked {
            continue;
        }
        looked = machine.steps;
        for (variable, old) in row.iter_mut().enumerate() {
            let value = machine.read(variable as u32).expect("it is there");
            if value == *old {
                continue;
            }
            *old = value;
            if told != machine.steps {
                told = machine.steps;
                writeln!(out, "#{told}")?;
            }
            writeln!(out, "b{value:b} {}", code(variable))?;
        }
    }
    if told != machine.steps {
        writeln!(out, "#{}", machine.steps)?;
    }
    Ok(())
}

fn print() -> io::Result<()> {
    let file = |name| fs::read(name).unwrap_or_default();
    let mut out = BufWriter::new(io::stdout().lock());
    match open(&file("card.txt")) {
        Err(refusal) => writeln!(out, "card,refused,{},{}", refusal.number, refusal.line)?,
        Ok(card) => {
            let calls = file("calls.txt");
            if calls.len() > CALLS_LIMIT {
                writeln!(out, "calls,refused,1")?;
            } else {
                write_dump(Machine::new(card), &calls, &mut out)?;
            }
        }
    }
    out.flush()
}

fn main() -> ExitCode {
    if std::env::args_os().len() > 1 {
        eprintln!("usage: waves");
    } else if let Err(error) = print() {
        eprintln!(
            "waves: the dump could not be written: {}",
            error.to_string().split(" (os error").next().unwrap_or("")
        );
    }
    ExitCode::SUCCESS
}
