//! What the program replay must print (crates/replay), and its schedules as sessions.

use crate::coverage::Coverage;
use crate::machine::{open, Card, Flag, Machine};
use crate::session::{answer, Command, Commands, Numbered};

/// A schedule: its heading, and the card text and the commands of its session.
pub struct Schedule<'a> {
    pub title: &'a str,
    pub card: &'a str,
    pub calls: &'a str,
}

/// The schedules of an input of replay: `#` and a title begin a card text, `##` and a title the commands of a schedule on it.
pub fn schedules(input: &str) -> Vec<Schedule<'_>> {
    let mut card = "";
    let mut found = Vec::new();
    let first = |&at: &usize| !input[..at].ends_with('#');
    let starts: Vec<usize> = input.match_indices('#').map(|(at, _)| at).filter(first).collect();
    for (k, &start) in starts.iter().enumerate() {
        let end = starts.get(k + 1).copied().unwrap_or(input.len());
        let (title, text) = input[start..end].split_once('\n').expect("a heading is a line");
        match title.starts_with("##") {
            true => found.push(Schedule { title, card, calls: text }),
            false => card = text,
        }
    }
    found
}

/// Everything that replay prints for an input.
pub fn expected(input: &str) -> String {
    schedules(input).iter().map(|schedule| format!("{}\n{}", schedule.title, played(schedule))).collect()
}

/// The lines of a schedule: of each command whether the machine is as before and the bench program's line; the shared cells after a `look`.
fn played(schedule: &Schedule) -> String {
    let mut printed = String::new();
    let card = open(schedule.card.as_bytes()).unwrap_or_else(|refusal| {
        printed = format!("card,refused,{},{}\n", refusal.number, refusal.line);
        Card { processes: 0, limit: 0, starting: vec![], programs: vec![] }
    });
    let mut machine = Machine::new(card);
    for Numbered { line, command } in Commands::new(schedule.calls.as_bytes()) {
        let before = format!("{machine:?}");
        let told = match command {
            Ok(command) => answer(&mut machine, command, &mut Coverage::default()),
            Err(_) => format!("line,{line},refused,2"),
        };
        let change = if format!("{machine:?}") == before { "same" } else { "changed" };
        printed += &format!("{change},{told}\n");
        if let Ok(Command::Read { variable }) = command {
            printed += &cells(&machine, variable as usize);
        }
    }
    printed
}

/// 'Shared cells': the gate, the announcements, and the record of one of 64 variables (as at opening with 0 where the card has none).
fn cells(machine: &Machine, variable: usize) -> String {
    let gate = machine.cells.gate;
    let holder = gate.holder.map_or("none".into(), |process| process.to_string());
    let mut printed = format!("gate,{holder},{}\n", gate.seq);
    for (process, a) in machine.cells.announcements.iter().enumerate() {
        let flag = match a.flag {
            Flag::Done => "done",
            Flag::Active => "active",
            Flag::Exit => "exit",
        };
        let ([w0, w1, w2, w3], fault) = (a.words, a.fault as u8);
        let (program, seq, number) = (a.program, a.seq, a.number);
        printed += &format!("announcement,{process},{program},{seq},{flag},{number},{w0},{w1},{w2},{w3},{fault}\n");
    }
    if let Some(r) = machine.cells.records.get(variable) {
        printed += &format!("record,{variable},{},{},{},{}\n", r.val[0], r.val[1], r.toggle, r.seq);
    } else if variable < 64 {
        printed += &format!("record,{variable},0,0,0,0\n");
    }
    printed
}
