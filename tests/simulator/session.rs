//! What the bench program prints (document 01, 'The bench program').

use crate::coverage::Coverage;
use crate::machine::{fields, length_of_lines, line, open, Answer, Cell, Line, Machine, Stepped, WORD_END};

/// At most this many bytes of commands.
pub const CALLS_LIMIT: usize = 65_536;

/// A well-formed command; a change has the lines of its text, of which there may be fewer than it tells.
#[derive(Clone, Copy, Debug, PartialEq, Eq)]
pub enum Command<'a> {
    Call { process: u32, program: u32, inputs: [u32; 4] },
    RequestExit { process: u32 },
    Step { process: u32 },
    Trace { process: u32 },
    Read { variable: u32 },
    Change { program: u32, from: u32, lines: u32, text: &'a [u8] },
}

/// The commands of a file one after the other; a change takes the lines of its text with it.
pub struct Commands<'a> {
    rest: &'a [u8],
    lines: usize,
}

/// A command with the number of its line, counted among all lines of the file; none if it is misformed, then with its bytes.
pub struct Numbered<'a> {
    pub line: usize,
    pub command: Result<Command<'a>, &'a [u8]>,
}

impl<'a> Commands<'a> {
    pub fn new(calls: &'a [u8]) -> Commands<'a> {
        Commands { rest: calls, lines: 0 }
    }

    /// The next lines of the file, byte for byte; all that is left where fewer follow.
    fn take(&mut self, count: usize) -> &'a [u8] {
        let (taken, rest) = self.rest.split_at(length_of_lines(self.rest, count));
        self.rest = rest;
        self.lines += count;
        taken
    }
}

impl<'a> Iterator for Commands<'a> {
    type Item = Numbered<'a>;

    fn next(&mut self) -> Option<Numbered<'a>> {
        if self.rest.is_empty() {
            return None;
        }
        let bytes = self.take(1);
        let number = self.lines;
        let command = match words(&line(bytes), "change", 3) {
            Some(w) => Ok(Command::Change { program: w[0], from: w[1], lines: w[2], text: self.take(w[2] as usize) }),
            None => parse(&line(bytes)).ok_or(bytes),
        };
        Some(Numbered { line: number, command })
    }
}

/// Everything that the bench program prints for these two files.
pub fn expected(card: &[u8], calls: &[u8]) -> Vec<u8> {
    run(card, calls, &mut Coverage::default())
}

/// The same, and counts what was reached.
pub fn run(card: &[u8], calls: &[u8], coverage: &mut Coverage) -> Vec<u8> {
    let printed = match open(card) {
        Err(refusal) => {
            coverage.refused("card", refusal.number);
            format!("card,refused,{},{}\n", refusal.number, refusal.line)
        }
        Ok(_) if calls.len() > CALLS_LIMIT => {
            coverage.refused("calls", 1);
            "calls,refused,1\n".to_string()
        }
        Ok(card) => answer_all(Machine::new(card), calls, coverage),
    };
    coverage.cases += 1;
    coverage.lines += printed.lines().count() as u64;
    printed.into_bytes()
}

fn answer_all(mut machine: Machine, calls: &[u8], coverage: &mut Coverage) -> String {
    let mut printed = String::new();
    for Numbered { line, command } in Commands::new(calls) {
        match command {
            Ok(command) => printed += &answer(&mut machine, command, coverage),
            Err(bytes) => {
                coverage.refused("line", 2);
                coverage.event_if(bytes.starts_with(b"change"), "misformed");
                printed += &format!("line,{line},refused,2");
            }
        }
        printed.push('\n');
    }
    printed
}

/// The numbers, all below 4,294,967,296, of an ended line that consists of `verb` and exactly `count` number fields.
fn words(line: &Line, verb: &str, count: usize) -> Option<Vec<u32>> {
    let numbers = fields(line, verb, count)?;
    numbers.iter().all(|&number| number < WORD_END).then(|| numbers.iter().map(|&n| n as u32).collect())
}

/// A command of one line; none if it is misformed.
pub fn parse(line: &Line) -> Option<Command<'static>> {
    let words = |verb, count| words(line, verb, count);
    if let Some(w) = words("call", 6) {
        return Some(Command::Call { process: w[0], program: w[1], inputs: [w[2], w[3], w[4], w[5]] });
    }
    if let Some(w) = words("wish", 1) {
        return Some(Command::RequestExit { process: w[0] });
    }
    if let Some(w) = words("step", 1) {
        return Some(Command::Step { process: w[0] });
    }
    if let Some(w) = words("trace", 1) {
        return Some(Command::Trace { process: w[0] });
    }
    words("look", 1).map(|w| Command::Read { variable: w[0] })
}

/// The line printed for a command: the verb and first number, then the answer or the refusal.
pub fn answer(machine: &mut Machine, command: Command, coverage: &mut Coverage) -> String {
    let (verb, first, answer) = match command {
        Command::Call { process, program, inputs } => {
            ("call", process, machine.call(process, program, inputs).map(|()| coverage.answered("called", "taken")))
        }
        Command::RequestExit { process } => {
            ("wish", process, machine.request_exit(process).map(|()| coverage.answered("requested", "taken")))
        }
        Command::Step { process } => {
            ("step", process, machine.step(process).map(|stepped| step_fields(machine, &stepped, coverage)))
        }
        Command::Trace { process } => {
            ("trace", process, machine.step(process).map(|stepped| trace_fields(machine, &stepped, coverage)))
        }
        Command::Read { variable } => {
            let value = machine.read(variable);
            ("look", variable, value.map(|value| coverage.answered("value", value)))
        }
        Command::Change { program, .. } => ("change", program, Ok(change_fields(machine, command, coverage))),
    };
    match answer {
        Ok(answer) => format!("{verb},{first},{answer}"),
        Err(number) => {
            coverage.refused(verb, number);
            format!("{verb},{first},refused,{number}")
        }
    }
}

/// Order 11: `taken`, or `refused` with the number and the line within the change's text.
fn change_fields(machine: &mut Machine, command: Command, coverage: &mut Coverage) -> String {
    let Command::Change { program, from, lines, text } = command else { return String::new() };
    let told = text.split_inclusive(|&byte| byte == 10).count();
    coverage.event_if(lines == 0, "no lines");
    coverage.event_if(told < lines as usize, "fewer lines than told");
    coverage.event_if(text.last().is_some_and(|&byte| byte != 10), "unended");
    coverage.event_if(machine.steps >= machine.card.limit, "past the step limit");
    match machine.change(program, u64::from(from), text) {
        Ok(()) => coverage.answered("changed", "taken"),
        Err(refusal) => {
            coverage.refused("change", refusal.number);
            if refusal.number == 16 {
                let (ahead, late) = (machine.change_ahead(program as usize), machine.late_reader(program as usize));
                coverage.event_if(ahead && !late, "16 by a change ahead");
                coverage.event_if(late && !ahead, "16 by a late reader");
            }
            format!("refused,{},{}", refusal.number, refusal.line)
        }
    }
}

/// The answer's fields of an accepted step.
fn step_fields(machine: &Machine, stepped: &Stepped, coverage: &mut Coverage) -> String {
    coverage.stepped(stepped, machine.card.longest_wait());
    match stepped.answer {
        Answer::Run => coverage.answered("run", "run"),
        Answer::Done { number, outputs: [o0, o1, o2, o3], fault, own_steps } => {
            let word = if fault { "fault" } else { "done" };
            coverage.answered(word, format!("{word},{number},{o0},{o1},{o2},{o3},{own_steps}"))
        }
        Answer::Exited { own_steps } => coverage.answered("exited", format!("exited,{own_steps}")),
    }
}

/// Order 1: the label, the cell, the swap, the gate number, the set of noted variables and their number, then the answer's fields.
fn trace_fields(machine: &Machine, stepped: &Stepped, coverage: &mut Coverage) -> String {
    let Stepped { label, number, noted, count, .. } = *stepped;
    let cell = match stepped.cell {
        Cell::Gate => "G".to_string(),
        Cell::Announcement(process) => format!("A{process}"),
        Cell::Record(variable) => format!("R{variable}"),
    };
    let swap = match stepped.outcome {
        "won" => '1',
        "lost" => '0',
        _ => '-',
    };
    let answer = step_fields(machine, stepped, coverage);
    coverage.answered("traced", format!("{label:?},{cell},{swap},{number},{noted},{count},{answer}"))
}
