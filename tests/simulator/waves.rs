//! Value change dumps (document 02, order 7): a session's dump, and a reader of that subset. Both are written from the order's text.

use crate::machine::{lines, number, open, Line, Machine, GREATEST_LIMIT};
use crate::session::{Command, Commands, Numbered, CALLS_LIMIT};

/// A dump has at most so many variables.
pub const MOST_VARIABLES: usize = 64;
/// The program `readings` reads at most this many bytes.
pub const DUMP_LIMIT: usize = 4_194_304;

const OPENING_LINES: [&str; 2] = ["$timescale 1 us $end", "$scope module card $end"];
const CLOSING_LINES: [&str; 2] = ["$upscope $end", "$enddefinitions $end"];

/// What a dump says: every time in it, 0 first, with the values of all variables from then on.
#[derive(Clone, Debug, PartialEq, Eq)]
pub struct Dump {
    pub variables: usize,
    pub times: Vec<(u64, Vec<u32>)>,
}

impl Dump {
    /// The values after a step: those of the last time not past it.
    pub fn after(&self, step: u64) -> &[u32] {
        let past = self.times.partition_point(|(time, _)| *time <= step);
        &self.times[past - 1].1
    }
}

// ---------------------------------------------------------------- the writer

fn code(variable: usize) -> char {
    char::from(33 + variable as u8)
}

fn declaration(variable: usize) -> String {
    format!("$var wire 32 {} v{variable} $end", code(variable))
}

/// The lines up to `#0` and its values; then a group for each later time of a history at which a value changed, and the last time.
pub fn write(dump: &Dump) -> Vec<u8> {
    let mut lines: Vec<String> = OPENING_LINES.map(String::from).to_vec();
    lines.extend((0..dump.variables).map(declaration));
    lines.extend(CLOSING_LINES.map(String::from));
    let last = dump.times.len() - 1;
    for (place, (time, values)) in dump.times.iter().enumerate() {
        let changed = |variable: &usize| place == 0 || dump.times[place - 1].1[*variable] != values[*variable];
        let changed: Vec<usize> = (0..dump.variables).filter(changed).collect();
        if place == 0 || place == last || !changed.is_empty() {
            lines.push(format!("#{time}"));
        }
        lines.extend(changed.iter().map(|&variable| format!("b{:b} {}", values[variable], code(variable))));
    }
    lines.iter().flat_map(|line| [line.as_bytes(), b"\n"]).flatten().copied().collect()
}

/// A session as it was played: the looked values at opening and after each accepted step, and the line of the command of each such step.
pub struct Played {
    pub history: Dump,
    pub lines: Vec<usize>,
}

/// Plays a session; or the line that the card or the calls are refused with.
pub fn play(card: &[u8], calls: &[u8]) -> Result<Played, String> {
    let card = open(card).map_err(|refusal| format!("card,refused,{},{}\n", refusal.number, refusal.line))?;
    if calls.len() > CALLS_LIMIT {
        return Err("calls,refused,1\n".to_string());
    }
    let variables = card.starting.len();
    let mut machine = Machine::new(card);
    let looked = |machine: &Machine| (0..variables as u32).map(|at| machine.read(at).expect("it is there")).collect();
    let (mut times, mut lines) = (vec![(0, looked(&machine))], Vec::new());
    for Numbered { line, command } in Commands::new(calls) {
        let Ok(command) = command else { continue };
        enter(&mut machine, command);
        if machine.steps == times.len() as u64 {
            times.push((machine.steps, looked(&machine)));
            lines.push(line);
        }
    }
    Ok(Played { history: Dump { variables, times }, lines })
}

/// A command that is refused alters nothing, and a read never does.
fn enter(machine: &mut Machine, command: Command) {
    match command {
        Command::Call { process, program, inputs } => drop(machine.call(process, program, inputs)),
        Command::RequestExit { process } => drop(machine.request_exit(process)),
        Command::Step { process } | Command::Trace { process } => drop(machine.step(process)),
        Command::Change { program, from, text, .. } => drop(machine.change(program, u64::from(from), text)),
        Command::Read { .. } => (),
    }
}

/// Everything that the program `waves` prints for these two files.
pub fn printed(card: &[u8], calls: &[u8]) -> Vec<u8> {
    play(card, calls).map_or_else(String::into_bytes, |played| write(&played.history))
}

// ---------------------------------------------------------------- the reader

/// The number of the line at which a text is refused.
type RefusedAt = usize;

struct Reader<'a> {
    lines: Vec<Line<'a>>,
    taken: usize,
}

impl Reader<'_> {
    /// The next line, if it is there and ended.
    fn next(&self) -> Option<&[u8]> {
        self.lines.get(self.taken).filter(|line| line.ended).map(|line| line.bytes)
    }

    /// A refusal at the next line, which may be missing.
    fn refuse<T>(&self) -> Result<T, RefusedAt> {
        Err(self.taken + 1)
    }

    fn at_end(&self) -> bool {
        self.taken == self.lines.len()
    }

    /// Takes the next line if it is this one.
    fn takes(&mut self, text: &str) -> bool {
        let same = self.next() == Some(text.as_bytes());
        self.taken += usize::from(same);
        same
    }

    fn take(&mut self, text: &str) -> Result<(), RefusedAt> {
        if self.takes(text) {
            Ok(())
        } else {
            self.refuse()
        }
    }

    fn header(&mut self) -> Result<usize, RefusedAt> {
        OPENING_LINES.iter().try_for_each(|line| self.take(line))?;
        let declared = (0..MOST_VARIABLES).take_while(|&variable| self.takes(&declaration(variable))).count();
        CLOSING_LINES.iter().try_for_each(|line| self.take(line))?;
        Ok(declared)
    }

    /// A value that the next line gives to one of the variables from `first` to `end`; none if it is another line.
    fn value(&mut self, first: usize, end: usize) -> Option<(usize, u32)> {
        let (variable, value) = value_line(self.next()?)?;
        let there = (first..end).contains(&variable);
        self.taken += usize::from(there);
        there.then_some((variable, value))
    }

    fn opening_values(&mut self, variables: usize) -> Result<Vec<u32>, RefusedAt> {
        self.take("#0")?;
        let mut values = Vec::new();
        for variable in 0..variables {
            let Some((_, value)) = self.value(variable, variable + 1) else { return self.refuse() };
            values.push(value);
        }
        Ok(values)
    }

    /// A time above the last, and the values that change then: at least one unless the dump ends there.
    fn group(&mut self, last: u64, values: &mut [u32]) -> Result<u64, RefusedAt> {
        let time = self.next().and_then(time_line).filter(|time| (last + 1..=GREATEST_LIMIT).contains(time));
        let (Some(time), false) = (time, values.is_empty()) else { return self.refuse() };
        self.taken += 1;
        let (begun, mut first) = (self.taken, 0);
        while let Some((variable, value)) = self.value(first, values.len()) {
            if values[variable] == value {
                self.taken -= 1;
                return self.refuse();
            }
            values[variable] = value;
            first = variable + 1;
        }
        if self.taken == begun && !self.at_end() {
            return self.refuse();
        }
        Ok(time)
    }
}

/// A line `#` and a count.
fn time_line(line: &[u8]) -> Option<u64> {
    number(line.strip_prefix(b"#")?)
}

/// A line `b`, at most 32 bits without leading zeros, a space and the code: the variable and its value.
fn value_line(line: &[u8]) -> Option<(usize, u32)> {
    let [bits @ .., b' ', code] = line.strip_prefix(b"b")? else { return None };
    let bits = std::str::from_utf8(bits).ok()?;
    let plain = !bits.is_empty() && bits.bytes().all(|bit| bit == b'0' || bit == b'1');
    if !plain || bits.len() > 1 && bits.starts_with('0') {
        return None;
    }
    Some((usize::from(code.checked_sub(33)?), u32::from_str_radix(bits, 2).ok()?))
}

/// What a dump says, or the first line that breaks the forms of the subset or their order; a missing line is numbered one past the last.
pub fn read(text: &[u8]) -> Result<Dump, RefusedAt> {
    let mut reader = Reader { lines: lines(text), taken: 0 };
    let variables = reader.header()?;
    let mut values = reader.opening_values(variables)?;
    let mut times = vec![(0, values.clone())];
    while !reader.at_end() {
        let time = reader.group(times[times.len() - 1].0, &mut values)?;
        times.push((time, values.clone()));
    }
    Ok(Dump { variables, times })
}

/// Everything that the program `readings` prints for a dump, with a step or without one.
pub fn readings(text: &[u8], step: Option<u64>) -> String {
    if text.len() > DUMP_LIMIT {
        return "dump,refused,1,0\n".to_string();
    }
    match (read(text), step) {
        (Err(line), _) => format!("dump,refused,2,{line}\n"),
        (Ok(dump), Some(step)) => reading(step, dump.after(step)),
        (Ok(dump), None) => dump.times.iter().map(|(time, values)| reading(*time, values)).collect(),
    }
}

fn reading(step: u64, values: &[u32]) -> String {
    let values = values.iter().map(|value| format!(",{value}"));
    format!("{step}{}\n", values.collect::<String>())
}

/// A STEP as `readings` takes it: a decimal as in a card text, at most 1,000,000,000,000,000,000.
pub fn step_of(argument: &str) -> Option<u64> {
    number(argument.as_bytes()).filter(|&step| step <= GREATEST_LIMIT)
}
