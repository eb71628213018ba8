//! The program `readings` as straightforward Rust: one pass over the dump, and the values printed from the changes that it has found.
//! Usage: readings DUMP [STEP]
use std::fs::File;
use std::io::{self, BufWriter, Read, Write};
use std::process::ExitCode;

const LIMIT: usize = 4_194_304;
const GREATEST: u64 = 1_000_000_000_000_000_000;

enum Event {
    Time(u64),
    Value(usize, u32),
}

struct Dump {
    opening: Vec<u32>,
    events: Vec<Event>,
}

fn decimal(digits: &[u8]) -> Option<u64> {
    if !digits.iter().all(u8::is_ascii_digit) || digits.len() > 1 && digits[0] == b'0' {
        return None;
    }
    std::str::from_utf8(digits).ok()?.parse().ok().filter(|&number| number <= GREATEST)
}

fn time_of(line: &[u8]) -> Option<u64> {
    decimal(line.strip_prefix(b"#")?)
}

fn value_of(line: &[u8]) -> Option<(usize, u32)> {
    let [bits @ .., b' ', code @ 33..=255] = line.strip_prefix(b"b")? else { return None };
    if bits.is_empty() || bits.len() > 32 || bits.len() > 1 && bits[0] == b'0' {
        return None;
    }
    let mut value = 0;
    for bit in bits {
        value = match bit {
            b'0' => 2 * value,
            b'1' => 2 * value + 1,
            _ => return None,
        };
    }
    Some((usize::from(code - 33), value))
}

/// The dump, or the line that is refused.
fn read(text: &[u8]) -> Result<Dump, usize> {
    let mut lines = text.split_inclusive(|&byte| byte == b'\n').map(|line| line.strip_suffix(b"\n")).peekable();
    let mut number = 0;
    let mut next = |number: &mut usize| {
        *number += 1;
        lines.next().flatten().ok_or(*number)
    };
    let expect = |line: &[u8], text: &str, number: usize| if line == text.as_bytes() { Ok(()) } else { Err(number) };
    expect(next(&mut number)?, "$timescale 1 us $end", number)?;
    expect(next(&mut number)?, "$scope module card $end", number)?;
    let mut variables = 0;
    let mut line = next(&mut number)?;
    while variables < 64
        && line == format!("$var wire 32 {} v{variables} $end", char::from(33 + variables as u8)).as_bytes()
    {
        variables += 1;
        line = next(&mut number)?;
    }
    expect(line, "$upscope $end", number)?;
    expect(next(&mut number)?, "$enddefinitions $end", number)?;
    expect(next(&mut number)?, "#0", number)?;
    let mut opening = Vec::with_capacity(variables);
    for variable in 0..variables {
        let (_, value) = value_of(next(&mut number)?).filter(|(found, _)| *found == variable).ok_or(number)?;
        opening.push(value);
    }
    let mut values = opening.clone();
    let (mut last, mut first, mut events) = (0, variables, Vec::new());
    for line in lines {
        number += 1;
        let line = line.ok_or(number)?;
        if let Some((variable, value)) = value_of(line) {
            if variable < first || variable >= variables || values[variable] == value {
                return Err(number);
            }
            values[variable] = value;
            first = variable + 1;
            events.push(Event::Value(variable, value));
        } else {
            let time = time_of(line).filter(|&time| time > last && first > 0).ok_or(number)?;
            last = time;
            first = 0;
            events.push(Event::Time(time));
        }
    }
    Ok(Dump { opening, events })
}

fn print_row(time: u64, values: &[u32], out: &mut impl Write) -> io::Result<()> {
    write!(out, "{time}")?;
    for value in values {
        write!(out, ",{value}")?;
    }
    writeln!(out)
}

fn print_all(dump: &Dump, out: &mut impl Write) -> io::Result<()> {
    let (mut time, mut values) = (0, dump.opening.clone());
    for event in &dump.events {
        match *event {
            Event::Time(next) => {
                print_row(time, &values, out)?;
                time = next;
            }
            Event::Value(variable, value) => values[variable] = value,
        }
    }
    print_row(time, &values, out)
}

fn print_after(dump: &Dump, step: u64, out: &mut impl Write) -> io::Result<()> {
    let mut values = dump.opening.clone();
    for event in &dump.events {
        match *event {
            Event::Time(time) if time > step => break,
            Event::Time(_) => (),
            Event::Value(variable, value) => values[variable] = value,
        }
    }
    print_row(step, &values, out)
}

fn print(name: &str, step: Option<u64>) -> io::Result<()> {
    let mut text = Vec::new();
    if let Ok(file) = File::open(name) {
        let _ = file.take(LIMIT as u64 + 1).read_to_end(&mut text);
    }
    let mut out = BufWriter::new(io::stdout().lock());
    match read(&text) {
        _ if text.len() > LIMIT => writeln!(out, "dump,refused,1,0")?,
        Err(line) => writeln!(out, "dump,refused,2,{line}")?,
        Ok(dump) => match step {
            Some(step) => print_after(&dump, step, &mut out)?,
            None => print_all(&dump, &mut out)?,
        },
    }
    out.flush()
}

fn main() -> ExitCode {
    let arguments: Vec<String> = std::env::args().skip(1).collect();
    let (name, step) = match arguments.as_slice() {
        [name] => (name, Some(None)),
        [name, step] => (name, decimal(step.as_bytes()).map(Some)),
        _ => (&String::new(), None),
    };
    match step {
        None => eprintln!("usage: readings DUMP [STEP]"),
        Some(step) => {
            if let Err(error) = print(name, step) {
                eprintln!(
                    "readings: the values could not be written: {}",
                    error.to_string().split(" (os error").next().unwrap_or("")
                );
            }
        }
    }
    ExitCode::SUCCESS
}
