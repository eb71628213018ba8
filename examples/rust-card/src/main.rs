//! A session of the bench program over the safe crate: reads `card.txt` and `calls.txt` in the folder where it is run, and prints what bench prints.

use std::fs;
use std::io::{self, BufWriter, Write};

use lace_card::{Answer, Card, Refusal, RefusedAt, Report};

/// Most bytes of calls.txt.
const CALLS_BYTES: usize = 65536;

/// The numbers of a command after its verb; none where the line is malformed. Decimals have no leading zero and are below 2^32.
fn numbers(line: &str, verb: &str, count: usize) -> Option<Vec<u32>> {
    let fields = line.strip_prefix(verb)?.strip_prefix(',')?.split(',');
    let number = |field: &str| {
        let plain = !field.is_empty() && field.bytes().all(|byte| byte.is_ascii_digit());
        (plain && (field == "0" || !field.starts_with('0'))).then(|| field.parse().ok()).flatten()
    };
    let numbers: Option<Vec<u32>> = fields.map(number).collect();
    numbers.filter(|numbers| numbers.len() == count)
}

fn step_text(answer: Answer) -> String {
    match answer {
        Answer::Run => "run".to_string(),
        Answer::Exited { steps } => format!("exited,{steps}"),
        Answer::Done { fault, gate_number, outputs: [o0, o1, o2, o3], steps } => {
            let word = if fault { "fault" } else { "done" };
            format!("{word},{gate_number},{o0},{o1},{o2},{o3},{steps}")
        }
    }
}

fn report_text(report: Report) -> String {
    let number = if report.cell.0 == 'G' { String::new() } else { report.cell.1.to_string() };
    let swap = report.swap.map_or('-', |won| if won { '1' } else { '0' });
    let Report { label, cell, gate_number, noted, count, .. } = report;
    format!("{}{},{}{number},{swap},{gate_number},{noted},{count}", label.0, label.1, cell.0)
}

fn refusal_text(refusal: Refusal) -> String {
    format!("refused,{}", refusal.0)
}

fn change_text(refused: RefusedAt) -> String {
    format!("{},{}", refusal_text(refused.refusal), refused.line)
}

/// The place past a line.
fn line_after(calls: &[u8], at: usize) -> usize {
    calls[at..].iter().position(|&byte| byte == b'\n').map_or(calls.len(), |length| at + length + 1)
}

/// The printed line of a command, and how many lines of text it takes; none where it is malformed.
fn carry_out(card: &mut Card, line: &str, rest: &[u8]) -> Option<(String, u32)> {
    let plain = |text: String| Some((text, 0));
    let taken = |result: Result<(), Refusal>| result.map_or_else(refusal_text, |()| "taken".to_string());
    if let Some(n) = numbers(line, "call", 6) {
        return plain(format!("call,{},{}", n[0], taken(card.call(n[0], n[1], [n[2], n[3], n[4], n[5]]))));
    }
    if let Some(n) = numbers(line, "wish", 1) {
        return plain(format!("wish,{},{}", n[0], taken(card.request_exit(n[0]))));
    }
    if let Some(n) = numbers(line, "step", 1) {
        return plain(format!("step,{},{}", n[0], card.step(n[0]).map_or_else(refusal_text, step_text)));
    }
    if let Some(n) = numbers(line, "trace", 1) {
        let text = |(answer, report)| format!("{},{}", report_text(report), step_text(answer));
        return plain(format!("trace,{},{}", n[0], card.trace(n[0]).map_or_else(refusal_text, text)));
    }
    if let Some(n) = numbers(line, "look", 1) {
        return plain(format!("look,{},{}", n[0], card.read(n[0]).map_or_else(refusal_text, |value| value.to_string())));
    }
    let n = numbers(line, "change", 3)?;
    let mut end = 0;
    for _ in 0..n[2] {
        if end == rest.len() {
            break;
        }
        end = line_after(rest, end);
    }
    let changed = card.change(n[0], n[1].into(), &rest[..end]);
    Some((format!("change,{},{}", n[0], changed.map_or_else(change_text, |()| "taken".to_string())), n[2]))
}

fn session(card: &[u8], calls: &[u8], out: &mut dyn Write) -> io::Result<()> {
    let mut card = match Card::open(card) {
        Ok(opened) => {
            assert_eq!(opened.text(), card, "a card that opens is written as it was");
            assert!(opened.longest_wait() >= 24, "an opened card has its longest wait");
            opened
        }
        Err(refused) => return writeln!(out, "card,{}", change_text(refused)),
    };
    if calls.len() > CALLS_BYTES {
        return writeln!(out, "calls,refused,1");
    }
    let (mut at, mut number) = (0, 1);
    while at < calls.len() {
        let next = line_after(calls, at);
        let line = calls[at..next].strip_suffix(b"\n").and_then(|line| std::str::from_utf8(line).ok());
        let (started, mut lines) = (number, 0);
        (at, number) = (next, number + 1);
        match line.and_then(|line| carry_out(&mut card, line, &calls[next..])) {
            Some((text, taken)) => {
                writeln!(out, "{text}")?;
                lines = taken;
            }
            None => writeln!(out, "line,{started},refused,2")?,
        }
        while lines > 0 && at < calls.len() {
            (at, number, lines) = (line_after(calls, at), number + 1, lines - 1);
        }
    }
    Ok(())
}

fn main() -> io::Result<()> {
    let file = |name| fs::read(name).unwrap_or_default();
    let mut out = BufWriter::new(io::stdout().lock());
    session(&file("card.txt"), &file("calls.txt"), &mut out)?;
    out.flush()
}
