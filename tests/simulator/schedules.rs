//! What the program `schedules` prints (document 02, order 13). It goes by the order's own words: every schedule of at most L steps is tried, in
//! dictionary order, each from the opening on, and those are kept whose steps are all accepted and which have L steps, or leave nothing under way.

use crate::calls::{requests, BAD_LINES};
use crate::compare::{compare_called, write_called, Called, Right};
use crate::generate;
use crate::machine::{open, Answer, Machine};
use crate::reached::Reached;
use crate::session::CALLS_LIMIT;

/// Order 13: the most processes and the greatest length.
pub const MOST_PROCESSES: usize = 3;
pub const GREATEST_LENGTH: u32 = 16;

/// All that can be reached, but for the kinds of bad lines.
#[rustfmt::skip]
const EVENTS: [&str; 18] = [
    "card refused", "calls refused", "6", "6 where 17 holds too", "17 by processes", "17 by length", "17 by the limit", "listed",
    "listed with length 0", "listed with length 16", "listed with the limit equal to the length", "cut by the length", "over at the length",
    "over before the length", "a process back before the others", "done", "fault", "a step refused",
];

pub fn events() -> Vec<&'static str> {
    [&EVENTS[..], &BAD_LINES[..]].concat()
}

/// Everything that the program prints for these two files and this length.
pub fn expected(card: &[u8], calls: &[u8], length: u32) -> Vec<u8> {
    run(card, calls, length, &mut Reached::new(&events()))
}

/// The same, and counts what was reached. Judged in this sequence: the card, the size of the calls, their lines, 6, 17.
pub fn run(card: &[u8], calls: &[u8], length: u32, reached: &mut Reached) -> Vec<u8> {
    let printed = match judge(card, calls, length, reached) {
        Ok(called) => listing(&called, length, reached),
        Err(refusal) => (refusal + "\n").into_bytes(),
    };
    reached.cases += 1;
    reached.lines += printed.iter().filter(|&&byte| byte == 10).count() as u64;
    printed
}

/// The machine with one call for each process, or the line of the refusal.
fn judge(card: &[u8], calls: &[u8], length: u32, reached: &mut Reached) -> Result<Machine, String> {
    let card = open(card).map_err(|refusal| {
        reached.event("card refused");
        format!("card,refused,{},{}", refusal.number, refusal.line)
    })?;
    if calls.len() > CALLS_LIMIT {
        reached.event("calls refused");
        return Err("calls,refused,1".to_string());
    }
    let requests = requests(calls, card.processes).map_err(|(line, kind)| {
        reached.event(kind);
        format!("line,{line},refused,2")
    })?;
    let too_large = [
        (card.processes > MOST_PROCESSES, "17 by processes"),
        (length > GREATEST_LENGTH, "17 by length"),
        (card.limit < u64::from(length), "17 by the limit"),
    ];
    if requests.iter().any(|&(program, _)| program as usize >= card.programs.len()) {
        reached.event("6");
        reached.event_if(too_large.iter().any(|(holds, _)| *holds), "6 where 17 holds too");
        return Err("schedules,refused,6".to_string());
    }
    if let Some((_, reason)) = too_large.iter().find(|(holds, _)| *holds) {
        reached.event(reason);
        return Err("schedules,refused,17".to_string());
    }
    let mut machine = Machine::new(card);
    for (process, (program, inputs)) in (0..).zip(requests) {
        machine.call(process, program, inputs).expect("the process is there and idle, and so is the program");
    }
    Ok(machine)
}

/// The lines of all schedules that are one of those.
fn listing(called: &Machine, length: u32, reached: &mut Reached) -> Vec<u8> {
    reached.event("listed");
    reached.event_if(length == 0, "listed with length 0");
    reached.event_if(length == GREATEST_LENGTH, "listed with length 16");
    reached.event_if(called.card.limit == u64::from(length), "listed with the limit equal to the length");
    let mut printed = Vec::new();
    let mut schedule = Vec::new();
    loop {
        if let Some(answers) = answers(called, &schedule, length as usize, reached) {
            printed.extend(line_of(&schedule, &answers).bytes());
        }
        if !advance(&mut schedule, called.card.processes as u32, length as usize) {
            return printed;
        }
    }
}

/// The next schedule in dictionary order, of at most `longest` numbers below `processes`; none after the last.
fn advance(schedule: &mut Vec<u32>, processes: u32, longest: usize) -> bool {
    if schedule.len() < longest {
        schedule.push(0);
        return true;
    }
    while let Some(last) = schedule.pop() {
        if last + 1 < processes {
            schedule.push(last + 1);
            return true;
        }
    }
    false
}

/// The answers of a schedule's steps if all are accepted and it has `length` steps or leaves nothing under way.
fn answers(called: &Machine, schedule: &[u32], length: usize, reached: &mut Reached) -> Option<Vec<Answer>> {
    let mut machine = called.clone();
    let mut answers = Vec::with_capacity(schedule.len());
    for &process in schedule {
        match machine.step(process) {
            Ok(stepped) => answers.push(stepped.answer),
            Err(_) => {
                reached.event("a step refused");
                return None;
            }
        }
    }
    let idle = (0..machine.card.processes).filter(|&process| !machine.under_way(process)).count();
    let over = idle == machine.card.processes;
    if schedule.len() != length && !over {
        return None;
    }
    reached.event_if(!over, "cut by the length");
    reached.event_if(over && schedule.len() == length, "over at the length");
    reached.event_if(schedule.len() < length, "over before the length");
    reached.event_if(idle > 0 && !over, "a process back before the others");
    for answer in answers.iter().filter(|answer| **answer != Answer::Run) {
        reached.event(if matches!(answer, Answer::Done { fault: true, .. }) { "fault" } else { "done" });
    }
    Some(answers)
}

/// A line: the process numbers run together, then each step's answer fields after commas.
fn line_of(schedule: &[u32], answers: &[Answer]) -> String {
    let numbers = schedule.iter().map(|process| char::from_digit(*process, 10).expect("below 3"));
    let mut line: String = numbers.collect();
    for answer in answers {
        match answer {
            Answer::Run => line += ",run",
            Answer::Done { number, outputs: [o0, o1, o2, o3], fault, own_steps } => {
                let word = if *fault { "fault" } else { "done" };
                line += &format!(",{word},{number},{o0},{o1},{o2},{o3},{own_steps}");
            }
            Answer::Exited { .. } => unreachable!("nobody asked to exit"),
        }
    }
    line + "\n"
}

/// The case of a seed, the length as the program's argument.
fn called(seed: u64) -> Called {
    let (case, length) = generate::schedules::case(seed);
    (case, vec![length.to_string()], Right::Listing(length))
}

/// Writes a case's two files into a folder; its length is printed.
pub fn write_case(seed: u64, folder: &str) -> Result<(), String> {
    write_called(called(seed), folder)
}

/// Compares on the cases of `count` seeds; true if none differs and everything was reached.
pub fn compare(program: &str, first: u64, count: u64) -> Result<bool, String> {
    compare_called(program, first, count, &events(), called)
}
