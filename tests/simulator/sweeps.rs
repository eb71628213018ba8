//! What the program `sweep` prints (document 02, order 12): steps of processes that are drawn, each called again as soon as its operation returns.

use crate::calls::{requests, Request, BAD_LINES};
use crate::compare::{compare_called, write_called, Called, Right};
use crate::generate;
use crate::machine::{number, open, Answer, Machine};
use crate::reached::Reached;
use crate::session::CALLS_LIMIT;

/// What the program says on standard error where its arguments are wrong; more may stand in that line.
pub const USAGE: &str = "usage: sweep STEPS SEED\n";
/// Schedules are filled piece by piece: a sweep of more steps than a piece is likely to have.
const LONG: u64 = 65_536;

/// All that can be reached, but for the kinds of bad lines.
#[rustfmt::skip]
const EVENTS: [&str; 34] = [
    "wrong count of arguments", "wrong steps", "wrong seed", "card refused", "calls refused", "call refused", "two calls refused",
    "p = 1", "p = 2", "p = 3", "p = 4", "p = 5", "p = 6", "p = 7", "p = 8",
    "no steps", "ended by the steps", "ended by the limit", "ended by both", "most steps asked for", "more than 65536 steps",
    "the last step returned", "the last step ran", "the limit's last step returned", "nothing returned", "done", "fault", "done and fault",
    "several programs", "gate held at the end", "gate free at the end", "a look at an old value", "the wait of one that faulted",
    "a variable altered",
];

/// The number of processes as an event.
const BY_PROCESSES: [&str; 8] = ["p = 1", "p = 2", "p = 3", "p = 4", "p = 5", "p = 6", "p = 7", "p = 8"];

pub fn events() -> Vec<&'static str> {
    [&EVENTS[..], &BAD_LINES[..]].concat()
}

/// Marsaglia's xorshift of 64 bits: what follows x.
pub fn next(mut x: u64) -> u64 {
    x ^= x << 13;
    x ^= x >> 7;
    x ^= x << 17;
    x
}

/// Steps and seed, as decimals of a card text.
fn arguments(words: &[String]) -> Result<(u64, u64), &'static str> {
    let [steps, seed] = words else { return Err("wrong count of arguments") };
    let value = |word: &String| number(word.as_bytes()).and_then(|_| word.parse().ok());
    let steps = value(steps).ok_or("wrong steps")?;
    let seed = value(seed).filter(|&seed| seed > 0).ok_or("wrong seed")?;
    Ok((steps, seed))
}

/// Everything that the program prints for these files and arguments, on standard error where these are wrong.
pub fn expected(card: &[u8], calls: &[u8], words: &[String]) -> Vec<u8> {
    run(card, calls, words, &mut Reached::new(&events()))
}

/// The same, and counts what was reached.
pub fn run(card: &[u8], calls: &[u8], words: &[String], reached: &mut Reached) -> Vec<u8> {
    let printed = match arguments(words) {
        Err(reason) => {
            reached.event(reason);
            USAGE.to_string()
        }
        Ok((steps, seed)) => match judge(card, calls, reached) {
            Ok((called, requests)) => Sweep::new(called, requests, seed).run(steps, reached),
            Err(refusal) => refusal + "\n",
        },
    };
    reached.cases += 1;
    reached.lines += printed.lines().count() as u64;
    printed.into_bytes()
}

/// The machine with every process called, or the line of the refusal: the card, the size of the calls, their lines, the calls.
fn judge(card: &[u8], calls: &[u8], reached: &mut Reached) -> Result<(Machine, Vec<Request>), String> {
    let card = open(card).map_err(|refusal| {
        reached.event("card refused");
        format!("card,refused,{},{}", refusal.number, refusal.line)
    })?;
    if calls.len() > CALLS_LIMIT {
        reached.event("calls refused");
        return Err("calls,refused,1".to_string());
    }
    let requests = requests(calls, card.processes).map_err(|(line, kind)| {
        reached.event(kind);
        format!("line,{line},refused,2")
    })?;
    let mut machine = Machine::new(card);
    let answers: Vec<Result<(), u8>> =
        (0..).zip(&requests).map(|(process, &(program, inputs))| machine.call(process, program, inputs)).collect();
    let mut refused = (0..).zip(&answers).filter_map(|(process, answer)| answer.err().map(|number| (process, number)));
    let first: Option<(u32, u8)> = refused.next();
    reached.event_if(first.is_some(), "call refused");
    reached.event_if(refused.next().is_some(), "two calls refused");
    match first {
        Some((process, number)) => Err(format!("call,{process},refused,{number}")),
        None => Ok((machine, requests)),
    }
}

/// A machine on its way, and what is counted.
struct Sweep {
    machine: Machine,
    requests: Vec<Request>,
    x: u64,
    done: u64,
    faults: u64,
    longest: u64,
    longest_faulted: bool,
    last_returned: bool,
}

impl Sweep {
    fn new(machine: Machine, requests: Vec<Request>, seed: u64) -> Sweep {
        Sweep {
            machine,
            requests,
            x: seed,
            done: 0,
            faults: 0,
            longest: 0,
            longest_faulted: false,
            last_returned: false,
        }
    }

    fn run(mut self, steps: u64, reached: &mut Reached) -> String {
        while self.machine.steps < steps.min(self.machine.card.limit) {
            self.step();
        }
        self.reach(steps, reached);
        self.printed()
    }

    /// The next process is drawn and steps; one that returns is called again with the same program and inputs.
    fn step(&mut self) {
        self.x = next(self.x);
        let process = (self.x % self.machine.card.processes as u64) as usize;
        let stepped = self.machine.step(process as u32).expect("every process is under way");
        self.last_returned = stepped.answer != Answer::Run;
        match stepped.answer {
            Answer::Run => return,
            Answer::Done { fault, own_steps, .. } => {
                *(if fault { &mut self.faults } else { &mut self.done }) += 1;
                if own_steps > self.longest {
                    (self.longest, self.longest_faulted) = (own_steps, fault);
                }
            }
            Answer::Exited { .. } => unreachable!("nobody asked to exit"),
        }
        let (program, inputs) = self.requests[process];
        self.machine.call(process as u32, program, inputs).expect("it was called so before");
    }

    fn printed(&self) -> String {
        let Machine { card, cells, steps, .. } = &self.machine;
        let mut printed = format!("steps,{steps}\ndone,{}\nfault,{}\n", self.done, self.faults);
        printed += &format!("wait,{},{}\ngate,{}\n", self.longest, card.longest_wait(), cells.gate.seq);
        for variable in 0..card.starting.len() as u32 {
            printed += &format!("look,{variable},{}\n", self.machine.read(variable).expect("it is there"));
        }
        printed
    }

    fn reach(&self, steps: u64, reached: &mut Reached) {
        let Machine { card, cells, steps: made, .. } = &self.machine;
        let (at_limit, returned) = (*made == card.limit, self.done + self.faults);
        reached.event(BY_PROCESSES[card.processes - 1]);
        reached.event_if(steps == 0, "no steps");
        reached.event_if(*made == steps && !at_limit, "ended by the steps");
        reached.event_if(at_limit && *made < steps, "ended by the limit");
        reached.event_if(at_limit && *made == steps, "ended by both");
        reached.event_if(steps == u64::MAX, "most steps asked for");
        reached.event_if(*made > LONG, "more than 65536 steps");
        reached.event_if(self.last_returned, "the last step returned");
        reached.event_if(*made > 0 && !self.last_returned, "the last step ran");
        reached.event_if(at_limit && self.last_returned, "the limit's last step returned");
        reached.event_if(*made > 0 && returned == 0, "nothing returned");
        reached.event_if(self.done > 0, "done");
        reached.event_if(self.faults > 0, "fault");
        reached.event_if(self.done > 0 && self.faults > 0, "done and fault");
        reached.event_if(self.requests.iter().any(|request| request.0 != self.requests[0].0), "several programs");
        reached.event_if(cells.gate.holder.is_some(), "gate held at the end");
        reached.event_if(cells.gate.holder.is_none(), "gate free at the end");
        reached.event_if(self.longest_faulted, "the wait of one that faulted");
        let seen: Vec<u32> = (0..card.starting.len() as u32).filter_map(|v| self.machine.read(v).ok()).collect();
        let stored: Vec<u32> = cells.records.iter().map(|record| record.val[record.toggle]).collect();
        reached.event_if(seen != stored, "a look at an old value");
        reached.event_if(seen != card.starting, "a variable altered");
    }
}

/// The case of a seed with the program's arguments.
fn called(seed: u64) -> Called {
    let (case, words) = generate::sweeps::case(seed);
    (case, words, Right::Sweep)
}

/// Writes a case's two files into a folder; its arguments are printed.
pub fn write_case(seed: u64, folder: &str) -> Result<(), String> {
    write_called(called(seed), folder)
}

/// Compares on the cases of `count` seeds; true if none differs and everything was reached.
pub fn compare(program: &str, first: u64, count: u64) -> Result<bool, String> {
    compare_called(program, first, count, &events(), called)
}
