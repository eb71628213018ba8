//! The calls and the schedule of the program `steps_speed` on the card of tests/speed/card.rs, and with `sweep` those of the programs `sweep` and
//! `sweep_speed`, which call a process again with the same inputs and count what returns.
//! Usage: steps COUNT [sweep LAST LIMIT WORDS LOAN], and the shared cells are printed at the end, of a sweep also the counts and what the program `sweep`
//! prints. The processes step by pseudo-random numbers, or with a LAST above 0 those from 0 to LAST one after the other, whether the card has them or not.
//! LIMIT is the card's; a process of whose call not all five words are among the WORDS of the table is not called again; and with a LOAN of fewer words
//! than eight processes need no step is accepted.
use std::hint::black_box;

#[allow(dead_code)] // only some of its answers and instructions are asked for here
#[path = "../card.rs"]
mod card;
use card::{Answer, Card, Flag, Holder, Instruction, Record, Words};

fn show_cells(card: &Card) {
    let holder = match card.gate.holder {
        Holder::Nobody => "none".to_string(),
        Holder::Process(process) => process.to_string(),
    };
    println!("gate,{holder},{}", card.gate.seq);
    for (process, a) in card.announcements.iter().enumerate() {
        let flag = match a.flag {
            Flag::Done => "done",
            Flag::Active => "active",
            Flag::Exit => "exit",
        };
        let words = a.words.map(|word| word.to_string()).join(",");
        println!("announcement,{process},{},{},{flag},{},{words},{}", a.program, a.seq, a.number, a.fault as u8);
    }
    let record = card.records[0];
    println!("record,0,{},{},{},{}", record.val[0], record.val[1], record.toggle as u8, record.seq);
}

/// Marsaglia's xorshift with shifts 13, 7 and 17.
fn next_random(x: u64) -> u64 {
    let a = x ^ (x << 13);
    let b = a ^ (a >> 7);
    b ^ (b << 17)
}

/// Where the pseudo-random numbers start from.
const SEED: u64 = 88_172_645_463_325_252;

/// So many steps. The input of a call is the number of the step before it.
fn run(card: &mut Card, count: u64) {
    let mut x: u64 = SEED;
    for k in 0..count {
        x = next_random(x);
        let process = (x % 8) as usize;
        match card.step(process) {
            Answer::Run => (),
            _ => {
                card.call(process, 0, [k as u32, 0, 0, 0]);
            }
        }
    }
}

/// What the steps of a sweep come to.
#[derive(Default)]
struct Counts {
    accepted: u64,
    done: u64,
    faulted: u64,
    exited: u64,
    longest: u64,
}

/// The steps of a schedule; a process is called again as soon as its operation returns.
/// A table that is too short leaves the processes behind its end idle.
fn sweep(card: &mut Card, requests: &[(usize, Words)], schedule: impl Iterator<Item = usize>) -> Counts {
    let mut counts = Counts::default();
    for process in schedule {
        let steps = match card.step(process) {
            Answer::Taken | Answer::Refused(_) => continue,
            Answer::Run => {
                counts.accepted += 1;
                continue;
            }
            Answer::Done(_, _, false, steps) => {
                counts.done += 1;
                steps
            }
            Answer::Done(_, _, true, steps) => {
                counts.faulted += 1;
                steps
            }
            Answer::Exited(steps) => {
                counts.exited += 1;
                steps
            }
        };
        counts.accepted += 1;
        counts.longest = counts.longest.max(steps);
        if let Some(&(program, inputs)) = requests.get(process) {
            card.call(process, program, inputs);
        }
    }
    counts
}

/// A sweep of so many steps, by pseudo-random numbers or one after the other.
fn sweep_all(card: &mut Card, requests: &[(usize, Words)], count: usize, last: usize) -> Counts {
    if last > 0 {
        return sweep(card, requests, (0..=last).cycle().take(count));
    }
    let numbers = std::iter::successors(Some(next_random(SEED)), |&x| Some(next_random(x)));
    sweep(card, requests, numbers.map(|x| (x % 8) as usize).take(count))
}

/// The own steps within which an operation returns (document 02, order 3).
fn longest_wait(processes: usize, programs: &[Vec<Instruction>]) -> usize {
    let weight = |instruction: &Instruction| match instruction {
        Instruction::Load(..) | Instruction::Store(..) | Instruction::LoadAt(..) | Instruction::StoreAt(..) => 1,
        Instruction::Allocate(_) | Instruction::Free(_) => 2,
        _ => 0,
    };
    let weights = programs.iter().map(|program| program.iter().map(weight).sum());
    4 + (processes + 1) * (10 + 2 * weights.max().unwrap_or(0))
}

/// The value of a variable; the old one until the operation of the gate's holder is finished.
fn read(card: &Card, record: &Record) -> u32 {
    let unfinished = match card.gate.holder {
        Holder::Nobody => false,
        Holder::Process(m) => card.announcements[m as usize].flag != Flag::Done,
    };
    let side = record.toggle != (unfinished && record.seq == card.gate.seq);
    record.val[side as usize]
}

/// What the program `sweep_speed` prints of the counts, and what the program `sweep` prints.
fn show_counts(card: &Card, counts: &Counts, bound: usize) {
    println!("accepted,{}\ndone,{}\nfault,{}", counts.accepted, counts.done, counts.faulted);
    println!("exit,{}\nlongest,{}", counts.exited, counts.longest);
    println!("steps,{}\ndone,{}\nfault,{}", counts.accepted, counts.done, counts.faulted);
    println!("wait,{},{bound}\ngate,{}", counts.longest, card.gate.seq);
    for (variable, record) in card.records.iter().enumerate() {
        println!("look,{variable},{}", read(card, record));
    }
}

/// The words of a loan that eight processes need, whose operations note one variable each.
const LOAN_WORDS: u64 = 48;

fn main() {
    let usage = "usage: steps COUNT [sweep LAST LIMIT WORDS LOAN]";
    let words: Vec<String> = std::env::args().skip(1).collect();
    let number = |at: usize| -> u64 { words.get(at).and_then(|word| word.parse().ok()).expect(usage) };
    let count = number(0);
    let is_sweep = words.len() > 1;
    assert!(!is_sweep || (words[1] == "sweep" && words.len() == 6), "{usage}");
    let limit = if is_sweep { number(3) } else { 1_000_000_000_000_000_000 };
    let program =
        vec![Instruction::Input(0, 0), Instruction::Load(1, 0), Instruction::Store(0, 0), Instruction::Output(0, 1)];
    let programs = black_box(vec![program]);
    let mut card = Card::open(black_box(8), black_box(&[7]), &programs, limit);
    let mut requests: Vec<(usize, Words)> = (0..8).map(|process| (0, [process, 0, 0, 0])).collect();
    for (process, &(program, inputs)) in requests.iter().enumerate() {
        card.step(process); // refused
        card.call(process, program, inputs);
    }
    if is_sweep {
        let steps = if number(5) < LOAN_WORDS { 0 } else { count };
        let bound = longest_wait(requests.len(), &programs);
        requests.truncate(number(4) as usize / 5);
        let counts = sweep_all(&mut card, &requests, steps as usize, number(2) as usize);
        show_cells(&card);
        show_counts(&card, &counts, bound);
    } else {
        run(&mut card, count);
        show_cells(&card);
    }
}
