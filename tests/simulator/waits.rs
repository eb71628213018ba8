//! Long waits (document 02, order 3): a schedule that holds up one operation for as long as others can, and random ones, beside the longest wait.

use crate::generate::Random;
use crate::machine::{Answer, Card, Instruction, Label, Machine};

/// The process whose operation is held up, and the one that gets before it again and again.
const LATE: u32 = 0;
const QUICK: u32 = 1;
/// The cards looked at. 31 writes and an input fill a program.
const PROCESSES: [usize; 5] = [1, 2, 3, 5, 8];
const WEIGHTS: [usize; 4] = [0, 2, 8, 31];
/// The steps of a random schedule.
const RANDOM_STEPS: usize = 20_000;

/// A card whose one program writes its input to `weight` variables.
fn card(processes: usize, weight: usize) -> Card {
    let mut program = vec![Instruction { code: 1, a: 0, b: 0, c: 0 }];
    program.extend((0..weight).map(|a| Instruction { code: 4, a, b: 0, c: 0 }));
    Card { processes, limit: 1_000_000, starting: vec![0; weight.max(1)], programs: vec![program] }
}

/// A machine that is played, with the largest waits so far, without an exit request and with one.
struct Play {
    machine: Machine,
    /// The input of the next call: each operation writes another value.
    next: u32,
    longest: [u64; 2],
    in_time: bool,
}

impl Play {
    fn new(card: Card) -> Play {
        Play { machine: Machine::new(card), next: 1, longest: [0; 2], in_time: true }
    }

    fn call(&mut self, process: u32) {
        self.machine.call(process, 0, [self.next; 4]).expect("the process is idle");
        self.next += 1;
    }

    fn step(&mut self, process: u32) {
        let stepped = self.machine.step(process).expect("an operation is under way");
        self.in_time &= stepped.in_time(self.machine.card.longest_wait());
        if stepped.answer != Answer::Run {
            let longest = &mut self.longest[usize::from(stepped.exit_request)];
            *longest = stepped.own_steps.max(*longest);
        }
    }

    /// Steps a process until it is about to make one of these accesses, or has returned.
    fn up_to(&mut self, process: u32, accesses: &[Label]) {
        while self.machine.next_access(process as usize).is_some_and(|next| !accesses.contains(&next)) {
            self.step(process);
        }
    }

    fn to_return(&mut self, process: u32) {
        self.up_to(process, &[]);
    }

    /// The process whose turn it is (line C1).
    fn turn(&self) -> u64 {
        self.machine.cells.gate.seq % self.machine.card.processes as u64
    }

    /// One operation alone on its card.
    fn alone(&mut self, exit: bool) {
        self.call(LATE);
        if exit {
            self.machine.request_exit(LATE).expect("an operation is under way");
        }
        self.to_return(LATE);
    }

    /// The late operation is about to swap the gate; the quick one, at the same access, swaps it first. The late one then finds the gate held, does
    /// all that the quick one's operation asks for, and comes to the top of its loop again.
    fn overtaken(&mut self) {
        self.step(QUICK);
        self.step(LATE);
        self.up_to(LATE, &[Label::P10]);
        self.to_return(QUICK);
    }

    /// It is the turn of the late process when the quick one chooses, before the late one announces its operation. The turn comes again after p numbers.
    fn held_up(&mut self, exit: bool) {
        while self.turn() != u64::from(LATE) {
            self.call(QUICK);
            self.to_return(QUICK);
        }
        self.call(QUICK);
        self.up_to(QUICK, &[Label::P13]);
        self.call(LATE);
        self.up_to(LATE, &[Label::P13]);
        self.overtaken();
        while self.turn() != u64::from(LATE) {
            self.up_to(LATE, &[Label::P13]);
            self.call(QUICK);
            self.up_to(QUICK, &[Label::P13]);
            self.overtaken();
        }
        if exit {
            self.machine.request_exit(LATE).expect("an operation is under way");
        }
        self.to_return(LATE);
    }

    /// Any process steps, and is called again when it has returned; some are asked to exit.
    fn at_random(&mut self, random: &mut Random) {
        for _ in 0..RANDOM_STEPS {
            let process = random.below(self.machine.card.processes) as u32;
            if !self.machine.under_way(process as usize) {
                self.call(process);
                if random.chance(20) {
                    self.machine.request_exit(process).expect("an operation is under way");
                }
            }
            let burst = if random.chance(90) { 1 } else { random.between(1, 80) };
            for _ in 0..burst {
                if self.machine.under_way(process as usize) {
                    self.step(process);
                }
            }
        }
    }
}

/// The waits that the schedules above come to, without an exit request and with one.
fn known(card: &Card) -> [u64; 2] {
    match card.processes {
        1 => [12 + 2 * card.weight(), 15 + 2 * card.weight()],
        _ => [card.longest_wait() - 3, card.longest_wait()],
    }
}

/// Prints the largest wait seen on each card beside the longest; true if none is passed and the known ones were seen.
pub fn report() -> bool {
    let mut right = true;
    for processes in PROCESSES {
        for weight in WEIGHTS {
            let mut longest = [0; 2];
            let mut in_time = true;
            for exit in [false, true] {
                let mut play = Play::new(card(processes, weight));
                if processes == 1 {
                    play.alone(exit);
                } else {
                    play.held_up(exit);
                }
                play.at_random(&mut Random::new((processes * 100 + weight * 2 + usize::from(exit)) as u64));
                longest = [0, 1].map(|at| longest[at].max(play.longest[at]));
                in_time &= play.in_time;
            }
            let card = card(processes, weight);
            let bound = card.longest_wait();
            println!(
                "waits with p = {processes}, w = {weight}: {} of {bound} steps, {} of {} with an exit request",
                longest[0],
                longest[1],
                bound + 2
            );
            right &= in_time && longest == known(&card);
        }
    }
    println!("longest waits: {}", if right { "none passed" } else { "PASSED, or the known ones not seen" });
    right
}
