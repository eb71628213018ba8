//! Cases from a seed: the two files of the bench program, valid and damaged.

pub mod calls;
pub mod machines;
pub mod schedules;
pub mod sweeps;

use crate::machine::{weight, Card, Instruction, Machine, GREATEST_LIMIT, TEXT_LIMIT, WORD_END};
use crate::session::CALLS_LIMIT;

/// The two files of a case; none where the file is not there.
#[derive(Clone, Debug, PartialEq, Eq)]
pub struct Case {
    pub card: Option<Vec<u8>>,
    pub calls: Option<Vec<u8>>,
}

impl Case {
    /// The two texts; a file that is not there counts as empty.
    pub fn texts(&self) -> (&[u8], &[u8]) {
        (self.card.as_deref().unwrap_or(&[]), self.calls.as_deref().unwrap_or(&[]))
    }
}

/// A small generator of random numbers (xorshift, 64 bits).
pub struct Random(u64);

impl Random {
    pub fn new(seed: u64) -> Random {
        let mut random = Random(seed.wrapping_mul(0x9E37_79B9_7F4A_7C15) ^ 0x5851_F42D_4C95_7F2D | 1);
        for _ in 0..8 {
            random.next();
        }
        random
    }

    pub fn next(&mut self) -> u64 {
        self.0 ^= self.0 << 13;
        self.0 ^= self.0 >> 7;
        self.0 ^= self.0 << 17;
        self.0.wrapping_mul(0x2545_F491_4F6C_DD1D) >> 16
    }

    pub fn below(&mut self, end: usize) -> usize {
        (self.next() % end as u64) as usize
    }

    pub fn between(&mut self, least: usize, greatest: usize) -> usize {
        least + self.below(greatest - least + 1)
    }

    pub fn chance(&mut self, percent: usize) -> bool {
        self.below(100) < percent
    }

    pub fn pick<T: Copy>(&mut self, choices: &[T]) -> T {
        choices[self.below(choices.len())]
    }
}

/// The case of a seed; every third has changes among its commands (document 02, order 11).
pub fn case(seed: u64) -> Case {
    let random = &mut Random::new(seed);
    if seed % 3 == 0 {
        return changing(random);
    }
    match random.below(100) {
        0..=37 => valid(random, CONTENDED, false, NO_CHANGES),
        38..=45 => allocating(random, NO_CHANGES),
        46..=53 => valid(random, WIDE, false, NO_CHANGES),
        54..=57 => valid(random, ALONE, false, NO_CHANGES),
        58..=62 => valid(random, CONTENDED, true, NO_CHANGES),
        63..=72 => damaged_card(random),
        73..=80 => odd_instruction(random),
        81..=90 => damaged_calls(random, NO_CHANGES),
        _ => edge_of_size(random),
    }
}

fn changing(random: &mut Random) -> Case {
    let changes = random.pick(&[1, 3, 8]);
    match random.below(100) {
        0..=49 => valid(random, CONTENDED, false, changes),
        50..=59 => allocating(random, changes),
        60..=66 => valid(random, WIDE, false, changes),
        67..=72 => valid(random, ALONE, false, changes),
        73..=80 => valid(random, CONTENDED, true, changes),
        81..=91 => damaged_calls(random, changes),
        _ => edge_of_change(random, changes),
    }
}

// ---------------------------------------------------------------- cards

/// The greatest counts of a card to make.
#[derive(Clone, Copy)]
struct Shape {
    processes: (usize, usize),
    variables: usize,
    programs: usize,
    instructions: usize,
}

const CONTENDED: Shape = Shape { processes: (2, 8), variables: 4, programs: 3, instructions: 10 };
const WIDE: Shape = Shape { processes: (1, 8), variables: 64, programs: 8, instructions: 32 };
const ALONE: Shape = Shape { processes: (1, 1), variables: 8, programs: 4, instructions: 32 };

fn make_card(random: &mut Random, shape: Shape, small_limit: bool) -> Card {
    let (least, greatest) = shape.processes;
    let processes = if random.chance(50) {
        random.between(least, least.max(3).min(greatest))
    } else {
        random.between(least, greatest)
    };
    let variables = random.between(1, shape.variables);
    let limit =
        if small_limit { random.between(1, 150) as u64 } else { random.pick(&[100_000, 1 << 40, GREATEST_LIMIT]) };
    let starting = (0..variables).map(|_| value(random, variables)).collect();
    let count = random.between(1, shape.programs);
    let programs = (0..count).map(|_| make_program(random, variables, shape.instructions)).collect();
    Card { processes, limit, starting, programs }
}

/// A word, often near a number that matters.
fn value(random: &mut Random, variables: usize) -> u32 {
    match random.below(10) {
        0..=3 => random.below(variables) as u32,
        4 | 5 => random.below(3) as u32,
        6 => (variables - 1 + random.below(3)) as u32,
        7 => random.pick(&[u32::MAX, u32::MAX - 1, 1 << 31, 63, 64]),
        _ => random.next() as u32,
    }
}

fn make_program(random: &mut Random, variables: usize, greatest: usize) -> Vec<Instruction> {
    let length = random.between(1, greatest);
    let mut program = Vec::new();
    while program.len() < length {
        program.extend(fragment(random, variables));
    }
    program.truncate(length.max(4).min(greatest));
    program
}

fn make(code: u64, a: usize, b: usize, c: usize) -> Instruction {
    Instruction { code, a, b, c }
}

/// A few instructions that do something with a variable, or one at random.
fn fragment(random: &mut Random, variables: usize) -> Vec<Instruction> {
    let (v, w, i, o) = (random.below(variables), random.below(variables), random.below(4), random.below(4));
    match random.below(10) {
        0 => vec![make(1, 0, i, 0), make(3, 1, v, 0), make(4, v, 0, 0), make(11, o, 1, 0)],
        1 => vec![make(3, 0, v, 0), make(1, 1, i, 0), make(7, 0, 1, 0), make(4, v, 0, 0), make(11, o, 0, 0)],
        2 => vec![make(2, 0, 1, 0), make(3, 1, v, 0), make(8, 0, 1, 0), make(4, v, 0, 0)],
        3 => vec![make(1, 0, i, 0), make(5, 1, 0, 0), make(11, o, 1, 0), make(1, 2, o, 0), make(6, 0, 2, 0)],
        4 => vec![make(3, 0, v, 0), make(5, 1, 0, 0), make(6, 1, 0, 0), make(11, o, 1, 0)],
        5 => vec![make(3, 0, v, 0), make(1, 3, i, 0), make(9 + o as u64 % 2, 0, 3, 1), make(4, w, 3, 0)],
        // writes and outputs before a touch that is a fault for many inputs
        6 => vec![make(1, 0, i, 0), make(4, v, 0, 0), make(11, o, 0, 0), make(5 + o as u64 % 2, 0, 0, 0)],
        _ => (0..3).map(|_| any_instruction(random, variables)).collect(),
    }
}

fn any_instruction(random: &mut Random, variables: usize) -> Instruction {
    let (a, b) = (random.below(4), random.below(4));
    match random.between(1, 16) as u64 {
        2 => make(2, a, value(random, variables) as usize, 0),
        3 => make(3, a, random.below(variables), 0),
        4 => make(4, random.below(variables), b, 0),
        code @ (9 | 10) => {
            make(code, a, b, if random.chance(80) { random.between(1, 3) } else { random.between(1, 31) })
        }
        12 if random.chance(30) => make(12, 0, 0, 0),
        12 | 15 | 16 => make(11, a, b, 0),
        code @ (13 | 14) => make(code, a, 0, 0),
        code => make(code, a, b, 0),
    }
}

// ---------------------------------------------------------------- cells taken and given back

/// A card with a chain of free cells from variable 0, whole or broken, and programs that take cells and give them back.
fn allocating(random: &mut Random, changes: usize) -> Case {
    let mut card = make_card(random, CONTENDED, false);
    let variables = random.between(2, 7);
    card.starting = make_chain(random, variables);
    let count = random.between(1, 4);
    card.programs = (0..count).map(|_| allocating_program(random, variables)).collect();
    let commands = random.between(60, 700);
    let calls = make_calls(random, &card, commands, changes);
    Case { card: Some(card_text(&card)), calls: Some(calls) }
}

/// Variable 0 holds the first of some cells, each the next; the last holds 0, or a number that is none or one met before.
fn make_chain(random: &mut Random, variables: usize) -> Vec<u32> {
    let mut starting: Vec<u32> = (0..variables).map(|_| value(random, variables)).collect();
    let mut cells: Vec<usize> = (1..variables).collect();
    cells.truncate(random.between(0, variables - 1));
    if random.chance(50) {
        cells.reverse();
    }
    let mut from = 0;
    for &cell in &cells {
        starting[from] = cell as u32;
        from = cell;
    }
    starting[from] = match random.below(10) {
        0 => variables as u32,
        1 => value(random, variables),
        2 => cells.first().map_or(0, |&cell| cell as u32),
        _ => 0,
    };
    starting
}

/// Takes, uses and gives back, in one operation or in several: the cell's number is told, and one is given back that an input names.
fn allocating_program(random: &mut Random, variables: usize) -> Vec<Instruction> {
    let (i, o, r) = (random.below(4), random.below(4), random.below(4));
    let mut program = match random.below(8) {
        0 => vec![make(13, r, 0, 0), make(11, o, r, 0)],
        1 => vec![make(1, r, i, 0), make(14, r, 0, 0), make(11, o, r, 0)],
        2 => vec![
            make(13, 0, 0, 0),
            make(1, 1, i, 0),
            make(6, 0, 1, 0),
            make(5, 2, 0, 0),
            make(11, o, 2, 0),
            make(14, 0, 0, 0),
        ],
        3 => vec![make(13, 0, 0, 0), make(13, 1, 0, 0), make(14, 0, 0, 0), make(14, 1, 0, 0), make(11, o, 0, 0)],
        4 => vec![make(13, 0, 0, 0), make(9, 0, 1, 2), make(1, 2, i, 0), make(6, 0, 2, 0), make(11, o, 0, 0)],
        5 => vec![make(3, 0, 0, 0), make(14, 0, 0, 0), make(13, 1, 0, 0), make(11, o, 1, 0)],
        6 => vec![make(13, r, 0, 0); random.between(1, 9)],
        _ => Vec::new(),
    };
    while program.len() < 8 && random.chance(40) {
        let place = random.below(program.len() + 1);
        program.insert(place, any_instruction(random, variables));
    }
    if program.is_empty() {
        program.push(make(13, r, 0, 0));
    }
    program
}

/// The card text of a card ('The card text').
pub fn card_text(card: &Card) -> Vec<u8> {
    let (variables, programs) = (card.starting.len(), card.programs.len());
    let mut text = format!("card,{},{variables},{programs},{}\n", card.processes, card.limit);
    for value in &card.starting {
        text += &format!("var,{value}\n");
    }
    text.extend(card.programs.iter().map(|program| program_text(program)));
    text.into_bytes()
}

/// The lines of a program, as a card and a change have them.
fn program_text(program: &[Instruction]) -> String {
    let line = |Instruction { code, a, b, c }: &Instruction| format!("ins,{code},{a},{b},{c}\n");
    format!("sheet,{}\n{}", program.len(), program.iter().map(line).collect::<String>())
}

/// 'Proving pieces': the longest card that opens, of 6,440 bytes.
pub fn longest_card() -> Card {
    let program = vec![make(2, 3, WORD_END as usize - 1, 0); 32];
    Card { processes: 8, limit: GREATEST_LIMIT, starting: vec![u32::MAX; 64], programs: vec![program; 8] }
}

// ---------------------------------------------------------------- commands

/// How the next process to step is chosen.
#[derive(Clone, Copy)]
enum Schedule {
    Uniform,
    RoundRobin,
    Bursts,
    /// One process takes a few steps, then the others run far past it.
    Stalls,
    /// Each process runs up to a randomly chosen access, so that late swaps meet.
    Gaps,
}

/// Writes commands while playing them on a machine, so that most of them are taken.
struct Play<'a> {
    random: &'a mut Random,
    machine: Machine,
    text: Vec<u8>,
    exits: usize,
    reads: usize,
    odd: usize,
    changes: usize,
    /// All calls alike, so that two announcements of a process differ in seq alone.
    alike: bool,
    written: usize,
    refused_by_limit: usize,
}

impl<'a> Play<'a> {
    fn new(random: &'a mut Random, card: Card, changes: usize) -> Play<'a> {
        let (exits, reads, odd) = (random.pick(&[0, 1, 4, 15]), random.pick(&[0, 25, 100]), random.pick(&[0, 2, 8]));
        let alike = random.chance(25);
        let machine = Machine::new(card);
        Play { random, machine, text: Vec::new(), exits, reads, odd, changes, alike, written: 0, refused_by_limit: 0 }
    }

    fn processes(&self) -> usize {
        self.machine.card.processes
    }

    fn write(&mut self, command: String) {
        self.text.extend(command.bytes());
        self.text.push(b'\n');
        self.written += 1;
    }

    fn call(&mut self, process: usize) {
        let variables = self.machine.card.starting.len();
        let programs = if self.alike { 1 } else { self.machine.card.programs.len() };
        let program = self.random.below(programs);
        let inputs = if self.alike { [1; 4] } else { [(); 4].map(|()| value(self.random, variables)) };
        let _ = self.machine.call(process as u32, program as u32, inputs);
        let [i0, i1, i2, i3] = inputs;
        self.write(format!("call,{process},{program},{i0},{i1},{i2},{i3}"));
    }

    fn step(&mut self, process: usize) {
        if self.machine.step(process as u32) == Err(10) {
            self.refused_by_limit += 1;
        }
        let verb = self.stepping();
        self.write(format!("{verb},{process}"));
    }

    /// A step is traced as often as not.
    fn stepping(&mut self) -> &'static str {
        self.random.pick(&["step", "trace"])
    }

    fn read(&mut self) {
        let variable = self.random.below(self.machine.card.starting.len());
        self.write(format!("look,{variable}"));
    }

    /// One turn of a process: a call if it has no operation under way, else a step.
    fn turn(&mut self, process: usize) {
        if self.changes != NO_CHANGES && self.random.chance(self.changes) {
            self.change();
        }
        if self.random.chance(self.odd) {
            self.odd_command(process);
        }
        if !self.machine.under_way(process) {
            return self.call(process);
        }
        if self.random.chance(self.exits) {
            let _ = self.machine.request_exit(process as u32);
            self.write(format!("wish,{process}"));
        }
        self.step(process);
        if self.random.chance(self.reads) {
            self.read();
        }
    }

    /// A command that is mostly refused: rows 5 to 9.
    fn odd_command(&mut self, process: usize) {
        let (p, s) = (self.processes() as u64, self.machine.card.programs.len() as u64);
        let n = self.machine.card.starting.len() as u64;
        let beyond =
            |random: &mut Random, end: u64| random.pick(&[end, end + 1, 64, 256 + end - 1, WORD_END - 1]).max(end);
        let (far_process, far_program) = (beyond(self.random, p), beyond(self.random, s));
        let far_variable = beyond(self.random, n);
        let command = match self.random.below(10) {
            0 => format!("call,{far_process},{far_program},1,2,3,4"),
            1 => format!("call,{process},{far_program},1,2,3,4"),
            2 => format!("wish,{far_process}"),
            3 | 4 => format!("{},{far_process}", self.stepping()),
            5 | 6 => format!("look,{far_variable}"),
            _ => return self.misplaced(process),
        };
        self.write(command);
    }

    /// Rows 7 and 8: a second call, or a step or exit request without an operation.
    fn misplaced(&mut self, process: usize) {
        if self.machine.under_way(process) {
            return self.call(process);
        }
        let verb = self.random.pick(&["step", "trace", "wish"]);
        self.write(format!("{verb},{process}"));
    }

    /// Plays a schedule until `commands` are written or the limit has refused a few steps.
    fn play(&mut self, schedule: Schedule, commands: usize) {
        let end = self.written + commands;
        let mut next = 0;
        while self.written < end && self.refused_by_limit < 4 {
            match schedule {
                Schedule::Uniform => self.turns_of_any(1),
                Schedule::RoundRobin => self.turn(next % self.processes()),
                Schedule::Bursts => self.burst(),
                Schedule::Stalls => self.stall(),
                Schedule::Gaps => self.gap(),
            }
            next += 1;
        }
    }

    fn turns_of_any(&mut self, turns: usize) {
        for _ in 0..turns {
            let process = self.random.below(self.processes());
            self.turn(process);
        }
    }

    fn burst(&mut self) {
        let process = self.random.below(self.processes());
        for _ in 0..self.random.between(1, 20) {
            self.turn(process);
        }
    }

    fn stall(&mut self) {
        let slow = self.random.below(self.processes());
        for _ in 0..self.random.between(1, 12) {
            self.turn(slow);
        }
        for _ in 0..self.random.between(4, 60) {
            let process = self.random.below(self.processes());
            if process != slow || self.processes() == 1 {
                self.turn(process);
            }
        }
    }

    fn gap(&mut self) {
        use crate::machine::Label::{C2, F3, H21, H36, P10, P13, P14, P16, P19, P20, P21, P6};
        let process = self.random.below(self.processes());
        let wanted = self.random.pick(&[P6, P10, C2, P13, P14, P16, H21, H36, P19, P20, P21, F3]);
        for _ in 0..self.random.between(5, 30) {
            self.turn(process);
            if self.machine.next_access(process) == Some(wanted) {
                return;
            }
        }
    }

    /// Past the limit rows 5 and 8 still come before 10, and calls and exit requests are still taken.
    fn after_limit(&mut self) {
        for process in 0..=self.processes() {
            let verb = self.stepping();
            self.write(format!("{verb},{process}"));
            self.write(format!("wish,{process}"));
            if self.random.chance(50) {
                self.write(format!("call,{process},0,1,2,3,4"));
                let verb = self.stepping();
                self.write(format!("{verb},{process}"));
            }
            if self.changes != NO_CHANGES {
                self.change();
            }
        }
    }

    /// Lets every operation return, then reads every variable.
    fn finish(&mut self) {
        for _ in 0..150 * self.processes() {
            let Some(process) = (0..self.processes()).find(|&process| self.machine.under_way(process)) else { break };
            if self.refused_by_limit >= 4 {
                break;
            }
            self.step(process);
        }
        for variable in 0..self.machine.card.starting.len() {
            self.write(format!("look,{variable}"));
        }
    }
}

// ---------------------------------------------------------------- changes

/// How many of a hundred turns begin with a change, in cases without any.
const NO_CHANGES: usize = 0;

/// Lines that are no change: the lines after them are commands.
#[rustfmt::skip]
const ODD_CHANGES: [&str; 18] = [
    "change", "change,", "change,0", "change,0,9", "change,0,9,2,0", "change,0,9,02", "change,0,09,2", "change,00,9,2",
    "change,0,4294967296,2", "change,0,9,4294967296", "change,4294967296,9,2", "change,0,18446744073709551617,2", "change,,9,2",
    "change,0,9,", "change,0,-9,2", "Change,0,9,2", "changes,0,9,2", "change,0,9,2\r",
];

impl Play<'_> {
    /// A change of a program, most often one that could be taken.
    fn change(&mut self) {
        let program = self.random.below(self.machine.card.programs.len()) as u32;
        let mut text = self.correction(program as usize);
        match self.random.below(20) {
            0..=12 => self.enter_change(program, &text),
            13..=16 => {
                self.damage_text(&mut text);
                self.enter_change(program, &text);
            }
            17 => self.change_elsewhere(text),
            18 => self.change_miscounted(program, text),
            _ => self.change_misformed(&text),
        }
    }

    /// A number near the gate's: as often as not the next one.
    fn from(&mut self) -> u64 {
        let seq = self.machine.cells.gate.seq;
        match self.random.below(20) {
            0 => self.random.pick(&[0, 1, seq - 1, seq + 40, WORD_END - 1]),
            1 | 2 => seq,
            3..=11 => seq + 1,
            12..=16 => seq + 2,
            _ => seq + self.random.between(3, 9) as u64,
        }
    }

    /// A text that the card's w allows: the opening text with one instruction altered, or another program.
    fn correction(&mut self, program: usize) -> Vec<u8> {
        let variables = self.machine.card.starting.len();
        let mut text = match self.random.below(10) {
            0..=3 => self.machine.card.programs[program].clone(),
            4 => allocating_program(self.random, variables),
            _ => make_program(self.random, variables, 10),
        };
        let place = self.random.below(text.len());
        text[place] = any_instruction(self.random, variables);
        lighten(&mut text, self.machine.card.weight());
        program_text(&text).into_bytes()
    }

    /// Writes a change and its text, and enters it.
    fn enter_change(&mut self, program: u32, text: &[u8]) {
        self.enter_told(program, split_lines(text).len(), text);
    }

    /// The same with the number of lines that the command tells.
    fn enter_told(&mut self, program: u32, told: usize, text: &[u8]) {
        let from = self.from();
        self.write(format!("change,{program},{from},{told}"));
        self.text.extend(text);
        let _ = self.machine.change(program, from, text);
    }

    /// A text that is refused, or nearly so, at any of its lines; its last line is ended, so that a command can follow.
    fn damage_text(&mut self, text: &mut Vec<u8>) {
        let (variables, weight) = (self.machine.card.starting.len(), self.machine.card.weight());
        match self.random.below(10) {
            0..=2 => damage_number(self.random, text),
            3 | 4 => damage(self.random, text),
            5 => damage_end(self.random, text),
            6 | 7 => self.put_instruction(text, variables),
            _ => *text = overweight_text(self.random, weight),
        }
        if text.last().is_some_and(|&byte| byte != 10) {
            text.push(b'\n');
        }
    }

    /// Any of the instructions becomes one with a code or an operand at or past an edge.
    fn put_instruction(&mut self, text: &mut Vec<u8>, variables: usize) {
        let mut lines = split_lines(text);
        let place = self.random.between(1, lines.len() - 1);
        let Instruction { code, a, b, c } = odd_operands(self.random, variables);
        lines[place] = format!("ins,{code},{a},{b},{c}\n").into_bytes();
        *text = lines.concat();
    }

    /// A program that is not there, with a good text or a bad one: refusal 6 is the first.
    fn change_elsewhere(&mut self, mut text: Vec<u8>) {
        let programs = self.machine.card.programs.len() as u32;
        if self.random.chance(50) {
            self.damage_text(&mut text);
        }
        let program = self.random.pick(&[programs, programs + 1, 255 + programs, u32::MAX]);
        self.enter_change(program, &text);
    }

    /// Fewer lines told than the text has, so that the others are commands; or more, so that commands are lines of the text.
    fn change_miscounted(&mut self, program: u32, mut text: Vec<u8>) {
        let lines = split_lines(&text);
        if self.random.chance(50) {
            let told = self.random.below(lines.len());
            self.enter_change(program, &lines[..told].concat());
            self.text.extend(lines[told..].concat());
        } else {
            let process = self.random.below(self.processes());
            text.extend(format!("step,{process}\nlook,0\n").bytes());
            self.enter_change(program, &text);
        }
    }

    /// A line that is no change: the lines of its text are commands, and so is what follows.
    fn change_misformed(&mut self, text: &[u8]) {
        let line = self.random.pick(&ODD_CHANGES).to_string();
        self.write(line);
        self.text.extend(text);
        self.read();
    }

    /// A change at the end of the file, with fewer lines than it tells or an unended last one.
    fn last_change(&mut self) {
        let program = self.random.below(self.machine.card.programs.len()) as u32;
        let mut text = self.correction(program as usize);
        let lines = split_lines(&text).len();
        match self.random.below(6) {
            0 => text.clear(),
            1 => text.truncate(self.random.below(text.len())),
            2 | 3 => drop(text.pop()),
            _ => (),
        }
        let more = self.random.pick(&[0, 1, 2, 70_000, WORD_END as usize - 1 - lines]);
        self.enter_told(program, lines + more, &text);
    }
}

/// Drops instructions from the end until a program counts no more than `heaviest`.
fn lighten(program: &mut Vec<Instruction>, heaviest: u64) {
    while weight(program) > heaviest {
        let heavy = program.iter().rposition(|&instruction| weight(&[instruction]) > 0);
        heavy.map(|place| program.remove(place));
    }
    if program.is_empty() {
        program.push(make(11, 0, 0, 0));
    }
}

/// A program that counts as much as the card's w or a little more, with a line left over or without: 14 comes first.
fn overweight_text(random: &mut Random, weight: u64) -> Vec<u8> {
    let weight = (weight as usize + random.between(0, 2)).min(34);
    let twice = random.between(weight.saturating_sub(32), weight / 2);
    let mut program = vec![make(13, random.below(4), 0, 0); twice];
    program.extend(vec![make(3, random.below(4), 0, 0); weight - 2 * twice]);
    if program.is_empty() {
        program.push(make(12, 0, 0, 0));
    }
    let left_over = random.pick(&["", "", "\n", "ins,12,0,0,0\n", "look,0\n"]);
    (program_text(&program) + left_over).into_bytes()
}

/// Texts at an edge of their size, among other commands or at the end of the file.
fn edge_of_change(random: &mut Random, changes: usize) -> Case {
    let card = make_card(random, CONTENDED, false);
    let last = random.chance(50);
    let size = random.pick(&[TEXT_LIMIT, TEXT_LIMIT + 1, TEXT_LIMIT + 2, 40_000]);
    let mut play = Play::new(random, card.clone(), changes);
    play.play(Schedule::Uniform, 200);
    let program = play.random.below(card.programs.len()) as u32;
    let text = play.correction(program as usize);
    let mut text = padded_text(play.random, text, size);
    if !last {
        text[size - 1] = b'\n';
    }
    play.enter_change(program, &text);
    if !last {
        play.play(Schedule::Bursts, 200);
    }
    Case { card: Some(card_text(&card)), calls: Some(play.text) }
}

/// A change's text filled up to `size` bytes by left-over lines, one long line, or a long number in the first line or the last.
fn padded_text(random: &mut Random, mut text: Vec<u8>, size: usize) -> Vec<u8> {
    match random.below(5) {
        0 => text.resize(size, b'\n'),
        1 => text.extend(b"ins,12,0,0,0\n".iter().cycle().copied().take(size - text.len())),
        2 => text = [b"sheet,".to_vec(), vec![b'1'; size - 7], b"\n".to_vec()].concat(),
        3 => text = [b"sheet,1\nins,11,0,".to_vec(), vec![b'1'; size - 20], b",0\n".to_vec()].concat(),
        _ => text.resize(size, b'7'),
    }
    text
}

fn make_calls(random: &mut Random, card: &Card, commands: usize, changes: usize) -> Vec<u8> {
    let schedules = [Schedule::Uniform, Schedule::RoundRobin, Schedule::Bursts, Schedule::Stalls, Schedule::Gaps];
    let (schedule, to_the_end) = (random.pick(&schedules), random.chance(60));
    let mut play = Play::new(random, card.clone(), changes);
    play.play(schedule, commands);
    if to_the_end {
        play.finish();
    }
    if play.refused_by_limit > 0 {
        play.after_limit();
    }
    if changes != NO_CHANGES && play.random.chance(40) {
        play.last_change();
    }
    play.text
}

fn valid(random: &mut Random, shape: Shape, small_limit: bool, changes: usize) -> Case {
    let card = make_card(random, shape, small_limit);
    let commands = match random.below(10) {
        0..=2 => random.between(1, 60),
        3..=8 => random.between(60, 500),
        _ => random.between(500, 3000),
    };
    let calls = make_calls(random, &card, commands, changes);
    Case { card: Some(card_text(&card)), calls: Some(calls) }
}

// ---------------------------------------------------------------- damage

/// Fields that stand at or past an edge of a range, or have the wrong form.
#[rustfmt::skip]
const ODD_FIELDS: [&str; 40] = [
    "", "0", "00", "01", "07", "1", "2", "3", "4", "5", "7", "8", "9", "11", "12", "13", "31", "32", "33", "63", "64", "65",
    "255", "256", "257", "4294967295", "4294967296", "4294967297", "18446744073709551615", "18446744073709551617",
    "1000000000000000000", "1000000000000000001", "-1", "+1", "1.0", " 1", "1 ", "0x1",
    "1000000000000000000000000000000000000001", "0000000000000000000000000000000000000001",
];

/// Well-formed numbers at or past an edge of a range, or that would wrap into one.
#[rustfmt::skip]
const EDGE_NUMBERS: [&str; 24] = [
    "0", "1", "3", "4", "5", "8", "9", "12", "13", "31", "32", "33", "64", "65", "256", "4294967295", "4294967296", "4294967297",
    "1000000000000000000", "1000000000000000001", "18446744073709551615", "18446744073709551616", "18446744073709551617",
    "1000000000000000000000000000000000000001",
];

const ODD_BYTES: [u8; 14] = [0, 9, 10, 13, b' ', b',', b';', b'-', b'/', b':', b'0', b'9', b'A', 200];

#[rustfmt::skip]
const ODD_ENDS: [&str; 10] = ["\n", "x", "0", "\r\n", "var,1\n", "ins,12,0,0,0\n", "sheet,1\n", "step,0", "look,0,\n", ",\n"];

/// A wrong verb, a wrong count of fields.
#[rustfmt::skip]
const ODD_LINES: [&str; 16] = [
    "\n", "stop,0\n", "Step,0\n", "steps,0\n", "step\n", "step,\n", "step,0,0\n", "call,0,0,1,2,3\n", "call,0,0,1,2,3,4,5\n",
    ",step,0\n", "look 0\n", "card,1,1,1,1\n", "trace\n", "trace,0,0\n", "traces,0\n", "tracE,0\n",
];

pub fn split_lines(text: &[u8]) -> Vec<Vec<u8>> {
    text.split_inclusive(|&byte| byte == 10).map(<[u8]>::to_vec).collect()
}

fn damage(random: &mut Random, text: &mut Vec<u8>) {
    if text.is_empty() {
        return;
    }
    match random.below(12) {
        0 => damage_byte(random, text),
        1 => text.truncate(random.below(text.len())),
        2 | 3 => damage_end(random, text),
        4..=6 => damage_lines(random, text),
        _ => damage_field(random, text),
    }
}

/// An unended last line, or something left over.
fn damage_end(random: &mut Random, text: &mut Vec<u8>) {
    match random.below(4) {
        0 => drop(text.pop()),
        1 => text.push(b'\n'),
        _ => text.extend(random.pick(&ODD_ENDS).bytes()),
    }
}

fn damage_byte(random: &mut Random, text: &mut Vec<u8>) {
    let place = random.below(text.len());
    match random.below(4) {
        0 => text[place] ^= 1 << random.below(8),
        1 => text[place] = random.pick(&ODD_BYTES),
        2 => text.insert(place, random.pick(&ODD_BYTES)),
        _ => drop(text.remove(place)),
    }
}

/// Drops, doubles, swaps or inserts a line.
fn damage_lines(random: &mut Random, text: &mut Vec<u8>) {
    let mut lines = split_lines(text);
    let (place, other) = (random.below(lines.len()), random.below(lines.len()));
    match random.below(4) {
        0 => drop(lines.remove(place)),
        1 => lines.insert(place, lines[place].clone()),
        2 => lines.swap(place, other),
        _ => lines.insert(place, random.pick(&ODD_LINES).as_bytes().to_vec()),
    }
    *text = lines.concat();
}

/// Replaces, drops or adds a field, or gives it a leading zero; first lines are damaged more often.
fn damage_field(random: &mut Random, text: &mut Vec<u8>) {
    let mut lines = split_lines(text);
    let place = if random.chance(25) { 0 } else { random.below(lines.len()) };
    let line = String::from_utf8_lossy(lines[place].strip_suffix(b"\n").unwrap_or(&lines[place])).into_owned();
    let mut parts: Vec<String> = line.split(',').map(str::to_string).collect();
    let field = random.below(parts.len()).max(random.below(parts.len()));
    match random.below(8) {
        0 => drop(parts.remove(field)),
        1 => parts.insert(field, random.pick(&ODD_FIELDS).to_string()),
        2 => parts[field].insert(0, '0'),
        _ => parts[field] = random.pick(&ODD_FIELDS).to_string(),
    }
    lines[place] = format!("{}\n", parts.join(",")).into_bytes();
    *text = lines.concat();
}

/// Puts a well-formed number at or past an edge in the place of a number: rows 3 and 4.
fn damage_number(random: &mut Random, text: &mut Vec<u8>) {
    let mut lines = split_lines(text);
    let place = if random.chance(30) { 0 } else { random.below(lines.len().max(1)) };
    let Some(line) = lines.get_mut(place) else { return };
    let shown = String::from_utf8_lossy(line).into_owned();
    let mut parts: Vec<&str> = shown.trim_end_matches('\n').split(',').collect();
    if parts.len() > 1 {
        let field = random.between(1, parts.len() - 1);
        parts[field] = random.pick(&EDGE_NUMBERS);
        *line = format!("{}\n", parts.join(",")).into_bytes();
    }
    *text = lines.concat();
}

fn damaged_card(random: &mut Random) -> Case {
    let shape = if random.chance(80) { CONTENDED } else { WIDE };
    let card = make_card(random, shape, false);
    let calls = make_calls(random, &card, 40, NO_CHANGES);
    let mut text = card_text(&card);
    for _ in 0..random.pick(&[1, 1, 1, 2, 3]) {
        match random.below(10) {
            0..=4 => damage_number(random, &mut text),
            5..=6 => damage_end(random, &mut text),
            _ => damage(random, &mut text),
        }
    }
    Case { card: Some(text), calls: Some(calls) }
}

/// A card with one instruction whose code or operands stand at or past an edge: 4, 12 or 13, or just not; or with one program at the edge of its
/// weight, at or past 14.
fn odd_instruction(random: &mut Random) -> Case {
    let mut card = make_card(random, CONTENDED, false);
    let calls = make_calls(random, &card, 40, NO_CHANGES);
    let variables = card.starting.len();
    let odd = odd_operands(random, variables);
    let program = random.below(card.programs.len());
    let place = random.below(card.programs[program].len());
    card.programs[program][place] = odd;
    if random.chance(20) {
        card.programs[program] = heavy_program(random, variables);
    }
    Case { card: Some(card_text(&card)), calls: Some(calls) }
}

/// An instruction whose code or operands stand at or past an edge.
fn odd_operands(random: &mut Random, variables: usize) -> Instruction {
    let mut odd = if random.chance(12) { make(12, 0, 0, 0) } else { any_instruction(random, variables) };
    let edge = random.pick(&[0, 1, 3, 4, variables - 1, variables, 31, 32, WORD_END as usize - 1, WORD_END as usize]);
    for _ in 0..random.pick(&[1, 1, 1, 2, 3]) {
        match random.below(7) {
            0 => odd.code = random.pick(&[0, 15, 255, 257, WORD_END + 1]),
            1 | 2 => odd.a = edge,
            3 | 4 => odd.b = edge,
            _ => odd.c = edge,
        }
    }
    odd
}

/// A program that counts 31 to 34.
fn heavy_program(random: &mut Random, variables: usize) -> Vec<Instruction> {
    let weight = random.between(31, 34);
    let twice = random.between(weight.saturating_sub(32), weight / 2);
    let mut program: Vec<Instruction> =
        (0..twice).map(|_| make(random.pick(&[13, 14]), random.below(4), 0, 0)).collect();
    let single = |random: &mut Random| make(random.pick(&[3, 5]), random.below(4), random.below(variables.min(4)), 0);
    program.extend((0..weight - 2 * twice).map(|_| single(random)));
    program
}

fn damaged_calls(random: &mut Random, changes: usize) -> Case {
    let card = make_card(random, CONTENDED, false);
    let commands = random.between(1, 200);
    let mut calls = make_calls(random, &card, commands, changes);
    for _ in 0..random.between(1, 30) {
        damage(random, &mut calls);
    }
    Case { card: Some(card_text(&card)), calls: Some(calls) }
}

// ---------------------------------------------------------------- sizes

/// Files that are not there, empty, or at an edge of their size.
fn edge_of_size(random: &mut Random) -> Case {
    let card = make_card(random, CONTENDED, false);
    let text = card_text(&card);
    let calls = make_calls(random, &card, 60, NO_CHANGES);
    match random.below(12) {
        0 => Case { card: None, calls: Some(calls) },
        1 => Case { card: Some(Vec::new()), calls: Some(calls) },
        2 => Case { card: Some(text), calls: None },
        3 => Case { card: Some(text), calls: Some(Vec::new()) },
        4 => Case { card: Some(padded_card(random, text, TEXT_LIMIT)), calls: Some(calls) },
        5 => Case { card: Some(padded_card(random, text, TEXT_LIMIT + 1)), calls: Some(calls) },
        6 => Case { card: Some(text), calls: Some(padded_calls(random, &card, CALLS_LIMIT)) },
        7 => Case { card: Some(text), calls: Some(padded_calls(random, &card, CALLS_LIMIT + 1)) },
        8 => Case { card: Some(b"var,07\n".to_vec()), calls: Some(padded_calls(random, &card, CALLS_LIMIT + 1)) },
        9 => longest(random),
        10 => Case { card: Some(one_too_many(random)), calls: Some(calls) },
        _ => Case { card: Some(text), calls: Some(one_long_line(random)) },
    }
}

/// A card text filled up to `size` bytes by left-over lines, one long line, or a long number in the first line.
fn padded_card(random: &mut Random, mut text: Vec<u8>, size: usize) -> Vec<u8> {
    match random.below(4) {
        0 => text.resize(size, b'\n'),
        1 => text.extend(b"ins,12,0,0,0\n".iter().cycle().copied().take(size - text.len())),
        2 => text = [b"card,".to_vec(), vec![b'1'; size - 6], b"\n".to_vec()].concat(),
        _ => text.resize(size, b'7'),
    }
    text
}

/// Commands of exactly `size` bytes; the rest is filled with reads of 7 and 8 bytes, of which any rest from 42 can be made.
fn padded_calls(random: &mut Random, card: &Card, size: usize) -> Vec<u8> {
    let mut calls = make_calls(random, card, 6000, NO_CHANGES);
    let mut lines = split_lines(&calls);
    while calls.len() + 42 > size {
        calls.truncate(calls.len() - lines.pop().map_or(0, |line| line.len()));
    }
    let rest = size - calls.len();
    let long = rest % 7;
    calls.extend(b"look,99\n".repeat(long));
    calls.extend(b"look,0\n".repeat((rest - 8 * long) / 7));
    calls
}

fn longest(random: &mut Random) -> Case {
    let card = longest_card();
    let commands = random.between(10, 300);
    Case { calls: Some(make_calls(random, &card, commands, NO_CHANGES)), card: Some(card_text(&card)) }
}

/// 'Proving pieces': 65 variables and 33 instructions are refusal 3; so are 9 processes and 9 programs.
fn one_too_many(random: &mut Random) -> Vec<u8> {
    let mut card = longest_card();
    match random.below(4) {
        0 => card.processes = 9,
        1 => card.starting.push(1),
        2 => card.programs.push(vec![make(12, 0, 0, 0)]),
        _ => card.programs[7].push(make(12, 0, 0, 0)),
    }
    card_text(&card)
}

/// One command line of many digits, followed by a good one.
fn one_long_line(random: &mut Random) -> Vec<u8> {
    let digits = random.pick(&[10, 20, 40, 5000, 60_000]);
    let digit = random.pick(&["0", "1", "9"]);
    format!("look,{}\nlook,0\n", digit.repeat(digits)).into_bytes()
}
