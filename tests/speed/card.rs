//! The card of document 01 as straightforward Rust, changed in place: what the speed of proved programs is measured against.

#[derive(Clone, Copy, PartialEq)]
pub enum Holder {
    Nobody,
    Process(u8),
}

#[derive(Clone, Copy, PartialEq)]
pub struct Gate {
    pub holder: Holder,
    pub seq: u64,
}

#[derive(Clone, Copy, PartialEq)]
pub enum Flag {
    Done,
    Active,
    Exit,
}

pub type Words = [u32; 4];

#[derive(Clone, Copy, PartialEq)]
pub struct Announcement {
    pub program: u8,
    pub flag: Flag,
    pub seq: u64,
    pub number: u64,
    pub words: Words,
    pub fault: bool,
}

#[derive(Clone, Copy, PartialEq)]
pub struct Record {
    pub val: [u32; 2],
    pub toggle: bool,
    pub seq: u64,
}

#[derive(Clone, Copy)]
pub enum Instruction {
    Input(u8, u8),
    Constant(u8, u32),
    Load(u8, u8),
    Store(u8, u8),
    LoadAt(u8, u8),
    StoreAt(u8, u8),
    Add(u8, u8),
    Subtract(u8, u8),
    SkipEqual(u8, u8, u8),
    SkipLess(u8, u8, u8),
    Output(u8, u8),
    Stop,
    Allocate(u8),
    Free(u8),
}

/// What an instruction waits for: a variable that is not noted, its end as a fault, or nothing, with the items that it touches.
enum Touch {
    Lacks(u8),
    Fault,
    Items(usize, usize),
}

#[derive(Clone, Copy, PartialEq)]
enum Place {
    Idle,
    P1,
    P3,
    P5,
    P7,
    P10,
    C2,
    C4,
    P13,
    P14,
    P16,
    H21,
    H36,
    P19,
    P20,
    P21,
    P22,
    F1,
    F3,
}

#[derive(Clone, Copy)]
struct Item {
    variable: u8,
    value: u32,
    cell: Record,
}

/// The local state of a process. The target is the nominee at P13, the variable at H21, the item at H36.
struct Process {
    place: Place,
    target: u8,
    program: u8,
    inputs: Words,
    exit: bool,
    steps: u64,
    gate: Gate,
    copy: Announcement,
    counter: u8,
    registers: Words,
    outputs: Words,
    fault: bool,
    items: Vec<Item>,
}

impl Clone for Process {
    fn clone(&self) -> Process {
        Process { items: self.items.clone(), ..*self }
    }

    /// Keeps the room that the items have.
    fn clone_from(&mut self, other: &Process) {
        let mut items = std::mem::take(&mut self.items);
        items.clone_from(&other.items);
        *self = Process { items, ..*other };
    }
}

/// A card; its programs, which no step changes, are shared with its copies.
pub struct Card<'a> {
    limit: u64,
    steps: u64,
    pub gate: Gate,
    pub announcements: Vec<Announcement>,
    pub records: Vec<Record>,
    processes: Vec<Process>,
    programs: &'a [Vec<Instruction>],
}

impl Clone for Card<'_> {
    fn clone(&self) -> Self {
        let (announcements, records) = (self.announcements.clone(), self.records.clone());
        Card { announcements, records, processes: self.processes.clone(), ..*self }
    }

    /// Keeps the room that the cells and processes have.
    fn clone_from(&mut self, other: &Self) {
        (self.limit, self.steps, self.gate, self.programs) = (other.limit, other.steps, other.gate, other.programs);
        self.announcements.clone_from(&other.announcements);
        self.records.clone_from(&other.records);
        self.processes.clone_from(&other.processes);
    }
}

/// Done with the gate number, the outputs, whether it is a fault, and the own steps.
pub enum Answer {
    Taken,
    Run,
    Done(u64, Words, bool, u64),
    Exited(u64),
    Refused(u8),
}

fn swap<T: Copy + PartialEq>(cell: &mut T, expected: T, new: T) {
    if *cell == expected {
        *cell = new;
    }
}

fn released(gate: Gate) -> Gate {
    Gate { holder: Holder::Nobody, seq: gate.seq + 1 }
}

fn by_flag(flag: Flag, done: Place, active: Place, exit: Place) -> Place {
    match flag {
        Flag::Done => done,
        Flag::Active => active,
        Flag::Exit => exit,
    }
}

impl<'a> Card<'a> {
    pub fn open(processes: usize, starts: &[u32], programs: &'a [Vec<Instruction>], limit: u64) -> Card<'a> {
        let cell = Record { val: [0, 0], toggle: false, seq: 0 };
        let announcement =
            Announcement { program: 0, flag: Flag::Done, seq: 0, number: 0, words: [0; 4], fault: false };
        let process = Process {
            place: Place::Idle,
            target: 0,
            program: 0,
            inputs: [0; 4],
            exit: false,
            steps: 0,
            gate: Gate { holder: Holder::Nobody, seq: 0 },
            copy: announcement,
            counter: 0,
            registers: [0; 4],
            outputs: [0; 4],
            fault: false,
            items: Vec::with_capacity(32),
        };
        Card {
            limit,
            steps: 0,
            gate: Gate { holder: Holder::Nobody, seq: 1 },
            announcements: vec![announcement; processes],
            records: starts.iter().map(|&start| Record { val: [start, 0], ..cell }).collect(),
            processes: vec![process; processes],
            programs,
        }
    }

    pub fn call(&mut self, i: usize, program: usize, inputs: Words) -> Answer {
        if i >= self.processes.len() {
            return Answer::Refused(5);
        }
        if program >= self.programs.len() {
            return Answer::Refused(6);
        }
        let process = &mut self.processes[i];
        if process.place != Place::Idle {
            return Answer::Refused(7);
        }
        process.place = Place::P1;
        process.target = 0;
        process.program = program as u8;
        process.inputs = inputs;
        process.exit = false;
        process.steps = 0;
        Answer::Taken
    }

    /// Whether a process has an operation under way.
    pub fn is_busy(&self, i: usize) -> bool {
        self.processes[i].place != Place::Idle
    }

    pub fn step(&mut self, i: usize) -> Answer {
        if i >= self.processes.len() {
            return Answer::Refused(5);
        }
        if self.processes[i].place == Place::Idle {
            return Answer::Refused(8);
        }
        if self.limit <= self.steps {
            return Answer::Refused(10);
        }
        self.access(i);
        self.steps += 1;
        let process = &mut self.processes[i];
        process.steps += 1;
        match (process.place, process.copy.flag) {
            (Place::Idle, Flag::Exit) => Answer::Exited(process.steps),
            (Place::Idle, _) => {
                Answer::Done(process.copy.number, process.copy.words, process.copy.fault, process.steps)
            }
            _ => Answer::Run,
        }
    }

    /// One shared access, and the local work up to the next.
    fn access(&mut self, i: usize) {
        match self.processes[i].place {
            Place::Idle => (),
            Place::P1 => self.read_gate(i, Place::P3, Place::P3),
            Place::P3 => self.announce(i),
            Place::P5 if self.processes[i].exit => self.withdraw(i),
            Place::P5 | Place::P10 => self.read_gate(i, Place::P16, Place::C2),
            Place::P7 => self.read_own(i, Place::F1, Place::P10, Place::P10),
            Place::C2 => self.read_first(i),
            Place::C4 => self.read_own(i, Place::F1, Place::P13, Place::P13),
            Place::P13 => self.nominate(i),
            Place::P14 => self.read_gate(i, Place::P16, Place::P22),
            Place::P16 => self.begin_help(i),
            Place::H21 => self.read_record(i),
            Place::H36 => self.write_record(i),
            Place::P19 => self.finish(i, Flag::Active, Place::P20),
            Place::P20 => self.finish(i, Flag::Exit, Place::P21),
            Place::P21 => self.release(i, Place::P22),
            Place::P22 => self.read_own(i, Place::F1, Place::P5, Place::Idle),
            Place::F1 => self.read_last(i),
            Place::F3 => self.release(i, Place::Idle),
        }
    }

    fn read_gate(&mut self, i: usize, held: Place, free: Place) {
        let process = &mut self.processes[i];
        process.gate = self.gate;
        process.place = if self.gate.holder == Holder::Nobody { free } else { held };
    }

    fn read_last(&mut self, i: usize) {
        let process = &mut self.processes[i];
        process.gate = self.gate;
        process.place = if self.gate.holder == Holder::Process(i as u8) { Place::F3 } else { Place::Idle };
    }

    fn nominate(&mut self, i: usize) {
        let process = &mut self.processes[i];
        let held = Gate { holder: Holder::Process(process.target), seq: process.gate.seq };
        swap(&mut self.gate, process.gate, held);
        process.place = Place::P14;
    }

    fn release(&mut self, i: usize, next: Place) {
        let process = &mut self.processes[i];
        swap(&mut self.gate, process.gate, released(process.gate));
        process.place = next;
    }

    fn announce(&mut self, i: usize) {
        let process = &mut self.processes[i];
        process.copy = Announcement {
            program: process.program,
            flag: Flag::Active,
            seq: process.gate.seq,
            number: 0,
            words: process.inputs,
            fault: false,
        };
        self.announcements[i] = process.copy;
        process.place = Place::P5;
    }

    fn withdraw(&mut self, i: usize) {
        let process = &mut self.processes[i];
        let exit = Announcement { flag: Flag::Exit, number: 0, words: process.inputs, fault: false, ..process.copy };
        swap(&mut self.announcements[i], process.copy, exit);
        process.place = Place::P7;
    }

    fn read_own(&mut self, i: usize, done: Place, active: Place, exit: Place) {
        let process = &mut self.processes[i];
        process.copy = self.announcements[i];
        process.target = i as u8;
        process.place = by_flag(process.copy.flag, done, active, exit);
    }

    fn read_first(&mut self, i: usize) {
        let count = self.processes.len() as u64;
        let process = &mut self.processes[i];
        process.target = (process.gate.seq % count) as u8;
        process.copy = self.announcements[process.target as usize];
        process.place = by_flag(process.copy.flag, Place::C4, Place::P13, Place::C4);
    }

    fn holder(&self, i: usize) -> usize {
        match self.processes[i].gate.holder {
            Holder::Nobody => 0,
            Holder::Process(m) => m as usize,
        }
    }

    fn begin_help(&mut self, i: usize) {
        let read = self.announcements[self.holder(i)];
        let process = &mut self.processes[i];
        process.copy = read;
        if read.flag == Flag::Done || process.gate.seq < read.seq {
            process.place = Place::P21;
            return;
        }
        process.counter = 0;
        process.registers = [0; 4];
        process.outputs = [0; 4];
        process.fault = false;
        process.items.clear();
        process.simulate(&self.programs[read.program as usize], self.records.len());
    }

    fn read_record(&mut self, i: usize) {
        let process = &mut self.processes[i];
        let cell = self.records[process.target as usize];
        if process.gate.seq < cell.seq {
            process.place = Place::P19;
            return;
        }
        let side = if cell.seq < process.gate.seq { cell.toggle } else { !cell.toggle };
        process.items.push(Item { variable: process.target, value: cell.val[side as usize], cell });
        process.simulate(&self.programs[process.copy.program as usize], self.records.len());
    }

    fn write_record(&mut self, i: usize) {
        let process = &mut self.processes[i];
        let item = process.items[process.target as usize];
        let mut new = Record { toggle: !item.cell.toggle, seq: process.gate.seq, ..item.cell };
        new.val[new.toggle as usize] = item.value;
        swap(&mut self.records[item.variable as usize], item.cell, new);
        process.write_from(process.target as usize + 1);
    }

    fn finish(&mut self, i: usize, flag: Flag, next: Place) {
        let holder = self.holder(i);
        let process = &mut self.processes[i];
        let expected = Announcement { flag, ..process.copy };
        let (number, words, fault) = (process.gate.seq, process.outputs, process.fault);
        let done = Announcement { flag: Flag::Done, number, words, fault, ..process.copy };
        swap(&mut self.announcements[holder], expected, done);
        process.place = next;
    }
}

impl Process {
    fn find(&self, variable: u8) -> Option<usize> {
        self.items.iter().position(|item| item.variable == variable)
    }

    /// The next write from an item on, or P19.
    fn write_from(&mut self, from: usize) {
        for k in from..self.items.len() {
            let item = &self.items[k];
            if item.cell.seq < self.gate.seq && item.cell.val[item.cell.toggle as usize] != item.value {
                self.place = Place::H36;
                self.target = k as u8;
                return;
            }
        }
        self.place = Place::P19;
        self.target = 0;
    }

    /// The program runs until it ends, or ends as a fault, or the dictionary lacks a variable.
    fn simulate(&mut self, program: &[Instruction], variables: usize) {
        while let Some(&instruction) = program.get(self.counter as usize) {
            match self.touched(instruction, variables) {
                Touch::Fault => {
                    self.outputs = [0; 4];
                    self.fault = true;
                    self.place = Place::P19;
                    self.target = 0;
                    return;
                }
                Touch::Lacks(variable) => {
                    self.place = Place::H21;
                    self.target = variable;
                    return;
                }
                Touch::Items(first, second) => {
                    if !self.execute(instruction, first, second) {
                        break;
                    }
                }
            }
        }
        self.write_from(0);
    }

    /// The variables that an instruction reads or writes, in sequence; where it is one, twice the same.
    fn touched(&self, instruction: Instruction, variables: usize) -> Touch {
        match instruction {
            Instruction::Load(_, variable) | Instruction::Store(variable, _) => {
                self.items(variable as u32, variable as u32, variables)
            }
            Instruction::LoadAt(_, address) | Instruction::StoreAt(address, _) => {
                let number = self.registers[address as usize];
                self.items(number, number, variables)
            }
            Instruction::Allocate(_) => match self.find(0) {
                None => Touch::Lacks(0),
                Some(first) => self.items(0, self.items[first].value, variables),
            },
            Instruction::Free(a) => match self.registers[a as usize] {
                0 => Touch::Fault,
                number => self.items(0, number, variables),
            },
            _ => Touch::Items(0, 0),
        }
    }

    fn items(&self, first: u32, second: u32, variables: usize) -> Touch {
        if variables <= first.max(second) as usize {
            return Touch::Fault;
        }
        match (self.find(first as u8), self.find(second as u8)) {
            (None, _) => Touch::Lacks(first as u8),
            (_, None) => Touch::Lacks(second as u8),
            (Some(first), Some(second)) => Touch::Items(first, second),
        }
    }

    /// One instruction; false at a stop.
    fn execute(&mut self, instruction: Instruction, first: usize, second: usize) -> bool {
        self.counter += 1;
        let r = &mut self.registers;
        match instruction {
            Instruction::Input(a, b) => r[a as usize] = self.copy.words[b as usize],
            Instruction::Constant(a, b) => r[a as usize] = b,
            Instruction::Load(a, _) | Instruction::LoadAt(a, _) => r[a as usize] = self.items[first].value,
            Instruction::Store(_, b) | Instruction::StoreAt(_, b) => self.items[first].value = r[b as usize],
            Instruction::Add(a, b) => r[a as usize] = r[a as usize].saturating_add(r[b as usize]),
            Instruction::Subtract(a, b) => r[a as usize] = r[a as usize].saturating_sub(r[b as usize]),
            Instruction::SkipEqual(a, b, c) if r[a as usize] == r[b as usize] => self.counter += c,
            Instruction::SkipLess(a, b, c) if r[a as usize] < r[b as usize] => self.counter += c,
            Instruction::SkipEqual(..) | Instruction::SkipLess(..) => (),
            Instruction::Output(a, b) => self.outputs[a as usize] = r[b as usize],
            Instruction::Stop => return false,
            // without a free cell, variable 0 is its own: it is 0 and stays so
            Instruction::Allocate(a) => {
                r[a as usize] = self.items[first].value;
                self.items[first].value = self.items[second].value;
                self.items[second].value = 0;
            }
            Instruction::Free(a) => {
                self.items[second].value = self.items[first].value;
                self.items[first].value = r[a as usize];
            }
        }
        true
    }
}
