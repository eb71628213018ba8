//! The card of document 01: its text, its shared cells and its steps, with the orders of document 02.
//! Written from these documents and the paper's numbered lines alone, so that it can judge the bench program.

use std::ops::Range;

/// 'The card text': at most this many bytes.
pub const TEXT_LIMIT: usize = 16_384;
/// 'The card and its edges': the greatest step limit.
pub const GREATEST_LIMIT: u64 = 1_000_000_000_000_000_000;
/// Document 02, order 9: the most that a program may count towards w.
pub const HEAVIEST: u64 = 32;
/// One past the greatest 32-bit word.
pub const WORD_END: u64 = 1 << 32;

// ---------------------------------------------------------------- lines and fields

/// A line without its byte 10; the last line of a text may lack it.
pub struct Line<'a> {
    pub bytes: &'a [u8],
    pub ended: bool,
}

/// The lines of a text. What stands after the last byte 10 is a line if it has a byte.
pub fn lines(text: &[u8]) -> Vec<Line<'_>> {
    text.split_inclusive(|&byte| byte == 10).map(line).collect()
}

/// A line from its bytes, its byte 10 among them.
pub fn line(bytes: &[u8]) -> Line<'_> {
    match bytes.strip_suffix(b"\n") {
        Some(bytes) => Line { bytes, ended: true },
        None => Line { bytes, ended: false },
    }
}

/// How many bytes the first lines of a text have, all of it where it has no more lines.
pub fn length_of_lines(text: &[u8], count: usize) -> usize {
    text.split_inclusive(|&byte| byte == 10).take(count).map(<[u8]>::len).sum()
}

/// A decimal number without sign or leading zero. A number too large for 64 bits has the right form;
/// it becomes the greatest 64-bit number, which is out of every range.
pub fn number(field: &[u8]) -> Option<u64> {
    let digits_only = !field.is_empty() && field.iter().all(u8::is_ascii_digit);
    let leading_zero = field.len() > 1 && field[0] == b'0';
    if !digits_only || leading_zero {
        return None;
    }
    let push = |value: u64, digit: &u8| value.saturating_mul(10).saturating_add(u64::from(digit - b'0'));
    Some(field.iter().fold(0, push))
}

/// The numbers of an ended line that consists of `word` and exactly `count` number fields.
pub fn fields(line: &Line, word: &str, count: usize) -> Option<Vec<u64>> {
    let mut parts = line.bytes.split(|&byte| byte == b',');
    if !line.ended || parts.next() != Some(word.as_bytes()) {
        return None;
    }
    let numbers = parts.map(number).collect::<Option<Vec<u64>>>()?;
    (numbers.len() == count).then_some(numbers)
}

// ---------------------------------------------------------------- the card text

/// One line of the instruction table; operands as they stand in the text.
#[derive(Clone, Copy, Debug, PartialEq, Eq)]
pub struct Instruction {
    pub code: u64,
    pub a: usize,
    pub b: usize,
    pub c: usize,
}

/// What a card text says.
#[derive(Clone, Debug, PartialEq, Eq)]
pub struct Card {
    pub processes: usize,
    pub limit: u64,
    pub starting: Vec<u32>,
    pub programs: Vec<Vec<Instruction>>,
}

impl Card {
    /// Document 02, order 3, 'w': the largest weight of any program.
    pub fn weight(&self) -> u64 {
        self.programs.iter().map(|program| weight(program)).max().unwrap_or(0)
    }

    /// Document 02, order 3: the own steps within which an operation returns if no exit request was taken.
    pub fn longest_wait(&self) -> u64 {
        4 + (self.processes as u64 + 1) * (10 + 2 * self.weight())
    }
}

/// How much the instructions of a program count towards w: codes 3 to 6 count 1 (document 02, order 3), codes 13 and 14 count 2 (order 9).
pub fn weight(program: &[Instruction]) -> u64 {
    let counts = |ins: &Instruction| match ins.code {
        3..=6 => 1,
        13 | 14 => 2,
        _ => 0,
    };
    program.iter().map(counts).sum()
}

/// 'Turned back': a refused text gives its number and its line.
#[derive(Clone, Copy, Debug, PartialEq, Eq)]
pub struct Refusal {
    pub number: u8,
    pub line: usize,
}

/// Takes the lines of a card text, or of a change's text, one after the other.
struct Reader<'a> {
    lines: Vec<Line<'a>>,
    taken: usize,
}

impl<'a> Reader<'a> {
    /// Row 1 is judged before all lines.
    fn new(text: &'a [u8]) -> Result<Reader<'a>, Refusal> {
        if text.len() > TEXT_LIMIT {
            return Err(Refusal { number: 1, line: 0 });
        }
        Ok(Reader { lines: lines(text), taken: 0 })
    }

    /// A refusal at the line taken last.
    fn refuse(&self, number: u8) -> Refusal {
        Refusal { number, line: self.taken }
    }

    /// The numbers of the next line. A missing line is numbered one past the last.
    fn take(&mut self, word: &str, count: usize) -> Result<Vec<u64>, Refusal> {
        self.taken += 1;
        let numbers = self.lines.get(self.taken - 1).and_then(|line| fields(line, word, count));
        numbers.ok_or(self.refuse(2))
    }

    /// Refusal 3 unless the number lies in the range.
    fn in_range(&self, number: u64, least: u64, greatest: u64) -> Result<u64, Refusal> {
        if (least..=greatest).contains(&number) {
            Ok(number)
        } else {
            Err(self.refuse(3))
        }
    }

    /// The lines of a program that counts at most `heaviest`.
    fn program(&mut self, variables: u64, heaviest: u64) -> Result<Vec<Instruction>, Refusal> {
        let length = self.take("sheet", 1)?[0];
        let length = self.in_range(length, 1, 32)?;
        let program: Vec<Instruction> = (0..length).map(|_| self.instruction(variables)).collect::<Result<_, _>>()?;
        if weight(&program) > heaviest {
            return Err(self.refuse(14));
        }
        Ok(program)
    }

    /// Nothing follows: a line left over is refused.
    fn end(&self) -> Result<(), Refusal> {
        if self.taken < self.lines.len() {
            return Err(Refusal { number: 2, line: self.taken + 1 });
        }
        Ok(())
    }

    fn instruction(&mut self, variables: u64) -> Result<Instruction, Refusal> {
        let numbers = self.take("ins", 4)?;
        judge_instruction(&numbers, variables).map_err(|number| self.refuse(number))
    }
}

/// The instruction table: the range of each operand of a code, none where it is unused. Order 8: number 4 is an unknown code, 12 an operand out
/// of range, 13 an unused operand that isn't 0, tested in that sequence.
fn judge_instruction(numbers: &[u64], variables: u64) -> Result<Instruction, u8> {
    let register = Some(0..4);
    let variable = Some(0..variables);
    let ranges: [Option<Range<u64>>; 3] = match numbers[0] {
        1 | 5 | 6 | 7 | 8 | 11 => [register.clone(), register, None],
        2 => [register, Some(0..WORD_END), None],
        3 => [register, variable, None],
        4 => [variable, register, None],
        9 | 10 => [register.clone(), register, Some(1..32)],
        12 => [None, None, None],
        13 | 14 => [register, None, None],
        _ => return Err(4),
    };
    let operands = || ranges.iter().zip(&numbers[1..]);
    if operands().any(|(range, x)| range.as_ref().is_some_and(|range| !range.contains(x))) {
        return Err(12);
    }
    if operands().any(|(range, x)| range.is_none() && *x != 0) {
        return Err(13);
    }
    let (a, b, c) = (numbers[1] as usize, numbers[2] as usize, numbers[3] as usize);
    Ok(Instruction { code: numbers[0], a, b, c })
}

/// 'The card text', rows 1 to 4 of 'Turned back', order 8's 12 and 13, and order 9's 14: judged by 1, then line by line.
pub fn open(text: &[u8]) -> Result<Card, Refusal> {
    let mut reader = Reader::new(text)?;
    let head = reader.take("card", 4)?;
    let processes = reader.in_range(head[0], 1, 8)? as usize;
    let variables = reader.in_range(head[1], 1, 64)?;
    let program_count = reader.in_range(head[2], 1, 8)?;
    let limit = reader.in_range(head[3], 1, GREATEST_LIMIT)?;
    let mut starting = Vec::new();
    for _ in 0..variables {
        let value = reader.take("var", 1)?[0];
        starting.push(reader.in_range(value, 0, WORD_END - 1)? as u32);
    }
    let mut programs = Vec::new();
    for _ in 0..program_count {
        programs.push(reader.program(variables, HEAVIEST)?);
    }
    reader.end()?;
    Ok(Card { processes, limit, starting, programs })
}

/// Order 11: a change's text is one program as a card has it, with that card's variables; it counts no more than the card's w.
pub fn read_change(text: &[u8], card: &Card) -> Result<Vec<Instruction>, Refusal> {
    let mut reader = Reader::new(text)?;
    let program = reader.program(card.starting.len() as u64, card.weight().min(HEAVIEST))?;
    reader.end()?;
    Ok(program)
}

// ---------------------------------------------------------------- shared cells

#[derive(Clone, Copy, Debug, PartialEq, Eq)]
pub struct Gate {
    pub holder: Option<usize>,
    pub seq: u64,
}

#[derive(Clone, Copy, Debug, PartialEq, Eq)]
pub enum Flag {
    Done,
    Active,
    Exit,
}

#[derive(Clone, Copy, Debug, PartialEq, Eq)]
pub struct Announcement {
    pub program: usize,
    pub seq: u64,
    pub flag: Flag,
    /// The gate number under which it was done; 0 while active or exit, and at opening (document 02, order 4).
    pub number: u64,
    pub words: [u32; 4],
    /// The mark of an operation that was done as a fault (document 02, order 6).
    pub fault: bool,
}

#[derive(Clone, Copy, Debug, PartialEq, Eq)]
pub struct Record {
    pub val: [u32; 2],
    pub toggle: usize,
    pub seq: u64,
}

/// 'Shared cells'.
#[derive(Clone, Debug)]
pub struct Cells {
    pub gate: Gate,
    pub announcements: Vec<Announcement>,
    pub records: Vec<Record>,
}

/// 'Shared cells': each cell at opening.
fn opening_cells(card: &Card) -> Cells {
    let announcement = Announcement { program: 0, seq: 0, flag: Flag::Done, number: 0, words: [0; 4], fault: false };
    let record = |&value: &u32| Record { val: [value, 0], toggle: 0, seq: 0 };
    Cells {
        gate: Gate { holder: None, seq: 1 },
        announcements: vec![announcement; card.processes],
        records: card.starting.iter().map(record).collect(),
    }
}

/// A swap compares the whole cell, stores the new one if equal, and tells which.
fn swap<T: Copy + PartialEq>(cell: &mut T, expected: T, new: T) -> &'static str {
    if *cell == expected {
        *cell = new;
        "won"
    } else {
        "lost"
    }
}

// ---------------------------------------------------------------- helping (H1, H7, H20 to H36)

/// A dictionary entry: the variable, its record as read at H21, and its value so far.
#[derive(Clone, Copy, Debug)]
struct Noted {
    variable: usize,
    record: Record,
    value: u32,
}

/// The local state of one helping; all of it starts anew at each helping.
#[derive(Clone, Debug, Default)]
struct Helping {
    at: usize,
    registers: [u32; 4],
    outputs: [u32; 4],
    fault: bool,
    dictionary: Vec<Noted>,
    /// The variable that the next H21 reads.
    touching: usize,
    /// Dictionary entries already considered by the loop of H31.
    considered: usize,
}

/// What comes before an instruction is executed: nothing more, the H21 of a variable, or its end as a fault.
enum Before {
    Nothing,
    Note(usize),
    Fault,
}

impl Helping {
    /// What an instruction touches, in sequence, as far as it is known: the first variable that is not in the dictionary is noted.
    fn before(&mut self, instruction: &Instruction, variables: usize) -> Before {
        let Instruction { code, a, b, .. } = *instruction;
        match code {
            3 => self.first_touch(&[b]),
            4 => self.first_touch(&[a]),
            5 => self.numbered(self.registers[b] as usize, variables),
            6 => self.numbered(self.registers[a] as usize, variables),
            13 => self.before_taking(variables),
            14 => match self.registers[a] as usize {
                cell if cell == 0 || cell >= variables => Before::Fault,
                cell => self.first_touch(&[0, cell]),
            },
            _ => Before::Nothing,
        }
    }

    fn first_touch(&mut self, variables: &[usize]) -> Before {
        let missing = variables.iter().find(|&&variable| self.entry(variable).is_none());
        missing.map_or(Before::Nothing, |&variable| Before::Note(variable))
    }

    /// Codes 5 and 6 (document 02, order 6).
    fn numbered(&mut self, variable: usize, variables: usize) -> Before {
        if variable < variables {
            self.first_touch(&[variable])
        } else {
            Before::Fault
        }
    }

    /// Code 13 (document 02, order 9): variable 0, then the cell whose number it holds.
    fn before_taking(&mut self, variables: usize) -> Before {
        match self.entry(0).map(|noted| noted.value as usize) {
            None => Before::Note(0),
            Some(0) => Before::Nothing,
            Some(cell) if cell >= variables => Before::Fault,
            Some(cell) => self.first_touch(&[cell]),
        }
    }

    /// H20 and H26: the dictionary's entry of a variable.
    fn entry(&mut self, variable: usize) -> Option<&mut Noted> {
        self.dictionary.iter_mut().find(|noted| noted.variable == variable)
    }

    /// H7 to H30: runs on to a first touch (then H21 is next), to the stop (then H31), or to a fault (then P19).
    fn run(&mut self, program: &[Instruction], inputs: &[u32; 4], gate_seq: u64, variables: usize) -> Label {
        while let Some(instruction) = program.get(self.at).filter(|instruction| instruction.code != 12) {
            match self.before(instruction, variables) {
                Before::Fault => return self.end_as_fault(),
                Before::Note(variable) => {
                    self.touching = variable;
                    return Label::H21;
                }
                Before::Nothing => self.execute(instruction, inputs),
            }
        }
        self.next_write(gate_seq)
    }

    /// None of its writes is made, and its outputs are 0 (document 02, order 6).
    fn end_as_fault(&mut self) -> Label {
        self.outputs = [0; 4];
        self.fault = true;
        Label::P19
    }

    /// The instruction table; what it touches is in the dictionary.
    fn execute(&mut self, instruction: &Instruction, inputs: &[u32; 4]) {
        let Instruction { code, a, b, c } = *instruction;
        let (left, right) = (self.registers[a % 4], self.registers[b % 4]);
        self.at += 1;
        match code {
            1 => self.registers[a] = inputs[b],
            2 => self.registers[a] = b as u32,
            3 => self.registers[a] = self.load(b),
            4 => self.store(a, right),
            5 => self.registers[a] = self.load(right as usize),
            6 => self.store(left as usize, right),
            7 => self.registers[a] = left.saturating_add(right),
            8 => self.registers[a] = left.saturating_sub(right),
            9 if left == right => self.at += c,
            10 if left < right => self.at += c,
            11 => self.outputs[a] = right,
            13 => self.registers[a] = self.take_cell(),
            14 => self.give_cell(left),
            _ => (),
        }
    }

    /// H27.
    fn load(&mut self, variable: usize) -> u32 {
        self.entry(variable).map_or(0, |noted| noted.value)
    }

    /// H28.
    fn store(&mut self, variable: usize, value: u32) {
        if let Some(noted) = self.entry(variable) {
            noted.value = value;
        }
    }

    /// Code 13: the first free cell leaves the chain and becomes 0; without one there is nothing to take.
    fn take_cell(&mut self) -> u32 {
        let cell = self.load(0);
        if cell != 0 {
            let next = self.load(cell as usize);
            self.store(0, next);
            self.store(cell as usize, 0);
        }
        cell
    }

    /// Code 14: the cell becomes the first of the chain.
    fn give_cell(&mut self, cell: u32) {
        let first = self.load(0);
        self.store(cell as usize, first);
        self.store(0, cell);
    }

    /// H31 and H32: the next entry with lower seq and altered value is written at H36; after the last comes P19.
    fn next_write(&mut self, gate_seq: u64) -> Label {
        while let Some(noted) = self.dictionary.get(self.considered) {
            if noted.record.seq < gate_seq && noted.record.val[noted.record.toggle] != noted.value {
                return Label::H36;
            }
            self.considered += 1;
        }
        Label::P19
    }
}

// ---------------------------------------------------------------- operations and their steps

/// The shared accesses of 'One step'.
#[derive(Clone, Copy, Debug, PartialEq, Eq, PartialOrd, Ord)]
#[rustfmt::skip]
pub enum Label { P1, P3, P6, P7, P10, C2, C4, P13, P14, P16, H21, H36, P19, P20, P21, P22, F1, F3 }

/// Where an operation stands between two steps.
#[derive(Clone, Copy, Debug, PartialEq, Eq)]
enum Place {
    /// The top of the loop: P5 is looked at when the step begins.
    Top,
    At(Label),
    /// Returned: F4 with the words of the announcement read last.
    ReturnDone,
    /// Returned: P23.
    ReturnExited,
}

/// An operation under way, with the paper's local variables g_i, a_i, m_i.
#[derive(Clone, Debug)]
struct Operation {
    process: usize,
    program: usize,
    inputs: [u32; 4],
    exit_request: bool,
    own_steps: u64,
    place: Place,
    gate: Gate,
    announcement: Announcement,
    nominee: usize,
    helping: Helping,
    /// Order 1: the gate number last read in this operation; none before P1.
    number: Option<u64>,
    /// The number from which the last change of its program runs that was taken while it was under way; for the summary only.
    changed: Option<u64>,
}

/// What an accepted step answers.
#[derive(Clone, Copy, Debug, PartialEq, Eq)]
pub enum Answer {
    Run,
    Done { number: u64, outputs: [u32; 4], fault: bool, own_steps: u64 },
    Exited { own_steps: u64 },
}

/// A shared cell: the gate, the announcement of a process, the record of a variable.
#[derive(Clone, Copy, Debug, PartialEq, Eq)]
pub enum Cell {
    Gate,
    Announcement(usize),
    Record(usize),
}

/// An accepted step: its answer, its access, how that came out, the own steps of the operation and whether an exit request was taken for it; and
/// what order 1 tells besides: the cell touched, the gate number last read in the operation, and the set of noted variables with how many there are.
#[derive(Clone, Copy, Debug, PartialEq, Eq)]
pub struct Stepped {
    pub answer: Answer,
    pub label: Label,
    pub outcome: &'static str,
    pub cell: Cell,
    pub number: u64,
    pub noted: u64,
    pub count: usize,
    pub own_steps: u64,
    pub exit_request: bool,
    /// Order 11, of a step that helped by a program which was changed, or finished an operation that was under way at a change: by which text.
    pub text: Option<&'static str>,
}

impl Stepped {
    /// Document 02, order 3: an operation returns within its longest wait, 2 steps more if an exit request was taken.
    pub fn in_time(&self, longest_wait: u64) -> bool {
        let allowed = longest_wait + if self.exit_request { 2 } else { 0 };
        match self.answer {
            Answer::Run => self.own_steps < allowed,
            _ => self.own_steps <= allowed,
        }
    }
}

impl Operation {
    fn new(process: usize, program: usize, inputs: [u32; 4], cells: &Cells) -> Operation {
        Operation {
            process,
            program,
            inputs,
            exit_request: false,
            own_steps: 0,
            place: Place::At(Label::P1),
            gate: cells.gate,
            announcement: cells.announcements[process],
            nominee: process,
            helping: Helping::default(),
            number: None,
            changed: None,
        }
    }

    /// Order 1: the cell that an access touches.
    fn cell(&self, label: Label) -> Cell {
        match label {
            Label::P1 | Label::P10 | Label::P13 | Label::P14 | Label::P21 | Label::F1 | Label::F3 => Cell::Gate,
            Label::P3 | Label::P6 | Label::P7 | Label::C4 | Label::P22 => Cell::Announcement(self.process),
            Label::C2 => Cell::Announcement(self.nominee),
            Label::P16 | Label::P19 | Label::P20 => Cell::Announcement(self.holder()),
            Label::H21 => Cell::Record(self.helping.touching),
            Label::H36 => Cell::Record(self.helping.dictionary[self.helping.considered].variable),
        }
    }

    /// Order 1: the variables noted so far, as a set and by their number; none except from H21 to P20.
    fn noted(&self, label: Label) -> (u64, usize) {
        match label {
            Label::H21 | Label::H36 | Label::P19 | Label::P20 => {
                let book = &self.helping.dictionary;
                (book.iter().fold(0, |set, noted| set | 1 << noted.variable), book.len())
            }
            _ => (0, 0),
        }
    }

    /// Reads the gate with its number.
    fn read_gate(&mut self, cells: &Cells) {
        self.gate = cells.gate;
        self.number = Some(cells.gate.seq);
    }

    /// 'One step': the access that the next step makes.
    fn next_access(&self) -> Label {
        match self.place {
            Place::At(label) => label,
            _ if self.exit_request => Label::P6,
            _ => Label::P10,
        }
    }

    /// One shared access and the local work up to the next; tells how the access came out.
    fn access(&mut self, label: Label, cells: &mut Cells, programs: &[Texts]) -> &'static str {
        let (place, outcome) = match label {
            Label::P1 => self.p1(cells),
            Label::P3 => self.p3(cells),
            Label::P6 => self.p6(cells),
            Label::P7 => self.p7(cells),
            Label::P10 => self.p10(cells),
            Label::C2 => self.c2(cells),
            Label::C4 => self.c4(cells),
            Label::P13 => self.p13(cells),
            Label::P14 => self.p14(cells),
            Label::P16 => self.p16(cells, programs),
            Label::H21 => self.h21(cells, programs),
            Label::H36 => self.h36(cells),
            Label::P19 => self.mark_done(Flag::Active, Label::P20, cells),
            Label::P20 => self.mark_done(Flag::Exit, Label::P21, cells),
            Label::P21 => (Place::At(Label::P22), self.release_gate(cells)),
            Label::P22 => self.p22(cells),
            Label::F1 => self.f1(cells),
            Label::F3 => (Place::ReturnDone, self.release_gate(cells)),
        };
        self.place = place;
        outcome
    }

    /// P1, P2.
    fn p1(&mut self, cells: &Cells) -> (Place, &'static str) {
        self.read_gate(cells);
        self.announcement = Announcement {
            program: self.program,
            seq: self.gate.seq,
            flag: Flag::Active,
            number: 0,
            words: self.inputs,
            fault: false,
        };
        (Place::At(Label::P3), "read")
    }

    /// P3, P4.
    fn p3(&mut self, cells: &mut Cells) -> (Place, &'static str) {
        cells.announcements[self.process] = self.announcement;
        (Place::Top, "written")
    }

    fn p6(&mut self, cells: &mut Cells) -> (Place, &'static str) {
        let wanted =
            Announcement { flag: Flag::Exit, number: 0, words: self.inputs, fault: false, ..self.announcement };
        let outcome = swap(&mut cells.announcements[self.process], self.announcement, wanted);
        (Place::At(Label::P7), outcome)
    }

    /// P7, P8.
    fn p7(&mut self, cells: &Cells) -> (Place, &'static str) {
        self.announcement = cells.announcements[self.process];
        match self.announcement.flag {
            Flag::Done => (Place::At(Label::F1), "done"),
            _ => (Place::At(Label::P10), "not done"),
        }
    }

    /// P10, P11, C1, P15.
    fn p10(&mut self, cells: &Cells) -> (Place, &'static str) {
        self.read_gate(cells);
        match self.gate.holder {
            None => {
                self.nominee = (self.gate.seq % cells.announcements.len() as u64) as usize;
                (Place::At(Label::C2), "free")
            }
            Some(_) => (Place::At(Label::P16), "held"),
        }
    }

    /// C2, C3.
    fn c2(&mut self, cells: &Cells) -> (Place, &'static str) {
        self.announcement = cells.announcements[self.nominee];
        match self.announcement.flag {
            Flag::Active => (Place::At(Label::P13), "active"),
            _ => (Place::At(Label::C4), "not active"),
        }
    }

    /// C4, C5, C6.
    fn c4(&mut self, cells: &Cells) -> (Place, &'static str) {
        self.announcement = cells.announcements[self.process];
        if self.announcement.flag == Flag::Done {
            return (Place::At(Label::F1), "done");
        }
        self.nominee = self.process;
        (Place::At(Label::P13), "not done")
    }

    fn p13(&mut self, cells: &mut Cells) -> (Place, &'static str) {
        let held = Gate { holder: Some(self.nominee), ..self.gate };
        (Place::At(Label::P14), swap(&mut cells.gate, self.gate, held))
    }

    /// P14, P15.
    fn p14(&mut self, cells: &Cells) -> (Place, &'static str) {
        self.read_gate(cells);
        match self.gate.holder {
            None => (Place::At(Label::P22), "free"),
            Some(_) => (Place::At(Label::P16), "held"),
        }
    }

    /// The process that the gate read last names.
    fn holder(&self) -> usize {
        self.gate.holder.expect("P16 to P20 follow a gate with a holder")
    }

    /// P16, P17, H1.
    fn p16(&mut self, cells: &Cells, programs: &[Texts]) -> (Place, &'static str) {
        self.announcement = cells.announcements[self.holder()];
        if self.announcement.flag == Flag::Done {
            return (Place::At(Label::P21), "done");
        }
        if self.announcement.seq > self.gate.seq {
            return (Place::At(Label::P21), "greater seq");
        }
        self.helping = Helping::default();
        (self.help(cells, programs), if self.helping.fault { "fault" } else { "help" })
    }

    /// Local work of helping up to the next access. Order 11: the gate number read last chooses the text, whenever it was read.
    fn help(&mut self, cells: &Cells, programs: &[Texts]) -> Place {
        let program = programs[self.announcement.program].at(self.gate.seq);
        Place::At(self.helping.run(program, &self.announcement.words, self.gate.seq, cells.records.len()))
    }

    /// H21 to H25.
    fn h21(&mut self, cells: &Cells, programs: &[Texts]) -> (Place, &'static str) {
        let variable = self.helping.touching;
        let record = cells.records[variable];
        if record.seq > self.gate.seq {
            return (Place::At(Label::P19), "greater seq");
        }
        let (side, outcome) =
            if record.seq < self.gate.seq { (record.toggle, "lower seq") } else { (1 - record.toggle, "equal seq") };
        self.helping.dictionary.push(Noted { variable, record, value: record.val[side] });
        (self.help(cells, programs), if self.helping.fault { "fault" } else { outcome })
    }

    /// H33 to H36, then H31 again.
    fn h36(&mut self, cells: &mut Cells) -> (Place, &'static str) {
        let noted = self.helping.dictionary[self.helping.considered];
        let side = 1 - noted.record.toggle;
        let mut new = Record { toggle: side, seq: self.gate.seq, ..noted.record };
        new.val[side] = noted.value;
        let outcome = swap(&mut cells.records[noted.variable], noted.record, new);
        self.helping.considered += 1;
        (Place::At(self.helping.next_write(self.gate.seq)), outcome)
    }

    /// P19 and P20.
    fn mark_done(&mut self, flag: Flag, next: Label, cells: &mut Cells) -> (Place, &'static str) {
        let expected = Announcement { flag, ..self.announcement };
        let Helping { outputs, fault, .. } = self.helping;
        let number = self.gate.seq;
        let done = Announcement { flag: Flag::Done, number, words: outputs, fault, ..self.announcement };
        (Place::At(next), swap(&mut cells.announcements[self.holder()], expected, done))
    }

    /// P21 and F3.
    fn release_gate(&mut self, cells: &mut Cells) -> &'static str {
        swap(&mut cells.gate, self.gate, Gate { holder: None, seq: self.gate.seq + 1 })
    }

    /// P22, P4, P23.
    fn p22(&mut self, cells: &Cells) -> (Place, &'static str) {
        self.announcement = cells.announcements[self.process];
        match self.announcement.flag {
            Flag::Active => (Place::Top, "active"),
            Flag::Exit => (Place::ReturnExited, "exit"),
            Flag::Done => (Place::At(Label::F1), "done"),
        }
    }

    /// F1, F2; without F3 the operation returns here.
    fn f1(&mut self, cells: &Cells) -> (Place, &'static str) {
        self.read_gate(cells);
        if self.gate.holder == Some(self.process) {
            (Place::At(Label::F3), "own")
        } else {
            (Place::ReturnDone, "not own")
        }
    }

    fn answer(&self) -> Answer {
        let own_steps = self.own_steps;
        match self.place {
            Place::ReturnDone => {
                let Announcement { number, words, fault, .. } = self.announcement;
                Answer::Done { number, outputs: words, fault, own_steps }
            }
            Place::ReturnExited => Answer::Exited { own_steps },
            _ => Answer::Run,
        }
    }
}

// ---------------------------------------------------------------- programs and their changes

/// Order 11: every text that a program has had, each with the gate number from which it runs; the opening text runs from 0.
#[derive(Clone, Debug)]
struct Texts(Vec<(u64, Vec<Instruction>)>);

impl Texts {
    fn new(opening: Vec<Instruction>) -> Texts {
        Texts(vec![(0, opening)])
    }

    /// A taken change: operations numbered `from` or later run the new text.
    fn change(&mut self, from: u64, text: Vec<Instruction>) {
        self.0.push((from, text));
    }

    /// The text that the operation with this number runs.
    fn at(&self, number: u64) -> &[Instruction] {
        let reached = self.0.iter().rev().find(|(from, _)| *from <= number);
        &reached.expect("the opening text runs from 0").1
    }

    /// The number of the last taken change, 0 without one.
    fn last(&self) -> u64 {
        self.0[self.0.len() - 1].0
    }
}

// ---------------------------------------------------------------- the machine

/// An opened card, which stays as it was opened, with its cells, its processes and the texts of its programs.
#[derive(Clone, Debug)]
pub struct Machine {
    pub card: Card,
    pub cells: Cells,
    pub steps: u64,
    operations: Vec<Option<Operation>>,
    programs: Vec<Texts>,
}

impl Machine {
    pub fn new(card: Card) -> Machine {
        let programs = card.programs.iter().cloned().map(Texts::new).collect();
        Machine { cells: opening_cells(&card), steps: 0, operations: vec![None; card.processes], programs, card }
    }

    /// Row 5: the process as a place.
    fn process(&self, process: u32) -> Result<usize, u8> {
        let process = process as usize;
        if process < self.card.processes {
            Ok(process)
        } else {
            Err(5)
        }
    }

    pub fn under_way(&self, process: usize) -> bool {
        self.operations[process].is_some()
    }

    /// The access that the next step of a process would make, if it has an operation under way.
    pub fn next_access(&self, process: usize) -> Option<Label> {
        self.operations[process].as_ref().map(Operation::next_access)
    }

    /// Call: rows 5, 6, 7.
    pub fn call(&mut self, process: u32, program: u32, inputs: [u32; 4]) -> Result<(), u8> {
        let process = self.process(process)?;
        let program = program as usize;
        if program >= self.card.programs.len() {
            return Err(6);
        }
        if self.under_way(process) {
            return Err(7);
        }
        self.operations[process] = Some(Operation::new(process, program, inputs, &self.cells));
        Ok(())
    }

    /// Exit request: rows 5, 8. A second one is taken and alters nothing.
    pub fn request_exit(&mut self, process: u32) -> Result<(), u8> {
        let process = self.process(process)?;
        self.operations[process].as_mut().ok_or(8)?.exit_request = true;
        Ok(())
    }

    /// Step: rows 5, 8, 10. The limit counts the accepted steps of all processes.
    pub fn step(&mut self, process: u32) -> Result<Stepped, u8> {
        let process = self.process(process)?;
        let operation = self.operations[process].as_mut().ok_or(8)?;
        if self.steps >= self.card.limit {
            return Err(10);
        }
        self.steps += 1;
        operation.own_steps += 1;
        let label = operation.next_access();
        let cell = operation.cell(label);
        let outcome = operation.access(label, &mut self.cells, &self.programs);
        let (answer, own_steps, exit_request) = (operation.answer(), operation.own_steps, operation.exit_request);
        let (number, (noted, count)) = (operation.number.unwrap_or(0), operation.noted(label));
        let helped = operation.announcement.program;
        let text = self.text_of(label, outcome, cell, number, helped);
        if answer != Answer::Run {
            self.operations[process] = None;
        }
        Ok(Stepped { answer, label, outcome, own_steps, exit_request, cell, number, noted, count, text })
    }

    /// By which text a step helped, or the operation ran that it finished, where there is a choice.
    fn text_of(&self, label: Label, outcome: &str, cell: Cell, number: u64, helped: usize) -> Option<&'static str> {
        let ahead = |from: u64| usize::from(number < from);
        match (label, outcome, cell) {
            (Label::P16, "help" | "fault", _) => {
                self.changed(helped).map(|from| ["P16 by the later text", "P16 by the earlier text"][ahead(from)])
            }
            (Label::H21, "lower seq" | "equal seq" | "fault", _) => {
                self.changed(helped).map(|from| ["H21 by the later text", "H21 by the earlier text"][ahead(from)])
            }
            (Label::P19 | Label::P20, "won", Cell::Announcement(finished)) => {
                let changed = self.operations[finished].as_ref().and_then(|operation| operation.changed);
                changed.map(|from| ["across by the new text", "across by the old text"][ahead(from)])
            }
            _ => None,
        }
    }

    /// The number of the last change of a program, if there was one.
    fn changed(&self, program: usize) -> Option<u64> {
        Some(self.programs[program].last()).filter(|&from| from > 0)
    }

    /// Change (order 11): 6, then the text's own refusals, 15, 16. It is no step: the limit does not count it.
    pub fn change(&mut self, program: u32, from: u64, text: &[u8]) -> Result<(), Refusal> {
        let refuse = |number| Err(Refusal { number, line: 0 });
        let program = program as usize;
        if program >= self.card.programs.len() {
            return refuse(6);
        }
        let text = read_change(text, &self.card)?;
        if from <= self.cells.gate.seq {
            return refuse(15);
        }
        if self.change_ahead(program) || self.late_reader(program) {
            return refuse(16);
        }
        self.programs[program].change(from, text);
        for operation in self.operations.iter_mut().flatten().filter(|operation| operation.program == program) {
            operation.changed = Some(from);
        }
        Ok(())
    }

    /// The first half of refusal 16: the last change of the program lies above the gate's number.
    pub fn change_ahead(&self, program: usize) -> bool {
        self.programs[program].last() > self.cells.gate.seq
    }

    /// The second half of refusal 16: some operation under way last read a gate number below that change; one that has read none doesn't count.
    pub fn late_reader(&self, program: usize) -> bool {
        let last = self.programs[program].last();
        let mut numbers = self.operations.iter().flatten().filter_map(|operation| operation.number);
        numbers.any(|number| number < last)
    }

    /// Read ('Look'): row 9. The old value stays in sight until the holder's operation is finished.
    pub fn read(&self, variable: u32) -> Result<u32, u8> {
        let record = self.cells.records.get(variable as usize).ok_or(9)?;
        let gate = self.cells.gate;
        let unfinished = gate.holder.is_some_and(|holder| self.cells.announcements[holder].flag != Flag::Done);
        let side = if unfinished && record.seq == gate.seq { 1 - record.toggle } else { record.toggle };
        Ok(record.val[side])
    }
}
