//! The program `schedules` as straightforward Rust (document 02, order 13): the same files, argument and output. The card's text is read by the
//! simulator's reader; steps are those of tests/speed/card.rs. It goes down the tree of schedules, and copies a card once for each step chosen.
use std::fs;
use std::io::{self, Write};

#[allow(dead_code)] // nobody asks to exit here
#[path = "../card.rs"]
mod card;
#[allow(dead_code)] // only its reader is used
#[path = "../../simulator/machine.rs"]
mod text;
use card::{Answer, Card, Instruction, Words};

/// Bytes of output are written out when so many have gathered.
const PIECE: usize = 1 << 16;

/// The listing, or the line of a refusal.
fn list(length: u64) -> Result<(), String> {
    let file = |name| fs::read(name).unwrap_or_default();
    let opened =
        text::open(&file("card.txt")).map_err(|refusal| format!("card,refused,{},{}", refusal.number, refusal.line))?;
    let calls = file("calls.txt");
    if calls.len() > 65_536 {
        return Err("calls,refused,1".to_string());
    }
    let requests = requests(&calls, opened.processes).map_err(|line| format!("line,{line},refused,2"))?;
    if requests.iter().any(|request| request[0] as usize >= opened.programs.len()) {
        return Err("schedules,refused,6".to_string());
    }
    if opened.processes > 3 || length > 16 || opened.limit < length {
        return Err("schedules,refused,17".to_string());
    }
    let programs: Vec<Vec<Instruction>> = opened.programs.iter().map(|program| decode(program)).collect();
    let mut card = Card::open(opened.processes, &opened.starting, &programs, opened.limit);
    for (process, request) in requests.iter().enumerate() {
        card.call(process, request[0] as usize, [request[1], request[2], request[3], request[4]]);
    }
    let processes = opened.processes;
    let listing =
        Listing { processes, numbers: Vec::new(), answers: Vec::new(), output: Vec::with_capacity(2 * PIECE) };
    if let Err(error) = listing.run(card, length as usize) {
        eprintln!("schedules: the listing could not be written: {error}");
    }
    Ok(())
}

/// Program and inputs of the call of each process; else the number of the first line that is not as it should be.
fn requests(calls: &[u8], processes: usize) -> Result<Vec<[u32; 5]>, usize> {
    let lines = text::lines(calls);
    let mut requests = Vec::new();
    for process in 0..processes {
        let line = lines.get(process).ok_or(process + 1)?;
        let fields = text::fields(line, "call", 6).ok_or(process + 1)?;
        if fields[0] != process as u64 || fields.iter().any(|&field| field >= text::WORD_END) {
            return Err(process + 1);
        }
        requests.push([1, 2, 3, 4, 5].map(|at| fields[at] as u32));
    }
    if lines.len() > processes {
        return Err(processes + 1);
    }
    Ok(requests)
}

fn decode(program: &[text::Instruction]) -> Vec<Instruction> {
    let decoded = |instruction: &text::Instruction| {
        let (a, b, c) = (instruction.a as u8, instruction.b as u8, instruction.c as u8);
        match instruction.code {
            1 => Instruction::Input(a, b),
            2 => Instruction::Constant(a, instruction.b as u32),
            3 => Instruction::Load(a, b),
            4 => Instruction::Store(a, b),
            5 => Instruction::LoadAt(a, b),
            6 => Instruction::StoreAt(a, b),
            7 => Instruction::Add(a, b),
            8 => Instruction::Subtract(a, b),
            9 => Instruction::SkipEqual(a, b, c),
            10 => Instruction::SkipLess(a, b, c),
            11 => Instruction::Output(a, b),
            12 => Instruction::Stop,
            13 => Instruction::Allocate(a),
            _ => Instruction::Free(a),
        }
    };
    program.iter().map(decoded).collect()
}

/// The schedule chosen so far with its answers, as they are printed, and what is printed already.
struct Listing {
    processes: usize,
    numbers: Vec<u8>,
    answers: Vec<u8>,
    output: Vec<u8>,
}

impl Listing {
    fn run(mut self, called: Card, length: usize) -> io::Result<()> {
        let mut cards = vec![called; length + 1];
        self.choose(&mut cards)?;
        io::stdout().lock().write_all(&self.output)
    }

    /// All that follow from the first of these cards, with as many steps as there are cards after it.
    fn choose(&mut self, cards: &mut [Card]) -> io::Result<()> {
        let [card, after @ ..] = cards else { return Ok(()) };
        if after.is_empty() || (0..self.processes).all(|process| !card.is_busy(process)) {
            return self.put_line();
        }
        for process in 0..self.processes {
            if card.is_busy(process) {
                after[0].clone_from(card);
                let answer = after[0].step(process);
                let told = self.answers.len();
                self.numbers.push(b'0' + process as u8);
                self.put_answer(answer);
                self.choose(after)?;
                self.numbers.pop();
                self.answers.truncate(told);
            }
        }
        Ok(())
    }

    fn put_line(&mut self) -> io::Result<()> {
        self.output.extend_from_slice(&self.numbers);
        self.output.extend_from_slice(&self.answers);
        self.output.push(b'\n');
        if self.output.len() >= PIECE {
            io::stdout().lock().write_all(&self.output)?;
            self.output.clear();
        }
        Ok(())
    }

    fn put_answer(&mut self, answer: Answer) {
        match answer {
            Answer::Run => self.answers.extend_from_slice(b",run"),
            Answer::Done(number, words, fault, steps) => self.put_done(number, words, fault, steps),
            _ => unreachable!("the process is busy, the limit is not reached, and nobody asked to exit"),
        }
    }

    fn put_done(&mut self, number: u64, [o0, o1, o2, o3]: Words, fault: bool, steps: u64) {
        let word = if fault { "fault" } else { "done" };
        write!(self.answers, ",{word},{number},{o0},{o1},{o2},{o3},{steps}").expect("a vector can be written");
    }
}

fn main() {
    let arguments: Vec<String> = std::env::args().skip(1).collect();
    let length = match arguments.as_slice() {
        [length] => text::number(length.as_bytes()).filter(|&length| length < text::WORD_END),
        _ => None,
    };
    match length.map(list) {
        None => eprintln!("usage: schedules L"),
        Some(Err(refusal)) => println!("{refusal}"),
        Some(Ok(())) => (),
    }
}
