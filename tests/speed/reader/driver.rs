// Times the proved reader (linked as a static library) against a plain Rust reader of the same format, in one run.
use std::hint::black_box;
use std::time::Instant;

extern "C" {
    fn rattle_open(text: *const u8, length: usize, k: usize) -> u64;
}

#[derive(Clone, Copy)]
enum Instruction { Stop, Input(u8, u8), Constant(u8, u32), Load(u8, u8), Store(u8, u8), LoadAt(u8, u8), StoreAt(u8, u8), Add(u8, u8), Subtract(u8, u8), SkipEqual(u8, u8, u8), SkipLess(u8, u8, u8), Output(u8, u8) }
#[derive(Clone, Copy)]
enum Holder { Nobody, Process(u8) }
#[derive(Clone, Copy)]
struct Gate { holder: Holder, seq: u64 }
#[derive(Clone, Copy)]
enum Flag { Done, Active, Exit }
#[derive(Clone, Copy)]
struct Announcement { program: u8, flag: Flag, seq: u64, number: u64, words: [u32; 4], fault: bool }
#[derive(Clone, Copy)]
struct Record { val0: u32, val1: u32, toggle: bool, seq: u64 }
#[derive(Clone, Copy)]
struct Program { length: u8, lines: [Instruction; 32] }
#[derive(Clone, Copy)]
struct Item { variable: u8, value: u32, cell: Record }
#[derive(Clone, Copy)]
struct Dictionary { length: u8, items: [Item; 32] }
#[derive(Clone, Copy)]
struct Simulation { counter: u8, registers: [u32; 4], outputs: [u32; 4], fault: bool }
#[derive(Clone, Copy)]
struct Task { place: u8, target: u8 }
#[derive(Clone, Copy)]
struct Operation { program: u8, inputs: [u32; 4] }
#[allow(dead_code)]
struct Card {
    processes: u8, variables: u8, programs: u8, limit: u64, starts: [u32; 64], code: [Program; 8], gate: Gate, announcements: [Announcement; 8],
    records: [Record; 64], steps: u64, tasks: [Task; 8], operations: [Operation; 8], exits: [bool; 8], counts: [u64; 8], gates: [Gate; 8],
    copies: [Announcement; 8], simulations: [Simulation; 8], dictionaries: [Dictionary; 8],
}
struct Refused { refusal: u8, line: u64 }

fn number(field: &[u8]) -> Option<u64> {
    if field.is_empty() || (field[0] == b'0' && field.len() > 1) || !field.iter().all(u8::is_ascii_digit) {
        return None;
    }
    Some(std::str::from_utf8(field).ok()?.parse().unwrap_or(u64::MAX))
}

// The numbers of a line that begins with a word.
fn fields<const N: usize>(line: Option<&[u8]>, word: &[u8]) -> Option<[u64; N]> {
    let mut parts = line?.split(|&b| b == b',');
    if parts.next()? != word {
        return None;
    }
    let mut values = [0; N];
    for value in values.iter_mut() {
        *value = number(parts.next()?)?;
    }
    if parts.next().is_some() { None } else { Some(values) }
}

fn decode(n: u8, [code, a, b, c]: [u64; 4]) -> Option<Instruction> {
    let n = n as u64;
    let pair = |x: u64, y: u64| a < x && b < y && c == 0;
    let skip = a < 4 && b < 4 && (1..=31).contains(&c);
    let (x, y) = (a as u8, b as u8);
    match code {
        1 if pair(4, 4) => Some(Instruction::Input(x, y)),
        2 if pair(4, 1 << 32) => Some(Instruction::Constant(x, b as u32)),
        3 if pair(4, n) => Some(Instruction::Load(x, y)),
        4 if pair(n, 4) => Some(Instruction::Store(x, y)),
        5 if pair(4, 4) => Some(Instruction::LoadAt(x, y)),
        6 if pair(4, 4) => Some(Instruction::StoreAt(x, y)),
        7 if pair(4, 4) => Some(Instruction::Add(x, y)),
        8 if pair(4, 4) => Some(Instruction::Subtract(x, y)),
        9 if skip => Some(Instruction::SkipEqual(x, y, c as u8)),
        10 if skip => Some(Instruction::SkipLess(x, y, c as u8)),
        11 if pair(4, 4) => Some(Instruction::Output(x, y)),
        12 if a == 0 && b == 0 && c == 0 => Some(Instruction::Stop),
        _ => None,
    }
}

fn open(text: &[u8]) -> Result<Card, Refused> {
    if text.len() > 16384 {
        return Err(Refused { refusal: 1, line: 0 });
    }
    let mut lines = text.split_inclusive(|&b| b == b'\n').map(|l| l.strip_suffix(b"\n").unwrap_or(b"unended"));
    let mut line = 1;
    let refused = |refusal, line| Refused { refusal, line };
    let [p, n, s, limit] = fields::<4>(lines.next(), b"card").ok_or(refused(2, line))?;
    if !(1..=8).contains(&p) || !(1..=64).contains(&n) || !(1..=8).contains(&s) || !(1..=1_000_000_000_000_000_000).contains(&limit) {
        return Err(refused(3, line));
    }
    let mut starts = [0u32; 64];
    for start in starts.iter_mut().take(n as usize) {
        line += 1;
        let [v] = fields::<1>(lines.next(), b"var").ok_or(refused(2, line))?;
        *start = u32::try_from(v).map_err(|_| refused(3, line))?;
    }
    let mut code = [Program { length: 0, lines: [Instruction::Stop; 32] }; 8];
    for program in code.iter_mut().take(s as usize) {
        line += 1;
        let [m] = fields::<1>(lines.next(), b"sheet").ok_or(refused(2, line))?;
        if !(1..=32).contains(&m) {
            return Err(refused(3, line));
        }
        program.length = m as u8;
        for slot in program.lines.iter_mut().take(m as usize) {
            line += 1;
            let numbers = fields::<4>(lines.next(), b"ins").ok_or(refused(2, line))?;
            *slot = decode(n as u8, numbers).ok_or(refused(4, line))?;
        }
    }
    if lines.next().is_some() {
        return Err(refused(2, line + 1));
    }
    Ok(fresh(p as u8, n as u8, s as u8, limit, starts, code))
}

fn fresh(processes: u8, variables: u8, programs: u8, limit: u64, starts: [u32; 64], code: [Program; 8]) -> Card {
    let announcement = Announcement { program: 0, flag: Flag::Done, seq: 0, number: 0, words: [0; 4], fault: false };
    let record = |start| Record { val0: start, val1: 0, toggle: false, seq: 0 };
    let gate = Gate { holder: Holder::Nobody, seq: 0 };
    let item = Item { variable: 0, value: 0, cell: record(0) };
    Card {
        processes, variables, programs, limit, starts, code,
        gate: Gate { holder: Holder::Nobody, seq: 1 },
        announcements: [announcement; 8], records: starts.map(record), steps: 0,
        tasks: [Task { place: 0, target: 0 }; 8], operations: [Operation { program: 0, inputs: [0; 4] }; 8], exits: [false; 8], counts: [0; 8],
        gates: [gate; 8], copies: [announcement; 8], simulations: [Simulation { counter: 0, registers: [0; 4], outputs: [0; 4], fault: false }; 8],
        dictionaries: [Dictionary { length: 0, items: [item; 32] }; 8],
    }
}

// The second Rust reader: one pass with a place in the text, without splitting it.
struct Cursor<'a> { text: &'a [u8], at: usize }

impl Cursor<'_> {
    fn byte(&self) -> Option<u8> {
        self.text.get(self.at).copied()
    }

    fn field(&mut self, separator: u8) -> Option<u64> {
        let first = self.byte().filter(u8::is_ascii_digit)?;
        let mut value = (first - b'0') as u64;
        self.at += 1;
        while let Some(digit) = self.byte().filter(|b| first != b'0' && b.is_ascii_digit()) {
            value = value.saturating_mul(10).saturating_add((digit - b'0') as u64);
            self.at += 1;
        }
        if self.byte()? != separator {
            return None;
        }
        self.at += 1;
        Some(value)
    }

    fn line<const N: usize>(&mut self, word: &[u8]) -> Option<[u64; N]> {
        if !self.text[self.at..].starts_with(word) {
            return None;
        }
        self.at += word.len();
        let mut values = [0; N];
        for (k, value) in values.iter_mut().enumerate() {
            *value = self.field(if k + 1 == N { b'\n' } else { b',' })?;
        }
        Some(values)
    }
}

fn open_cursor(text: &[u8]) -> Result<Card, Refused> {
    if text.len() > 16384 {
        return Err(Refused { refusal: 1, line: 0 });
    }
    let mut cursor = Cursor { text, at: 0 };
    let mut line = 1;
    let refused = |refusal, line| Refused { refusal, line };
    let [p, n, s, limit] = cursor.line::<4>(b"card,").ok_or(refused(2, line))?;
    if !(1..=8).contains(&p) || !(1..=64).contains(&n) || !(1..=8).contains(&s) || !(1..=1_000_000_000_000_000_000).contains(&limit) {
        return Err(refused(3, line));
    }
    let mut starts = [0u32; 64];
    for start in starts.iter_mut().take(n as usize) {
        line += 1;
        let [v] = cursor.line::<1>(b"var,").ok_or(refused(2, line))?;
        *start = u32::try_from(v).map_err(|_| refused(3, line))?;
    }
    let mut code = [Program { length: 0, lines: [Instruction::Stop; 32] }; 8];
    for program in code.iter_mut().take(s as usize) {
        line += 1;
        let [m] = cursor.line::<1>(b"sheet,").ok_or(refused(2, line))?;
        if !(1..=32).contains(&m) {
            return Err(refused(3, line));
        }
        program.length = m as u8;
        for slot in program.lines.iter_mut().take(m as usize) {
            line += 1;
            let numbers = cursor.line::<4>(b"ins,").ok_or(refused(2, line))?;
            *slot = decode(n as u8, numbers).ok_or(refused(4, line))?;
        }
    }
    if cursor.at != text.len() {
        return Err(refused(2, line + 1));
    }
    Ok(fresh(p as u8, n as u8, s as u8, limit, starts, code))
}

fn part(card: &Card, k: usize) -> u64 {
    card.limit ^ card.announcements[k].seq ^ card.records[k].val0 as u64 ^ card.code[k].length as u64 ^ card.tasks[k].target as u64
        ^ card.operations[k].program as u64 ^ card.gates[k].seq ^ card.copies[k].seq ^ card.simulations[k].counter as u64
        ^ card.dictionaries[k].items[k].value as u64
}

fn told(opened: Result<Card, Refused>, k: usize) -> u64 {
    match opened {
        Ok(card) => part(black_box(&card), k % 8),
        Err(r) => r.refusal as u64 + r.line,
    }
}

fn longest() -> Vec<u8> {
    let mut t = String::from("card,8,64,8,1000000000000000000\n");
    t += &"var,4294967295\n".repeat(64);
    for _ in 0..8 {
        t += "sheet,32\n";
        t += &"ins,2,0,4294967295,0\n".repeat(32);
    }
    t.into_bytes()
}

fn time(mut f: impl FnMut(usize) -> u64) -> (f64, u64) {
    const TIMES: usize = 4000;
    let start = Instant::now();
    let mut sum = 0;
    for k in 0..TIMES {
        sum ^= f(k).rotate_left(k as u32);
    }
    (start.elapsed().as_nanos() as f64 / TIMES as f64, sum)
}

fn main() {
    let text = longest();
    assert_eq!(text.len(), 6440);
    let (mut rattle, mut split, mut cursor) = (f64::MAX, f64::MAX, f64::MAX);
    for _ in 0..25 {
        let (a, x) = time(|k| unsafe { rattle_open(black_box(text.as_ptr()), text.len(), k) });
        let (b, y) = time(|k| told(open(black_box(&text)), k));
        let (c, z) = time(|k| told(open_cursor(black_box(&text)), k));
        assert!(x == y && y == z);
        rattle = rattle.min(a);
        split = split.min(b);
        cursor = cursor.min(c);
    }
    println!("text of 6,440 bytes, best of 25 batches of 4,000:");
    println!("proved reader {:.0} ns, Rust reader that splits lines and fields {:.0} ns, Rust reader with a cursor {:.0} ns", rattle, split, cursor);
    println!("ratios {:.2} and {:.2}", rattle / split, rattle / cursor);
}
