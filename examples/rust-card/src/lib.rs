//! A drive card for Rust programs, over the functions of include/lace_card.h. What the header asks of its callers, this crate sees to: a card owns its block and
//! its loan, so both are as long as they have to be, overlap nothing, and are handed back as the last call left them. So no function here is
//! unsafe to call, and every answer is that of the card.

/// Words of 64 bits of a block, and of the loan of any card (`LACE_BLOCK_WORDS`, `LACE_LOAN_WORDS_MAX`).
const BLOCK_WORDS: usize = 1456;
/// Bytes of the longest card text that opens (`LACE_WRITTEN_BYTES`).
const WRITTEN_BYTES: usize = 6440;

#[link(name = "lace_card", kind = "static")]
extern "C" {
    fn lace_block_words() -> usize;
    fn lace_loan_words(block: *const u64, block_words: usize) -> usize;
    fn lace_open(text: *const u8, bytes: usize, block: *mut u64, words: usize, out: *mut u64, places: usize) -> u32;
    fn lace_call(block: *mut u64, words: usize, process: u32, program: u32, i0: u32, i1: u32, i2: u32, i3: u32) -> u32;
    fn lace_request_exit(block: *mut u64, words: usize, process: u32) -> u32;
    fn lace_step(block: *mut u64, words: usize, loan: *mut u64, lent: usize, process: u32, out: *mut u64, places: usize) -> u32;
    #[rustfmt::skip]
    fn lace_trace(
        block: *mut u64, words: usize, loan: *mut u64, lent: usize, process: u32, out: *mut u64, places: usize, report: *mut u64, told: usize,
    ) -> u32;
    #[rustfmt::skip]
    fn lace_run(
        block: *mut u64, words: usize, loan: *mut u64, lent: usize, calls: *const u32, called: usize, schedule: *const u8, steps: usize,
        out: *mut u64, places: usize,
    ) -> u32;
    fn lace_read(block: *const u64, words: usize, variable: u32, out: *mut u64, places: usize) -> u32;
    #[rustfmt::skip]
    fn lace_change(
        block: *mut u64, words: usize, program: u32, from: u64, text: *const u8, bytes: usize, out: *mut u64, places: usize,
    ) -> u32;
    fn lace_write(block: *const u64, words: usize, text: *mut u8, bytes: usize, out: *mut u64, places: usize) -> u32;
    fn lace_wait(block: *const u64, words: usize) -> u64;
}

/// The number of a refusal, as docs/FORMATS.md lists them.
#[derive(Clone, Copy, Debug, PartialEq, Eq)]
pub struct Refusal(pub u32);

/// A refused text, or a refused change: the number, and the line of the text.
#[derive(Clone, Copy, Debug, PartialEq, Eq)]
pub struct RefusedAt {
    pub refusal: Refusal,
    pub line: u64,
}

/// What an accepted step answers.
#[derive(Clone, Copy, Debug, PartialEq, Eq)]
pub enum Answer {
    Run,
    /// An operation that took effect, or ended as a fault: its gate number, its outputs and how many own steps it took.
    Done { fault: bool, gate_number: u64, outputs: [u32; 4], steps: u64 },
    /// One that was withdrawn.
    Exited { steps: u64 },
}

/// What is told of the access of a traced step.
#[derive(Clone, Copy, Debug, PartialEq, Eq)]
pub struct Report {
    /// The procedure of the paper and the number of the line, as in P19.
    pub label: (char, u64),
    /// G, A or R, and of which process or variable.
    pub cell: (char, u64),
    /// Whether a swap won, if it was one.
    pub swap: Option<bool>,
    pub gate_number: u64,
    pub noted: u64,
    pub count: u64,
}

/// What a run over a schedule came to: the accepted steps; how many operations were done, ended as faults and exited; the most own steps of one of them.
#[derive(Clone, Copy, Debug, PartialEq, Eq)]
pub struct Counts {
    pub accepted: u64,
    pub done: u64,
    pub faulted: u64,
    pub exited: u64,
    pub longest: u64,
}

/// A card with the memory that it takes.
pub struct Card {
    block: Box<[u64; BLOCK_WORDS]>,
    loan: Vec<u64>,
}

fn taken(status: u32) -> Result<(), Refusal> {
    if status == 0 {
        Ok(())
    } else {
        Err(Refusal(status))
    }
}

fn taken_at(status: u32, line: u64) -> Result<(), RefusedAt> {
    taken(status).map_err(|refusal| RefusedAt { refusal, line })
}

/// The answer that the places of `out` tell (`enum lace_step_place`).
fn answer(out: &[u64; 7]) -> Answer {
    match out[0] {
        0 => Answer::Run,
        3 => Answer::Exited { steps: out[1] },
        kind => {
            let outputs = [out[3], out[4], out[5], out[6]].map(|word| word as u32);
            Answer::Done { fault: kind == 2, gate_number: out[2], outputs, steps: out[1] }
        }
    }
}

fn letter(number: u64) -> char {
    char::from(number as u8)
}

impl Card {
    /// Opens a card text.
    pub fn open(text: &[u8]) -> Result<Card, RefusedAt> {
        let mut block = Box::new([0; BLOCK_WORDS]);
        let mut line = [0];
        // Sound here and below: every pointer comes from a slice with its length, and the borrows keep them apart.
        assert_eq!(unsafe { lace_block_words() }, BLOCK_WORDS, "this crate and the archive are of one version");
        let status = unsafe { lace_open(text.as_ptr(), text.len(), block.as_mut_ptr(), BLOCK_WORDS, line.as_mut_ptr(), 1) };
        taken_at(status, line[0])?;
        let words = unsafe { lace_loan_words(block.as_ptr(), BLOCK_WORDS) };
        Ok(Card { block, loan: vec![0; words] })
    }

    /// Process `process` takes up `program`.
    pub fn call(&mut self, process: u32, program: u32, inputs: [u32; 4]) -> Result<(), Refusal> {
        let [i0, i1, i2, i3] = inputs;
        taken(unsafe { lace_call(self.block.as_mut_ptr(), BLOCK_WORDS, process, program, i0, i1, i2, i3) })
    }

    /// Asks that the operation of a process be withdrawn.
    pub fn request_exit(&mut self, process: u32) -> Result<(), Refusal> {
        taken(unsafe { lace_request_exit(self.block.as_mut_ptr(), BLOCK_WORDS, process) })
    }

    /// One step of a process.
    pub fn step(&mut self, process: u32) -> Result<Answer, Refusal> {
        let mut out = [0; 7];
        let (block, loan) = (self.block.as_mut_ptr(), self.loan.as_mut_ptr());
        taken(unsafe { lace_step(block, BLOCK_WORDS, loan, self.loan.len(), process, out.as_mut_ptr(), out.len()) })?;
        Ok(answer(&out))
    }

    /// One step of a process, and what is told of it.
    pub fn trace(&mut self, process: u32) -> Result<(Answer, Report), Refusal> {
        let (mut out, mut told) = ([0; 7], [0; 8]);
        let (block, loan, length) = (self.block.as_mut_ptr(), self.loan.as_mut_ptr(), self.loan.len());
        let (numbers, report) = (out.as_mut_ptr(), told.as_mut_ptr());
        taken(unsafe { lace_trace(block, BLOCK_WORDS, loan, length, process, numbers, out.len(), report, told.len()) })?;
        let [label, line, cell, number, swap, gate_number, noted, count] = told;
        let swap = match letter(swap) {
            '1' => Some(true),
            '0' => Some(false),
            _ => None,
        };
        let report = Report { label: (letter(label), line), cell: (letter(cell), number), swap, gate_number, noted, count };
        Ok((answer(&out), report))
    }

    /// The steps of a schedule, a process each. One whose operation returns is called again at once: `calls` has a program and four inputs for each process.
    pub fn run(&mut self, calls: &[[u32; 5]], schedule: &[u8]) -> Counts {
        let mut out = [0; 5];
        let (block, loan, lent) = (self.block.as_mut_ptr(), self.loan.as_mut_ptr(), self.loan.len());
        let (table, words) = (calls.as_ptr().cast(), calls.len() * 5);
        let status = unsafe {
            lace_run(block, BLOCK_WORDS, loan, lent, table, words, schedule.as_ptr(), schedule.len(), out.as_mut_ptr(), out.len())
        };
        assert_eq!(status, 0, "a card's loan is as long as it has to be");
        let [accepted, done, faulted, exited, longest] = out;
        Counts { accepted, done, faulted, exited, longest }
    }

    /// What a variable shows.
    pub fn read(&self, variable: u32) -> Result<u32, Refusal> {
        let mut value = [0];
        taken(unsafe { lace_read(self.block.as_ptr(), BLOCK_WORDS, variable, value.as_mut_ptr(), 1) })?;
        Ok(value[0] as u32)
    }

    /// Operations numbered `from` or later run this text of a program.
    pub fn change(&mut self, program: u32, from: u64, text: &[u8]) -> Result<(), RefusedAt> {
        let mut line = [0];
        let (block, numbers) = (self.block.as_mut_ptr(), line.as_mut_ptr());
        let status = unsafe { lace_change(block, BLOCK_WORDS, program, from, text.as_ptr(), text.len(), numbers, 1) };
        taken_at(status, line[0])
    }

    /// The text that the card was opened from.
    pub fn text(&self) -> Vec<u8> {
        let (mut text, mut length) = (vec![0; WRITTEN_BYTES], [0]);
        let buffer = text.as_mut_ptr();
        let status = unsafe { lace_write(self.block.as_ptr(), BLOCK_WORDS, buffer, WRITTEN_BYTES, length.as_mut_ptr(), 1) };
        assert_eq!(status, 0, "an opened card has at most {WRITTEN_BYTES} bytes");
        text.truncate(length[0] as usize);
        text
    }

    /// Within how many of its own steps an operation is back, without a request to exit.
    pub fn longest_wait(&self) -> u64 {
        unsafe { lace_wait(self.block.as_ptr(), BLOCK_WORDS) }
    }
}

#[cfg(test)]
mod tests {
    use super::*;

    const CARD_K: &[u8] = b"card,2,1,1,100\nvar,7\nsheet,4\nins,1,0,0,0\nins,3,1,0,0\nins,4,0,0,0\nins,11,0,1,0\n";

    #[test]
    fn a_run_is_its_steps() {
        let calls = [[0, 9, 0, 0, 0], [0, 5, 0, 0, 0]];
        let schedule: Vec<u8> = (0..90).map(|k| (k * k % 5 % 2) as u8).collect();
        let mut cards = [Card::open(CARD_K).unwrap(), Card::open(CARD_K).unwrap()];
        for card in &mut cards {
            for (process, [program, inputs @ ..]) in calls.iter().enumerate() {
                card.call(process as u32, *program, *inputs).unwrap();
            }
        }
        let [whole, single] = &mut cards;
        let counts = whole.run(&calls, &schedule);
        let mut done = 0;
        for &process in &schedule {
            let process = u32::from(process);
            if let Answer::Done { .. } = single.step(process).unwrap() {
                let [program, inputs @ ..] = calls[process as usize];
                single.call(process, program, inputs).unwrap();
                done += 1;
            }
        }
        assert_eq!((counts.accepted, counts.done, counts.faulted, counts.exited), (90, done, 0, 0));
        assert!(done > 3 && counts.longest <= whole.longest_wait());
        assert_eq!(whole.block, single.block);
        assert_eq!(whole.loan, single.loan);
    }

    #[test]
    fn refusals_are_told() {
        assert_eq!(Card::open(b"card,9,1,1,5\n").err(), Some(RefusedAt { refusal: Refusal(3), line: 1 }));
        let mut card = Card::open(CARD_K).unwrap();
        assert_eq!(card.call(2, 0, [0; 4]), Err(Refusal(5)));
        assert_eq!(card.step(0), Err(Refusal(8)));
        assert_eq!(card.read(1), Err(Refusal(9)));
        assert_eq!(card.change(0, 1, b"sheet,1\nins,12,0,0,0\n"), Err(RefusedAt { refusal: Refusal(15), line: 0 }));
        assert_eq!(card.text(), CARD_K);
    }
}
