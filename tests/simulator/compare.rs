//! Runs the bench program, or one of the programs `schedules` and `sweep`, on cases and compares what it prints; a case that differs is made small.

use std::ffi::OsStr;
use std::fs;
use std::io::Read;
use std::path::{Path, PathBuf};
use std::process::{Child, Command, Stdio};
use std::sync::mpsc;
use std::thread;
use std::time::{Duration, Instant};

use crate::coverage::Coverage;
use crate::generate::{card_text, case, Case};
use crate::machine::{length_of_lines, open, Card};
use crate::reached::Reached;
use crate::schedules;
use crate::session;
use crate::sweeps;

/// A run that takes longer counts as failed.
const TIME_LIMIT: Duration = Duration::from_secs(60);
/// No case is made smaller for longer than this.
const SHRINK_LIMIT: Duration = Duration::from_secs(60);
/// So many cases that differ are printed; the others are only counted.
const PRINTED_CASES: u64 = 3;
/// So many lines of an output that differs are printed.
const PRINTED_LINES: usize = 1000;

/// What a program must print for a case: a session, the listing of schedules of a length, or the sweep of the words that it is called with.
pub enum Right {
    Session,
    Listing(u32),
    Sweep,
}

impl Right {
    /// All that can be reached, but for sessions, whose coverage is counted apart.
    fn events(&self) -> Vec<&'static str> {
        match self {
            Right::Session => vec![],
            Right::Listing(_) => schedules::events(),
            Right::Sweep => sweeps::events(),
        }
    }
}

/// The executable to judge, the words that it is called with, the folder in which it runs, and what it must print.
pub struct Executable {
    pub program: PathBuf,
    pub words: Vec<String>,
    pub folder: PathBuf,
    pub right: Right,
}

/// What a program wrote to standard output and standard error.
#[derive(PartialEq, Eq)]
pub struct Written {
    pub printed: Vec<u8>,
    pub told: Vec<u8>,
}

impl Executable {
    /// What must be printed; counts what was reached.
    fn expected(&self, case: &Case, reached: &mut Reached) -> Vec<u8> {
        let (card, calls) = case.texts();
        match self.right {
            Right::Session => expected(case, &mut Coverage::default()),
            Right::Listing(length) => schedules::run(card, calls, length, reached),
            Right::Sweep => sweeps::run(card, calls, &self.words, reached),
        }
    }

    /// What must be printed, without counting.
    fn right(&self, case: &Case) -> Vec<u8> {
        self.expected(case, &mut Reached::new(&self.right.events()))
    }

    fn differs(&self, case: &Case) -> bool {
        self.heard(case).as_ref() != Ok(&self.right(case))
    }

    /// What the program prints; of a sweep, behind it, what it says of a wrong call or a failure. How far it is may be told or not, and a usage line may
    /// tell more.
    fn heard(&self, case: &Case) -> Result<Vec<u8>, String> {
        let written = self.run(case)?;
        let mut heard = written.printed;
        if !matches!(self.right, Right::Sweep) {
            return Ok(heard);
        }
        for line in written.told.split_inclusive(|&byte| byte == 10) {
            if line.starts_with(sweeps::USAGE.trim_end().as_bytes()) {
                heard.extend(sweeps::USAGE.bytes());
            } else if line.starts_with(b"usage: ") || line.starts_with(b"sweep: ") {
                heard.extend(line);
            }
        }
        Ok(heard)
    }

    /// What the program writes for a case, or why it failed.
    pub fn run(&self, case: &Case) -> Result<Written, String> {
        let result = write_files(case, &self.folder).and_then(|()| output_of(&self.program, &self.words, &self.folder));
        let _ = fs::remove_dir_all(&self.folder);
        result
    }
}

/// Writes the files of a case that are there.
pub fn write_files(case: &Case, folder: &Path) -> Result<(), String> {
    let write = || {
        fs::create_dir_all(folder)?;
        for (name, bytes) in [("card.txt", &case.card), ("calls.txt", &case.calls)] {
            if let Some(bytes) = bytes {
                fs::write(folder.join(name), bytes)?;
            }
        }
        Ok(())
    };
    write().map_err(|error: std::io::Error| format!("cannot write into {}: {error}", folder.display()))
}

/// What a program writes that runs in a folder with these words, or why it failed.
pub fn output_of(program: &Path, words: &[impl AsRef<OsStr>], folder: &Path) -> Result<Written, String> {
    let mut command = Command::new(program);
    command.args(words).current_dir(folder);
    command.stdin(Stdio::null()).stdout(Stdio::piped()).stderr(Stdio::piped());
    let mut child = command.spawn().map_err(|error| format!("cannot start {}: {error}", program.display()))?;
    let output = collect(&mut child);
    if output.is_err() {
        let _ = child.kill();
    }
    let status = child.wait().map_err(|error| error.to_string())?;
    match (output, status.code()) {
        (Ok(_), None) => Err(format!("ended by a signal: {status}")),
        (output, _) => output,
    }
}

/// Everything that a process writes, within the time limit. Of standard error it writes a few lines at most.
fn collect(child: &mut Child) -> Result<Written, String> {
    let mut stdout = child.stdout.take().expect("standard output is piped");
    let mut stderr = child.stderr.take().expect("standard error is piped");
    let (sender, receiver) = mpsc::channel();
    thread::spawn(move || {
        let (mut printed, mut told) = (Vec::new(), Vec::new());
        let read = stdout.read_to_end(&mut printed).and_then(|_| stderr.read_to_end(&mut told));
        let _ = sender.send(read.map(|_| Written { printed, told }).map_err(|error| error.to_string()));
    });
    receiver.recv_timeout(TIME_LIMIT).unwrap_or_else(|_| Err(format!("no end within {} s", TIME_LIMIT.as_secs())))
}

/// The program of a path.
pub fn find(program: &str) -> Result<PathBuf, String> {
    fs::canonicalize(program).map_err(|error| format!("cannot find {program}: {error}"))
}

/// The folder in which this process makes the folders of its cases.
pub fn work_folder() -> PathBuf {
    std::env::temp_dir().join(format!("card-simulator-{}", std::process::id()))
}

/// Compares on the cases of `count` seeds; true if none differs and everything was reached.
pub fn compare(program: &str, first_seed: u64, count: u64) -> Result<bool, String> {
    let program = find(program)?;
    let root = work_folder();
    let mut coverage = Coverage::default();
    let mut different = 0;
    for seed in first_seed..first_seed + count {
        let folder = root.join(seed.to_string());
        let executable = Executable { program: program.clone(), words: vec![], folder, right: Right::Session };
        let case = case(seed);
        let expected = expected(&case, &mut coverage);
        if executable.heard(&case).as_ref() != Ok(&expected) {
            different += 1;
            if different <= PRINTED_CASES {
                print_difference(seed, &executable, &shrink(&executable, case));
            }
        }
    }
    let _ = fs::remove_dir_all(&root);
    println!("different cases {different}");
    Ok(report(&coverage) && different == 0)
}

/// A case of a program that is called with words, these words, and what it must print.
pub type Called = (Case, Vec<String>, Right);

/// Compares a program that is called with words, on the cases of `count` seeds; true if none differs and everything was reached.
pub fn compare_called(
    program: &str,
    first_seed: u64,
    count: u64,
    events: &[&'static str],
    made: fn(u64) -> Called,
) -> Result<bool, String> {
    let program = find(program)?;
    let root = work_folder();
    let mut reached = Reached::new(events);
    let mut different = 0;
    for seed in first_seed..first_seed + count {
        let (case, words, right) = made(seed);
        let executable = Executable { program: program.clone(), words, folder: root.join(seed.to_string()), right };
        let expected = executable.expected(&case, &mut reached);
        if executable.heard(&case).as_ref() != Ok(&expected) {
            different += 1;
            if different <= PRINTED_CASES {
                println!("called with {:?}", executable.words);
                print_difference(seed, &executable, &shrink(&executable, case));
            }
        }
    }
    let _ = fs::remove_dir_all(&root);
    println!("different cases {different}");
    Ok(reached.report() && different == 0)
}

/// Simulates only.
pub fn cover(first_seed: u64, count: u64) -> bool {
    let mut coverage = Coverage::default();
    for seed in first_seed..first_seed + count {
        expected(&case(seed), &mut coverage);
    }
    report(&coverage)
}

/// Writes a case's two files into a folder.
pub fn write_case(seed: u64, folder: &str) -> Result<(), String> {
    write_files(&case(seed), Path::new(folder))
}

/// The same of a program that is called with words, which are printed.
pub fn write_called((case, words, _): Called, folder: &str) -> Result<(), String> {
    println!("{}", words.join(" "));
    write_files(&case, Path::new(folder))
}

/// What the bench program must print.
pub fn expected(case: &Case, coverage: &mut Coverage) -> Vec<u8> {
    let (card, calls) = case.texts();
    session::run(card, calls, coverage)
}

/// Prints the summary; true if everything that can occur was reached and no operation waited too long.
fn report(coverage: &Coverage) -> bool {
    println!("{}", coverage.summary());
    let never = coverage.never_reached();
    println!("never reached: {}", if never.is_empty() { "nothing".to_string() } else { never.join(", ") });
    never.is_empty() && coverage.late == 0
}

// ---------------------------------------------------------------- making a case small

/// A smaller case on which the program still differs: first fewer commands, then a shorter card.
fn shrink(executable: &Executable, mut case: Case) -> Case {
    let end = Instant::now() + SHRINK_LIMIT;
    let mut differs = |case: &Case| Instant::now() < end && executable.differs(case);
    let mut size = usize::MAX;
    while case_size(&case) < size {
        size = case_size(&case);
        drop_pieces(&mut case, |case| &mut case.calls, true, &mut differs);
        shrink_card(&mut case, &mut differs);
    }
    case
}

fn case_size(case: &Case) -> usize {
    case.card.as_ref().map_or(0, Vec::len) + case.calls.as_ref().map_or(0, Vec::len)
}

/// A card that opens loses parts of what it says; any other text loses lines, then bytes.
fn shrink_card(case: &mut Case, differs: &mut impl FnMut(&Case) -> bool) {
    while let Some(card) = case.card.as_deref().and_then(|text| open(text).ok()) {
        let smaller =
            smaller_cards(&card).into_iter().map(|card| Case { card: Some(card_text(&card)), ..case.clone() });
        match smaller.into_iter().find(|case| differs(case)) {
            Some(smaller) => *case = smaller,
            None => return,
        }
    }
    drop_pieces(case, |case| &mut case.card, true, differs);
    drop_pieces(case, |case| &mut case.card, false, differs);
}

/// The cards with one process, variable, program or instruction less.
fn smaller_cards(card: &Card) -> Vec<Card> {
    let mut smaller = vec![Card { processes: card.processes - 1, ..card.clone() }];
    smaller.push(Card { starting: card.starting[1..].to_vec(), ..card.clone() });
    for program in 0..card.programs.len() {
        let mut fewer = card.clone();
        fewer.programs.remove(program);
        smaller.push(fewer);
        for place in 0..card.programs[program].len() {
            let mut shorter = card.clone();
            shorter.programs[program].remove(place);
            smaller.push(shorter);
        }
    }
    smaller.retain(|card| open(&card_text(card)).is_ok());
    smaller
}

/// Drops runs of lines (or bytes) of one file, halving the runs, while the case still differs.
fn drop_pieces(
    case: &mut Case,
    file: impl Fn(&mut Case) -> &mut Option<Vec<u8>>,
    by_lines: bool,
    differs: &mut impl FnMut(&Case) -> bool,
) {
    let Some(text) = file(case).clone() else { return };
    let cut = |byte: &u8| !by_lines || *byte == 10;
    let mut pieces: Vec<Vec<u8>> = text.split_inclusive(cut).map(<[u8]>::to_vec).collect();
    let mut run = pieces.len();
    while run > 0 {
        let mut place = 0;
        while place < pieces.len() {
            let end = (place + run).min(pieces.len());
            let mut smaller = case.clone();
            *file(&mut smaller) = Some([&pieces[..place], &pieces[end..]].concat().concat());
            if differs(&smaller) {
                pieces.drain(place..end);
                *case = smaller;
            } else {
                place = end;
            }
        }
        run /= 2;
    }
}

fn print_difference(seed: u64, executable: &Executable, case: &Case) {
    let right = executable.right(case);
    let printed = executable.heard(case).unwrap_or_else(|reason| format!("({reason})\n").into_bytes());
    println!("seed {seed} differs; made small:");
    println!("--- card.txt\n{}", shown(case.card.as_deref()));
    println!("--- calls.txt\n{}", shown(case.calls.as_deref()));
    println!("--- expected\n{}", shown(Some(front(&right))));
    println!("--- printed\n{}", shown(Some(front(&printed))));
    println!("--- first differing line\n{}", first_difference(&right, &printed));
}

/// The first lines of an output; a listing may have millions.
fn front(text: &[u8]) -> &[u8] {
    &text[..length_of_lines(text, PRINTED_LINES)]
}

/// A text as it can be printed: bytes that are not plain ASCII are escaped, and an unended line is marked.
pub fn shown(text: Option<&[u8]>) -> String {
    let Some(text) = text else { return "(no file)".to_string() };
    let lines = text.split_inclusive(|&byte| byte == 10).map(|line| match line.strip_suffix(b"\n") {
        Some(line) => line.escape_ascii().to_string(),
        None => format!("{} (no byte 10)", line.escape_ascii()),
    });
    lines.collect::<Vec<_>>().join("\n")
}

pub fn first_difference(right: &[u8], printed: &[u8]) -> String {
    let split = |text: &[u8]| -> Vec<String> {
        text.split_inclusive(|&byte| byte == 10).map(|line| line.escape_ascii().to_string()).collect()
    };
    let (right, printed) = (split(right), split(printed));
    let place = (0..).find(|&at| right.get(at) != printed.get(at) || at >= right.len()).unwrap_or(0);
    let at = |lines: &[String]| lines.get(place).map_or("(none)".to_string(), Clone::clone);
    format!("line {}: expected {}, printed {}", place + 1, at(&right), at(&printed))
}
