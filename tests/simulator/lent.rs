//! Runs a program that keeps its card in lent words (document 02, order 10) on cases, and compares what it writes.

use std::fs;
use std::path::{Path, PathBuf};

use crate::compare::{expected, find, work_folder, Executable, Right};
use crate::coverage::Coverage;
use crate::generate::{case, Case};
use crate::replay::{schedules, Schedule};

/// Seeds of the random words that alter the loan of a stored case or a schedule. A generated case is altered by its own seed.
const SEEDS: [u64; 3] = [1, 2, 3];

/// A case with the name that it is told by, and the seeds that its loan is altered by.
struct Named {
    name: String,
    case: Case,
    seeds: Vec<u64>,
}

/// Compares on the cases of `count` seeds, on the schedules of a file and on the stored cases of a folder; true if no run fails.
pub fn compare(program: &str, first: u64, count: u64, schedules: &Path, folder: &Path) -> Result<bool, String> {
    let program = find(program)?;
    let named = |seed| Named { name: format!("seed {seed}"), case: case(seed), seeds: vec![seed] };
    let generated = (first..first + count).map(named);
    let text =
        fs::read_to_string(schedules).map_err(|error| format!("cannot read {}: {error}", schedules.display()))?;
    let cases: Vec<Named> = generated.chain(played(&text)).chain(stored(folder)?).collect();
    let mut failed = 0;
    let mut runs = 0;
    for case in &cases {
        for failure in failures(&program, case, &mut runs) {
            println!("{}, {failure}", case.name);
            failed += 1;
        }
    }
    let _ = fs::remove_dir_all(work_folder());
    println!("lent words: {runs} runs of {} sessions, {failed} failed", cases.len());
    Ok(failed == 0)
}

/// What is wrong with the runs of a case: as it is, with every step asked for with a loan too short first, and with altered loans.
fn failures(program: &Path, case: &Named, runs: &mut u64) -> Vec<String> {
    let right = expected(&case.case, &mut Coverage::default());
    let altered = case.seeds.iter().map(|seed| vec![seed.to_string()]);
    let all = [vec![], vec!["0".to_string(), "short".to_string()]].into_iter().chain(altered);
    all.filter_map(|words| {
        *runs += 1;
        failure(program, &words, &case.case, &right).map(|why| format!("called with {words:?}: {why}"))
    })
    .collect()
}

/// What is wrong with one run. With an altered loan it prints as many lines, whatever their answers are.
fn failure(program: &Path, words: &[String], case: &Case, right: &[u8]) -> Option<String> {
    let program = PathBuf::from(program);
    let executable = Executable { program, words: words.to_vec(), folder: work_folder(), right: Right::Session };
    let written = match executable.run(case) {
        Ok(written) => written,
        Err(why) => return Some(why),
    };
    let lines = |text: &[u8]| text.iter().filter(|&&byte| byte == b'\n').count();
    let same = if words.len() == 1 { lines(&written.printed) == lines(right) } else { written.printed == right };
    if !same {
        return Some("other lines".to_string());
    }
    (written.told != kept(words).as_bytes()).then(|| format!("it told {:?}", String::from_utf8_lossy(&written.told)))
}

/// What the program tells at the end of a session that touched nothing past the words of its loan, with the words that it was called with.
fn kept(words: &[String]) -> String {
    let seed = words.first().map_or("0", String::as_str);
    let short = if words.len() > 1 { ", short first" } else { "" };
    format!("the loan is kept, seed {seed}{short}\n")
}

/// The schedules of the program replay (its standard input, crates/replay) as sessions.
fn played(text: &str) -> Vec<Named> {
    let bytes = |text: &str| Some(text.as_bytes().to_vec());
    let case = |schedule: &Schedule| Case { card: bytes(schedule.card), calls: bytes(schedule.calls) };
    let named = |schedule: &Schedule| Named {
        name: format!("schedule '{}'", schedule.title),
        case: case(schedule),
        seeds: SEEDS.to_vec(),
    };
    schedules(text).iter().map(named).collect()
}

/// The stored cases of a folder.
fn stored(folder: &Path) -> Result<Vec<Named>, String> {
    let entries = fs::read_dir(folder).map_err(|error| format!("cannot read {}: {error}", folder.display()))?;
    let mut folders: Vec<PathBuf> = entries.filter_map(|entry| entry.ok().map(|entry| entry.path())).collect();
    folders.sort();
    let file = |folder: &Path, name: &str| fs::read(folder.join(name)).ok();
    let case = |folder: &Path| Case { card: file(folder, "card.txt"), calls: file(folder, "calls.txt") };
    let named =
        |folder: &PathBuf| Named { name: folder.display().to_string(), case: case(folder), seeds: SEEDS.to_vec() };
    Ok(folders.iter().map(named).collect())
}
