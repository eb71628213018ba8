//! Runs the program `machines` on generated cases, compares what it prints, and plays each machine alone; a case that differs is made small.

use std::fs;
use std::path::{Path, PathBuf};
use std::time::{Duration, Instant};

use super::{alone, events, expected, run, Draft, Files, Machines};
use crate::compare::{find, first_difference, output_of, shown, work_folder};
use crate::generate;
use crate::reached::Reached;

/// No case is made smaller for longer than this.
const SHRINK_LIMIT: Duration = Duration::from_secs(60);
/// So many cases that differ are printed; the others are only counted.
const PRINTED_CASES: u64 = 3;

/// The program to judge, the folder in which it runs, and the bench program on which each machine is played alone.
struct Judged {
    program: PathBuf,
    folder: PathBuf,
    bench: Option<PathBuf>,
}

impl Judged {
    fn prints(&self, files: &Files) -> Result<Vec<u8>, String> {
        let written = write(files, &self.folder).and_then(|()| output_of(&self.program, &[] as &[&str], &self.folder));
        let _ = fs::remove_dir_all(&self.folder);
        let written = written?;
        match String::from_utf8_lossy(&written.told).lines().find(|line| line.starts_with("machines: ")) {
            Some(line) => Err(line.to_string()),
            None => Ok(written.printed),
        }
    }

    /// Whether what is printed is right, and right of each machine alone.
    fn judge(&self, files: &Files, wanted: &[u8]) -> Result<(), String> {
        let printed = self.prints(files)?;
        if let Ok(machines) = Machines::open(files, Draft::Right) {
            let bench = self.bench.as_deref().map(|bench| (bench, self.folder.as_path()));
            alone::check(files, &machines, &printed, bench)?;
        }
        if printed == wanted {
            Ok(())
        } else {
            Err(first_difference(wanted, &printed))
        }
    }
}

fn write(files: &Files, folder: &Path) -> Result<(), String> {
    let write = || {
        fs::create_dir_all(folder)?;
        for (name, bytes) in files.named() {
            if let Some(bytes) = bytes {
                fs::write(folder.join(name), bytes)?;
            }
        }
        Ok(())
    };
    write().map_err(|error: std::io::Error| format!("cannot write into {}: {error}", folder.display()))
}

/// Writes the files of a seed's case into a folder.
pub fn write_case(seed: u64, folder: &str) -> Result<(), String> {
    write(&generate::machines::case(seed), Path::new(folder))
}

/// Compares on the cases of `count` seeds; true if none differs and everything was reached.
pub fn compare(program: &str, first: u64, count: u64, bench: Option<&str>) -> Result<bool, String> {
    let (program, bench) = (find(program)?, bench.map(find).transpose()?);
    let root = work_folder();
    let mut reached = Reached::new(&events());
    let mut different = 0;
    for seed in first..first + count {
        let folder = root.join(seed.to_string());
        let judged = Judged { program: program.clone(), folder, bench: bench.clone() };
        let files = generate::machines::case(seed);
        let wanted = run(&files, Draft::Right, &mut reached);
        if let Err(why) = judged.judge(&files, &wanted) {
            different += 1;
            if different <= PRINTED_CASES {
                println!("seed {seed} differs: {why}; made small:");
                print_case(&judged, &shrink(&judged, files));
            }
        }
    }
    let _ = fs::remove_dir_all(&root);
    println!("different cases {different}");
    Ok(reached.report() && different == 0)
}

/// A case with fewer commands on which the program is still not right.
fn shrink(judged: &Judged, mut files: Files) -> Files {
    let end = Instant::now() + SHRINK_LIMIT;
    let mut lines = generate::split_lines(files.calls());
    let mut length = lines.len();
    while length > 0 {
        let mut place = 0;
        while place < lines.len() {
            let past = (place + length).min(lines.len());
            let calls = Some([&lines[..place], &lines[past..]].concat().concat());
            let smaller = Files { calls, ..files.clone() };
            if Instant::now() < end && judged.judge(&smaller, &expected(&smaller)).is_err() {
                lines.drain(place..past);
                files = smaller;
            } else {
                place = past;
            }
        }
        length /= 2;
    }
    files
}

fn print_case(judged: &Judged, files: &Files) {
    for (name, bytes) in files.named() {
        println!("--- {name}\n{}", shown(bytes.as_deref()));
    }
    let wanted = expected(files);
    let printed = judged.prints(files).unwrap_or_else(|why| format!("({why})\n").into_bytes());
    println!("--- expected\n{}\n--- printed\n{}", shown(Some(&wanted)), shown(Some(&printed)));
    println!("--- why\n{}", judged.judge(files, &wanted).err().unwrap_or_default());
}
