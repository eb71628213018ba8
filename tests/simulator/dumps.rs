//! Dumps to judge the programs `waves` and `readings` by (document 02, order 7): those of generated sessions, those of histories that no session
//! has, and damaged ones.

use std::collections::BTreeMap;
use std::fs;
use std::path::{Path, PathBuf};

use crate::compare::{find, first_difference, output_of, shown, work_folder, write_files};
use crate::generate::{case, split_lines, Case, Random};
use crate::machine::{length_of_lines, number, GREATEST_LIMIT};
use crate::waves::{play, printed, read, readings, write, Dump, MOST_VARIABLES};

/// So many differences are printed; the others are only counted.
const PRINTED_DIFFERENCES: usize = 3;
/// The dump's name in the folder where `readings` runs.
const DUMP_FILE: &str = "dump.vcd";

/// The folder where programs run, and how often they printed what they must.
struct Trials {
    folder: PathBuf,
    passed: usize,
    failed: usize,
}

impl Trials {
    fn new(name: &str) -> Result<Trials, String> {
        let folder = work_folder().join(name);
        fs::create_dir_all(&folder).map_err(|error| format!("cannot make {}: {error}", folder.display()))?;
        Ok(Trials { folder, passed: 0, failed: 0 })
    }

    /// Runs a program and compares what it prints.
    fn judge(&mut self, what: &str, program: &Path, arguments: &[&str], right: &[u8]) {
        let found = output_of(program, arguments, &self.folder).map(|written| written.printed);
        if found.as_ref().is_ok_and(|found| found == right) {
            self.passed += 1;
            return;
        }
        self.failed += 1;
        if self.failed <= PRINTED_DIFFERENCES {
            let found = found.unwrap_or_else(|reason| format!("({reason})\n").into_bytes());
            println!("differs: {what}, arguments {arguments:?}\n{}", first_difference(right, &found));
            for name in ["card.txt", "calls.txt", DUMP_FILE] {
                let file = fs::read(self.folder.join(name)).ok();
                println!("--- {name}\n{}", file.map_or("(no file)".to_string(), |text| shown(Some(&text))));
            }
        }
    }

    /// Has `readings` read a dump, without a step and with each of these.
    fn judge_reading(&mut self, what: &str, program: &Path, dump: &[u8], steps: &[u64]) -> Result<(), String> {
        self.put(DUMP_FILE, dump)?;
        self.judge(what, program, &[DUMP_FILE], readings(dump, None).as_bytes());
        for step in steps {
            let right = readings(dump, Some(*step));
            self.judge(what, program, &[DUMP_FILE, &step.to_string()], right.as_bytes());
        }
        Ok(())
    }

    fn put(&self, name: &str, text: &[u8]) -> Result<(), String> {
        fs::write(self.folder.join(name), text).map_err(|error| format!("cannot write {name}: {error}"))
    }

    fn put_case(&self, case: &Case) -> Result<(), String> {
        for name in ["card.txt", "calls.txt", DUMP_FILE] {
            let _ = fs::remove_file(self.folder.join(name));
        }
        write_files(case, &self.folder)
    }

    /// The count as a line; true if nothing differed.
    fn end(self, name: &str) -> bool {
        println!("{name}: {} passed, {} failed", self.passed, self.failed);
        self.failed == 0
    }
}

// ---------------------------------------------------------------- dumps of sessions

/// What sessions come to; the summary counts each of these.
const SESSIONS: [&str; 6] = [
    "no dump",
    "no step",
    "nothing changed at the last step",
    "a change at the last step",
    "several changes at a step",
    "64 variables",
];

fn forms(dump: Option<&Dump>) -> Vec<&'static str> {
    let Some(Dump { variables, times }) = dump else { return vec![SESSIONS[0]] };
    let changes = |at: &[(u64, Vec<u32>)]| at[0].1.iter().zip(&at[1].1).filter(|(old, new)| old != new).count();
    let changes: Vec<usize> = times.windows(2).map(changes).collect();
    let holds = [
        false,
        changes.is_empty(),
        changes.last() == Some(&0),
        changes.last().is_some_and(|&count| count > 0),
        changes.iter().any(|&count| count > 1),
        *variables == MOST_VARIABLES,
    ];
    (0..SESSIONS.len()).filter(|&at| holds[at]).map(|at| SESSIONS[at]).collect()
}

/// How often each of some kinds occurred, as a line, and a line of those that did not; true if all did.
fn report(name: &str, kinds: &[&'static str], counts: &BTreeMap<&str, usize>) -> bool {
    let counted = kinds.iter().map(|kind| format!("{kind} {}", counts.get(kind).unwrap_or(&0)));
    println!("{name}: {}", counted.collect::<Vec<_>>().join(", "));
    let never: Vec<&str> = kinds.iter().filter(|kind| !counts.contains_key(*kind)).copied().collect();
    println!("{name} never: {}", if never.is_empty() { "none".to_string() } else { never.join(", ") });
    never.is_empty()
}

/// The case of a seed; one of three ends with the last step that changes a value, if there is one.
fn session(seed: u64) -> Case {
    let mut case = case(seed);
    if let (2, Some(card), Some(calls)) = (seed % 3, &case.card, &case.calls) {
        if let Ok(played) = play(card, calls) {
            let changed = played.history.times.windows(2).rposition(|at| at[0].1 != at[1].1);
            let end = changed.map(|place| length_of_lines(calls, played.lines[place]));
            case.calls = Some(calls[..end.unwrap_or(calls.len())].to_vec());
        }
    }
    case
}

/// Compares `waves` byte for byte on the sessions of `count` seeds, and `readings` on their dumps.
pub fn compare(waves: &str, reader: &str, first_seed: u64, count: u64) -> Result<bool, String> {
    let (waves, reader) = (find(waves)?, find(reader)?);
    let (mut written, mut read_back) = (Trials::new("waves")?, Trials::new("readings")?);
    let mut counts = BTreeMap::new();
    for seed in first_seed..first_seed + count {
        let case = session(seed);
        let (card, calls) = case.texts();
        let dump = printed(card, calls);
        written.put_case(&case)?;
        written.judge(&format!("seed {seed}"), &waves, &[], &dump);
        let history = read(&dump).ok();
        forms(history.as_ref()).into_iter().for_each(|form| *counts.entry(form).or_insert(0) += 1);
        if let Some(history) = history {
            let steps = [some_step(&mut Random::new(seed), &history)];
            read_back.judge_reading(&format!("the dump of seed {seed}"), &reader, &dump, &steps)?;
        }
    }
    let _ = fs::remove_dir_all(work_folder());
    let complete = report("sessions", &SESSIONS, &counts);
    let written = written.end("dumps of sessions");
    Ok(read_back.end("dumps of sessions read back") && written && complete)
}

/// A step at, before or after one of the times, or past the last.
fn some_step(random: &mut Random, dump: &Dump) -> u64 {
    let (time, _) = dump.times[random.below(dump.times.len())];
    let step = match random.below(8) {
        0 => 0,
        1 => GREATEST_LIMIT,
        2 | 3 => time,
        4 | 5 => time.saturating_sub(1),
        6 => random.next() % GREATEST_LIMIT,
        _ => time + 1,
    };
    step.min(GREATEST_LIMIT)
}

// ---------------------------------------------------------------- any history

/// A dump of any history: 0 to 64 variables, times up to the greatest.
pub fn some_dump(random: &mut Random, most_groups: usize) -> Dump {
    let variables = match random.below(12) {
        0 => 0,
        1 => MOST_VARIABLES,
        2 => random.between(1, MOST_VARIABLES),
        _ => random.between(1, 4),
    };
    let mut values: Vec<u32> = (0..variables).map(|_| some_value(random)).collect();
    let mut times = vec![(0, values.clone())];
    let groups = if variables == 0 { 0 } else { random.below(most_groups + 1) };
    let far = random.chance(20);
    for _ in 0..groups {
        let last = times[times.len() - 1].0;
        let ahead = if far { random.next() % 100_000_000_000_000_000 } else { random.between(0, 9) as u64 };
        let time = (last + 1 + ahead).min(GREATEST_LIMIT);
        if time == last {
            break;
        }
        let change = |value: &u32, random: &mut Random| if random.chance(40) { some_value(random) } else { *value };
        let changed: Vec<u32> = values.iter().map(|value| change(value, random)).collect();
        if changed == values {
            continue;
        }
        values = changed;
        times.push((time, values.clone()));
    }
    let last = times[times.len() - 1].0;
    if groups > 0 && random.chance(30) && last < GREATEST_LIMIT {
        let end = random.pick(&[last + 1, last + 7, GREATEST_LIMIT, GREATEST_LIMIT - 1]);
        times.push((end.clamp(last + 1, GREATEST_LIMIT), values));
    }
    Dump { variables, times }
}

fn some_value(random: &mut Random) -> u32 {
    match random.below(4) {
        0 => random.below(3) as u32,
        1 => random.pick(&[u32::MAX, u32::MAX - 1, 1 << 31, (1 << 31) - 1]),
        2 => 1 << random.below(32),
        _ => random.next() as u32,
    }
}

// ---------------------------------------------------------------- damage

/// Bytes that matter somewhere in a dump, or look like such.
const ODD_BYTES: [u8; 19] =
    [0, 9, 10, 13, b' ', b'!', b'"', b'#', b'$', b'+', b'-', b'0', b'1', b'2', b'B', b'b', b'x', 127, 200];

#[rustfmt::skip]
const ODD_TIMES: [&str; 18] = [
    "", "0", "00", "07", "+7", "-1", " 7", "7 ", "7.0", "1", "2", "1000000000000000000", "1000000000000000001",
    "01000000000000000000", "18446744073709551615", "18446744073709551617", "9999999999999999999999999", "x",
];

#[rustfmt::skip]
const ODD_BITS: [&str; 12] = [
    "", "0", "1", "00", "01", "2", "x", "1 ", "11111111111111111111111111111111", "100000000000000000000000000000000",
    "011111111111111111111111111111111", "10000000000000000000000000000000000000000000000000000000000000001",
];

#[rustfmt::skip]
const ODD_LINES: [&str; 16] = [
    "\n", "#0\n", "#1\n", "#1000000000000000000\n", "b0 !\n", "b1 !\n", "b0 \"\n", "b1 \"\n", "b1!\n", "1!\n",
    "$timescale 1 us $end\n", "$var wire 32 ! v0 $end\n", "$upscope $end\n", "$enddefinitions $end\n", "$dumpvars\n", "$comment x $end\n",
];

/// Damages a dump somewhere.
pub fn damage(random: &mut Random, text: &mut Vec<u8>) {
    let mut lines = split_lines(text);
    if lines.is_empty() {
        return;
    }
    let (place, other) = (random.below(lines.len()), random.below(lines.len()));
    match random.below(14) {
        0 => return damage_byte(random, text),
        1 => return text.truncate(random.below(text.len())),
        2 => drop(lines.remove(place)),
        3 => lines.insert(place, lines[place].clone()),
        4 => lines.swap(place, other),
        5 => lines[place.saturating_sub(1)..=place].reverse(),
        6 => lines.insert(place, random.pick(&ODD_LINES).into()),
        7 => lines.push(random.pick(&ODD_LINES).into()),
        8 => drop(lines[place].pop()),
        9 | 10 => replace_some(random, &mut lines, b"#", |random, _| format!("#{}\n", random.pick(&ODD_TIMES))),
        11 | 12 => replace_some(random, &mut lines, b"b", |random, old| {
            let code = old.chars().rev().nth(1).unwrap_or('!');
            format!("b{} {code}\n", random.pick(&ODD_BITS))
        }),
        _ => replace_some(random, &mut lines, b"b", |random, old| {
            let bits = old.split(' ').next().unwrap_or("b1").to_string();
            format!("{bits} {}\n", random.pick(&["!", "\"", "#", "$", "`", "a", "~", " ", "", "!!"]))
        }),
    }
    *text = lines.concat();
}

fn damage_byte(random: &mut Random, text: &mut Vec<u8>) {
    let place = random.below(text.len());
    match random.below(4) {
        0 => text[place] ^= 1 << random.below(8),
        1 => text[place] = random.pick(&ODD_BYTES),
        2 => text.insert(place, random.pick(&ODD_BYTES)),
        _ => drop(text.remove(place)),
    }
}

/// Replaces one of the lines that begin so.
fn replace_some(random: &mut Random, lines: &mut [Vec<u8>], begin: &[u8], new: impl Fn(&mut Random, &str) -> String) {
    let places: Vec<usize> = (0..lines.len()).filter(|&place| lines[place].starts_with(begin)).collect();
    if !places.is_empty() {
        let place = random.pick(&places);
        let old = String::from_utf8_lossy(&lines[place]).into_owned();
        lines[place] = new(random, &old).into_bytes();
    }
}

/// Every way to damage a small dump by one byte, changed, dropped or put in, and by one line dropped, doubled, swapped or with another end.
pub fn damaged_everywhere(dump: &[u8]) -> Vec<Vec<u8>> {
    let mut damaged = Vec::new();
    for place in 0..dump.len() {
        let old = dump[place];
        let bytes = [old.wrapping_add(1), old.wrapping_sub(1), old ^ 32, old ^ 128, b'0', b'1', b'\n', b'\r', b' '];
        for byte in bytes.into_iter().filter(|&byte| byte != old) {
            damaged.push([&dump[..place], &[byte], &dump[place + 1..]].concat());
        }
        damaged.push([&dump[..place], &dump[place + 1..]].concat());
        damaged.push([&dump[..place], b"0", &dump[place..]].concat());
        damaged.push(dump[..place].to_vec());
    }
    let lines = split_lines(dump);
    for place in 0..lines.len() {
        damaged.push([&lines[..place], &lines[place + 1..]].concat().concat());
        damaged.push([&lines[..=place], &lines[place..]].concat().concat());
        for other in 0..place {
            let mut swapped = lines.clone();
            swapped.swap(place, other);
            damaged.push(swapped.concat());
        }
        let carriage_return = [&lines[place][..lines[place].len() - 1], b"\r\n"].concat();
        damaged.push([&lines[..place], &[carriage_return], &lines[place + 1..]].concat().concat());
    }
    damaged
}

/// A small dump with every kind of line: two variables, values at 0 and twice later, a bare last time.
pub fn small_dump() -> Vec<u8> {
    write(&Dump { variables: 2, times: vec![(0, vec![7, 0]), (9, vec![7, 2]), (13, vec![4, 0]), (20, vec![4, 0])] })
}

/// What became of a damaged dump: the summary counts each of these.
#[rustfmt::skip]
const KINDS: [&str; 16] = [
    "taken", "missing line", "unended line", "header line", "65th variable", "empty line", "time of the wrong form", "time over the greatest",
    "time not above the last", "time after a bare time", "value of the wrong form", "leading zero", "over 32 bits", "variable not there",
    "value out of order or not changed", "any other line",
];

fn kind(text: &[u8]) -> &'static str {
    let Err(line) = read(text) else { return KINDS[0] };
    let lines = split_lines(text);
    let Some(refused) = lines.get(line - 1) else { return KINDS[1] };
    let Some(refused) = refused.strip_suffix(b"\n") else { return KINDS[2] };
    let declared = lines.iter().filter(|line| line.starts_with(b"$var ")).count();
    let after_time = line > 1 && lines[line - 2].starts_with(b"#");
    match refused {
        [b'$', ..] if declared > MOST_VARIABLES && line == MOST_VARIABLES + 3 => KINDS[4],
        [b'$', ..] => KINDS[3],
        [] => KINDS[5],
        [b'#', time @ ..] => match number(time) {
            None => KINDS[6],
            Some(time) if time > GREATEST_LIMIT => KINDS[7],
            Some(_) if after_time => KINDS[9],
            Some(_) => KINDS[8],
        },
        [b'b', bits @ .., b' ', code] => match bits {
            [b'0', _, ..] => KINDS[11],
            [] => KINDS[10],
            bits if bits.iter().any(|bit| !b"01".contains(bit)) => KINDS[10],
            bits if bits.len() > 32 => KINDS[12],
            _ if usize::from(*code) >= 33 + declared || *code < 33 => KINDS[13],
            _ => KINDS[14],
        },
        [b'b', ..] => KINDS[10],
        _ => KINDS[15],
    }
}

/// Has `readings` judge every damage of the small dump, and `count` dumps of any history, whole and damaged.
pub fn damaged(reader: &str, first_seed: u64, count: u64) -> Result<bool, String> {
    let reader = find(reader)?;
    let (mut trials, mut counts) = (Trials::new("damaged")?, BTreeMap::new());
    for (place, dump) in damaged_everywhere(&small_dump()).iter().enumerate() {
        *counts.entry(kind(dump)).or_insert(0) += 1;
        trials.judge_reading(&format!("damage {place} of the small dump"), &reader, dump, &[])?;
    }
    for seed in first_seed..first_seed + count {
        let random = &mut Random::new(seed);
        let dump = any_dump(random);
        *counts.entry(kind(&dump)).or_insert(0) += 1;
        let step = read(&dump).map_or(random.next() % GREATEST_LIMIT, |dump| some_step(random, &dump));
        trials.judge_reading(&format!("dump of seed {seed}"), &reader, &dump, &[step])?;
    }
    let _ = fs::remove_dir_all(work_folder());
    let complete = report("dumps", &KINDS, &counts);
    Ok(trials.end("whole and damaged dumps") && complete)
}

/// A dump of any history, one in three whole, the others damaged once or more, or with a 65th variable.
pub fn any_dump(random: &mut Random) -> Vec<u8> {
    let dump = some_dump(random, 6);
    let full = dump.variables == MOST_VARIABLES;
    let mut text = write(&dump);
    if full && random.chance(30) {
        let mut lines = split_lines(&text);
        lines.insert(2 + MOST_VARIABLES, b"$var wire 32 a v64 $end\n".to_vec());
        text = lines.concat();
    }
    for _ in 0..random.pick(&[0, 1, 1, 1, 2, 3]) {
        damage(random, &mut text);
    }
    text
}
