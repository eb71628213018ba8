//! The simulator against document 01: the listing of card K, the proving pieces, the rows of 'Turned back',
//! schedules that show the faults met in drafts, changes of programs (document 02, order 11), dumps (order 7), the sequential run side by side,
//! listings of every short schedule (order 13), sweeps (order 12), and several machines (order 14).

mod machines;
mod sweeps;

use crate::generate::{self, card_text, case, longest_card};
use crate::machine::{open, read_change, Announcement, Answer, Flag, Instruction, Machine, Record};
use crate::schedules;
use crate::session::{expected, Command, Commands};
use crate::wavetest;

/// Card K's program: store the input, output the old value.
const EXCHANGE: &str = "sheet,4\nins,1,0,0,0\nins,3,1,0,0\nins,4,0,0,0\nins,11,0,1,0\n";
/// Adds the input to v0, outputs the sum; it counts 2 as card K's program does.
const ADD: &str = "sheet,5\nins,3,0,0,0\nins,1,1,0,0\nins,7,0,1,0\nins,4,0,0,0\nins,11,0,0,0\n";
/// Outputs 77 and touches nothing.
const FIXED: &str = "sheet,2\nins,2,0,77,0\nins,11,0,0,0\n";
/// The program v0 := 1 - v0.
const FLIP: &str = "sheet,4\nins,2,0,1,0\nins,3,1,0,0\nins,8,0,1,0\nins,4,0,0,0\n";

#[derive(Default)]
pub struct Checks {
    made: usize,
    failed: usize,
}

impl Checks {
    pub fn equal<T: PartialEq + std::fmt::Debug>(&mut self, name: &str, found: T, wanted: T) {
        self.made += 1;
        if found != wanted {
            self.failed += 1;
            println!("failed: {name}\n  found  {found:?}\n  wanted {wanted:?}");
        }
    }

    /// The bench program's output for a card and commands.
    fn session(&mut self, name: &str, card: &str, commands: &str, wanted: &str) {
        let found = String::from_utf8(expected(card.as_bytes(), commands.as_bytes())).expect("ASCII");
        self.equal(name, found.as_str(), wanted);
    }
}

/// All checks; true if none failed.
pub fn selftest() -> bool {
    let mut checks = Checks::default();
    card_k(&mut checks);
    card_k_cells(&mut checks);
    traced(&mut checks);
    two_processes(&mut checks);
    program_pieces(&mut checks);
    card_refusals(&mut checks);
    card_sizes(&mut checks);
    command_refusals(&mut checks);
    fault_schedules(&mut checks);
    changed_programs(&mut checks);
    changes_in_time(&mut checks);
    change_refusals(&mut checks);
    change_commands(&mut checks);
    wavetest::dumps(&mut checks);
    for seed in 1..=600 {
        let found = side_by_side(seed);
        checks.equal(&format!("sequential run, seed {seed}"), found, Ok(()));
    }
    listings(&mut checks);
    listing_refusals(&mut checks);
    for seed in 1..=200 {
        checks.equal(&format!("listing, seed {seed}"), replayed(seed), Ok(()));
    }
    sweeps::sweeps(&mut checks);
    machines::machines(&mut checks);
    println!("{} checks, {} failed", checks.made, checks.failed);
    checks.failed == 0
}

fn card_of(processes: usize, limit: u64, value: u32, program: &str) -> String {
    format!("card,{processes},1,1,{limit}\nvar,{value}\n{program}")
}

fn steps(process: usize, count: usize) -> String {
    format!("step,{process}\n").repeat(count)
}

fn runs(process: usize, count: usize) -> String {
    format!("step,{process},run\n").repeat(count)
}

/// 'The bench program' and the pieces about K alone.
fn card_k(checks: &mut Checks) {
    let k = card_of(1, 100, 7, EXCHANGE);
    let listing = format!("look,0\ncall,0,0,9,0,0,0\n{}look,0\nstep,0\n", steps(0, 14));
    let printed =
        format!("look,0,7\ncall,0,taken\n{}step,0,done,1,7,0,0,0,14\nlook,0,9\nstep,0,refused,8\n", runs(0, 13));
    checks.session("K listing", &k, &listing, &printed);
    let same = format!("call,0,0,7,0,0,0\n{}look,0\n", steps(0, 13));
    let printed = format!("call,0,taken\n{}step,0,done,1,7,0,0,0,13\nlook,0,7\n", runs(0, 12));
    checks.session("K with input 7", &k, &same, &printed);
    let exit = format!("call,0,0,9,0,0,0\nwish,0\nwish,0\n{}look,0\nwish,0\n", steps(0, 17));
    let printed = format!(
        "call,0,taken\nwish,0,taken\nwish,0,taken\n{}step,0,done,1,7,0,0,0,17\nlook,0,9\nwish,0,refused,8\n",
        runs(0, 16)
    );
    checks.session("K with an exit request", &k, &exit, &printed);
    let limited = format!("call,0,0,9,0,0,0\n{}look,0\n", steps(0, 14));
    let printed = format!("call,0,taken\n{}step,0,refused,10\nlook,0,9\n", runs(0, 13));
    checks.session("K with limit 13", &card_of(1, 13, 7, EXCHANGE), &limited, &printed);
}

/// Order 1: card K traced, and with an exit request ('by C4, C6 and P20'); a traced step is refused as a step is.
fn traced(checks: &mut Checks) {
    let k = card_of(1, 100, 7, EXCHANGE);
    let lines = |fields: &[&str]| fields.iter().map(|line| format!("trace,0,{line}\n")).collect::<String>();
    let to_p13 = ["P1,G,-,1,0,0,run", "P3,A0,-,1,0,0,run", "P10,G,-,1,0,0,run", "C2,A0,-,1,0,0,run"];
    let to_h36 =
        ["P13,G,1,1,0,0,run", "P14,G,-,1,0,0,run", "P16,A0,-,1,0,0,run", "H21,R0,-,1,1,1,run", "H36,R0,1,1,1,1,run"];
    let end = ["P21,G,1,1,0,0,run", "P22,A0,-,1,0,0,run"];
    let commands = format!("trace,0\ncall,0,0,9,0,0,0\n{}trace,1\n", "trace,0\n".repeat(14));
    let won = ["P19,A0,1,1,1,1,run", "P20,A0,0,1,1,1,run"];
    let printed = format!(
        "trace,0,refused,8\ncall,0,taken\n{}{}{}{}trace,0,F1,G,-,2,0,0,done,1,7,0,0,0,14\ntrace,1,refused,5\n",
        lines(&to_p13),
        lines(&to_h36),
        lines(&won),
        lines(&end)
    );
    checks.session("K traced", &k, &commands, &printed);
    let commands = format!("call,0,0,9,0,0,0\nwish,0\n{}", "trace,0\n".repeat(17));
    let wish = ["P6,A0,1,1,0,0,run", "P7,A0,-,1,0,0,run"];
    let lost = ["P19,A0,0,1,1,1,run", "P20,A0,1,1,1,1,run"];
    let printed = format!(
        "call,0,taken\nwish,0,taken\n{}{}{}trace,0,C4,A0,-,1,0,0,run\n{}{}{}trace,0,F1,G,-,2,0,0,done,1,7,0,0,0,17\n",
        lines(&to_p13[..2]),
        lines(&wish),
        lines(&to_p13[2..]),
        lines(&to_h36),
        lines(&lost),
        lines(&end)
    );
    checks.session("K traced with an exit request", &k, &commands, &printed);
}

/// The pieces about K's record.
fn card_k_cells(checks: &mut Checks) {
    let after = |input: u32, count: usize| {
        let mut machine = Machine::new(open(card_of(1, 100, 7, EXCHANGE).as_bytes()).expect("K opens"));
        machine.call(0, 0, [input, 0, 0, 0]).expect("taken");
        let labels: Vec<String> = (0..count).map(|_| format!("{:?}", machine.step(0).expect("taken").label)).collect();
        (machine.read(0), machine.cells.records[0], labels.join(" "))
    };
    let record = |val, toggle, seq| Record { val, toggle, seq };
    let to_h36 = "P1 P3 P10 C2 P13 P14 P16 H21 H36";
    checks.equal("K after step 9", after(9, 9), (Ok(7), record([7, 9], 1, 1), to_h36.to_string()));
    checks.equal("K after step 10", after(9, 10), (Ok(9), record([7, 9], 1, 1), format!("{to_h36} P19")));
    let no_h36 = "P1 P3 P10 C2 P13 P14 P16 H21 P19 P20 P21 P22 F1";
    checks.equal("K with input 7, cells", after(7, 13), (Ok(7), record([7, 0], 0, 0), no_h36.to_string()));
}

/// 'K with two processes, both called'.
fn two_processes(checks: &mut Checks) {
    let calls = "call,0,0,5,0,0,0\ncall,1,0,9,0,0,0\n";
    let commands = format!("{calls}{}{}wish,0\n{}{}look,0\n", steps(0, 2), steps(1, 5), steps(0, 10), steps(1, 3));
    let printed = format!(
        "call,0,taken\ncall,1,taken\n{}{}wish,0,taken\n{}step,0,exited,12\n{}step,1,done,1,7,0,0,0,8\nlook,0,9\n",
        runs(0, 2),
        runs(1, 5),
        runs(0, 9),
        runs(1, 2)
    );
    checks.session("K with two processes", &card_of(2, 100, 7, EXCHANGE), &commands, &printed);
}

/// The pieces about instructions: what a program run alone gives (its outputs, or a fault), and its steps.
fn program_pieces(checks: &mut Checks) {
    let mut alone = |name: &str, variables: &[u32], program: &[&str], outputs: &str, own_steps: usize| {
        let values: String = variables.iter().map(|value| format!("var,{value}\n")).collect();
        let body: String = program.iter().map(|line| format!("ins,{line}\n")).collect();
        let card = format!("card,1,{},1,100\n{values}sheet,{}\n{body}", variables.len(), program.len());
        let commands = format!("call,0,0,11,12,13,14\n{}", steps(0, own_steps));
        let answer = if outputs == "fault" { "fault,1,0,0,0,0".into() } else { format!("done,1,{outputs}") };
        let printed = format!("call,0,taken\n{}step,0,{answer},{own_steps}\n", runs(0, own_steps - 1));
        checks.session(name, &card, &commands, &printed);
    };
    alone(
        "4,294,967,295 plus 1",
        &[0],
        &["2,0,4294967295,0", "2,1,1,0", "7,0,1,0", "11,0,0,0"],
        "4294967295,0,0,0",
        12,
    );
    alone("0 minus 1", &[0], &["2,1,1,0", "8,0,1,0", "11,0,0,0"], "0,0,0,0", 12);
    let many: Vec<u32> = (0..64).map(|variable| 100 + variable).collect();
    alone("code 5 with 63 of 64", &many, &["2,0,63,0", "5,1,0,0", "11,0,1,0"], "163,0,0,0", 13);
    alone("code 5 with 64 of 64", &many, &["2,0,64,0", "2,1,5,0", "5,1,0,0", "11,0,1,0"], "fault", 12);
    alone("code 6 with 64 of 64", &many, &["2,0,64,0", "6,0,0,0", "11,0,0,0"], "fault", 12);
    alone("a write and an output before a fault", &[7], &["2,0,9,0", "4,0,0,0", "11,0,0,0", "5,1,0,0"], "fault", 13);
    alone("skip 31 at the second of three", &[0], &["2,0,5,0", "9,0,0,31", "11,0,0,0"], "0,0,0,0", 12);
    alone("no skip", &[0], &["2,0,5,0", "10,0,0,31", "11,0,0,0"], "5,0,0,0", 12);
    alone("stop", &[0], &["1,0,3,0", "11,2,0,0", "12,0,0,0", "11,0,0,0"], "0,0,14,0", 12);
    alone("write without read", &[7], &["2,0,9,0", "4,0,0,0"], "0,0,0,0", 14);
    alone("altered and altered back", &[7], &["3,0,0,0", "4,0,1,0", "4,0,0,0"], "0,0,0,0", 13);
    // order 9: two first touches, and a write for each of the two that is altered
    alone("taking a cell", &[1, 2, 0], &["13,0,0,0", "11,0,0,0"], "1,0,0,0", 16);
    alone("taking the last cell", &[1, 0], &["13,0,0,0", "11,0,0,0"], "1,0,0,0", 15);
    alone("taking from an empty chain", &[0, 5], &["2,0,9,0", "13,0,0,0", "11,0,0,0"], "0,0,0,0", 13);
    alone("a chain with a number past n", &[2, 5], &["13,0,0,0"], "fault", 13);
    alone("giving back", &[2, 5, 0], &["2,1,1,0", "14,1,0,0"], "0,0,0,0", 16);
    alone("giving back 0", &[0, 5], &["14,0,0,0", "11,0,0,0"], "fault", 12);
    alone("giving back n", &[0, 5], &["2,0,2,0", "14,0,0,0"], "fault", 12);
    alone("taken and given back", &[1, 0], &["13,0,0,0", "14,0,0,0", "11,0,0,0"], "1,0,0,0", 14);
    alone(
        "taken twice, given back in turn",
        &[1, 2, 0],
        &["13,0,0,0", "13,1,0,0", "14,0,0,0", "14,1,0,0"],
        "0,0,0,0",
        18,
    );
}

/// Rows 1 to 4 of 'Turned back', with their lines.
fn card_refusals(checks: &mut Checks) {
    let k = card_of(1, 100, 7, EXCHANGE);
    let mut refused = |card: &str, number: u8, line: usize| {
        checks.session(card, card, "look,0\n", &format!("card,refused,{number},{line}\n"));
    };
    refused("", 2, 1);
    refused("\n", 2, 1);
    refused("card,1,1,1,100", 2, 1);
    refused("card,9,1,1,5", 2, 1);
    refused("card,9,1,1,5\n", 3, 1);
    refused("card,1,1,1,0\n", 3, 1);
    refused("card,1,1,1,1000000000000000001\n", 3, 1);
    refused("card,1,1,1,18446744073709551617\n", 3, 1);
    refused("card,1,1,1,1000000000000000000000000000000000000001\n", 3, 1);
    refused("card,1,1,1,100\n", 2, 2);
    refused("card,1,1,1,100\nvar,07\n", 2, 2);
    refused("card,1,1,1,100\nvar,4294967296\n", 3, 2);
    refused("card,1,1,1,100\nvar,7\nsheet,33\n", 3, 3);
    refused("card,1,1,1,100\nvar,7\nsheet,0\n", 3, 3);
    refused("card,1,1,1,100\nvar,7\nsheet,1\nins,15,0,0,0\n", 4, 4);
    refused("card,1,1,1,100\nvar,7\nsheet,1\nins,13,0,0\n", 2, 4);
    refused("card,1,1,1,100\nvar,7\nsheet,1\nins,9,0,0,0\n", 12, 4);
    refused("card,1,1,1,100\nvar,7\nsheet,1\nins,12,0,0,1\n", 13, 4);
    refused("card,1,1,1,100\nvar,7\nsheet,1\nins,3,0,1,0\n", 12, 4);
    refused("card,1,1,1,100\nvar,7\nsheet,1\nins,1,4,0,7\n", 12, 4);
    refused("card,1,1,1,100\nvar,7\nsheet,1\nins,1,0,0,99999999999999999999\n", 13, 4);
    refused("card,1,1,1,100\nvar,7\nsheet,1\nins,0,9,9,9\n", 4, 4);
    refused("card,1,1,1,100\nvar,7\nsheet,2\nins,1,0,0,7\nins,0,9,9,9\n", 13, 4);
    refused("card,1,1,1,100\nvar,7\nsheet,1\nins,18446744073709551617,0,0,0\n", 4, 4);
    refused("card,1,1,1,100\nvar,7\nsheet,1\nins,12,0,0,0", 2, 4);
    let takes = "ins,13,0,0,0\n".repeat(16);
    refused(&format!("card,1,1,1,100\nvar,7\nsheet,17\n{takes}ins,3,0,0,0\n"), 14, 20);
    refused(&format!("card,1,1,1,100\nvar,7\nsheet,17\n{takes}ins,14,3,0,0\n"), 14, 20);
    refused(&format!("card,1,1,1,100\nvar,7\nsheet,17\n{takes}ins,14,0,0,1\n"), 13, 20);
    refused(&format!("card,1,1,1,100\nvar,7\nsheet,16\n{takes}ins,3,0,0,0\n"), 2, 20);
    refused(&format!("card,1,1,2,100\nvar,7\nsheet,17\n{takes}ins,3,0,0,0\nsheet,33\n"), 14, 20);
    refused(&format!("{k}\n"), 2, 8);
    refused(&format!("{k}x"), 2, 8);
    refused(&k.replace("var,7\n", "var,7\r\n"), 2, 2);
}

/// 'Proving pieces', the last item.
fn card_sizes(checks: &mut Checks) {
    let longest = card_text(&longest_card());
    checks.equal("longest card", longest.len(), 6440);
    checks.equal("longest card opens", open(&longest), Ok(longest_card()));
    checks.equal("empty calls", expected(&longest, b""), Vec::new());
    let printed = |text: Vec<u8>| String::from_utf8(expected(&text, b"look,0\n")).expect("ASCII");
    let mut padded = longest.clone();
    padded.resize(16_384, b'\n');
    checks.equal("16,384 bytes", printed(padded.clone()), "card,refused,2,330\n".to_string());
    padded.push(b'\n');
    checks.equal("16,385 bytes", printed(padded), "card,refused,1,0\n".to_string());
    let mut card = longest_card();
    card.starting.push(0);
    checks.equal("65 variables", printed(card_text(&card)), "card,refused,3,1\n".to_string());
    let mut card = longest_card();
    card.programs[0].push(Instruction { code: 12, a: 0, b: 0, c: 0 });
    checks.equal("33 instructions", printed(card_text(&card)), "card,refused,3,66\n".to_string());
}

/// Rows 5 to 10 and misformed commands.
fn command_refusals(checks: &mut Checks) {
    let k = card_of(2, 5, 7, EXCHANGE);
    checks.session(
        "row 5",
        &k,
        "step,2\nwish,2\ncall,2,1,0,0,0,0\n",
        "step,2,refused,5\nwish,2,refused,5\ncall,2,refused,5\n",
    );
    checks.session("row 6", &k, "call,0,1,0,0,0,0\n", "call,0,refused,6\n");
    checks.session("row 7", &k, &"call,0,0,0,0,0,0\n".repeat(2), "call,0,taken\ncall,0,refused,7\n");
    let both = "call,0,0,0,0,0,0\ncall,0,1,0,0,0,0\n";
    checks.session("row 6 before 7", &k, both, "call,0,taken\ncall,0,refused,6\n");
    checks.session("row 8", &k, "step,0\nwish,1\n", "step,0,refused,8\nwish,1,refused,8\n");
    checks.session("row 9", &k, "look,1\nlook,4294967295\n", "look,1,refused,9\nlook,4294967295,refused,9\n");
    let six = format!("call,0,0,0,0,0,0\n{}step,1\n", steps(0, 6));
    let printed = format!("call,0,taken\n{}step,0,refused,10\nstep,1,refused,8\n", runs(0, 5));
    checks.session("row 10", &k, &six, &printed);
    let misformed = "\nlook,0\nlook,00\nlook,\nlook\nlook,0,\nlook,-1\nlook,+0\nlook,4294967296\nLook,0\nlook, 0\nlook,0\r\nread,0\nlook,0";
    let printed: String =
        (1..=14).map(|line| if line == 2 { "look,0,7\n".into() } else { format!("line,{line},refused,2\n") }).collect();
    checks.session("misformed commands", &k, misformed, &printed);
    let exact = "look,0\n".repeat(9362) + "\n\n";
    checks.equal("65,536 bytes", expected(k.as_bytes(), exact.as_bytes()).len(), 9362 * 9 + 2 * 20);
    checks.session("65,537 bytes", &k, &(exact.clone() + "\n"), "calls,refused,1\n");
    checks.session("card before calls", "card\n", &(exact + "\n"), "card,refused,2,1\n");
}

// ---------------------------------------------------------------- faults met in drafts

/// Plays a schedule on a card with two processes: a number is a step of that process, c a call, w an exit request.
/// After each entry variable 0 is read. `wanted` gives the answers other than `taken` and `run`, `shown` the values read.
fn schedule(checks: &mut Checks, name: &str, card: &str, entries: &str, wanted: &[&str], shown: &str) {
    let command = |entry: &str| match entry.split_at(entry.len() - 1) {
        ("c", process) => format!("call,{process},0,{},0,0,0\nlook,0\n", if process == "0" { 5 } else { 9 }),
        ("w", process) => format!("wish,{process}\nlook,0\n"),
        (_, process) => format!("step,{process}\nlook,0\n"),
    };
    let commands: String = entries.split(' ').map(command).collect();
    let printed = String::from_utf8(expected(card.as_bytes(), commands.as_bytes())).expect("ASCII");
    let (answers, values): (Vec<&str>, Vec<&str>) = printed.lines().partition(|line| !line.starts_with("look,0,"));
    let answers: Vec<&str> =
        answers.into_iter().filter(|line| !line.ends_with(",run") && !line.ends_with(",taken")).collect();
    let values: String = values.iter().map(|line| &line["look,0,".len()..]).collect();
    checks.equal(name, (answers, values.as_str()), (wanted.to_vec(), shown));
}

/// The value shown first so many times, the next so many times, and so on.
fn values(counts: &[(char, usize)]) -> String {
    counts.iter().map(|(value, count)| value.to_string().repeat(*count)).collect()
}

/// 'Faults we have met in drafts': the shortest schedules that show them, with the right answers.
fn fault_schedules(checks: &mut Checks) {
    let flip = &card_of(2, 1000, 0, FLIP);
    let k = &card_of(2, 1000, 7, EXCHANGE);
    // Process 0 helps 1 past H36; 1 gets its exit in at P6, and 0 finishes the operation at P20.
    let exited = "c0 0 0 0 c1 1 1 0 0 0 0 0 0 w1 1 0 1 0 1 1 1 1 1";
    schedule(checks, "exited after P6", flip, exited, &["step,1,done,1,0,0,0,0,9"], &values(&[('0', 17), ('1', 6)]));
    // Process 1 reads at H21 a record that 0 wrote under the same number.
    let equal = "c0 0 0 0 c1 1 1 0 0 0 0 0 0 1 1 1 1 1 1 1 1";
    schedule(checks, "equal seq, flip", flip, equal, &["step,1,done,1,0,0,0,0,10"], &values(&[('0', 16), ('1', 5)]));
    schedule(checks, "equal seq, K", k, equal, &["step,1,done,1,7,0,0,0,10"], &values(&[('7', 16), ('9', 5)]));
    late_helper(checks, flip);
    late_write(checks, flip);
    // Process 0 alone steps on; number 1 gives the first turn to 1, number 2 to 0.
    let first = format!("c0 c1 0 0 1 1{}", " 0".repeat(23));
    let shown = values(&[('0', 6), ('0', 7), ('1', 11), ('0', 5)]);
    schedule(checks, "seq mod p first", flip, &first, &["step,0,done,2,0,0,0,0,25"], &shown);
}

/// P17: process 0 holds gate number 1 when it meets the next announcement of 1.
fn late_helper(checks: &mut Checks, flip: &str) {
    let short = "c0 0 0 0 c1 1 1 0 0 0 1 1 1 1 1 1 1 1 1 c1 1 1 0 0 0";
    schedule(checks, "P17", flip, short, &["step,1,done,1,0,0,0,0,11"], &values(&[('0', 14), ('1', 11)]));
    let long = format!("{short}{}{}", " 1".repeat(23), " 0".repeat(4));
    let answers = ["step,1,done,1,0,0,0,0,11", "step,1,done,3,0,0,0,0,25", "step,0,done,2,0,0,0,0,13"];
    let shown = values(&[('0', 14), ('1', 11), ('1', 7), ('0', 11), ('1', 5), ('1', 4)]);
    schedule(checks, "P17, to the end", flip, &long, &answers, &shown);
}

/// H36: process 0 writes late on a record that has come back to the values it read.
fn late_write(checks: &mut Checks, flip: &str) {
    let entries = format!("c0 0 0 0 c1 1 1{}{} c1{} 0 1", " 0".repeat(16), " 1".repeat(9), " 1".repeat(9));
    let shown = values(&[('0', 7), ('0', 6), ('1', 10), ('1', 4), ('0', 5), ('0', 11), ('1', 1)]);
    schedule(checks, "swap compares seq", flip, &entries, &["step,1,done,1,0,0,0,0,11"], &shown);
}

// ---------------------------------------------------------------- changes (document 02, order 11)

fn change(program: usize, from: u64, text: &str) -> String {
    format!("change,{program},{from},{}\n{text}", text.lines().count())
}

/// A call of program 0 by a process, and all its steps.
fn operation(process: usize, input: u32, count: usize) -> String {
    format!("call,{process},0,{input},0,0,0\n{}", steps(process, count))
}

/// What that prints: its gate number, its first output and its steps.
fn operated(process: usize, number: u64, output: u32, count: usize) -> String {
    format!("call,{process},taken\n{}step,{process},done,{number},{output},0,0,0,{count}\n", runs(process, count - 1))
}

/// Operations numbered G or later run the new text, earlier ones the old; a helper chooses by the number it last read.
fn changed_programs(checks: &mut Checks) {
    let k = card_of(1, 1000, 7, EXCHANGE);
    let commands = change(0, 2, ADD) + &operation(0, 9, 14).repeat(2) + &change(0, 4, FIXED) + &operation(0, 1, 14);
    let printed = "change,0,taken\n".to_string() + &operated(0, 1, 7, 14) + &operated(0, 2, 18, 14);
    let printed = printed + "change,0,taken\n" + &operated(0, 3, 19, 14) + &operated(0, 4, 77, 12) + "look,0,19\n";
    checks.session("both sides of G", &k, &(commands + &operation(0, 1, 12) + "look,0\n"), &printed);
    // Both are announced before the change; process 1 has the first turn and is done under number 1.
    let called = "call,0,0,5,0,0,0\ncall,1,0,9,0,0,0\n".to_string() + &steps(0, 2) + &steps(1, 2);
    let commands = called + &change(0, 2, ADD) + &steps(1, 12) + &steps(0, 12) + "look,0\n";
    let printed = "call,0,taken\ncall,1,taken\n".to_string() + &runs(0, 2) + &runs(1, 2) + "change,0,taken\n";
    let printed = printed + &runs(1, 11) + "step,1,done,1,7,0,0,0,14\n" + &runs(0, 11) + "step,0,done,2,14,0,0,0,14\n";
    checks.session("called before the change", &card_of(2, 1000, 7, EXCHANGE), &commands, &(printed + "look,0,14\n"));
    // Process 0 helps 1 under number 1 and sleeps at H21; then it finishes that operation by the text of number 1.
    let asleep = "call,1,0,9,0,0,0\n".to_string() + &steps(1, 6) + "call,0,0,5,0,0,0\n" + &steps(0, 4);
    let commands = asleep + &change(0, 2, FIXED) + &steps(0, 6) + &steps(1, 4) + &steps(0, 10);
    let printed = "call,1,taken\n".to_string() + &runs(1, 6) + "call,0,taken\n" + &runs(0, 4) + "change,0,taken\n";
    let printed = printed + &runs(0, 6) + &runs(1, 3) + "step,1,done,1,7,0,0,0,10\n" + &runs(0, 9);
    let printed = printed + "step,0,done,2,77,0,0,0,20\n";
    checks.session("asleep at H21", &card_of(2, 1000, 7, EXCHANGE), &commands, &printed);
}

/// 15 and 16: what each answers at which gate number, and who counts.
fn changes_in_time(checks: &mut Checks) {
    let (one, two) = (card_of(1, 1000, 7, EXCHANGE), card_of(2, 1000, 7, EXCHANGE));
    let tried = |from: u64| change(0, from, FIXED);
    let mut answers = |name: &str, card: &str, commands: String, wanted: &[&str]| {
        let printed = String::from_utf8(expected(card.as_bytes(), commands.as_bytes())).expect("ASCII");
        let found: Vec<&str> = printed.lines().filter_map(|line| line.strip_prefix("change,0,")).collect();
        checks.equal(name, found, wanted.to_vec());
    };
    let opening = tried(0) + &tried(1) + &tried(2);
    answers("15 at opening", &one, opening, &["refused,15,0", "refused,15,0", "taken"]);
    let held = "call,0,0,9,0,0,0\n".to_string() + &steps(0, 8) + &tried(1) + &steps(0, 6) + &tried(2) + &tried(3);
    answers("15 at the gate's number", &one, held, &["refused,15,0", "refused,15,0", "taken"]);
    let ahead = tried(3) + &tried(1) + &tried(4) + &operation(0, 9, 14) + &tried(4) + &operation(0, 9, 14) + &tried(4);
    let wanted = ["taken", "refused,15,0", "refused,16,0", "refused,16,0", "taken"];
    answers("a change ahead", &one, ahead, &wanted);
    // Process 0 has read number 1 at P1; P3 reads nothing, P10 reads 2.
    let asleep = "call,0,0,5,0,0,0\nstep,0\n".to_string() + &tried(2) + &operation(1, 9, 14) + &tried(2) + &tried(3);
    let asleep = asleep + "step,0\n" + &tried(3) + "step,0\n" + &tried(3);
    let wanted = ["taken", "refused,15,0", "refused,16,0", "refused,16,0", "taken"];
    answers("a late reader", &two, asleep, &wanted);
    // Done at step 10 under number 1; P21 raises the gate's number, F1 reads it and returns.
    let done =
        tried(2) + "call,0,0,9,0,0,0\n" + &steps(0, 12) + &tried(3) + "step,0\n" + &tried(3) + "step,0\n" + &tried(3);
    answers("done and not returned", &one, done, &["taken", "refused,16,0", "refused,16,0", "taken"]);
    // Process 0 last read 2 in the operation that has returned; called again it has read none.
    let none = operation(0, 9, 15)
        + &tried(3)
        + &operation(1, 1, 15)
        + "call,0,0,5,0,0,0\n"
        + &tried(4)
        + "step,0\n"
        + &tried(5);
    answers("none read", &two, none, &["taken", "taken", "refused,16,0"]);
    let limit = "call,0,0,9,0,0,0\n".to_string() + &steps(0, 14) + &tried(2) + &tried(3);
    answers("past the limit", &card_of(1, 13, 7, EXCHANGE), limit, &["refused,15,0", "taken"]);
}

/// 6, then the text's own refusals, each with its line; the card's w is 2.
fn change_refusals(checks: &mut Checks) {
    let k = card_of(1, 1000, 7, EXCHANGE);
    let mut refused = |program: usize, text: &str, number: u8, line: usize| {
        let wanted = format!("change,{program},refused,{number},{line}\nlook,0,7\n");
        checks.session(text, &k, &format!("{}look,0\n", change(program, 1, text)), &wanted);
    };
    refused(0, ADD, 15, 0);
    refused(1, ADD, 6, 0);
    refused(1, "x\n", 6, 0);
    refused(0, "", 2, 1);
    refused(0, "\n", 2, 1);
    refused(0, "sheet,01\n", 2, 1);
    refused(0, "sheet,0\n", 3, 1);
    refused(0, "sheet,33\n", 3, 1);
    refused(0, "sheet,18446744073709551617\n", 3, 1);
    refused(0, "sheet,1\n", 2, 2);
    refused(0, "sheet,1\nins,13,0,0\n", 2, 2);
    refused(0, "sheet,1\nins,15,9,0,0\n", 4, 2);
    refused(0, "sheet,1\nins,3,0,1,7\n", 12, 2);
    refused(0, "sheet,1\nins,12,0,0,1\n", 13, 2);
    refused(0, "sheet,2\nins,3,0,0,0\nins,13,0,0,0\n", 14, 3);
    refused(0, "sheet,2\nins,3,0,0,0\nins,13,0,0,1\n", 13, 3);
    refused(0, "sheet,2\nins,3,0,0,0\nins,13,0,0,0\nx\n", 14, 3);
    refused(0, "sheet,2\nins,13,0,0,0\nins,12,0,0,0\nx\n", 2, 4);
    refused(0, &format!("{ADD}\n"), 2, 7);
    refused(0, &format!("{ADD}{}", "\n".repeat(16_384 - ADD.len())), 2, 7);
    refused(0, &format!("{ADD}{}", "\n".repeat(16_385 - ADD.len())), 1, 0);
    // A change to a lighter text leaves the card's w as it was.
    let commands = change(0, 2, FIXED) + &operation(0, 9, 14) + &change(0, 3, ADD);
    let printed = "change,0,taken\n".to_string() + &operated(0, 1, 7, 14) + "change,0,taken\n";
    checks.session("w stays", &k, &commands, &printed);
}

/// The lines of a text: fewer follow, none, an unended rest; a misformed change has no text; all lines are counted.
fn change_commands(checks: &mut Checks) {
    let k = card_of(1, 1000, 7, EXCHANGE);
    checks.session("fewer lines", &k, &format!("change,0,2,9\n{ADD}"), "change,0,taken\n");
    checks.session("unended text", &k, &format!("change,0,2,6\n{}", ADD.trim_end()), "change,0,refused,2,6\n");
    checks.session("unended rest", &k, &format!("change,0,2,4294967295\n{ADD}x"), "change,0,refused,2,7\n");
    checks.session("nothing follows", &k, "look,0\nchange,0,2,1\n", "look,0,7\nchange,0,refused,2,1\n");
    checks.session("no lines", &k, "change,0,2,0\nlook,0\n", "change,0,refused,2,1\nlook,0,7\n");
    checks.session("unended change", &k, "change,0,2,0", "line,1,refused,2\n");
    let inside = "change,0,2,3\ncall,0,0,9,0,0,0\n\nstep,0\nstep\nlook,0\n";
    checks.session("commands in a text", &k, inside, "change,0,refused,2,1\nline,5,refused,2\nlook,0,7\n");
    for line in [
        "change,0,2",
        "change,0,2,1,0",
        "change,0,02,1",
        "change,0,4294967296,1",
        "change,0,2,4294967296",
        "Change,0,2,1",
    ] {
        checks.session(line, &k, &format!("{line}\nlook,0\n"), "line,1,refused,2\nlook,0,7\n");
    }
}

// ---------------------------------------------------------------- card and sequential run side by side

/// The single-user run of document 01: plain words, each operation from start to stop. None for a fault, which leaves the words.
fn run_alone(words: &mut Vec<u32>, program: &[Instruction], inputs: [u32; 4]) -> Option<[u32; 4]> {
    let (mut left, mut r, mut outputs, mut at) = (words.clone(), [0u32; 4], [0u32; 4], 0);
    while let Some(&Instruction { code, a, b, c }) = program.get(at) {
        at += 1;
        match code {
            1 => r[a] = inputs[b],
            2 => r[a] = b as u32,
            3 => r[a] = left[b],
            4 => left[a] = r[b],
            5 => r[a] = *left.get(r[b] as usize)?,
            6 => *left.get_mut(r[a] as usize)? = r[b],
            7 => r[a] = r[a].saturating_add(r[b]),
            8 => r[a] = r[a].saturating_sub(r[b]),
            9 => at += if r[a] == r[b] { c } else { 0 },
            10 => at += if r[a] < r[b] { c } else { 0 },
            11 => outputs[a] = r[b],
            13 => {
                let cell = left[0] as usize;
                r[a] = left[0];
                left[0] = *left.get(cell)?;
                left[cell] = 0;
            }
            14 => {
                let cell = (r[a] > 0).then_some(r[a] as usize)?;
                *left.get_mut(cell)? = left[0];
                left[0] = r[a];
            }
            _ => break,
        }
    }
    *words = left;
    Some(outputs)
}

/// What an operation came to that is done: its rank, its outputs, and whether it was a fault.
type Done = (u64, [u32; 4], bool);

/// The single-user bench: its words, the programs as they stand, the changes it was told of and has not made yet, and how many operations it has run.
struct Bench {
    words: Vec<u32>,
    programs: Vec<Vec<Instruction>>,
    told: Vec<(u64, usize, Vec<Instruction>)>,
    run: u64,
}

impl Bench {
    /// Runs an operation handed to it. Order 11: at the G-th operation it switches.
    fn run(&mut self, program: usize, inputs: [u32; 4]) -> Done {
        self.run += 1;
        let (due, later) = self.told.drain(..).partition(|(from, ..)| *from <= self.run);
        self.told = later;
        for (_, place, text) in due {
            self.programs[place] = text;
        }
        let outputs = run_alone(&mut self.words, &self.programs[program], inputs);
        (self.run, outputs.unwrap_or([0; 4]), outputs.is_none())
    }
}

/// Demand 3 on the case of a seed: the words equal the values read after each entry, rank, outputs and mark those of 'done' and 'fault'.
fn side_by_side(seed: u64) -> Result<(), String> {
    let case = case(seed);
    let (card, calls) = case.texts();
    let Ok(card) = open(card) else { return Ok(()) };
    let (words, programs) = (card.starting.clone(), card.programs.clone());
    let mut bench = Bench { words, programs, told: Vec::new(), run: 0 };
    let mut latest = vec![(0, [0; 4]); card.processes];
    let mut results = vec![(0, [0; 4], false); card.processes];
    let mut machine = Machine::new(card);
    for numbered in Commands::new(calls) {
        let Ok(command) = numbered.command else { continue };
        let before = flags(&machine);
        let answer = enter(&mut machine, command, &mut latest, &mut bench);
        for process in (0..before.len()).filter(|&at| before[at] != Flag::Done && flags(&machine)[at] == Flag::Done) {
            let (program, inputs) = latest[process];
            results[process] = bench.run(program, inputs);
        }
        let words = &bench.words;
        let shown: Vec<u32> = (0..words.len()).map(|variable| machine.read(variable as u32).expect("there")).collect();
        let agreed = answer.is_none_or(|(process, found)| found == results[process]);
        if shown != *words || !agreed || !numbered_right(&machine, &results) {
            return Err(format!("line {}: shown {shown:?}, words {words:?}, answers agree: {agreed}", numbered.line));
        }
    }
    Ok(())
}

/// What a done announcement holds is what the process's latest finished operation came to; any other has number 0 and no mark.
fn numbered_right(machine: &Machine, results: &[Done]) -> bool {
    let agrees = |(announcement, result): (&Announcement, &Done)| match announcement.flag {
        Flag::Done => (announcement.number, announcement.words, announcement.fault) == *result,
        _ => announcement.number == 0 && !announcement.fault,
    };
    machine.cells.announcements.iter().zip(results).all(agrees)
}

fn flags(machine: &Machine) -> Vec<Flag> {
    machine.cells.announcements.iter().map(|announcement| announcement.flag).collect()
}

/// Enters one command; keeps the latest taken call of each process, and tells the bench of taken changes; gives what a 'done' or 'fault' answer says.
fn enter(
    machine: &mut Machine,
    command: Command,
    latest: &mut [(usize, [u32; 4])],
    bench: &mut Bench,
) -> Option<(usize, Done)> {
    match command {
        Command::Call { process, program, inputs } => {
            if machine.call(process, program, inputs).is_ok() {
                latest[process as usize] = (program as usize, inputs);
            }
            None
        }
        Command::RequestExit { process } => machine.request_exit(process).ok().and(None),
        Command::Step { process } | Command::Trace { process } => match machine.step(process).ok()?.answer {
            Answer::Done { number, outputs, fault, .. } => Some((process as usize, (number, outputs, fault))),
            _ => None,
        },
        Command::Read { .. } => None,
        Command::Change { program, from, text, .. } => {
            if machine.change(program, u64::from(from), text).is_ok() {
                let text = read_change(text, &machine.card).expect("it was taken");
                bench.told.push((u64::from(from), program as usize, text));
            }
            None
        }
    }
}

// ---------------------------------------------------------------- every short schedule (document 02, order 13)

/// One call of program 0 for each process.
fn calls_of(inputs: &[u32]) -> String {
    inputs.iter().enumerate().map(|(process, input)| format!("call,{process},0,{input},0,0,0\n")).collect()
}

fn listed(card: &str, calls: &str, length: u32) -> String {
    String::from_utf8(schedules::expected(card.as_bytes(), calls.as_bytes(), length)).expect("ASCII")
}

fn listings(checks: &mut Checks) {
    let k = card_of(1, 100, 7, EXCHANGE);
    let whole = format!("{}{},done,1,7,0,0,0,14\n", "0".repeat(14), ",run".repeat(13));
    checks.equal("K cut", listed(&k, &calls_of(&[9]), 13), format!("{}{}\n", "0".repeat(13), ",run".repeat(13)));
    checks.equal("K over at the length", listed(&k, &calls_of(&[9]), 14), whole.clone());
    checks.equal("K over before the length", listed(&k, &calls_of(&[9]), 16), whole.clone());
    checks.equal("a limit equal to the length", listed(&card_of(1, 14, 7, EXCHANGE), &calls_of(&[9]), 14), whole);
    let fault = card_of(1, 100, 7, "sheet,2\nins,2,0,1,0\nins,5,0,0,0\n");
    let wanted = format!("{}{},fault,1,0,0,0,0,12\n", "0".repeat(12), ",run".repeat(11));
    checks.equal("a fault", listed(&fault, &calls_of(&[0]), 15), wanted);
    for inputs in [&[1][..], &[1, 2], &[1, 2, 3]] {
        let card = card_of(inputs.len(), 1, 7, EXCHANGE);
        checks.equal("the empty schedule", listed(&card, &calls_of(inputs), 0), "\n".to_string());
    }
    let pairs = "00,run,run\n01,run,run\n10,run,run\n11,run,run\n".to_string();
    checks.equal("two steps of two", listed(&card_of(2, 2, 7, EXCHANGE), &calls_of(&[5, 9]), 2), pairs);
    let triples = listed(&card_of(3, 100, 7, EXCHANGE), &calls_of(&[5, 9, 7]), 5);
    checks.equal("five steps of three", triples.lines().count(), 243);
    // Process 1 has the first turn and is back after 12 steps if nothing is touched; then only 0 goes on.
    let all = listed(&card_of(2, 100, 7, FIXED), &calls_of(&[0, 0]), 14);
    let back: Vec<&str> = all.lines().filter(|line| line.starts_with("111111111111")).collect();
    let wanted = format!("11111111111100{},done,1,77,0,0,0,12,run,run", ",run".repeat(11));
    checks.equal("one back", back, vec![wanted.as_str()]);
}

/// The card, the size of the calls, their first bad line, 6, 17, in that sequence.
fn listing_refusals(checks: &mut Checks) {
    let two = card_of(2, 5, 7, EXCHANGE);
    let mut refused = |card: &str, calls: &str, length: u32, wanted: &str| {
        checks.equal(&format!("{calls:.60} with {length}"), listed(card, calls, length), format!("{wanted}\n"));
    };
    let long = "\n".repeat(65_537);
    refused("card,9,1,1,5\n", &long, 17, "card,refused,3,1");
    refused(&two, &long, 17, "calls,refused,1");
    refused(&two, &long[1..], 17, "line,1,refused,2");
    refused(&two, "", 17, "line,1,refused,2");
    refused(&two, "call,0,1,0,0,0,0\n", 17, "line,2,refused,2");
    refused(&two, "call,1,0,0,0,0,0\ncall,0,0,0,0,0,0\n", 2, "line,1,refused,2");
    refused(&two, "call,0,0,0,0,0,0\nstep,0\n", 2, "line,2,refused,2");
    refused(&two, "call,0,0,0,0,0,0\ncall,1,0,0,0,0\n", 2, "line,2,refused,2");
    refused(&two, "call,0,0,0,0,0,0\ncall,1,0,0,0,0,0", 2, "line,2,refused,2");
    refused(&two, "call,0,0,0,0,0,0\ncall,1,0,0,0,0,0\n\n", 2, "line,3,refused,2");
    refused(&two, "call,0,0,0,0,0,0\ncall,1,0,0,0,0,0\nx", 2, "line,3,refused,2");
    refused(&two, "call,0,0,0,0,0,0\ncall,1,1,0,0,0,0\n", 17, "schedules,refused,6");
    refused(&two, &calls_of(&[0, 0]), 6, "schedules,refused,17");
    refused(&card_of(2, 100, 7, EXCHANGE), &calls_of(&[0, 0]), 17, "schedules,refused,17");
    refused(&card_of(4, 100, 7, EXCHANGE), &calls_of(&[0; 4]), 0, "schedules,refused,17");
    refused(&card_of(4, 100, 7, EXCHANGE), &calls_of(&[0; 3]), 0, "line,4,refused,2");
    let missing = calls_of(&[0; 7]) + "call,7,256,0,0,0,0\n";
    refused(&card_of(8, 100, 7, EXCHANGE), &missing, 17, "schedules,refused,6");
}

/// A listing's lines stand in strict dictionary order, and the bench program answers the calls and steps of each as the line says.
fn replayed(seed: u64) -> Result<(), String> {
    let (case, length) = generate::schedules::case(seed);
    let (card, calls) = (case.card.unwrap_or_default(), case.calls.unwrap_or_default());
    let text = String::from_utf8(schedules::expected(&card, &calls, length)).expect("ASCII");
    if text.contains("refused") {
        return Ok(());
    }
    let mut before = None;
    for line in text.lines().take(300) {
        let numbers = line.split(',').next().unwrap_or_default();
        if before.is_some_and(|before| before >= numbers) {
            return Err(format!("{numbers} out of order"));
        }
        before = Some(numbers);
        let steps: String = numbers.chars().map(|process| format!("step,{process}\n")).collect();
        let printed = String::from_utf8(expected(&card, &[&calls, steps.as_bytes()].concat())).expect("ASCII");
        let answers = printed.lines().filter_map(|line| line.strip_prefix("step,")).map(|line| &line[1..]);
        if numbers.to_string() + &answers.collect::<String>() != line {
            return Err(format!("{line} is answered {printed}"));
        }
    }
    Ok(())
}
