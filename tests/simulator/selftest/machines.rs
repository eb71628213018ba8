//! Four machines on one card (document 02, order 14): sessions by hand, what is refused, the rule beside another wording of it, each machine alone, and
//! drafts that go wrong in one place, which the generated cases tell apart.

use super::{card_of, Checks, ADD, EXCHANGE, FIXED};
use crate::generate;
use crate::machines::{alone, events, expected, run, Account, Draft, Files, Machines, Turn, DRAFTS};
use crate::reached::Reached;

/// So many generated cases are played by the drafts; at least so many of them must tell each draft.
const CASES: u64 = 1000;
const TELLING: usize = 3;

pub fn machines(checks: &mut Checks) {
    shared_turn(checks);
    tested_last(checks);
    commands(checks);
    refused_turns(checks);
    refused_files(checks);
    another_wording(checks);
    for seed in 1..=400 {
        checks.equal(&format!("each machine alone, seed {seed}"), played_alone(seed), Ok(()));
    }
    told_apart(checks);
}

fn files(machines: &str, cards: &[String], calls: &str) -> Files {
    let cards = cards.iter().map(|card| Some(card.clone().into_bytes())).collect();
    Files { machines: Some(machines.into()), cards, calls: Some(calls.into()) }
}

fn printed(files: &Files) -> String {
    String::from_utf8(expected(files)).expect("ASCII")
}

impl Checks {
    /// Commands and what is printed for each, a line of both in pairs.
    fn paired(&mut self, name: &str, machines: &str, cards: &[String], pairs: &str) {
        let (mut calls, mut wanted) = (String::new(), String::new());
        for pair in pairs.lines().map(str::trim).filter(|pair| !pair.is_empty()) {
            let (call, answer) = pair.split_once(" > ").expect("a pair");
            let verb = call.split(',').next().unwrap_or_default();
            calls += &format!("{call}\n");
            // an answer that begins with a point has the command's verb, machine and first number before it
            let head: Vec<&str> = call.split(',').take(3).collect();
            wanted += &match answer.strip_prefix('.') {
                Some(own) if verb != "turn" => format!("{},{own}\n", head.join(",")),
                _ => format!("{answer}\n"),
            };
        }
        self.equal(name, printed(&files(machines, cards, &calls)), wanted);
    }
}

/// T = 5, shares 2 and 1, ceilings 4 and 9. Machine 0 uses 4, up to its ceiling, and machine 1 still has its share; then machine 1 comes first.
fn shared_turn(checks: &mut Checks) {
    let cards = [card_of(1, 100, 7, EXCHANGE), card_of(1, 100, 7, EXCHANGE)];
    checks.paired(
        "a shared turn",
        "machines,2,5\nmachine,2,4\nmachine,1,9\n",
        &cards,
        "call,0,0,0,9,0,0,0 > .taken
         call,1,0,0,8,0,0,0 > .taken
         step,0,0 > .run
         step,0,0 > .run
         step,0,0 > .run
         step,0,0 > .run
         step,0,0 > .refused,19
         step,1,0 > .run
         step,1,0 > .refused,19
         turn > turn,taken
         step,1,0 > .run
         step,1,0 > .run
         step,1,0 > .run
         step,1,0 > .refused,19
         step,0,0 > .run
         trace,0,0 > .P14,G,-,1,0,0,run
         step,0,0 > .refused,19
         turn > turn,taken
         turn > turn,taken
         trace,0,0 > .P16,A0,-,1,0,0,run
         look,0,0 > .7
         look,1,0 > .7",
    );
    let once = "call,1,0,0,9,0,0,0 > .taken\nstep,1,0 > .run\nstep,1,0 > .refused,19\ncall,0,0,0,9,0,0,0 > .taken\nstep,0,0 > .refused,19";
    checks.paired("a turn of one step", "machines,2,1\nmachine,0,1\nmachine,0,1\n", &cards, once);
    let sure = "call,0,0,0,9,0,0,0 > .taken\nstep,0,0 > .refused,19\ncall,1,0,0,9,0,0,0 > .taken\nstep,1,0 > .run";
    checks.paired("a share of one step", "machines,2,1\nmachine,0,1\nmachine,1,1\n", &cards, sure);
}

/// 5, 8 and 10 of the card come before 19, and are not counted; so do those of a traced step.
fn tested_last(checks: &mut Checks) {
    let cards = [card_of(2, 2, 7, EXCHANGE), card_of(1, 100, 7, EXCHANGE)];
    let turn = "machines,2,3\nmachine,1,2\nmachine,0,0\n";
    checks.paired(
        "19 is last",
        turn,
        &cards,
        "step,0,0 > .refused,8
         step,0,2 > .refused,5
         trace,0,1 > .refused,8
         call,0,0,0,9,0,0,0 > .taken
         step,0,0 > .run
         step,0,1 > .refused,8
         step,0,0 > .run
         step,0,2 > .refused,5
         step,0,1 > .refused,8
         step,0,0 > .refused,10
         turn > turn,taken
         trace,0,0 > .refused,10
         step,1,0 > .refused,8
         call,1,0,0,1,0,0,0 > .taken
         step,1,0 > .refused,19
         trace,1,0 > .refused,19
         step,1,1 > .refused,5
         wish,1,0 > .taken
         look,1,0 > .7",
    );
}

/// A machine that is not there, `turn` with more, lines without a machine, and the lines of texts.
fn commands(checks: &mut Checks) {
    let cards = [card_of(1, 100, 7, EXCHANGE)];
    let turn = "machines,1,9\nmachine,0,9\n";
    checks.paired(
        "machines that are not there, and malformed lines",
        turn,
        &cards,
        "call,1,0,0,9,0,0,0 > .refused,5
         wish,1,0 > .refused,5
         step,1,0 > .refused,5
         trace,256,7 > .refused,5
         look,4294967295,0 > .refused,5
         look,4294967296,0 > line,6,refused,2
         turn,0 > line,7,refused,2
         Turn > line,8,refused,2
         step,0 > line,9,refused,2
         call,0,0,9,0,0,0 > line,10,refused,2
         change,0,0,2 > line,11,refused,2
         look,0,1 > .refused,9
         look,0,0 > .7",
    );
    let calls = format!("change,0,0,2,6\n{ADD}look\nchange,1,0,2,2\nturn\nlook,0,0\nchange,7,9,2,9\nturn\nlook,0,0");
    let wanted = "change,0,0,taken\nline,8,refused,2\nchange,1,0,refused,5,0\nchange,7,9,refused,5,0\n";
    checks.equal("texts", printed(&files(turn, &cards, &calls)), wanted.to_string());
    checks.equal(
        "an unended turn",
        printed(&files(turn, &cards, "turn\nturn")),
        "turn,taken\nline,2,refused,2\n".into(),
    );
    checks.equal("no commands", printed(&files(turn, &cards, "")), String::new());
}

/// The judgement of machines.txt: 1, the first line, the number of machines, the other lines, then 18.
fn refused_turns(checks: &mut Checks) {
    let cards = vec![card_of(1, 100, 7, FIXED); 4];
    let huge = "9".repeat(40);
    let mut judged = |machines: &str, wanted: &str| {
        let wanted = if wanted.is_empty() { String::new() } else { format!("machines,refused,{wanted}\n") };
        checks.equal(&format!("{machines:.60}"), printed(&files(machines, &cards, "")), wanted);
    };
    judged("machines,1,1\nmachine,0,0\n", "");
    judged("machines,1,100000\nmachine,100000,100000\n", "");
    judged(&format!("machines,1,1\nmachine,1,{huge}\n"), "");
    judged("machines,4,10\nmachine,1,1\nmachine,2,2\nmachine,3,3\nmachine,4,4\n", "");
    judged("machines,4,9\nmachine,1,1\nmachine,2,2\nmachine,3,3\nmachine,4,4\n", "18,0");
    judged("machines,1,0\nmachine,0,0\n", "18,0");
    judged("machines,1,100001\nmachine,0,0\n", "18,0");
    judged("machines,0,1\n", "18,0");
    judged("machines,0,1", "2,1");
    judged("machines,5,1\n", "18,0");
    judged(&format!("machines,{huge},1\n"), "18,0");
    judged(&format!("machines,1,{huge}\nmachine,0,0\n"), "18,0");
    judged(&format!("machines,1,1\nmachine,{huge},{huge}\n"), "18,0");
    judged("machines,1,9\nmachine,3,2\n", "18,0");
    judged("machines,2,9\nmachine,9223372036854775808,9223372036854775808\nmachine,9223372036854775808,9223372036854775808\n", "18,0");
    judged("machines,2,9\nmachine,4294967295,4294967295\nmachine,2,2\n", "18,0");
    judged("", "2,1");
    judged("machine,1,1\n", "2,1");
    judged("machines,1\n", "2,1");
    judged("machines,01,1\nmachine,0,0\n", "2,1");
    judged("machines,1,1", "2,1");
    judged("machines,1,1\n", "2,2");
    judged("machines,2,0\nmachine,5,4\n", "2,3");
    judged("machines,1,0\nmachine,5,04\n", "2,2");
    judged("machines,1,1\nmachine,0,0", "2,2");
    judged("machines,1,0\nmachine,5,4\n\n", "2,3");
    judged("machines,1,1\nmachine,0,0\nx", "2,3");
    judged(&format!("machines,1,1\nmachine,0,{}\n", "9".repeat(16_384 - 24)), "");
    judged(&format!("machines,1,1\nmachine,0,{}\n", "9".repeat(16_385 - 24)), "1,0");
}

/// machines.txt, the cards from 0 on, the size of the calls.
fn refused_files(checks: &mut Checks) {
    let (good, bad) = (card_of(1, 100, 7, FIXED), "card,9,1,1,5\n".to_string());
    let long = "\n".repeat(65_537);
    let two = "machines,2,9\nmachine,1,1\nmachine,1,1\n";
    let mut judged = |machines: &str, cards: &[String], calls: &str, wanted: &str| {
        checks.equal(wanted, printed(&files(machines, cards, calls)), format!("{wanted}\n"));
    };
    judged("machines,9,9\n", &[bad.clone()], &long, "machines,refused,18,0");
    judged(two, &[bad.clone(), String::new()], &long, "card,0,refused,3,1");
    judged(two, &[good.clone(), bad.clone()], &long, "card,1,refused,3,1");
    judged(two, &[good.clone()], &long, "card,1,refused,2,1");
    judged(two, &[good.clone(), good.clone()], &long, "calls,refused,1");
    let one = files("machines,1,9\nmachine,1,1\n", &[good, bad], "look,0,0\n");
    checks.equal("a card past the last machine", printed(&one), "look,0,0,7\n".to_string());
}

/// Another wording of the rule: a step is allowed if after it its machine is not past the ceiling, and what all have used and what is left of every
/// share are together not above T. In every state that can be reached nobody is past a ceiling, and all together are not past T.
fn another_wording(checks: &mut Checks) {
    let mut met = 0;
    for steps in 1..=5 {
        for shares in choices(3, steps) {
            for ceilings in choices(3, steps + 1) {
                if shares.iter().sum::<u64>() > steps
                    || shares.iter().zip(&ceilings).any(|(share, ceiling)| share > ceiling)
                {
                    continue;
                }
                let account = |at: usize| Account { share: shares[at], ceiling: ceilings[at], used: 0 };
                let turn = Turn { steps, accounts: (0..3).map(account).collect(), draft: Draft::Right };
                met += every_state(checks, turn);
            }
        }
    }
    checks.equal("states met", met > 10_000, true);
}

/// All rows of so many numbers up to a greatest.
fn choices(count: usize, greatest: u64) -> Vec<Vec<u64>> {
    (0..count).fold(vec![vec![]], |rows, _| {
        rows.iter().flat_map(|row| (0..=greatest).map(|last| [&row[..], &[last]].concat())).collect()
    })
}

fn every_state(checks: &mut Checks, first: Turn) -> usize {
    let mut met = vec![first.accounts.clone()];
    let mut at = 0;
    while at < met.len() {
        let turn = Turn { accounts: met[at].clone(), ..first.clone() };
        for machine in 0..turn.accounts.len() {
            let mut after = turn.clone();
            after.count(machine);
            let (used, kept) = after.accounts.iter().fold((0, 0), |(used, kept), account| {
                (used + account.used, kept + account.share.saturating_sub(account.used))
            });
            let account = after.accounts[machine];
            let fits = account.used <= account.ceiling && used + kept <= turn.steps;
            if turn.allows(machine) != fits || (fits && used > turn.steps) {
                checks.equal("the rule in other words", format!("{turn:?}, machine {machine}"), String::new());
            }
            if turn.allows(machine) && !met.contains(&after.accounts) {
                met.push(after.accounts);
            }
        }
        at += 1;
    }
    met.len()
}

/// What is printed for the case of a seed keeps the promises and is what each machine answers alone; with one answer altered it is not.
fn played_alone(seed: u64) -> Result<(), String> {
    let files = generate::machines::case(seed);
    let printed = expected(&files);
    let Ok(machines) = Machines::open(&files, Draft::Right) else { return Ok(()) };
    alone::check(&files, &machines, &printed, None)?;
    let text = String::from_utf8(printed).expect("ASCII");
    let Some((before, after)) = text.split_once(",run\n") else { return Ok(()) };
    let altered = format!("{before},refused,8\n{after}");
    let found = alone::check(&files, &machines, altered.as_bytes(), None);
    found.err().map(drop).ok_or("an altered answer is not found out".to_string())
}

/// Drafts that break no promise of order 14 in any single turn, so that only the rule tells them: they allow less than it does.
const WITHIN_PROMISES: [Draft; 1] = [Draft::NineteenCounted];

/// Every draft prints something else than the right one in some of the generated cases.
fn told_apart(checks: &mut Checks) {
    let cases: Vec<Files> = (1..=CASES).map(generate::machines::case).collect();
    let right: Vec<Vec<u8>> = cases.iter().map(expected).collect();
    for draft in DRAFTS {
        let differs = |(files, right): &(&Files, &Vec<u8>)| run(files, draft, &mut Reached::new(&events())) != **right;
        let told = cases.iter().zip(&right).filter(differs).take(TELLING).count();
        checks.equal(&format!("cases that tell the draft {draft:?}"), told, TELLING);
    }
    // of those that open what the right one opens: what they print of itself breaks a promise, or is not what a machine answers alone
    let opens_alike = DRAFTS.iter().take_while(|&&draft| draft != Draft::ShareAboveCeiling);
    for &draft in opens_alike.filter(|draft| !WITHIN_PROMISES.contains(draft)) {
        let found = cases.iter().any(|files| is_found_out(files, draft));
        checks.equal(&format!("the draft {draft:?} is found out without the rule"), found, true);
    }
}

fn is_found_out(files: &Files, draft: Draft) -> bool {
    let printed = run(files, draft, &mut Reached::new(&events()));
    Machines::open(files, Draft::Right).is_ok_and(|machines| alone::check(files, &machines, &printed, None).is_err())
}
