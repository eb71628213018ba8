//! Sweeps (document 02, order 12): small ones by hand, the generator's first numbers, what is refused, and sweeps beside the bench program's sessions.

use super::{card_of, Checks, EXCHANGE, FIXED};
use crate::generate;
use crate::reached::Reached;
use crate::session::expected;
use crate::sweeps::{events, next, run, USAGE};

fn swept(card: &str, calls: &str, words: &[&str]) -> String {
    let words: Vec<String> = words.iter().map(|word| word.to_string()).collect();
    String::from_utf8(run(card.as_bytes(), calls.as_bytes(), &words, &mut Reached::new(&events()))).expect("ASCII")
}

pub fn sweeps(checks: &mut Checks) {
    drawn(checks);
    alone(checks);
    refusals(checks);
    wrong_calls(checks);
    for seed in 1..=400 {
        checks.equal(&format!("sweep beside a session, seed {seed}"), as_session(seed), Ok(()));
    }
}

/// 1 becomes 1 + 2^13, then that with 2^6 and 2^13, then each of 2^0, 2^6, 2^13 and 2^17, 2^23, 2^30.
fn drawn(checks: &mut Checks) {
    checks.equal("after 1", next(1), 1 + (1 << 6) + (1 << 13) + (1 << 17) + (1 << 23) + (1 << 30));
    checks.equal("after that", next(next(1)), 1_152_992_998_833_853_505);
    checks.equal("after the top bit", next(1 << 63), (1 << 63) + (1 << 56));
    checks.equal("after 0", next(0), 0);
}

/// One process on card K: 14 steps while it alters the value, 13 from then on, as its input stands there.
fn alone(checks: &mut Checks) {
    let calls = "call,0,0,9,0,0,0\n";
    let mut alone = |limit: u64, steps: &str, made: u64, done: u64, wait: u64, gate: u64, value: u32| {
        let wanted = format!("steps,{made}\ndone,{done}\nfault,0\nwait,{wait},32\ngate,{gate}\nlook,0,{value}\n");
        checks.equal("card K", swept(&card_of(1, limit, 7, EXCHANGE), calls, &[steps, "5"]), wanted);
    };
    alone(100, "0", 0, 0, 0, 1, 7);
    alone(100, "9", 9, 0, 0, 1, 7); // written, but not done yet
    alone(100, "10", 10, 0, 0, 1, 9);
    alone(100, "13", 13, 0, 0, 2, 9);
    alone(100, "14", 14, 1, 14, 2, 9);
    alone(100, "27", 27, 2, 14, 3, 9);
    alone(14, "27", 14, 1, 14, 2, 9);
    alone(26, "18446744073709551615", 26, 1, 14, 3, 9);
    alone(27, "27", 27, 2, 14, 3, 9);
    let fault = card_of(1, 100, 7, "sheet,2\nins,2,0,1,0\nins,5,0,0,0\n");
    let wanted = "steps,100\ndone,0\nfault,8\nwait,12,28\ngate,9\nlook,0,7\n";
    checks.equal("faults of 12 steps", swept(&fault, calls, &["1000", "1"]), wanted.to_string());
    let fixed = "steps,25\ndone,2\nfault,0\nwait,12,24\ngate,3\nlook,0,7\n";
    checks.equal("nothing touched", swept(&card_of(1, 25, 7, FIXED), calls, &["25", "1"]), fixed.to_string());
}

/// The card, the size of the calls, their first bad line, the first refused call, in that sequence.
fn refusals(checks: &mut Checks) {
    let two = card_of(2, 5, 7, EXCHANGE);
    let mut refused = |card: &str, calls: &str, wanted: &str| {
        checks.equal(&format!("{calls:.60}"), swept(card, calls, &["9", "1"]), format!("{wanted}\n"));
    };
    let long = "\n".repeat(65_537);
    refused("card,9,1,1,5\n", &long, "card,refused,3,1");
    refused(&two, &long, "calls,refused,1");
    refused(&two, &long[1..], "line,1,refused,2");
    refused(&two, "", "line,1,refused,2");
    refused(&two, "call,0,1,0,0,0,0\n", "line,2,refused,2");
    refused(&two, "call,1,0,0,0,0,0\ncall,0,0,0,0,0,0\n", "line,1,refused,2");
    refused(&two, "call,0,0,0,0,0,0\nstep,0\n", "line,2,refused,2");
    refused(&two, "call,0,0,0,0,0,0\ncall,1,0,0,0,0\n", "line,2,refused,2");
    refused(&two, "call,0,0,0,0,0,0\ncall,1,0,0,0,0,0", "line,2,refused,2");
    refused(&two, "call,0,0,0,0,0,0\ncall,1,0,0,0,0,0\n\n", "line,3,refused,2");
    refused(&two, "call,0,1,0,0,0,0\ncall,1,0,0,0,0,0\nx", "line,3,refused,2");
    refused(&two, "call,0,0,0,0,0,0\ncall,1,1,0,0,0,0\n", "call,1,refused,6");
    refused(&two, "call,0,256,0,0,0,0\ncall,1,1,0,0,0,0\n", "call,0,refused,6");
}

/// Arguments are judged before any file.
fn wrong_calls(checks: &mut Checks) {
    for words in [&[][..], &["1"], &["1", "2", "3"], &["1", "0"], &["1", "01"], &["01", "1"], &["", "1"], &["1", ""]] {
        checks.equal(&format!("{words:?}"), swept("", "", words), USAGE.to_string());
    }
    for words in [["18446744073709551616", "1"], ["1", "18446744073709551616"], ["+1", "1"], ["1", "-1"], ["x", "1"]] {
        checks.equal(&format!("{words:?}"), swept("", "", &words), USAGE.to_string());
    }
    let card = "card,refused,2,1\n".to_string();
    checks.equal("edges", swept("", "", &["0", "18446744073709551615"]), card.clone());
    checks.equal("edges", swept("", "", &["18446744073709551615", "1"]), card);
}

/// The bench program's session of the same calls, steps and looks comes to the same counts. There each step is followed by its process's call, which
/// is refused with 7 as long as the operation is under way.
fn as_session(seed: u64) -> Result<(), String> {
    let (case, mut words) = generate::sweeps::case(seed);
    let (card, calls) = (case.card.unwrap_or_default(), case.calls.unwrap_or_default());
    let steps = words.first().and_then(|word| word.parse::<u64>().ok()).unwrap_or(0).min(1000);
    words.splice(..words.len().min(1), [steps.to_string()]);
    let printed = text(&run(&card, &calls, &words, &mut Reached::new(&events())));
    let Some(rest) = printed.strip_prefix("steps,") else {
        return Ok(()); // refused
    };
    let made: u64 = rest.lines().next().and_then(|count| count.parse().ok()).ok_or("no count")?;
    let calls = text(&calls);
    let requests: Vec<&str> = calls.lines().collect();
    let mut session = calls.clone();
    let mut x: u64 = words[1].parse().expect("a seed");
    for _ in 0..made {
        x = next(x);
        let process = (x % requests.len() as u64) as usize;
        session += &format!("step,{process}\n{}\n", requests[process]);
    }
    let looks = printed.lines().filter(|line| line.starts_with("look,"));
    session.extend((0..looks.clone().count()).map(|variable| format!("look,{variable}\n")));
    let answers = text(&expected(&card, session.as_bytes()));
    let counted: Vec<&str> = printed.lines().skip(1).take(3).collect();
    let (done, faults) = (answers.matches(",done,").count(), answers.matches(",fault,").count());
    let returned = answers.lines().filter(|line| line.contains(",done,") || line.contains(",fault,"));
    let longest = returned.filter_map(|line| line.rsplit(',').next()?.parse::<u64>().ok()).max().unwrap_or(0);
    let wanted = [format!("done,{done}"), format!("fault,{faults}"), format!("wait,{longest},")];
    let seen = answers.lines().filter(|line| line.starts_with("look,"));
    let same = looks.eq(seen) && counted[..2] == wanted[..2] && counted[2].starts_with(&wanted[2]);
    same.then_some(()).ok_or(format!("{printed} where the session has {wanted:?}"))
}

fn text(bytes: &[u8]) -> String {
    String::from_utf8(bytes.to_vec()).expect("ASCII")
}
