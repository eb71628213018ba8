//! Writer and reader of dumps against document 02, order 7: dumps by hand, the line that is told of each fault, sessions read back at every step, and
//! that a dump is taken or refused for what it says: one that is taken has no other spelling, and what stands before a refused line could go on.

use crate::dumps::{any_dump, damaged_everywhere, small_dump};
use crate::generate::{case, split_lines, Random};
use crate::selftest::Checks;
use crate::waves::{play, printed, read, readings, write, Dump};

const HEADER: &str =
    "$timescale 1 us $end\n$scope module card $end\n$var wire 32 ! v0 $end\n$upscope $end\n$enddefinitions $end\n";
const K: &str = "card,1,1,1,100\nvar,7\nsheet,4\nins,1,0,0,0\nins,3,1,0,0\nins,4,0,0,0\nins,11,0,1,0\n";

pub fn dumps(checks: &mut Checks) {
    by_hand(checks);
    told_lines(checks);
    edges(checks);
    for seed in 1..=400 {
        let case = case(seed);
        let (card, calls) = case.texts();
        if let Ok(played) = play(card, calls) {
            checks.equal(&format!("session of seed {seed} read back"), read_back(&played.history), Ok(()));
        }
    }
    for text in damaged_everywhere(&small_dump()) {
        checks.equal("small dump, damaged", judged_rightly(&text), Ok(()));
    }
    for seed in 1..=3000 {
        let text = any_dump(&mut Random::new(seed));
        checks.equal(&format!("dump of seed {seed}"), judged_rightly(&text), Ok(()));
    }
}

/// Card K: 'After step 9: look shows 7. After step 10: 9.'
fn by_hand(checks: &mut Checks) {
    let mut session = |name: &str, calls: String, rest: &str| {
        let found = String::from_utf8(printed(K.as_bytes(), calls.as_bytes())).expect("ASCII");
        checks.equal(name, found, format!("{HEADER}#0\nb111 !\n{rest}"));
    };
    let (call, step) = ("call,0,0,9,0,0,0\n", "step,0\n");
    session("K without steps", format!("look,0\nstep,0\n{call}wish,0\n"), "");
    session("K after step 9", format!("{call}{}", step.repeat(9)), "#9\n");
    session("K after step 10", format!("{call}{}", step.repeat(10)), "#10\nb1001 !\n");
    session("K to the end", format!("{call}{}", step.repeat(20)), "#10\nb1001 !\n#14\n");
    session("K traced", format!("{call}{}step,1\nstop\n{step}", "trace,0\n".repeat(9)), "#10\nb1001 !\n");
    checks.equal("a refused card", printed(b"card,9,1,1,5\n", b""), b"card,refused,3,1\n".to_vec());
}

/// The small dump with one line in the place of another, and the line that is told.
fn told_lines(checks: &mut Checks) {
    let small = small_dump();
    let lines = split_lines(&small);
    checks.equal("the small dump", readings(&small, None).as_str(), "0,7,0\n9,7,2\n13,4,0\n20,4,0\n");
    checks.equal("the small dump before step 13", readings(&small, Some(12)).as_str(), "12,7,2\n");
    checks.equal("the small dump past its end", readings(&small, Some(99)).as_str(), "99,4,0\n");
    for (line, new, told) in [
        (4, "$var wire 32 \" v01 $end\n", 4),
        (4, "$var wire 32 # v1 $end\n", 4),
        (4, "", 8),
        (7, "#00\n", 7),
        (9, "", 9),
        (10, "#09\n", 10),
        (10, "#+9\n", 10),
        (10, "#3\n#5\n", 11),
        (11, "b0 \"\n", 11),
        (11, "b010 \"\n", 11),
        (12, "#9\n", 12),
        (14, "b1 !\n", 14),
        (14, "b1 #\n", 14),
        (15, "#1000000000000000001\n", 15),
        (15, "#20", 15),
        (15, "#20\n\n", 16),
    ] {
        let mut changed = lines.clone();
        changed[line - 1] = new.into();
        checks.equal(&format!("line {line} as {new:?}"), read(&changed.concat()), Err(told));
    }
    checks.equal("a value missing at the end", read(&lines[..8].concat()), Err(9));
    checks.equal("no bytes", read(b""), Err(1));
}

/// 0 and 64 variables, and one more; the greatest time and value.
fn edges(checks: &mut Checks) {
    let none = write(&Dump { variables: 0, times: vec![(0, vec![])] });
    checks.equal("no variables", readings(&none, Some(7)).as_str(), "7\n");
    checks.equal("no variables, then #7", read(&[&none, &b"#7\n"[..]].concat()), Err(6));
    let most = Dump { variables: 64, times: vec![(0, vec![u32::MAX; 64]), (1_000_000_000_000_000_000, vec![0; 64])] };
    checks.equal("64 variables", read(&write(&most)).as_ref(), Ok(&most));
    let mut lines = split_lines(&write(&most));
    lines.insert(66, b"$var wire 32 a v64 $end\n".to_vec());
    checks.equal("65 variables", read(&lines.concat()), Err(67));
}

/// The reader takes the dump of a session, and gives after every step what was looked at then, past the last the last.
fn read_back(played: &Dump) -> Result<(), String> {
    let found = read(&write(played)).map_err(|line| format!("refused at line {line}"))?;
    let last = &played.times[played.times.len() - 1];
    let past = [(last.0 + 1, last.1.clone()), (u64::MAX, last.1.clone())];
    let same = played.times.iter().chain(&past).all(|(time, values)| found.after(*time) == values);
    let ends = found.times[found.times.len() - 1].0 == last.0 && found.variables == played.variables;
    if same && ends {
        Ok(())
    } else {
        Err(format!("played {played:?}, read {found:?}"))
    }
}

/// A dump that is taken is what the writer writes of it; what stands before a refused line could go on to a dump that is taken.
fn judged_rightly(text: &[u8]) -> Result<(), String> {
    match read(text) {
        Ok(dump) if write(&dump) == text => Ok(()),
        Ok(dump) => Err(format!("the writer has another spelling of {dump:?}")),
        Err(line) => {
            let before = &split_lines(text)[..line - 1];
            read(&completed(before)).map(|_| ()).map_err(|at| format!("refused at {line}, and completed at {at}"))
        }
    }
}

/// Lines that a dump begins with, and the fewest that may follow.
fn completed(before: &[Vec<u8>]) -> Vec<u8> {
    let variables = before.iter().filter(|line| line.starts_with(b"$var")).count();
    let shortest = split_lines(&write(&Dump { variables, times: vec![(0, vec![0; variables])] }));
    let rest = shortest.get(before.len()..).unwrap_or(&[]);
    [before, rest].concat().concat()
}
