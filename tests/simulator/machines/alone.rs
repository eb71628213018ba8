//! 'Each machine answers as it would alone with its own calls, less the steps that got 19' (document 02, order 14), and the other promises of that
//! order, read off what a program has printed. Nothing here goes by the rule of allowances.

use std::path::Path;

use super::{head, stepping, Files, Machines, Request, Requests};
use crate::compare::{output_of, write_files};
use crate::coverage::Coverage;
use crate::generate::Case;
use crate::session::{self, Command};

/// The own lines of a machine, and what was printed for them, both as a bench program has them.
#[derive(Clone, Default)]
pub struct Alone {
    pub calls: Vec<u8>,
    pub answers: Vec<u8>,
}

/// Checks what was printed for files that open; with a bench program each machine alone is played there too.
pub fn check(files: &Files, machines: &Machines, printed: &[u8], bench: Option<(&Path, &Path)>) -> Result<(), String> {
    within_bounds(files, machines, printed)?;
    for (at, alone) in parts(files.calls(), printed, machines.cards.len())?.into_iter().enumerate() {
        let card = files.card(at);
        if session::expected(card, &alone.calls) != alone.answers {
            return Err(format!("machine {at} alone answers otherwise"));
        }
        let Some((program, folder)) = bench else { continue };
        let case = Case { card: Some(card.to_vec()), calls: Some(alone.calls) };
        write_files(&case, folder)?;
        let ran = output_of(program, &[] as &[&str], folder);
        let _ = std::fs::remove_dir_all(folder);
        if ran?.printed != alone.answers {
            return Err(format!("machine {at} alone answers otherwise in the bench program"));
        }
    }
    Ok(())
}

/// Each command with the line that was printed for it.
fn answered<'a>(
    calls: &'a [u8],
    printed: &'a [u8],
) -> Result<impl Iterator<Item = (Option<Request<'a>>, &'a str)>, String> {
    let printed = std::str::from_utf8(printed).map_err(|_| "other bytes than ASCII")?;
    if Requests::new(calls).count() != printed.lines().count() || !(printed.is_empty() || printed.ends_with('\n')) {
        return Err("not a line for each command".to_string());
    }
    Ok(Requests::new(calls).map(|(_, request)| request).zip(printed.lines()))
}

fn is_refused(answer: &str, number: u8) -> bool {
    answer.ends_with(&format!(",refused,{number}"))
}

/// The machine's own lines less the steps that got 19.
pub fn parts(calls: &[u8], printed: &[u8], count: usize) -> Result<Vec<Alone>, String> {
    let mut parts = vec![Alone::default(); count];
    for (request, answer) in answered(calls, printed)? {
        let Some(Request::Of { machine, command, line }) = request else { continue };
        let Some(alone) = parts.get_mut(machine as usize) else { continue };
        if stepping(&command).is_some() && is_refused(answer, 19) {
            continue;
        }
        alone.calls.extend(line);
        if let Command::Change { text, .. } = command {
            alone.calls.extend(text);
        }
        let (verb, _) = head(&command);
        let own = answer
            .strip_prefix(&format!("{verb},{machine},"))
            .ok_or(format!("{answer} for a {verb} of machine {machine}"))?;
        alone.answers.extend(format!("{verb},{own}\n").bytes());
    }
    Ok(parts)
}

/// In each turn nobody passes a ceiling and all together never pass T; a step within the share never gets 19, nor does one that the card alone would
/// refuse; and who got 19 gets no other step before the next turn.
fn within_bounds(files: &Files, machines: &Machines, printed: &[u8]) -> Result<(), String> {
    let accounts = &machines.turn.accounts;
    let mut alone = machines.cards.clone();
    let mut made = vec![0; accounts.len()];
    let mut denied = vec![false; accounts.len()];
    for (request, answer) in answered(files.calls(), printed)? {
        let (machine, command) = match request {
            Some(Request::Of { machine, command, .. }) if (machine as usize) < alone.len() => {
                (machine as usize, command)
            }
            Some(Request::Turn) => {
                made.fill(0);
                denied.fill(false);
                continue;
            }
            _ => continue,
        };
        let Some(process) = stepping(&command) else {
            session::answer(&mut alone[machine], command, &mut Coverage::default());
            continue;
        };
        if is_refused(answer, 19) {
            denied[machine] = true;
            if made[machine] < accounts[machine].share {
                return Err(format!("{answer} within the share"));
            }
            if alone[machine].clone().step(process).is_err() {
                return Err(format!("{answer} for a step that the card refuses"));
            }
        } else if alone[machine].step(process).is_ok() {
            made[machine] += 1;
            if made[machine] > accounts[machine].ceiling {
                return Err(format!("{answer} past the ceiling"));
            }
            if made.iter().sum::<u64>() > machines.turn.steps {
                return Err(format!("{answer} past the turn"));
            }
            if denied[machine] {
                return Err(format!("{answer} after a 19 of the same turn"));
            }
        }
    }
    Ok(())
}
