//! The calls of the programs that take one call for each process (document 02, orders 12 and 13): exactly p lines, in the order of the processes.

use crate::machine::{lines, Line};
use crate::session::{parse, Command};

/// How a line can break the form.
#[rustfmt::skip]
pub const BAD_LINES: [&str; 6] =
    ["line of another verb", "line of another process", "line misformed", "line missing", "line left over", "line unended"];

/// What a process is called with: program and inputs.
pub type Request = (u32, [u32; 4]);

/// The calls of the processes in their order; else the number of the first line that breaks the form, and how.
pub fn requests(calls: &[u8], processes: usize) -> Result<Vec<Request>, (usize, &'static str)> {
    let lines = lines(calls);
    let mut requests = Vec::new();
    for process in 0..processes {
        let line = lines.get(process).ok_or((process + 1, "line missing"))?;
        requests.push(request(line, process).map_err(|kind| (process + 1, kind))?);
    }
    if lines.len() > processes {
        return Err((processes + 1, "line left over"));
    }
    Ok(requests)
}

/// The call of a process as its line has it.
fn request(line: &Line, process: usize) -> Result<Request, &'static str> {
    match parse(line) {
        Some(Command::Call { process: named, program, inputs }) if named as usize == process => Ok((program, inputs)),
        Some(Command::Call { .. }) => Err("line of another process"),
        Some(_) => Err("line of another verb"),
        None if !line.ended => Err("line unended"),
        None if !line.bytes.starts_with(b"call,") => Err("line of another verb"),
        None => Err("line misformed"),
    }
}
