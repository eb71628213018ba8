//! Calls files with one call for each process, good and bad (document 02, orders 12 and 13).

use super::{card_text, damage, split_lines, value, Case, Random};
use crate::machine::{Card, WORD_END};
use crate::session::CALLS_LIMIT;

/// What a process is called with.
pub type Requests = Vec<(usize, [u32; 4])>;

pub fn calls_text(calls: &[(usize, [u32; 4])]) -> Vec<u8> {
    let line = |(process, (program, [i0, i1, i2, i3])): (usize, &(usize, [u32; 4]))| {
        format!("call,{process},{program},{i0},{i1},{i2},{i3}\n")
    };
    calls.iter().enumerate().map(line).collect::<String>().into_bytes()
}

/// A call for each process of a program that is there.
pub fn make_requests(random: &mut Random, card: &Card) -> Requests {
    let variables = card.starting.len();
    let request = |_| (random.below(card.programs.len()), [(); 4].map(|()| value(random, variables)));
    (0..card.processes).map(request).collect()
}

pub fn case_of(random: &mut Random, card: &Card) -> Case {
    let requests = make_requests(random, card);
    Case { card: Some(card_text(card)), calls: Some(calls_text(&requests)) }
}

/// One of the calls, or two, names a program that is not there.
pub fn make_missing(random: &mut Random, card: &Card, requests: &mut Requests) {
    let programs = card.programs.len();
    for _ in 0..random.pick(&[1, 1, 2, 3]) {
        let place = random.below(requests.len());
        requests[place].0 = random.pick(&[programs, programs + 1, 255 + programs, 256, WORD_END as usize - 1]);
    }
}

/// Lines in the place of a call; each kind of bad line, at any place.
#[rustfmt::skip]
const ODD_CALLS: [&str; 22] = [
    "", "step,0", "wish,0", "look,0", "trace,0", "change,0,2,0", "Call,0,0,1,2,3,4", "calls,0,0,1,2,3,4", "call", "call,", "call,0,0,1,2,3",
    "call,0,0,1,2,3,4,5", "call,00,0,1,2,3,4", "call,0,00,1,2,3,4", "call,0,0,01,2,3,4", "call,0,0,1,2,3,4294967296", "call,0,4294967296,1,2,3,4",
    "call,0,0,1,2,3,4 ", "call,0,0,1,,3,4", "call,0,0,1,2,3,4\r", "call,18446744073709551616,0,1,2,3,4", "call,0,0,-1,2,3,4",
];

/// Good calls with a line that breaks the form: altered, of another process, swapped, missing, left over, doubled, unended; or damaged anywhere.
pub fn bad_calls(random: &mut Random, card: &Card) -> Vec<u8> {
    let requests = make_requests(random, card);
    let mut lines = split_lines(&calls_text(&requests));
    let (place, other) = (random.below(lines.len()), random.below(card.processes + 1));
    match random.below(12) {
        0..=2 => lines[place] = format!("{}\n", random.pick(&ODD_CALLS)).into_bytes(),
        3 => lines[place] = format!("call,{other},0,1,2,3,4\n").into_bytes(),
        4 => lines.swap(place, other.min(card.processes - 1)),
        5 => drop(lines.remove(place)),
        6 => lines
            .push(random.pick(&["\n", "x", "call,1,0,0,0,0,0\n", "step,0\n", "call,2,0,0,0,0,0"]).bytes().collect()),
        7 => lines.insert(place, lines[place].clone()),
        8 => drop(lines[card.processes - 1].pop()),
        _ => (),
    }
    let mut calls = lines.concat();
    if random.chance(30) {
        for _ in 0..random.pick(&[1, 1, 2]) {
            damage(random, &mut calls);
        }
    }
    calls
}

/// Files that are not there, or at an edge of their size.
pub fn edge_of_size(random: &mut Random, card: &Card) -> Case {
    let mut case = case_of(random, card);
    let mut calls = case.calls.take().unwrap_or_default();
    let size = random.pick(&[CALLS_LIMIT, CALLS_LIMIT + 1, CALLS_LIMIT + 2, 100_000]);
    match random.below(8) {
        0 => case.card = None,
        1 => calls.clear(),
        2 => return case,
        3 => calls.resize(size, b'\n'),
        4 => calls = b"call,0,0,0,0,0,0\n".iter().cycle().copied().take(size).collect(),
        5 => calls = [b"call,0,0,".to_vec(), vec![b'1'; size - 16], b",0,0,0\n".to_vec()].concat(),
        6 => {
            case.card = Some(b"card,9,1,1,5\n".to_vec());
            calls.resize(CALLS_LIMIT + 1, b'\n');
        }
        _ => calls.resize(size, b'7'),
    }
    case.calls = Some(calls);
    case
}
