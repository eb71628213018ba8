//! Cases of the program `schedules` from a seed (document 02, order 13): a card, a file of calls, and a length.

use super::calls::{bad_calls, calls_text, case_of, edge_of_size, make_missing, make_requests};
use super::{
    allocating_program, card_text, damage, damage_number, make, make_card, make_chain, make_program, Case, Random,
    Shape, ALONE, CONTENDED,
};
use crate::machine::{Card, GREATEST_LIMIT};
use crate::schedules::GREATEST_LENGTH;

/// One, two or three processes.
const FEW: Shape = Shape { processes: (1, 3), ..CONTENDED };
/// By the number of processes: a length that gives a few thousand schedules at most.
const SHORT: [usize; 4] = [0, 16, 11, 7];
/// Every so many seeds: three processes and 13 steps, the shortest length at which one of three is back and another goes on.
const WIDE_EVERY: u64 = 1000;

/// The case of a seed with its length.
pub fn case(seed: u64) -> (Case, u32) {
    let random = &mut Random::new(seed);
    if seed % WIDE_EVERY == 0 {
        return wide();
    }
    match random.below(100) {
        0..=27 => short(random),
        28..=37 => alone(random),
        38..=40 => one_back(random),
        41..=50 => at_the_limit(random),
        51..=60 => refused(random),
        61..=67 => odd_length(random),
        68..=87 => with_bad_calls(random),
        88..=94 => bad_card(random),
        _ => of_an_odd_size(random),
    }
}

/// A card of up to three processes whose programs touch a few variables, or take cells and give them back.
fn small_card(random: &mut Random) -> Card {
    let mut card = make_card(random, FEW, false);
    if random.chance(20) {
        let variables = random.between(2, 5);
        card.starting = make_chain(random, variables);
        card.programs = (0..random.between(1, 3)).map(|_| allocating_program(random, variables)).collect();
    }
    card
}

fn short(random: &mut Random) -> (Case, u32) {
    let card = small_card(random);
    let length = random.between(0, SHORT[card.processes]);
    (case_of(random, &card), length as u32)
}

/// One process, which is back after 12 steps or a few more: listed to its end, or cut.
fn alone(random: &mut Random) -> (Case, u32) {
    let mut card = make_card(random, Shape { instructions: 8, ..ALONE }, false);
    if random.chance(25) {
        // a variable that is not there: a fault, which is back after 12 or 13 steps
        card.programs[0] = vec![make(1, 0, 0, 0), make(11, 0, 0, 0), make(5, 1, 0, 0)];
    }
    let length = random.pick(&[11, 12, 13, 14, 15, 16, 16]);
    (case_of(random, &card), length)
}

/// Two processes of which one is back before the length.
fn one_back(random: &mut Random) -> (Case, u32) {
    let mut card = make_card(random, Shape { processes: (2, 2), ..FEW }, false);
    let variables = card.starting.len();
    card.programs = (0..2).map(|_| make_program(random, variables, 3)).collect();
    let length = random.pick(&[12, 13, 13, 14, 14, 15]);
    (case_of(random, &card), length)
}

/// A step limit that is the length, or one less (17) or more.
fn at_the_limit(random: &mut Random) -> (Case, u32) {
    let mut card = small_card(random);
    let length = random.between(1, SHORT[card.processes]);
    card.limit = (length as u64 + random.pick(&[0, 0, 1, 2]) - 1).max(1);
    (case_of(random, &card), length as u32)
}

/// 6 or 17 or both: more processes, a program that is not there, a length that is too great.
fn refused(random: &mut Random) -> (Case, u32) {
    let greatest = random.pick(&[3, 8]);
    let mut card = make_card(random, Shape { processes: (1, greatest), ..CONTENDED }, false);
    card.limit = random.pick(&[1, 5, 15, 16, 17, GREATEST_LIMIT]);
    let mut requests = make_requests(random, &card);
    if random.chance(50) {
        make_missing(random, &card, &mut requests);
    }
    let length = random.pick(&[0, 1, 5, 16, 17]);
    let length = if card.processes < 4 && length == 16 { SHORT[card.processes] as u32 } else { length };
    (Case { card: Some(card_text(&card)), calls: Some(calls_text(&requests)) }, length)
}

/// A length of 0, or past the greatest.
fn odd_length(random: &mut Random) -> (Case, u32) {
    let card = small_card(random);
    let past = GREATEST_LENGTH + 1;
    (case_of(random, &card), random.pick(&[0, 0, past, past + 1, 32, 256, 272, 1 << 31, u32::MAX]))
}

fn with_bad_calls(random: &mut Random) -> (Case, u32) {
    let processes = (1, random.pick(&[3, 3, 3, 8]));
    let card = make_card(random, Shape { processes, ..CONTENDED }, false);
    let case = Case { card: Some(card_text(&card)), calls: Some(bad_calls(random, &card)) };
    (case, random.between(0, SHORT[card.processes.min(3)] - 1) as u32)
}

fn bad_card(random: &mut Random) -> (Case, u32) {
    let card = small_card(random);
    let mut case = case_of(random, &card);
    let mut text = case.card.take().unwrap_or_default();
    for _ in 0..random.pick(&[1, 1, 2]) {
        if random.chance(50) {
            damage_number(random, &mut text);
        } else {
            damage(random, &mut text);
        }
    }
    if random.chance(20) {
        case.calls = None;
    }
    case.card = Some(text);
    // the first number may have been altered: as many schedules as three processes have
    (case, random.between(0, SHORT[3]) as u32)
}

fn of_an_odd_size(random: &mut Random) -> (Case, u32) {
    let card = small_card(random);
    let case = edge_of_size(random, &card);
    (case, random.between(0, SHORT[card.processes] - 1) as u32)
}

/// Each process outputs its input and touches nothing.
fn wide() -> (Case, u32) {
    let programs = vec![vec![make(1, 0, 0, 0), make(11, 0, 0, 0)]];
    let card = Card { processes: 3, limit: 13, starting: vec![0], programs };
    let requests = [1, 2, 3].map(|input| (0, [input; 4]));
    (Case { card: Some(card_text(&card)), calls: Some(calls_text(&requests)) }, 13)
}
