//! Cases of the program `sweep` from a seed (document 02, order 12): a card, a file of calls, and the arguments.

use super::calls::{bad_calls, calls_text, case_of, edge_of_size, make_missing, make_requests};
use super::{
    allocating_program, card_text, damage, damage_number, make, make_card, make_chain, make_program, Case, Random,
    Shape, ALONE, CONTENDED, WIDE,
};
use crate::machine::{Card, GREATEST_LIMIT};

/// Any number of processes on a few variables.
const ANY: Shape = Shape { processes: (1, 8), ..CONTENDED };
/// So many steps most sweeps have at most.
const SHORT: usize = 4000;
/// Numbers of steps beside the sizes that a piece of a schedule may have.
#[rustfmt::skip]
const PIECES: [u64; 12] = [255, 256, 257, 4095, 4096, 4097, 8192, 12_289, 65_535, 65_536, 65_537, 131_072];

/// The case of a seed with the arguments of the program.
pub fn case(seed: u64) -> (Case, Vec<String>) {
    let random = &mut Random::new(seed);
    let any = (random.between(0, SHORT) as u64, seed_of(random));
    let (case, (steps, from)) = match random.below(100) {
        0..=31 => (good(random), any),
        32..=37 => (faulting(random), any),
        38..=42 => (every_count(random), any),
        43..=58 => at_the_limit(random),
        59..=61 => (good(random), (0, any.1)),
        62..=65 => (good(random), (random.pick(&PIECES), any.1)),
        66..=82 => (with_bad_calls(random), any),
        83..=87 => (with_bad_card(random), any),
        88..=91 => (of_an_odd_size(random), any),
        92..=95 => (refused(random), any),
        _ => return (good(random), wrong_words(random, any)),
    };
    (case, vec![steps.to_string(), from.to_string()])
}

/// Where the numbers start from.
fn seed_of(random: &mut Random) -> u64 {
    match random.below(4) {
        0 => random.between(1, 9) as u64,
        1 => random.pick(&[u64::MAX, u64::MAX - 1, 1 << 63, 1 << 32, u64::from(u32::MAX), 88_172_645_463_325_252]),
        _ => (random.next() << 20) ^ random.next() | 1,
    }
}

/// A card of any number of processes whose programs touch a few variables, many, or take cells and give them back.
fn any_card(random: &mut Random) -> Card {
    let shape = random.pick(&[ANY, ANY, ANY, WIDE, ALONE]);
    let mut card = make_card(random, shape, false);
    if random.chance(20) {
        let variables = random.between(2, 7);
        card.starting = make_chain(random, variables);
        card.programs = (0..random.between(1, 4)).map(|_| allocating_program(random, variables)).collect();
    }
    card
}

fn good(random: &mut Random) -> Case {
    let card = any_card(random);
    case_of(random, &card)
}

/// Some processes run a program that faults, the others one of another kind.
fn faulting(random: &mut Random) -> Case {
    let mut card = make_card(random, ANY, false);
    let variables = card.starting.len();
    card.programs = vec![
        vec![make(1, 0, 0, 0), make(4, 0, 0, 0), make(2, 1, variables, 0), make(5, 2, 1, 0)],
        make_program(random, variables, 8),
    ];
    case_of(random, &card)
}

/// Card K's program with as many processes as any card has, all inputs different or all the same.
fn every_count(random: &mut Random) -> Case {
    let program = vec![make(1, 0, 0, 0), make(3, 1, 0, 0), make(4, 0, 0, 0), make(11, 0, 1, 0)];
    let processes = random.between(1, 8);
    let card = Card { processes, limit: GREATEST_LIMIT, starting: vec![7], programs: vec![program] };
    let same = random.chance(30);
    let requests: Vec<_> = (0..processes).map(|i| (0, [if same { 7 } else { i as u32 }, 0, 0, 0])).collect();
    Case { card: Some(card_text(&card)), calls: Some(calls_text(&requests)) }
}

/// A step limit that ends the sweep before its steps do, at the same step, or just not.
fn at_the_limit(random: &mut Random) -> (Case, (u64, u64)) {
    let mut card = any_card(random);
    card.limit = match random.below(10) {
        0 => random.pick(&PIECES),
        1..=3 => random.between(1, 20) as u64,
        _ => random.between(1, SHORT) as u64,
    };
    let (limit, half) = (card.limit, random.below(card.limit as usize) as u64);
    let steps = match random.below(8) {
        0 => limit - 1,
        1 | 2 => limit,
        3 => limit + 1,
        4 => limit + random.pick(&PIECES),
        5 => half,
        6 => u64::MAX,
        _ => random.pick(&[u64::MAX - 1, GREATEST_LIMIT, 1 << 32, 1 << 63]),
    };
    (case_of(random, &card), (steps, seed_of(random)))
}

fn with_bad_calls(random: &mut Random) -> Case {
    let card = make_card(random, ANY, false);
    Case { card: Some(card_text(&card)), calls: Some(bad_calls(random, &card)) }
}

fn with_bad_card(random: &mut Random) -> Case {
    let mut case = good(random);
    let mut text = case.card.take().unwrap_or_default();
    for _ in 0..random.pick(&[1, 1, 2]) {
        if random.chance(50) {
            damage_number(random, &mut text);
        } else {
            damage(random, &mut text);
        }
    }
    if random.chance(20) {
        case.calls = None;
    }
    case.card = Some(text);
    case
}

fn of_an_odd_size(random: &mut Random) -> Case {
    let card = make_card(random, ANY, false);
    edge_of_size(random, &card)
}

/// A program that is not there, in one of the calls or in several.
fn refused(random: &mut Random) -> Case {
    let card = make_card(random, ANY, false);
    let mut requests = make_requests(random, &card);
    make_missing(random, &card, &mut requests);
    Case { card: Some(card_text(&card)), calls: Some(calls_text(&requests)) }
}

/// Words that are no decimals of a card text, or do not fit 64 bits.
#[rustfmt::skip]
const ODD_WORDS: [&str; 22] = [
    "", " ", "00", "01", "007", "+1", "-1", " 1", "1 ", "1.0", "0x10", "1e3", "1_000", "1,000", "ten", "1\n", "18446744073709551616",
    "18446744073709551617", "36893488147419103233", "184467440737095516150", "99999999999999999999999999999999999999999", "\u{661}",
];

/// Arguments of which one is wrong, missing or too many.
fn wrong_words(random: &mut Random, (steps, from): (u64, u64)) -> Vec<String> {
    let mut words = vec![steps.to_string(), from.to_string()];
    match random.below(7) {
        0 => words.truncate(random.below(2)),
        1 => words.push(random.pick(&["1", "", "turns"]).to_string()),
        2 => words[1] = "0".to_string(),
        3 | 4 => words[0] = random.pick(&ODD_WORDS).to_string(),
        _ => words[1] = random.pick(&ODD_WORDS).to_string(),
    }
    words
}
