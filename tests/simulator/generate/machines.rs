//! Cases of the program `machines` from a seed (document 02, order 14): shares and ceilings, a card for each machine, and commands.

use super::{
    allocating_program, card_text, damage, damage_end, damage_number, make_calls, make_card, make_chain, split_lines,
    Random, ALONE, CONTENDED, NO_CHANGES, WIDE,
};
use crate::machine::{length_of_lines, Card, TEXT_LIMIT, WORD_END};
use crate::machines::{events, Draft, Files, Machines, Requests, LONGEST_TURN, MOST_MACHINES};
use crate::reached::Reached;
use crate::session::{Command, Commands, CALLS_LIMIT};

/// The case of a seed.
pub fn case(seed: u64) -> Files {
    let random = &mut Random::new(seed);
    match random.below(100) {
        0..=49 => good(random, Turns::Short),
        50..=54 => good(random, Turns::Edge),
        55..=75 => bad_turn(random),
        76..=81 => bad_cards(random),
        82..=91 => bad_calls(random),
        _ => edge_of_size(random),
    }
}

// ---------------------------------------------------------------- machines.txt

/// How many steps turns have: few, so that allowances run out, or at an edge.
#[derive(Clone, Copy)]
enum Turns {
    Short,
    Edge,
}

/// The numbers of machines.txt as they stand there.
#[derive(Clone)]
struct Shares {
    count: String,
    turn: String,
    machines: Vec<(String, String)>,
}

impl Shares {
    fn text(&self) -> Vec<u8> {
        let line = |(share, ceiling): &(String, String)| format!("machine,{share},{ceiling}\n");
        let lines = self.machines.iter().map(line).collect::<String>();
        format!("machines,{},{}\n{lines}", self.count, self.turn).into_bytes()
    }
}

/// Numbers too large for a word, each of them a ceiling that nobody comes to.
const LARGE: [&str; 6] = [
    "4294967295",
    "4294967296",
    "18446744073709551615",
    "18446744073709551616",
    "18446744073709551617",
    "9999999999999999999999999999999999999999",
];

fn turn_of(random: &mut Random, turns: Turns) -> u64 {
    match turns {
        Turns::Short => match random.below(10) {
            0..=2 => random.between(2, 12) as u64,
            3..=7 => random.between(8, 60) as u64,
            _ => random.between(40, 300) as u64,
        },
        Turns::Edge => random.pick(&[1, 1, 2, LONGEST_TURN - 1, LONGEST_TURN, LONGEST_TURN]),
    }
}

/// Shares that fit into the turn, at times all of it, and ceilings from the share on.
fn make_shares(random: &mut Random, count: usize, turns: Turns) -> Shares {
    let turn = turn_of(random, turns);
    let mut left = turn;
    let mut machines = Vec::new();
    for at in 0..count {
        let even = left / (count - at) as u64;
        let share = match random.below(10) {
            0 | 1 => 0,
            2 => left,
            3 => even,
            4 if at + 1 == count => left,
            _ => random.below(even.min(1 << 20) as usize + 1) as u64,
        };
        left -= share;
        machines.push((share.to_string(), ceiling_of(random, share, turn)));
    }
    Shares { count: count.to_string(), turn: turn.to_string(), machines }
}

fn ceiling_of(random: &mut Random, share: u64, turn: u64) -> String {
    let ceiling = match random.below(10) {
        0 | 1 => share,
        2 => share + 1,
        3..=5 => random.between(share as usize, turn as usize) as u64,
        6 => turn,
        7 => turn + random.between(1, 5) as u64,
        8 => share + random.between(0, 6) as u64,
        _ => return random.pick(&LARGE).to_string(),
    };
    ceiling.to_string()
}

// ---------------------------------------------------------------- cards and commands

fn any_card(random: &mut Random) -> Card {
    let (shape, small_limit) = (random.pick(&[CONTENDED, CONTENDED, CONTENDED, WIDE, ALONE]), random.chance(20));
    let mut card = make_card(random, shape, small_limit);
    if random.chance(15) {
        let variables = random.between(2, 7);
        card.starting = make_chain(random, variables);
        card.programs = (0..random.between(1, 4)).map(|_| allocating_program(random, variables)).collect();
    }
    card
}

/// A bench program's commands one by one, each with the lines of its text.
fn split_commands(calls: &[u8]) -> Vec<Vec<u8>> {
    let mut rest = calls;
    let mut commands = Vec::new();
    while !rest.is_empty() {
        let line = &rest[..length_of_lines(rest, 1)];
        let lines = match Commands::new(line).next().map(|numbered| numbered.command) {
            Some(Ok(Command::Change { lines, .. })) => 1 + lines as usize,
            _ => 1,
        };
        let (command, after) = rest.split_at(length_of_lines(rest, lines));
        commands.push(command.to_vec());
        rest = after;
    }
    commands
}

/// A command with the machine after its verb.
fn of_machine(command: &[u8], machine: usize) -> Vec<u8> {
    let place = command.iter().position(|&byte| byte == b',').unwrap_or(0);
    let (verb, rest) = command.split_at(place);
    [verb, format!(",{machine}").as_bytes(), rest].concat()
}

/// Writes commands of several machines while playing them, so that a step that gets 19 can come again after a turn.
struct Play<'a> {
    random: &'a mut Random,
    machines: Machines,
    /// The commands of each machine that are still to come, the next one last.
    waiting: Vec<Vec<Vec<u8>>>,
    text: Vec<u8>,
    reached: Reached,
    /// Of a hundred: a turn before any command, a turn after 19, a step that got 19 tried again, a command that is refused or malformed.
    turns: usize,
    turns_after: usize,
    again: usize,
    odd: usize,
}

impl Play<'_> {
    /// Writes a command, and tells what is printed for it.
    fn write(&mut self, command: &[u8]) -> String {
        self.text.extend(command);
        let Play { machines, reached, .. } = self;
        Requests::new(command).map(|(line, request)| machines.answer(line, request, reached)).collect()
    }

    fn is_under_way(&self) -> bool {
        self.waiting.iter().any(|commands| !commands.is_empty())
    }

    /// The next command of a machine.
    fn next(&mut self, machine: usize) {
        if self.random.chance(self.turns) {
            self.write(b"turn\n");
        }
        if self.random.chance(self.odd) {
            let odd = self.odd_command();
            self.write(&odd);
        }
        let Some(command) = self.waiting[machine].pop() else { return };
        let written = of_machine(&command, machine);
        if !self.write(&written).ends_with(",refused,19\n") {
            return;
        }
        if self.random.chance(self.again) {
            self.waiting[machine].push(command);
        }
        if self.random.chance(self.turns_after) {
            self.write(b"turn\n");
        }
    }

    /// A machine that is not there, with any verb; or a line that is malformed.
    fn odd_command(&mut self) -> Vec<u8> {
        let count = self.machines.cards.len();
        let machine = self.random.pick(&[count, count + 1, 4, 255 + count, 256, WORD_END as usize - 1]).max(count);
        let (first, lines) = (self.random.below(3), self.random.below(4));
        let text = ["step,0,0\n", "turn\n", "look,0,0\n", "sheet,1\n"];
        let command = match self.random.below(12) {
            0 => format!("call,{machine},{first},0,1,2,3,4\n"),
            1 => format!("wish,{machine},{first}\n"),
            2 => format!("step,{machine},{first}\n"),
            3 => format!("trace,{machine},{first}\n"),
            4 => format!("look,{machine},{first}\n"),
            5 | 6 => format!("change,{machine},{first},9,{lines}\n{}", text[..lines].concat()),
            7 => "turn\n".to_string(),
            8 => format!("{},0,{}\n", self.random.pick(&["step", "trace", "wish"]), self.random.pick(&[8, 9, 255])),
            _ => format!("{}\n", self.random.pick(&ODD_LINES)),
        };
        command.into_bytes()
    }
}

/// Lines that are no commands here: `turn` with more, a verb of another form, the machine left out, numbers of the wrong form.
#[rustfmt::skip]
const ODD_LINES: [&str; 40] = [
    "", "turn,", "turn,0", "Turn", "turns", " turn", "turn ", "turn\r", "tur", "turn,taken", "step", "step,", "step,0", "step,0,", "step,,0", "step,0,0,0",
    "step,00,0", "step,0,00", "step,4294967296,0", "step,0,4294967296", "step,18446744073709551616,0", "step,-1,0", "trace,0", "trace,1,0,0",
    "wish,0", "wish,0,0,", "look,0", "look,1,01", "call,0,0,1,2,3,4", "call,0,0,0,1,2,3,4,5", "call,0,0,0,1,2,3,4294967296", "call,4294967296,0,0,1,2,3,4",
    "change,0,9,2", "change,0,0,9", "change,0,0,9,2,0", "change,0,0,9,02", "change,00,0,9,2", "change,4294967296,0,9,2", "machine,0,0", "steps,0,0",
];

/// How the machine of the next command is chosen.
#[derive(Clone, Copy)]
enum Order {
    Uniform,
    Bursts,
    RoundRobin,
    /// One machine takes most of the steps.
    Greedy,
}

/// Commands of all machines, mostly taken but for 19.
fn make_session(random: &mut Random, files: &Files, cards: &[Card], commands: usize, changes: usize) -> Vec<u8> {
    let machines = Machines::open(files, Draft::Right).unwrap_or_else(|(printed, _)| panic!("made to open: {printed}"));
    let mut last = Vec::new();
    let mut waiting = Vec::new();
    for (at, card) in cards.iter().enumerate() {
        let count = random.between(1, 2 * commands / cards.len());
        let mut own = split_commands(&make_calls(random, card, count, changes));
        // a text that the file's end cuts off can only stand there
        let cut = |command: &Vec<u8>| command.last() != Some(&10) || has_fewer_lines(command);
        if own.last().is_some_and(cut) {
            last = of_machine(&own.pop().unwrap_or_default(), at);
        }
        own.reverse();
        waiting.push(own);
    }
    let (turns, turns_after) = (random.pick(&[0, 1, 4]), random.pick(&[3, 20, 60]));
    let (again, odd) = (random.pick(&[40, 80, 95]), random.pick(&[0, 3, 10]));
    let order = random.pick(&[Order::Uniform, Order::Bursts, Order::RoundRobin, Order::Greedy]);
    let reached = Reached::new(&events());
    let mut play = Play { random, machines, waiting, text: Vec::new(), reached, turns, turns_after, again, odd };
    let (most, mut next) = (play.random.between(commands, 6 * commands), 0);
    while play.is_under_way() && next < most && play.text.len() + 4000 < CALLS_LIMIT {
        let machine = match order {
            Order::Uniform => play.random.below(cards.len()),
            Order::RoundRobin => next % cards.len(),
            Order::Greedy if play.random.chance(80) => 0,
            Order::Greedy => play.random.below(cards.len()),
            Order::Bursts => play.random.below(cards.len()),
        };
        let length = if matches!(order, Order::Bursts) { play.random.between(1, 25) } else { 1 };
        for _ in 0..length {
            play.next(machine);
            next += 1;
        }
    }
    if play.random.chance(15) {
        let count = cards.len() + play.random.below(3);
        last = format!("change,{count},0,2,{}\nstep,0,0\nturn", play.random.pick(&[2, 3, 70_000])).into_bytes();
    }
    play.text.extend(last);
    play.text
}

/// A change of which fewer lines follow than it tells.
fn has_fewer_lines(command: &[u8]) -> bool {
    match Commands::new(command).next().map(|numbered| numbered.command) {
        Some(Ok(Command::Change { lines, .. })) => split_lines(command).len() < 1 + lines as usize,
        _ => false,
    }
}

/// Machines whose files open, and the cards.
fn make_machines(random: &mut Random, turns: Turns) -> (Files, Vec<Card>) {
    let count = random.pick(&[1, 2, 2, 2, 3, 3, 4, 4]);
    let mut cards: Vec<Card> = (0..count).map(|_| any_card(random)).collect();
    if random.chance(15) {
        cards = vec![cards[0].clone(); count];
    }
    let mut texts: Vec<Option<Vec<u8>>> = cards.iter().map(|card| Some(card_text(card))).collect();
    // a card past the last machine is not read
    if random.chance(20) && count < MOST_MACHINES {
        texts.push(Some(b"no card\n".to_vec()));
    }
    let machines = Some(make_shares(random, count, turns).text());
    (Files { machines, cards: texts, calls: None }, cards)
}

fn good(random: &mut Random, turns: Turns) -> Files {
    let (mut files, cards) = make_machines(random, turns);
    let commands = match random.below(10) {
        0 | 1 => random.between(4, 40),
        2..=8 => random.between(40, 400),
        _ => random.between(400, 1500),
    };
    let changes = random.pick(&[NO_CHANGES, 1, 6]);
    files.calls = Some(make_session(random, &files, &cards, commands, changes));
    files
}

fn small(random: &mut Random) -> Files {
    let (mut files, cards) = make_machines(random, Turns::Short);
    let commands = random.between(2, 60);
    files.calls = Some(make_session(random, &files, &cards, commands, NO_CHANGES));
    files
}

// ---------------------------------------------------------------- damage

/// Shares, ceilings, T or a number of machines at or past an edge; or a text of the wrong form. 18 comes after the form of the lines and before every
/// card, so that some have two faults.
fn bad_turn(random: &mut Random) -> Files {
    let mut files = small(random);
    let count = random.between(1, MOST_MACHINES);
    let mut shares = make_shares(random, count, Turns::Short);
    let mut text = match random.below(20) {
        0..=3 => odd_count(random, &mut shares),
        4..=7 => odd_turn(random, &mut shares),
        8..=13 => odd_shares(random, &mut shares),
        _ => odd_form(random, &shares),
    };
    match random.below(16) {
        0 | 1 => damage(random, &mut text),
        2 | 3 => damage_end(random, &mut text),
        _ => (),
    }
    if random.chance(15) {
        files.cards[0] = Some(b"card,9,1,1,5\n".to_vec());
    }
    files.machines = Some(text);
    files
}

/// No machines, five with their lines, or any other number.
fn odd_count(random: &mut Random, shares: &mut Shares) -> Vec<u8> {
    shares.count = match random.below(6) {
        0 => "0".to_string(),
        1 | 2 => {
            shares.machines.resize(MOST_MACHINES + 1, ("0".to_string(), "5".to_string()));
            (MOST_MACHINES + 1).to_string()
        }
        3 => random.pick(&["5", "6", "9", "256", "257", "65537"]).to_string(),
        4 => random.pick(&LARGE).to_string(),
        _ => (shares.machines.len() + 1).to_string(),
    };
    shares.text()
}

/// A T at or past an edge; 0 with shares of 0.
fn odd_turn(random: &mut Random, shares: &mut Shares) -> Vec<u8> {
    shares.turn = match random.below(5) {
        0 | 1 => {
            let ceiling = random.pick(&["0", "1", "9"]).to_string();
            shares.machines.iter_mut().for_each(|machine| *machine = ("0".to_string(), ceiling.clone()));
            "0".to_string()
        }
        2 => (LONGEST_TURN + 1).to_string(),
        3 => random.pick(&["100000", "100002", "165536", "4294967297"]).to_string(),
        _ => random.pick(&LARGE).to_string(),
    };
    shares.text()
}

/// A share above its ceiling; shares together T or one more; shares whose sum would go round.
fn odd_shares(random: &mut Random, shares: &mut Shares) -> Vec<u8> {
    let count = shares.machines.len();
    let place = random.below(count);
    let other = (place + 1) % count;
    let (large, largest) = (random.pick(&LARGE).to_string(), LARGE[5].to_string());
    match random.below(7) {
        0 => shares.machines[place].0 = large,
        1 => shares.machines[place] = (large.clone(), large),
        2 | 3 => {
            let ceiling = random.below(9);
            shares.machines[place] = ((ceiling + random.pick(&[1, 1, 2])).to_string(), ceiling.to_string());
        }
        4 | 5 => {
            shares.machines[place].0 = "0".to_string();
            let others: u64 = shares.machines.iter().filter_map(|machine| machine.0.parse::<u64>().ok()).sum();
            let share = shares.turn.parse::<u64>().unwrap_or(others) - others + random.pick(&[0, 1, 1, 1]);
            shares.machines[place] = (share.to_string(), (share + random.below(3) as u64).to_string());
        }
        _ => {
            let (one, two) = random.pick(&[
                ("2147483648", "2147483648"),
                ("4294967295", "2"),
                ("9223372036854775808", "9223372036854775808"),
                ("18446744073709551615", "2"),
            ]);
            shares.machines[place] = (one.to_string(), largest.clone());
            shares.machines[other] = (two.to_string(), largest);
        }
    }
    shares.text()
}

/// A first line without its end, a line less than told, a text at an edge of its size, or damage anywhere.
fn odd_form(random: &mut Random, shares: &Shares) -> Vec<u8> {
    let mut text = shares.text();
    match random.below(8) {
        0 => text.truncate(length_of_lines(&text, 1) - 1),
        1 => text.truncate(length_of_lines(&text, shares.machines.len())),
        2 | 3 => return sized_text(random, shares),
        _ => {
            for _ in 0..random.pick(&[1, 1, 2, 3]) {
                match random.below(10) {
                    0..=2 => damage_number(random, &mut text),
                    3 => damage_end(random, &mut text),
                    _ => damage(random, &mut text),
                }
            }
        }
    }
    text
}

/// A text of 16,384 bytes, or one more: a ceiling of many digits, or lines left over.
fn sized_text(random: &mut Random, shares: &Shares) -> Vec<u8> {
    let size = TEXT_LIMIT + random.below(2);
    let mut shares = shares.clone();
    if random.chance(70) {
        let last = shares.machines.len() - 1;
        shares.machines[last].1.clear();
        let digits = size - shares.text().len();
        shares.machines[last].1 = "9".repeat(digits);
        return shares.text();
    }
    let mut text = shares.text();
    text.resize(size, random.pick(b"\n7"));
    text
}

/// Cards of which one or several are refused or missing.
fn bad_cards(random: &mut Random) -> Files {
    let mut files = small(random);
    for _ in 0..random.pick(&[1, 1, 2, 3]) {
        let place = random.below(files.cards.len());
        let mut text = files.cards[place].take().unwrap_or_default();
        if random.chance(15) {
            continue;
        }
        match random.below(10) {
            0..=4 => damage_number(random, &mut text),
            5 => damage_end(random, &mut text),
            6 => text.resize(TEXT_LIMIT + 1, b'\n'),
            _ => damage(random, &mut text),
        }
        files.cards[place] = Some(text);
    }
    if random.chance(20) {
        files.calls = Some(vec![b'\n'; CALLS_LIMIT + 1]);
    }
    files
}

/// Commands damaged anywhere.
fn bad_calls(random: &mut Random) -> Files {
    let (mut files, cards) = make_machines(random, Turns::Short);
    let (commands, changes) = (random.between(4, 200), random.pick(&[NO_CHANGES, 3]));
    let mut calls = make_session(random, &files, &cards, commands, changes);
    for _ in 0..random.between(1, 30) {
        damage(random, &mut calls);
        if random.chance(30) {
            let mut lines = split_lines(&calls);
            let place = random.below(lines.len() + 1);
            lines.insert(place, format!("{}\n", random.pick(&ODD_LINES)).into_bytes());
            calls = lines.concat();
        }
    }
    files.calls = Some(calls);
    files
}

// ---------------------------------------------------------------- sizes

/// Files that are not there, empty, or at an edge of their size.
fn edge_of_size(random: &mut Random) -> Files {
    let mut files = small(random);
    let size = CALLS_LIMIT + random.below(2);
    match random.below(12) {
        0 => files.machines = None,
        1 => files.machines = Some(Vec::new()),
        2 => files.calls = None,
        3 => files.calls = Some(Vec::new()),
        4 => {
            let place = random.below(files.cards.len());
            files.cards[place] = None;
        }
        5 => files = Files::default(),
        6 => files.calls = Some(vec![b'\n'; size]),
        7 => files.calls = Some(b"step,0,0\n".iter().cycle().copied().take(size).collect()),
        8 => files.calls = Some(long_session(random, &files, size)),
        9 | 10 => files.calls = Some(long_change(random, &files)),
        _ => {
            files.calls = Some(
                format!("look,0,{}\nlook,0,0\nturn\n", random.pick(&["0", "9"]).repeat(random.between(1, 60_000)))
                    .into_bytes(),
            )
        }
    }
    files
}

/// A change with a text of 16,384 bytes, or one more, to a machine that is there or not, between other commands.
fn long_change(random: &mut Random, files: &Files) -> Vec<u8> {
    let size = TEXT_LIMIT + random.below(2);
    let text = match random.below(3) {
        0 => vec![b'\n'; size],
        1 => [b"sheet,".to_vec(), vec![b'1'; size - 7], b"\n".to_vec()].concat(),
        _ => [b"sheet,1\nins,11,0,".to_vec(), vec![b'1'; size - 20], b",0\n".to_vec()].concat(),
    };
    let (machine, lines) = (random.pick(&[0, 0, 0, 4]), split_lines(&text).len());
    let mut calls = files.calls().to_vec();
    if !calls.is_empty() && calls.last() != Some(&10) {
        calls.push(b'\n');
    }
    calls.truncate(length_of_lines(&calls, random.below(60)));
    calls.extend(format!("change,{machine},0,2,{lines}\n").bytes());
    calls.extend(text);
    calls.extend(b"look,0,0\nturn\nchange,0\n");
    calls
}

/// A session filled up to `size` bytes with steps and turns of 9 and 5 bytes, of which any rest from 32 can be made.
fn long_session(random: &mut Random, files: &Files, size: usize) -> Vec<u8> {
    let mut calls = files.calls().to_vec();
    if calls.last() != Some(&10) {
        calls.push(b'\n');
    }
    while calls.len() + 64 < size {
        calls.extend(
            random
                .pick(&[
                    "step,0,0\n",
                    "trace,0,0\n",
                    "step,0,1\n",
                    "call,0,0,0,1,2,3,4\n",
                    "turn\n",
                    "step,1,0\n",
                    "look,0,0\n",
                ])
                .bytes(),
        );
    }
    while (size - calls.len()) % 5 != 0 {
        calls.extend(b"step,0,0\n");
    }
    calls.extend(b"turn\n".repeat((size - calls.len()) / 5));
    calls
}
