//! What the program `machines` prints (document 02, order 14): one to four machines, each with an opened card of its own, and what each of them may use
//! of the steps of a shaft turn.

pub mod alone;
pub mod compare;

use std::fs;
use std::path::Path;

use crate::coverage::Coverage;
use crate::machine::{fields, length_of_lines, line, lines, number, open, Machine, TEXT_LIMIT, WORD_END};
use crate::reached::Reached;
use crate::session::{answer, parse, Command, Commands, CALLS_LIMIT};

/// Order 14: the most machines, and the most steps of a turn.
pub const MOST_MACHINES: usize = 4;
pub const LONGEST_TURN: u64 = 100_000;

/// What the program says on standard error where it is given an argument; more may stand in that line.
pub const USAGE: &str = "usage: machines\n";

// ---------------------------------------------------------------- what can be reached

/// What the files come to before any command.
#[rustfmt::skip]
const OPENINGS: [&str; 35] = [
    "machines too long", "machines of 16384 bytes", "first line misformed", "first line missing", "first line unended",
    "machine line misformed", "machine line missing", "machine line left over", "machine line unended",
    "18 by no machines", "18 by too many machines", "18 by an empty turn", "18 by too long a turn", "18 by a share above its ceiling",
    "18 by the shares together", "18 by a number of many digits", "18 where a card is refused too",
    "first card refused", "later card refused", "two cards refused", "card missing", "calls refused", "calls of 65536 bytes",
    "1 machine", "2 machines", "3 machines", "4 machines", "a turn of 1", "a turn of 100000", "a share of 0", "a ceiling of 0",
    "a ceiling above the turn", "a ceiling of many digits", "shares that fill the turn", "cards of different p",
];

/// What commands come to. A verb and a number is a refusal of that card, with `elsewhere` one of a machine that is not there.
#[rustfmt::skip]
const ANSWERS: [&str; 48] = [
    "line 2", "turn", "turn with nothing used", "call taken", "call elsewhere", "call 5", "call 6", "call 7", "wish taken", "wish elsewhere", "wish 5", "wish 8",
    "step run", "step done", "step fault", "step exited", "step elsewhere", "step 5", "step 8", "step 10", "step 19",
    "trace run", "trace done", "trace fault", "trace exited", "trace elsewhere", "trace 5", "trace 8", "trace 10", "trace 19",
    "look value", "look elsewhere", "look 9", "change taken", "change elsewhere", "change 1", "change 2", "change 3", "change 4", "change 6", "change 12",
    "change 13", "change 14", "change 15", "change 16", "change elsewhere with a text", "change elsewhere past the end", "change past the end",
];

/// What a step's allowance comes to.
#[rustfmt::skip]
const ALLOWANCES: [&str; 13] = [
    "within the share", "within the share where the turn is spoken for", "beyond the share", "the turn's last step beyond the shares",
    "up to the ceiling", "19 by the ceiling", "19 by the turn", "19 by both", "5 without allowance", "8 without allowance", "10 without allowance",
    "allowed again after a turn", "19 while another machine is within its share",
];

pub fn events() -> Vec<&'static str> {
    [&OPENINGS[..], &ANSWERS[..], &ALLOWANCES[..]].concat()
}

/// The listed event of these words.
fn event(words: &str) -> &'static str {
    events().into_iter().find(|event| *event == words).unwrap_or_else(|| panic!("{words} is not listed"))
}

// ---------------------------------------------------------------- files

/// The files of a case; none where the file is not there. A card past the last machine is not read.
#[derive(Clone, Debug, Default, PartialEq, Eq)]
pub struct Files {
    pub machines: Option<Vec<u8>>,
    pub cards: Vec<Option<Vec<u8>>>,
    pub calls: Option<Vec<u8>>,
}

impl Files {
    /// Each file with its name.
    pub fn named(&self) -> Vec<(String, &Option<Vec<u8>>)> {
        let cards = self.cards.iter().enumerate().map(|(at, card)| (format!("card{at}.txt"), card));
        let first = [("machines.txt".to_string(), &self.machines)].into_iter();
        first.chain(cards).chain([("calls.txt".to_string(), &self.calls)]).collect()
    }

    /// The files of a folder.
    pub fn of(folder: &Path) -> Files {
        let file = |name: String| fs::read(folder.join(name)).ok();
        let cards = (0..MOST_MACHINES).map(|at| file(format!("card{at}.txt"))).collect();
        Files { machines: file("machines.txt".to_string()), cards, calls: file("calls.txt".to_string()) }
    }

    /// A file that is not there counts as empty.
    fn card(&self, machine: usize) -> &[u8] {
        self.cards.get(machine).and_then(Option::as_deref).unwrap_or_default()
    }

    pub fn calls(&self) -> &[u8] {
        self.calls.as_deref().unwrap_or_default()
    }
}

// ---------------------------------------------------------------- the rule, and drafts that go wrong

/// Drafts of the program that go wrong in one place. The generated cases must tell each of them from the right one.
#[derive(Clone, Copy, Debug, PartialEq, Eq)]
pub enum Draft {
    Right,
    /// Beyond the share the steps used are added up, and not the larger of share and steps used.
    SumOfUsed,
    /// The shares are added up, and not the larger.
    SumOfShares,
    /// T equal to the sum is enough.
    TurnPassed,
    /// A step within the share is judged by T too.
    ShareNotSure,
    /// The ceiling is let through.
    NoCeiling,
    /// A step is allowed at the ceiling too.
    CeilingPassed,
    /// `turn` leaves the steps used as they are.
    UsedNotReset,
    /// `turn` resets the first machine alone.
    FirstReset,
    /// 19 comes before the card's own refusals.
    NineteenFirst,
    /// 19 comes before 10, but after 5 and 8.
    NineteenBeforeTen,
    /// A step that the card refuses is counted as used.
    RefusedCounted,
    /// A step that gets 19 is counted as used.
    NineteenCounted,
    /// A traced step needs no allowance.
    TracedFree,
    /// A traced step is not counted.
    TracedUncounted,
    /// A taken call is counted as used.
    CallCounted,
    /// A step that returns is not counted.
    ReturnUncounted,
    /// A step that gets 19 is made all the same.
    NineteenMade,
    /// The text of a change to a machine that is not there is taken for commands.
    TextLeft,
    /// Shares above their ceilings open.
    ShareAboveCeiling,
    /// The sum of the shares goes round at 32 bits.
    SumWraps,
    /// The shares may pass T.
    SharesPassTurn,
    /// T = 0 opens.
    EmptyTurn,
    /// T = 100,001 opens.
    LongTurn,
    /// Five machines open.
    FiveMachines,
    /// No machines open.
    NoMachines,
    /// A share of 0 is refused.
    NoShareRefused,
    /// A ceiling above T is refused.
    HighCeilingRefused,
    /// 18 for the numbers of the first line comes before the form of the others.
    EighteenFirst,
    /// The cards are judged before machines.txt is judged by 18.
    CardFirst,
    /// The last refused card is told, and not the first.
    LastCard,
}

#[rustfmt::skip]
pub const DRAFTS: [Draft; 30] = [
    Draft::SumOfUsed, Draft::SumOfShares, Draft::TurnPassed, Draft::ShareNotSure, Draft::NoCeiling, Draft::CeilingPassed, Draft::UsedNotReset,
    Draft::FirstReset, Draft::NineteenFirst, Draft::NineteenBeforeTen, Draft::RefusedCounted, Draft::NineteenCounted, Draft::TracedFree,
    Draft::TracedUncounted, Draft::CallCounted, Draft::ReturnUncounted, Draft::NineteenMade, Draft::TextLeft, Draft::ShareAboveCeiling, Draft::SumWraps,
    Draft::SharesPassTurn, Draft::EmptyTurn, Draft::LongTurn, Draft::FiveMachines, Draft::NoMachines, Draft::NoShareRefused, Draft::HighCeilingRefused,
    Draft::EighteenFirst, Draft::CardFirst, Draft::LastCard,
];

/// What a machine may use of each turn, and what it has used of this one.
#[derive(Clone, Copy, Debug, PartialEq, Eq)]
pub struct Account {
    pub share: u64,
    pub ceiling: u64,
    pub used: u64,
}

/// The steps of a turn and the accounts of the machines.
#[derive(Clone, Debug)]
pub struct Turn {
    pub steps: u64,
    pub accounts: Vec<Account>,
    pub draft: Draft,
}

impl Turn {
    /// 'The sum, over all machines, of the larger of share and steps used'.
    pub fn spoken_for(&self) -> u64 {
        let larger = |account: &Account| match self.draft {
            Draft::SumOfUsed => account.used,
            Draft::SumOfShares => account.share,
            _ => account.share.max(account.used),
        };
        self.accounts.iter().map(larger).fold(0, u64::saturating_add)
    }

    fn is_below_ceiling(&self, machine: usize) -> bool {
        let Account { ceiling, used, .. } = self.accounts[machine];
        match self.draft {
            Draft::NoCeiling => true,
            Draft::CeilingPassed => used <= ceiling,
            _ => used < ceiling,
        }
    }

    /// Whether T leaves a step beyond the shares.
    fn has_more(&self) -> bool {
        match self.draft {
            Draft::TurnPassed => self.steps >= self.spoken_for(),
            _ => self.steps > self.spoken_for(),
        }
    }

    /// 'Within its share a machine's step always has its allowance. Beyond it and below the ceiling it is allowed when T exceeds the sum.'
    pub fn allows(&self, machine: usize) -> bool {
        let Account { share, used, .. } = self.accounts[machine];
        if used < share {
            return self.draft != Draft::ShareNotSure || self.has_more();
        }
        self.is_below_ceiling(machine) && self.has_more()
    }

    pub fn count(&mut self, machine: usize) {
        self.accounts[machine].used += 1;
    }

    /// 'A new turn sets the steps used to 0.'
    pub fn begin(&mut self) {
        let reset = match self.draft {
            Draft::UsedNotReset => 0,
            Draft::FirstReset => 1,
            _ => self.accounts.len(),
        };
        self.accounts.iter_mut().take(reset).for_each(|account| account.used = 0);
    }
}

// ---------------------------------------------------------------- machines.txt

/// Why the files are refused: the line that is printed, and what it is called above.
type Refused = (String, &'static str);

/// A text of `machines,K,T` and K lines `machine,SHARE,CEILING`. A number that is too large for 64 bits has become the greatest of them, which is
/// above every T; as a ceiling it is never reached.
fn read_turn(text: &[u8], draft: Draft) -> Result<Turn, Refused> {
    let refuse = |number: u8, line: usize, why| Err((format!("machines,refused,{number},{line}\n"), why));
    if text.len() > TEXT_LIMIT {
        return refuse(1, 0, "machines too long");
    }
    let lines = lines(text);
    let Some(first) = lines.first() else { return refuse(2, 1, "first line missing") };
    let Some(head) = fields(first, "machines", 2) else {
        return refuse(2, 1, if first.ended { "first line misformed" } else { "first line unended" });
    };
    let (count, steps) = (head[0], head[1]);
    let fewest = u64::from(draft != Draft::NoMachines);
    let most = MOST_MACHINES as u64 + u64::from(draft == Draft::FiveMachines);
    if count < fewest {
        return refuse(18, 0, "18 by no machines");
    }
    if count > most {
        return refuse(18, 0, "18 by too many machines");
    }
    let why_steps = why_steps(steps, draft);
    if let (Some(why), Draft::EighteenFirst) = (why_steps, draft) {
        return refuse(18, 0, why);
    }
    let count = count as usize;
    let mut accounts = Vec::new();
    for at in 1..=count {
        let Some(line) = lines.get(at) else { return refuse(2, at + 1, "machine line missing") };
        let Some(numbers) = fields(line, "machine", 2) else {
            return refuse(2, at + 1, if line.ended { "machine line misformed" } else { "machine line unended" });
        };
        accounts.push(Account { share: numbers[0], ceiling: numbers[1], used: 0 });
    }
    if lines.len() > count + 1 {
        return refuse(2, count + 2, "machine line left over");
    }
    match why_steps.or_else(|| why_shares(steps, &accounts, draft)) {
        Some(why) => refuse(18, 0, why),
        None => Ok(Turn { steps, accounts, draft }),
    }
}

fn why_steps(steps: u64, draft: Draft) -> Option<&'static str> {
    let longest = LONGEST_TURN + u64::from(draft == Draft::LongTurn);
    if steps == 0 && draft != Draft::EmptyTurn {
        return Some("18 by an empty turn");
    }
    (steps > longest).then_some("18 by too long a turn")
}

/// 'The share not above the ceiling, the shares together not above T': in 128 bits no sum goes round.
fn why_shares(steps: u64, accounts: &[Account], draft: Draft) -> Option<&'static str> {
    let above = accounts.iter().any(|account| account.share > account.ceiling);
    let sum: u128 = match draft {
        Draft::SumWraps => accounts.iter().fold(0u32, |sum, account| sum.wrapping_add(account.share as u32)).into(),
        _ => accounts.iter().map(|account| u128::from(account.share)).sum(),
    };
    let odd = match draft {
        Draft::NoShareRefused => accounts.iter().any(|account| account.share == 0),
        Draft::HighCeilingRefused => accounts.iter().any(|account| account.ceiling > steps),
        _ => false,
    };
    if (above && draft != Draft::ShareAboveCeiling) || odd {
        return Some("18 by a share above its ceiling");
    }
    (sum > u128::from(steps) && draft != Draft::SharesPassTurn).then_some("18 by the shares together")
}

// ---------------------------------------------------------------- commands

/// A command of calls.txt: `turn`, or one of a machine, with its line as the bench program has it.
pub enum Request<'a> {
    Turn,
    Of { machine: u32, command: Command<'a>, line: Vec<u8> },
}

/// The commands of a file one after the other, each with the number of its line; none where it is misformed.
pub struct Requests<'a> {
    rest: &'a [u8],
    lines: usize,
    draft: Draft,
    machines: usize,
}

impl<'a> Requests<'a> {
    pub fn new(calls: &'a [u8]) -> Requests<'a> {
        Requests { rest: calls, lines: 0, draft: Draft::Right, machines: 0 }
    }

    fn take(&mut self, count: usize) -> &'a [u8] {
        let (taken, rest) = self.rest.split_at(length_of_lines(self.rest, count));
        self.rest = rest;
        self.lines += count;
        taken
    }

    /// The command of a line, its text taken with it.
    fn request(&mut self, bytes: &[u8]) -> Option<Request<'a>> {
        if bytes == b"turn\n" {
            return Some(Request::Turn);
        }
        let (machine, line) = without_machine(bytes)?;
        let command = match change_of(&line) {
            Some((program, from, lines)) => {
                let left = self.draft == Draft::TextLeft && machine as usize >= self.machines;
                let text = self.take(if left { 0 } else { lines as usize });
                Command::Change { program, from, lines, text }
            }
            None => command_of(&line)?,
        };
        Some(Request::Of { machine, command, line })
    }
}

impl<'a> Iterator for Requests<'a> {
    type Item = (usize, Option<Request<'a>>);

    fn next(&mut self) -> Option<Self::Item> {
        if self.rest.is_empty() {
            return None;
        }
        let bytes = self.take(1);
        let number = self.lines;
        Some((number, self.request(bytes)))
    }
}

/// The machine that the second field names, and the line without that field.
fn without_machine(bytes: &[u8]) -> Option<(u32, Vec<u8>)> {
    let mut parts = bytes.splitn(3, |&byte| byte == b',');
    let (verb, machine, rest) = (parts.next()?, parts.next()?, parts.next()?);
    let machine = number(machine).filter(|&machine| machine < WORD_END)?;
    Some((machine as u32, [verb, b",", rest].concat()))
}

/// The numbers of a line that is a change, without its text.
fn change_of(bytes: &[u8]) -> Option<(u32, u32, u32)> {
    match Commands::new(bytes).next()?.command.ok()? {
        Command::Change { program, from, lines, .. } => Some((program, from, lines)),
        _ => None,
    }
}

/// A command of one line.
fn command_of(bytes: &[u8]) -> Option<Command<'static>> {
    parse(&line(bytes))
}

/// The verb of a command and its first number.
fn head(command: &Command) -> (&'static str, u32) {
    match *command {
        Command::Call { process, .. } => ("call", process),
        Command::RequestExit { process } => ("wish", process),
        Command::Step { process } => ("step", process),
        Command::Trace { process } => ("trace", process),
        Command::Read { variable } => ("look", variable),
        Command::Change { program, .. } => ("change", program),
    }
}

/// The process of a step, traced or not.
fn stepping(command: &Command) -> Option<u32> {
    match *command {
        Command::Step { process } | Command::Trace { process } => Some(process),
        _ => None,
    }
}

// ---------------------------------------------------------------- the machines

/// The machines of opened files.
pub struct Machines {
    pub turn: Turn,
    pub cards: Vec<Machine>,
    /// Which machines got 19 and have made no step since.
    waited: Vec<bool>,
}

impl Machines {
    /// Judged in this sequence: machines.txt, the cards from 0 on, the size of the calls.
    pub fn open(files: &Files, draft: Draft) -> Result<Machines, Refused> {
        let turn = read_turn(files.machines.as_deref().unwrap_or_default(), draft);
        let count = match (&turn, draft) {
            (Ok(turn), _) => turn.accounts.len(),
            (Err(_), Draft::CardFirst) => files.cards.iter().take_while(|card| card.is_some()).count(),
            (Err(refused), _) => return Err(refused.clone()),
        };
        let mut cards = Vec::new();
        let mut places: Vec<usize> = (0..count).collect();
        if draft == Draft::LastCard {
            places.reverse();
        }
        for machine in places {
            let card = open(files.card(machine)).map_err(|refusal| {
                let why = if machine == 0 { "first card refused" } else { "later card refused" };
                (format!("card,{machine},refused,{},{}\n", refusal.number, refusal.line), why)
            })?;
            cards.push(Machine::new(card));
        }
        if draft == Draft::LastCard {
            cards.reverse();
        }
        let turn = turn?;
        if files.calls().len() > CALLS_LIMIT {
            return Err(("calls,refused,1\n".to_string(), "calls refused"));
        }
        Ok(Machines { waited: vec![false; cards.len()], turn, cards })
    }

    /// The line printed for a command; none where it is misformed.
    pub fn answer(&mut self, line: usize, request: Option<Request>, reached: &mut Reached) -> String {
        match request {
            None => {
                reached.event("line 2");
                format!("line,{line},refused,2\n")
            }
            Some(Request::Turn) => {
                reached.event("turn");
                reached.event_if(self.turn.accounts.iter().all(|account| account.used == 0), "turn with nothing used");
                self.turn.begin();
                "turn,taken\n".to_string()
            }
            Some(Request::Of { machine, command, .. }) => self.of_machine(machine, command, reached) + "\n",
        }
    }

    /// A machine that is not there is 5, before all else; then the card answers; an allowance is asked for last.
    fn of_machine(&mut self, machine: u32, command: Command, reached: &mut Reached) -> String {
        let (verb, first) = head(&command);
        let at = machine as usize;
        if at >= self.cards.len() {
            reached.event(event(&format!("{verb} elsewhere")));
            reach_text(&command, "change elsewhere", reached);
            let line = if verb == "change" { ",0" } else { "" };
            return format!("{verb},{machine},{first},refused,5{line}");
        }
        let free = self.turn.draft == Draft::TracedFree && verb == "trace";
        if let Some(process) = stepping(&command).filter(|_| !free && !self.turn.allows(at)) {
            let refusal = self.without_allowance(at, process, reached);
            reached.event(event(&format!("{verb} {refusal}")));
            return format!("{verb},{machine},{first},refused,{refusal}");
        }
        let before = self.cards[at].steps;
        let own = answer(&mut self.cards[at], command, &mut Coverage::default());
        let fields: Vec<&str> = own.split(',').collect();
        self.reach_answer(verb, &fields, reached);
        reach_text(&command, "change", reached);
        if self.cards[at].steps > before {
            self.reach_allowed(at, reached);
        }
        let counted = self.cards[at].steps > before && !self.is_left_out(verb, &fields);
        if counted || self.is_put_in(verb, fields[2]) {
            self.turn.count(at);
        }
        format!("{verb},{machine},{}", fields[1..].join(","))
    }

    /// A step without allowance: the card's own refusal, or 19.
    fn without_allowance(&mut self, at: usize, process: u32, reached: &mut Reached) -> u8 {
        let judged = self.cards[at].clone().step(process).map(|_| ());
        let own = match (judged, self.turn.draft) {
            (Err(10), Draft::NineteenBeforeTen) | (_, Draft::NineteenFirst) => None,
            (judged, _) => judged.err(),
        };
        if let Some(number) = own {
            reached.event(event(&format!("{number} without allowance")));
            if self.turn.draft == Draft::RefusedCounted {
                self.turn.count(at);
            }
            return number;
        }
        self.waited[at] = true;
        let (below, more) = (self.turn.is_below_ceiling(at), self.turn.has_more());
        reached.event_if(!below && more, "19 by the ceiling");
        reached.event_if(below && !more, "19 by the turn");
        reached.event_if(!below && !more, "19 by both");
        let sure = self.turn.accounts.iter().any(|account| account.used < account.share);
        reached.event_if(sure, "19 while another machine is within its share");
        match self.turn.draft {
            Draft::NineteenCounted => self.turn.count(at),
            Draft::NineteenMade => drop(self.cards[at].step(process)),
            _ => (),
        }
        19
    }

    /// What a draft does not count.
    fn is_left_out(&self, verb: &str, fields: &[&str]) -> bool {
        match self.turn.draft {
            Draft::TracedFree | Draft::TracedUncounted => verb == "trace",
            Draft::ReturnUncounted => !fields.contains(&"run"),
            _ => false,
        }
    }

    /// What a draft counts though it is no accepted step.
    fn is_put_in(&self, verb: &str, word: &str) -> bool {
        match self.turn.draft {
            Draft::CallCounted => verb == "call" && word == "taken",
            Draft::RefusedCounted => (verb == "step" || verb == "trace") && word == "refused",
            _ => false,
        }
    }

    /// Counts an answer of a card by its verb and word, a refusal by its number.
    fn reach_answer(&self, verb: &str, fields: &[&str], reached: &mut Reached) {
        let word = match (verb, fields[2]) {
            (_, "refused") => fields[3],
            ("look", _) => "value",
            ("trace", _) => fields[8],
            (_, word) => word,
        };
        reached.event(event(&format!("{verb} {word}")));
    }

    /// Counts why an accepted step had its allowance; it is not counted as used yet.
    fn reach_allowed(&mut self, at: usize, reached: &mut Reached) {
        let Account { share, ceiling, used } = self.turn.accounts[at];
        let more = self.turn.has_more();
        reached.event_if(used < share, "within the share");
        reached.event_if(used < share && !more, "within the share where the turn is spoken for");
        reached.event_if(used >= share, "beyond the share");
        let last = self.turn.steps - self.turn.spoken_for().min(self.turn.steps) == 1;
        reached.event_if(used >= share && last, "the turn's last step beyond the shares");
        reached.event_if(used + 1 == ceiling, "up to the ceiling");
        reached.event_if(std::mem::take(&mut self.waited[at]), "allowed again after a turn");
    }
}

/// Counts what there is to tell of a change's text.
fn reach_text(command: &Command, kind: &str, reached: &mut Reached) {
    let Command::Change { lines, text, .. } = command else { return };
    let fewer = text.split_inclusive(|&byte| byte == 10).count() < *lines as usize;
    reached.event_if(kind == "change elsewhere" && !text.is_empty(), "change elsewhere with a text");
    if fewer {
        reached.event(event(&format!("{kind} past the end")));
    }
}

// ---------------------------------------------------------------- a whole run

/// Everything that the program prints for these files.
pub fn expected(files: &Files) -> Vec<u8> {
    run(files, Draft::Right, &mut Reached::new(&events()))
}

/// What a draft prints; counts what was reached.
pub fn run(files: &Files, draft: Draft, reached: &mut Reached) -> Vec<u8> {
    reach_files(files, reached);
    let printed = match Machines::open(files, draft) {
        Err((printed, why)) => {
            reached.event(why);
            printed
        }
        Ok(mut machines) => {
            reach_opened(&machines, reached);
            let count = machines.cards.len();
            let requests = Requests { draft, machines: count, ..Requests::new(files.calls()) };
            requests.map(|(line, request)| machines.answer(line, request, reached)).collect()
        }
    };
    reached.cases += 1;
    reached.lines += printed.lines().count() as u64;
    printed.into_bytes()
}

/// More than 20 digits in a row: no number of 64 bits.
fn has_many_digits(text: &[u8]) -> bool {
    text.split(|byte| !byte.is_ascii_digit()).any(|digits| digits.len() > 20)
}

/// Counts what there is to tell of the files, whatever they come to.
fn reach_files(files: &Files, reached: &mut Reached) {
    let text = files.machines.as_deref().unwrap_or_default();
    let turn = read_turn(text, Draft::Right);
    let refused = |files: &[Option<Vec<u8>>]| {
        files.iter().filter(|card| open(card.as_deref().unwrap_or_default()).is_err()).count()
    };
    reached.event_if(text.len() == TEXT_LIMIT, "machines of 16384 bytes");
    match turn {
        Ok(turn) => {
            let count = turn.accounts.len();
            let cards: Vec<Option<Vec<u8>>> = (0..count).map(|at| files.cards.get(at).cloned().flatten()).collect();
            reached.event_if(cards.iter().any(Option::is_none), "card missing");
            reached.event_if(refused(&cards) > 1, "two cards refused");
        }
        Err((printed, _)) if printed.contains("refused,18") => {
            reached.event_if(has_many_digits(text), "18 by a number of many digits");
            let there: Vec<Option<Vec<u8>>> = files.cards.iter().filter(|card| card.is_some()).cloned().collect();
            reached.event_if(refused(&there) > 0, "18 where a card is refused too");
        }
        Err(_) => (),
    }
    let machines = Machines::open(files, Draft::Right);
    reached.event_if(machines.is_ok() && files.calls().len() == CALLS_LIMIT, "calls of 65536 bytes");
    reached.event_if(machines.is_ok() && has_many_digits(text), "a ceiling of many digits");
}

/// Counts what there is to tell of opened machines.
fn reach_opened(machines: &Machines, reached: &mut Reached) {
    let Machines { turn: Turn { steps, accounts, .. }, cards, .. } = machines;
    let any = |holds: fn(&Account) -> bool| accounts.iter().any(holds);
    if let Some(count) = ["1 machine", "2 machines", "3 machines", "4 machines"].get(cards.len().wrapping_sub(1)) {
        reached.event(count);
    }
    reached.event_if(*steps == 1, "a turn of 1");
    reached.event_if(*steps == LONGEST_TURN, "a turn of 100000");
    reached.event_if(any(|account| account.share == 0), "a share of 0");
    reached.event_if(any(|account| account.ceiling == 0), "a ceiling of 0");
    reached.event_if(accounts.iter().any(|account| account.ceiling > *steps), "a ceiling above the turn");
    let shares = accounts.iter().map(|account| account.share).fold(0, u64::saturating_add);
    reached.event_if(shares == *steps, "shares that fill the turn");
    let counts = cards.iter().map(|machine| machine.card.processes);
    reached.event_if(counts.clone().min() != counts.max(), "cards of different p");
}
