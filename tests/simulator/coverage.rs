//! Counts what a set of cases reached, and tells what it never reached.

use std::collections::BTreeMap;

use crate::machine::{Label, Stepped};

/// Every access of 'One step' with every way it can come out; `labels` of the summary sum these up.
#[rustfmt::skip]
const OUTCOMES: [(Label, &[&str]); 18] = [
    (Label::P1, &["read"]), (Label::P3, &["written"]),
    (Label::P6, &["won", "lost"]), (Label::P7, &["done", "not done"]),
    (Label::P10, &["free", "held"]), (Label::C2, &["active", "not active"]), (Label::C4, &["done", "not done"]),
    (Label::P13, &["won", "lost"]), (Label::P14, &["free", "held"]),
    (Label::P16, &["help", "fault", "done", "greater seq"]),
    (Label::H21, &["lower seq", "equal seq", "fault", "greater seq"]),
    (Label::H36, &["won", "lost"]), (Label::P19, &["won", "lost"]), (Label::P20, &["won", "lost"]),
    (Label::P21, &["won", "lost"]), (Label::P22, &["active", "exit", "done"]),
    (Label::F1, &["own", "not own"]), (Label::F3, &["won", "lost"]),
];

/// Every refusal the bench program can print, by what was refused (document 01, 'Turned back').
#[rustfmt::skip]
const REFUSALS: [(&str, u8); 31] = [
    ("card", 1), ("card", 2), ("card", 3), ("card", 4), ("card", 12), ("card", 13), ("card", 14), ("calls", 1), ("line", 2),
    ("call", 5), ("call", 6), ("call", 7), ("wish", 5), ("wish", 8),
    ("step", 5), ("step", 8), ("step", 10), ("trace", 5), ("trace", 8), ("trace", 10), ("look", 9),
    ("change", 1), ("change", 2), ("change", 3), ("change", 4), ("change", 6), ("change", 12), ("change", 13), ("change", 14),
    ("change", 15), ("change", 16),
];

/// Every answer to a taken command.
const ANSWERS: [&str; 9] = ["called", "requested", "run", "done", "fault", "exited", "traced", "value", "changed"];

/// What else changes come to (document 02, order 11): by which text a helper runs a program that was changed, where it begins and where it goes on;
/// by which text an operation ran that was called before a change and finished after it; each half of refusal 16 without the other; and the odd
/// forms of the command and of its text.
#[rustfmt::skip]
const CHANGES: [&str; 13] = [
    "P16 by the earlier text", "P16 by the later text", "H21 by the earlier text", "H21 by the later text",
    "across by the old text", "across by the new text", "16 by a change ahead", "16 by a late reader", "past the step limit",
    "misformed", "no lines", "fewer lines than told", "unended",
];

#[derive(Default)]
pub struct Coverage {
    pub cases: u64,
    pub lines: u64,
    steps: BTreeMap<(Label, &'static str), u64>,
    refusals: BTreeMap<(&'static str, u8), u64>,
    answers: BTreeMap<&'static str, u64>,
    changes: BTreeMap<&'static str, u64>,
    /// Steps past the longest wait of their operation (document 02, order 3).
    pub late: u64,
}

impl Coverage {
    pub fn stepped(&mut self, stepped: &Stepped, longest_wait: u64) {
        *self.steps.entry((stepped.label, stepped.outcome)).or_default() += 1;
        self.late += u64::from(!stepped.in_time(longest_wait));
        stepped.text.into_iter().for_each(|text| self.event_if(true, text));
    }

    /// Counts one of what else changes come to.
    pub fn event_if(&mut self, occurred: bool, event: &'static str) {
        if occurred {
            *self.changes.entry(event).or_default() += 1;
        }
    }

    pub fn refused(&mut self, what: &'static str, number: u8) {
        *self.refusals.entry((what, number)).or_default() += 1;
    }

    /// Counts an answer and hands back how it is printed.
    pub fn answered(&mut self, kind: &'static str, printed: impl ToString) -> String {
        *self.answers.entry(kind).or_default() += 1;
        printed.to_string()
    }

    fn outcome_count(&self, label: Label, outcome: &'static str) -> u64 {
        self.steps.get(&(label, outcome)).copied().unwrap_or(0)
    }

    fn label_count(&self, label: Label) -> u64 {
        self.steps.iter().filter(|((at, _), _)| *at == label).map(|(_, count)| count).sum()
    }

    fn refusal_count(&self, number: u8) -> u64 {
        self.refusals.iter().filter(|((_, at), _)| *at == number).map(|(_, count)| count).sum()
    }

    /// The summary, one line each.
    pub fn summary(&self) -> String {
        let labels = OUTCOMES.iter().map(|(label, _)| format!("{label:?} {}", self.label_count(*label)));
        let numbers = (1..=10).chain(12..=16).map(|number| format!("{number}: {}", self.refusal_count(number)));
        let kinds = REFUSALS.iter().map(|at| format!("{} {}: {}", at.0, at.1, self.refusals.get(at).unwrap_or(&0)));
        let answers = ANSWERS.iter().map(|kind| format!("{kind} {}", self.answers.get(kind).unwrap_or(&0)));
        let changes = CHANGES.iter().map(|kind| format!("{kind} {}", self.changes.get(kind).unwrap_or(&0)));
        [
            format!("cases {}", self.cases),
            format!("lines {}", self.lines),
            listed("labels", labels),
            listed("swaps", self.outcomes(true)),
            listed("reads", self.outcomes(false)),
            listed("refusals", numbers),
            listed("refusals by kind", kinds),
            listed("answers", answers),
            listed("changes", changes),
            format!("steps past the longest wait: {}", self.late),
        ]
        .join("\n")
    }

    /// The ways each swap came out, or each other access that has several.
    fn outcomes(&self, swaps: bool) -> impl Iterator<Item = String> + '_ {
        let chosen = OUTCOMES.iter().filter(move |(_, ways)| ways.len() > 1 && ways.contains(&"won") == swaps);
        chosen.map(|(label, ways)| {
            let counts = ways.iter().map(|way| format!("{way} {}", self.outcome_count(*label, way)));
            format!("{label:?} {}", counts.collect::<Vec<_>>().join(" "))
        })
    }

    /// What can occur and never did.
    pub fn never_reached(&self) -> Vec<String> {
        let ways = OUTCOMES.iter().flat_map(|(label, ways)| ways.iter().map(move |way| (*label, *way)));
        let steps = ways.filter(|way| !self.steps.contains_key(way)).map(|(label, way)| format!("{label:?} {way}"));
        let refusals = REFUSALS.iter().filter(|at| !self.refusals.contains_key(*at));
        let refusals = refusals.map(|(what, number)| format!("{what} refused {number}"));
        let answers = ANSWERS.iter().filter(|kind| !self.answers.contains_key(**kind)).map(|kind| kind.to_string());
        let changes = CHANGES.iter().filter(|kind| !self.changes.contains_key(**kind));
        let changes = changes.map(|kind| format!("change {kind}"));
        steps.chain(refusals).chain(answers).chain(changes).collect()
    }
}

fn listed(title: &str, entries: impl Iterator<Item = String>) -> String {
    format!("{title}: {}", entries.collect::<Vec<_>>().join(", "))
}
