//! What a set of cases reached, of all that can be reached.

use std::collections::BTreeMap;

pub struct Reached {
    pub cases: u64,
    pub lines: u64,
    known: Vec<&'static str>,
    events: BTreeMap<&'static str, u64>,
}

impl Reached {
    pub fn new(known: &[&'static str]) -> Reached {
        Reached { cases: 0, lines: 0, known: known.to_vec(), events: BTreeMap::new() }
    }

    pub fn event(&mut self, event: &'static str) {
        self.event_if(true, event);
    }

    pub fn event_if(&mut self, occurred: bool, event: &'static str) {
        if occurred {
            assert!(self.known.contains(&event), "{event} is not listed");
            *self.events.entry(event).or_default() += 1;
        }
    }

    /// Prints the counts; true if everything that can occur did.
    pub fn report(&self) -> bool {
        let events = self.known.iter().map(|event| format!("{event} {}", self.events.get(event).unwrap_or(&0)));
        println!("cases {}\nlines {}\nreached: {}", self.cases, self.lines, events.collect::<Vec<_>>().join(", "));
        let never: Vec<&str> = self.known.iter().copied().filter(|event| !self.events.contains_key(event)).collect();
        println!("never reached: {}", if never.is_empty() { "nothing".to_string() } else { never.join(", ") });
        never.is_empty()
    }
}
