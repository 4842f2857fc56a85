//! What occurred, so that a reader sees that nothing was left out.

use crate::model::{self, Command, Reply};

pub const VERBS: [&str; 6] = ["start", "load", "store", "squash", "commit", "replace"];

/// The refusals that each turn may get (docs/refusals.md).
const MAY: [&[usize]; 6] = [&[1, 2], &[1, 3, 4, 5], &[1, 3, 4, 5], &[1, 3, 7], &[1, 3, 6], &[1, 3, 4, 6, 8]];

const NUMBERS: [&str; 15] = ["0", "1", "2", "3", "4", "5", "6", "7", "8", "9", "10", "11", "12", "13", "14"];

pub const ANSWERS: [&str; 9] = [
    "accepted",
    "refused with 1",
    "refused with 2",
    "refused with 3",
    "refused with 4",
    "refused with 5",
    "refused with 6",
    "refused with 7",
    "refused with 8",
];

const SIZES: [(&str, std::ops::RangeInclusive<usize>); 8] = [
    ("0", 0..=0),
    ("1", 1..=1),
    ("2 to 16", 2..=16),
    ("17 to 64", 17..=64),
    ("65 to 4,095", 65..=4095),
    ("4,096", 4096..=4096),
    ("4,097", 4097..=4097),
    ("more", 4098..=usize::MAX),
];

/// 1234567 as 1,234,567.
pub fn grouped(n: u64) -> String {
    let digits = n.to_string();
    let mut text = String::new();
    for (i, digit) in digits.chars().enumerate() {
        if i > 0 && (digits.len() - i) % 3 == 0 {
            text.push(',');
        }
        text.push(digit);
    }
    text
}

/// What the calls with lists of commands showed.
#[derive(Default)]
pub struct Commands {
    pub calls: [u64; 2],
    /// Calls with turns alone, and with no command at all.
    pub alone: [u64; 2],
    pub sizes: [u64; 8],
    /// By what the call returned: 0, 16, 17; and 17 where there were too few replies as well.
    pub outcomes: [u64; 4],
    /// By verb, and by the refusal; 0 is accepted.
    pub turns: [[u64; 9]; 6],
    pub hits: [u64; 2],
    /// Stores by how many tasks they squashed.
    pub squashed: [u64; 4],
    /// Lines by L + 2 S.
    pub lines: [u64; 4],
    pub pointers: u64,
    pub reports: [u64; 4],
    pub suppliers: [u64; 6],
    pub invalidations: [u64; 16],
    pub written_most: u32,
    pub tasks: [u64; 5],
    pub words: u64,
    /// Lines that are none, words past the end, unknown codes.
    pub outside: [u64; 3],
    /// Lines and reports of the central buffer.
    pub nothing: u64,
}

impl Commands {
    pub fn size(&mut self, words: usize) {
        let at = SIZES.iter().position(|(_, range)| range.contains(&words));
        self.sizes[at.unwrap_or(SIZES.len() - 1)] += 1;
    }

    pub fn reply(&mut self, snooping: bool, command: Command, r: Reply) {
        match command.code {
            0..=5 => {
                let verb = command.code as usize;
                self.turns[verb][(r.status as usize).min(8)] += 1;
                if verb == 2 && r.status == 0 {
                    self.squashed[(r.first as usize).min(3)] += 1;
                }
            }
            model::WORD if r.status == 0 => self.words += 1,
            model::WORD => self.outside[1] += 1,
            model::TASKS => self.tasks[(r.first as usize).min(4)] += 1,
            model::LINE | model::REPORT if !snooping => self.nothing += 1,
            model::LINE if r.status != 0 => self.outside[0] += 1,
            model::LINE => {
                self.lines[(r.first + 2 * r.second) as usize & 3] += 1;
                self.pointers += (r.fifth != 4) as u64;
            }
            model::REPORT => {
                self.reports[(r.first as usize).min(3)] += 1;
                self.suppliers[(r.third as usize).min(5)] += 1;
                if r.first == 2 {
                    self.invalidations[(r.fourth as usize).min(15)] += 1;
                }
                self.written_most = self.written_most.max(r.fifth);
            }
            _ => self.outside[2] += 1,
        }
    }

    pub fn total(&self) -> u64 {
        self.turns.iter().flatten().sum()
    }

    pub fn tell(&self, out: &mut Summary) {
        out.list("calls", &["model_snooping", "model_central"], &self.calls);
        out.list("calls where nothing else is asked", &["turns alone", "no command at all"], &self.alone);
        out.list("calls by number of words", &SIZES.map(|(name, _)| name), &self.sizes);
        let outcomes = ["carried out", "refused with 16", "refused with 17", "refused with 17 where 16 holds too"];
        out.list("calls by outcome", &outcomes, &self.outcomes);
        for (verb, name) in VERBS.iter().enumerate() {
            let may = |&number: &usize| number == 0 || MAY[verb].contains(&number);
            let names: Vec<&str> = (0..9).filter(may).map(|number| ANSWERS[number]).collect();
            let counts: Vec<u64> = (0..9).filter(may).map(|number| self.turns[verb][number]).collect();
            out.list(name, &names, &counts);
        }
        out.list("stores by tasks squashed", &NUMBERS[..4], &self.squashed);
        out.list("hits", &["loads", "stores"], &self.hits);
        let [invalid, loaded, stored, both] = self.lines;
        out.list("line tables of 64 lines", &["compared"], &[self.lines.iter().sum::<u64>() / 64]);
        let states = ["invalid", "Loaded", "Stored", "Both", "with a pointer"];
        out.list("lines", &states, &[invalid, loaded, stored, both, self.pointers]);
        out.list("reports", &["none", "BusRead", "BusWrite", "BusWback"], &self.reports);
        out.list("suppliers", &["0", "1", "2", "3", "the memory", "none"], &self.suppliers);
        // No processor is told of its own store, so that 15 is none.
        out.list("invalidations of a BusWrite", &NUMBERS, &self.invalidations);
        out.list("words written back by one turn", &["most"], &[self.written_most as u64]);
        out.list("active tasks", &NUMBERS[..5], &self.tasks);
        out.list("words asked", &["compared"], &[self.words]);
        let outside = ["lines that are none", "words past the end", "unknown codes"];
        out.list("asked of what is not there", &outside, &self.outside);
        out.list("lines and reports asked of the central buffer", &["nothing"], &[self.nothing]);
    }
}

/// The lines that are printed in the end, and the cases that did not occur.
#[derive(Default)]
pub struct Summary {
    pub lines: Vec<String>,
    pub missing: Vec<String>,
}

impl Summary {
    pub fn list(&mut self, title: &str, names: &[&str], counts: &[u64]) {
        let mut parts = Vec::new();
        for (name, &count) in names.iter().zip(counts) {
            parts.push(format!("{name} {}", grouped(count)));
            if count == 0 {
                self.missing.push(format!("{title}: {name}"));
            }
        }
        self.lines.push(format!("{title}: {}", parts.join(", ")));
    }
}
