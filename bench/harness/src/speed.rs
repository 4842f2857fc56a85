//! Turns a second: the model through its calls, and the independent stores over the same rows.

use crate::counts::grouped;
use crate::model::{self, command_of, turn_of, Command, Reply};
use independent::generate::{turns, Mix};
use independent::turn::Store;
use independent::{Buffer, Kind, Snooping};
use std::hint::black_box;
use std::time::{Duration, Instant};

/// Turns in one list.
const TURNS: usize = 65_536;
const REPETITIONS: usize = 7;
const AT_LEAST: Duration = Duration::from_millis(250);

const STORES: [(&str, Kind); 2] = [("snooping", Kind::Snooping), ("central buffer", Kind::Buffer)];
const MIXES: [(&str, Mix); 3] =
    [("mostly hits", Mix::Hits), ("many violations", Mix::Violations), ("mostly refusals", Mix::Refusals)];
const SIZES: [usize; 2] = [64, 4096];

/// As the model's call does it: a store is opened over the words, carries out the commands, and is closed.
fn independent<T: Store>(words: &mut [u32], commands: &[Command], replies: &mut [Reply]) {
    let mut store = T::open(words.to_vec()).expect("1 to 4,096 words");
    for (command, reply) in commands.iter().zip(replies) {
        *reply = match turn_of(*command) {
            Some(turn) => Reply::answer(store.turn(turn)),
            None => Reply::status(model::NOTHING),
        };
    }
    words.copy_from_slice(&store.close());
}

#[derive(Clone, Copy, PartialEq, Eq)]
pub enum Side {
    Model,
    Independent,
}

#[inline(never)]
fn play(side: Side, kind: Kind, words: &mut [u32], commands: &[Command], replies: &mut [Reply]) {
    match (side, kind) {
        (Side::Model, _) => {
            let outcome = model::run(kind, words, commands, replies);
            assert_eq!(outcome, 0, "the run is refused");
        }
        (Side::Independent, Kind::Buffer) => independent::<Buffer>(words, commands, replies),
        (Side::Independent, _) => independent::<Snooping>(words, commands, replies),
    }
}

fn commands(mix: Mix, size: usize) -> Vec<Command> {
    turns(7, mix, size as u32, TURNS).into_iter().map(|turn| command_of(turn, 0, 0)).collect()
}

struct Rows {
    words: Vec<u32>,
    commands: Vec<Command>,
    replies: Vec<Reply>,
}

impl Rows {
    /// Seconds for a turn of the model and of the independent store: the best of the repetitions, which take turns.
    fn best(&mut self, kind: Kind) -> (f64, f64) {
        let (mut model, mut other) = (f64::MAX, f64::MAX);
        for _ in 0..REPETITIONS {
            model = model.min(self.time(Side::Model, kind));
            other = other.min(self.time(Side::Independent, kind));
        }
        (model, other)
    }

    /// Seconds for a turn, or for a call where there is none, over at least a quarter of a second.
    fn time(&mut self, side: Side, kind: Kind) -> f64 {
        // So many calls between two looks at the clock.
        let calls_at_once = if self.commands.is_empty() { 1000 } else { 1 };
        let mut calls = 0;
        self.words.fill(0);
        let clock = Instant::now();
        loop {
            for _ in 0..calls_at_once {
                play(side, kind, black_box(&mut self.words), black_box(&self.commands), black_box(&mut self.replies));
            }
            calls += calls_at_once;
            let spent = clock.elapsed();
            if spent >= AT_LEAST {
                return spent.as_secs_f64() / calls as f64 / self.commands.len().max(1) as f64;
            }
        }
    }
}

/// What a mix is, by what its replies say.
fn describe(rows: &Rows) -> String {
    let mut store = Snooping::open(vec![0; rows.words.len()]).expect("1 to 4,096 words");
    let (mut refused, mut hits, mut squashing, mut others) = (0, 0, 0, 0);
    for (command, reply) in rows.commands.iter().zip(&rows.replies) {
        let turn = turn_of(*command).expect("turns alone");
        let _ = store.turn(turn);
        match (command.code, reply.status) {
            (_, 1..) => refused += 1,
            (1 | 2, _) if store.report().0 == 0 => hits += 1,
            (2, _) if reply.first > 0 => squashing += 1,
            (3, _) => squashing += 1,
            _ => others += 1,
        }
    }
    let share = |count: u32| format!("{:.0} %", 100.0 * count as f64 / rows.commands.len() as f64);
    [hits, squashing, refused, others].map(share).join(" | ")
}

/// 1234567.8 as 1.2, in millions.
fn millions(seconds_for_a_turn: f64) -> String {
    format!("{:.1}", 1e-6 / seconds_for_a_turn)
}

pub fn table() {
    let mut told = Vec::new();
    println!("| Store | Mix | Words | Model, million turns/s | Independent, million turns/s | Ratio model/independent |");
    println!("|---|---|---|---|---|---|");
    for (store, kind) in STORES {
        for (name, mix) in MIXES {
            for size in SIZES {
                let mut rows = Rows {
                    words: vec![0; size],
                    commands: commands(mix, size),
                    replies: vec![Reply::default(); TURNS],
                };
                let answers = [Side::Model, Side::Independent].map(|side| {
                    rows.words.fill(0);
                    rows.replies.fill(Reply::status(model::NOTHING));
                    play(side, kind, &mut rows.words, &rows.commands, &mut rows.replies);
                    (rows.words.clone(), rows.replies.clone())
                });
                assert!(answers[0] == answers[1], "the two sides differ at {store}, {name}, {size} words");
                if kind == Kind::Snooping {
                    told.push(format!("| {name} | {} | {} |", grouped(size as u64), describe(&rows)));
                }
                let (model, other) = rows.best(kind);
                println!(
                    "| {store} | {name} | {} | {} | {} | {:.2} |",
                    grouped(size as u64),
                    millions(model),
                    millions(other),
                    other / model
                );
            }
        }
    }
    println!();
    println!("The mixes, by the replies of the snooping store:");
    println!();
    println!("| Mix | Words | Hits | Turns that squash | Refused | Others |");
    println!("|---|---|---|---|---|---|");
    for line in told {
        println!("{line}");
    }
    println!();
    println!("A call without a turn:");
    println!();
    println!("| Store | Words | Model, ns | Independent, ns |");
    println!("|---|---|---|---|");
    for (store, kind) in STORES {
        for size in SIZES {
            let mut rows = Rows { words: vec![0; size], commands: vec![], replies: vec![] };
            let (model, other) = rows.best(kind);
            println!("| {store} | {} | {:.0} | {:.0} |", grouped(size as u64), 1e9 * model, 1e9 * other);
        }
    }
}

/// One side, one list, so many times: for a profiler.
pub fn once(args: &[String]) -> Option<()> {
    let [side, store, mix, size, times] = args else { return None };
    let side = match side.as_str() {
        "model" => Side::Model,
        "independent" => Side::Independent,
        _ => return None,
    };
    let kind = Kind::named(store)?;
    let mix = Mix::named(mix)?;
    let size: usize = size.parse().ok()?;
    let times: usize = times.parse().ok()?;
    let commands = commands(mix, size);
    let mut words = vec![0; size];
    let mut replies = vec![Reply::default(); TURNS];
    for _ in 0..times {
        play(side, kind, &mut words, &commands, &mut replies);
    }
    println!("{} turns", times * TURNS);
    Some(())
}
