//! Plain, snooping and buffer against each other on random sequences, with
//! lines, pointers and reports against the page's definition.

use independent::definition::Trio;
use independent::generate::{Mix, Rng, Turns};
use independent::*;
use std::collections::BTreeMap;

#[derive(Default)]
struct Seen {
    answers: BTreeMap<&'static str, BTreeMap<String, u64>>,
    reports: BTreeMap<u32, u64>,
    hits: u64,
    turns: u64,
}

impl Seen {
    fn add(&mut self, t: Turn, answer: Result<u32, u8>, s: &Trio) {
        let verb = match t {
            Turn::Start(..) => "start",
            Turn::Load(..) => "load",
            Turn::Store(..) => "store",
            Turn::Squash(..) => "squash",
            Turn::Commit(..) => "commit",
            Turn::Replace(..) => "replace",
        };
        let what = match (t, answer) {
            (_, Err(r)) => format!("no {r}"),
            (Turn::Load(..), Ok(_)) => "ok".into(),
            (_, Ok(r)) => format!("ok {r}"),
        };
        *self.answers.entry(verb).or_default().entry(what).or_default() += 1;
        if answer.is_ok() {
            *self.reports.entry(s.snooping.report().0).or_default() += 1;
            if matches!(t, Turn::Load(..) | Turn::Store(..)) && s.snooping.report().0 == 0 {
                self.hits += 1;
            }
        }
        self.turns += 1;
    }
}

fn run(mix: Mix, seeds: u64, length: usize) -> Seen {
    let mut seen = Seen::default();
    for seed in 0..seeds {
        let mut rng = Rng::new(seed ^ 0x5eed);
        let n = rng.pick(&[1, 2, 15, 16, 17, 33, 40, 64, 100, 300, 4096]);
        let words: Vec<u32> = (0..n).map(|a| if seed % 2 == 0 { 0 } else { 1000 + a }).collect();
        let mut s = Trio::open(words).unwrap();
        s.look().unwrap();
        for (i, t) in Turns::new(seed, mix, n).take(length).enumerate() {
            match s.turn(t) {
                Ok(answer) => seen.add(t, answer, &s),
                Err(why) => panic!("{mix:?} seed {seed} turn {i}: {why}"),
            }
        }
    }
    println!("{mix:?}: {} turns, {} hits, reports {:?}", seen.turns, seen.hits, seen.reports);
    for (verb, counts) in &seen.answers {
        println!("  {verb}: {counts:?}");
    }
    seen
}

#[test]
fn hits() {
    let seen = run(Mix::Hits, 200, 1500);
    assert!(seen.hits * 2 > seen.turns);
}

#[test]
fn violations() {
    let seen = run(Mix::Violations, 200, 1500);
    let squashes: u64 = (1..4).map(|k| seen.answers["store"][&format!("ok {k}")]).sum();
    assert!(squashes * 20 > seen.turns);
}

#[test]
fn refusals() {
    let seen = run(Mix::Refusals, 200, 1500);
    let refused: u64 = seen
        .answers
        .values()
        .flat_map(|m| m.iter().filter(|(k, _)| k.starts_with("no")).map(|(_, n)| n))
        .sum();
    assert!(refused * 2 > seen.turns);
}

#[test]
fn crowded() {
    let seen = run(Mix::Crowded, 300, 1500);
    assert!(seen.answers["load"]["no 5"] > 1000 && seen.answers["store"]["no 5"] > 1000);
    for kind in 0..4 {
        assert!(seen.reports[&kind] > 100);
    }
}

#[test]
fn wild() {
    run(Mix::Wild, 200, 1500);
}

/// Every refusal of every turn, and every number of squashed tasks, comes.
#[test]
fn mixed() {
    let seen = run(Mix::Mixed, 300, 1500);
    for (verb, numbers) in [
        ("start", &[1, 2][..]),
        ("load", &[1, 3, 4, 5]),
        ("store", &[1, 3, 4, 5]),
        ("squash", &[1, 3, 7]),
        ("commit", &[1, 3, 6]),
        ("replace", &[1, 3, 4, 6, 8]),
    ] {
        let counts = &seen.answers[verb];
        for k in numbers {
            assert!(counts.get(&format!("no {k}")).is_some_and(|&n| n > 20), "{verb} no {k}");
        }
        assert_eq!(counts.keys().filter(|k| k.starts_with("no")).count(), numbers.len());
    }
    for k in 0..4 {
        assert!(seen.answers["store"][&format!("ok {k}")] > 20);
    }
}
