//! Every state that can be reached with few addresses and words: each turn from
//! each of them, on all three stores.

use independent::definition::{lines_of, report_of};
use independent::plain::Plain;
use independent::snooping::Snooping;
use independent::{Buffer, Turn};
use std::collections::HashSet;

fn explore(processors: u32, n: usize, addresses: &[u32], words: &[u32]) -> (usize, usize) {
    let mut turns = Vec::new();
    for p in 0..processors {
        turns.extend([Turn::Start(p), Turn::Squash(p), Turn::Commit(p)]);
        for &a in addresses {
            turns.extend([Turn::Load(p, a), Turn::Replace(p, a)]);
            turns.extend(words.iter().map(|&w| Turn::Store(p, a, w)));
        }
    }
    let open = vec![0; n];
    let first = Plain::open(open.clone()).unwrap();
    let mut known: HashSet<Plain> = HashSet::new();
    known.insert(first.clone());
    let mut todo = vec![(first, Snooping::open(open.clone()).unwrap(), Buffer::open(open).unwrap())];
    let mut steps = 0;
    while let Some((plain, snooping, buffer)) = todo.pop() {
        for &t in &turns {
            let (mut p, mut s, mut b) = (plain.clone(), snooping.clone(), buffer.clone());
            let wanted = p.turn(t);
            assert_eq!(s.turn(t), wanted, "{plain:?} {t:?}");
            assert_eq!(b.turn(t), wanted, "{plain:?} {t:?}");
            steps += 1;
            if wanted.is_err() {
                assert!(s == snooping && b == buffer && p == plain);
                continue;
            }
            assert_eq!(s.report(), report_of(&plain, t, wanted, (9, 9, 9, 9, 9)), "{plain:?} {t:?}");
            assert!(s.words() == p.words() && b.words() == p.words(), "{plain:?} {t:?}");
            let lines = lines_of(&p);
            for q in 0..4 {
                for c in 0..16 {
                    assert_eq!(s.line(q, c), lines[q as usize][c as usize], "{plain:?} {t:?} {q} {c}");
                }
            }
            if known.insert(p.clone()) {
                todo.push((p, s, b));
            }
        }
    }
    (known.len(), steps)
}

#[test]
fn three_processors_one_class() {
    println!("{:?}", explore(3, 17, &[0, 16], &[0, 1]));
}

#[test]
fn two_processors_two_classes() {
    println!("{:?}", explore(2, 17, &[0, 1, 16], &[0, 1]));
}

#[test]
fn four_processors_one_address() {
    println!("{:?}", explore(4, 1, &[0], &[0, 1]));
}

/// Some minutes: `cargo test --release -- --ignored`.
#[test]
#[ignore]
fn four_processors_one_class() {
    println!("{:?}", explore(4, 17, &[0, 16], &[0, 1]));
}
