//! `bench [MILLIONS]`: nanoseconds for a turn, by store and mix. The turns are
//! made before the clock starts; all three stores must give the same sum.

use independent::generate::{turns, Mix};
use independent::turn::Store;
use independent::{Buffer, Plain, Snooping, Turn};
use std::hint::black_box;
use std::time::Instant;

fn sum<T: Store>(store: &mut T, turns: &[Turn]) -> u64 {
    let mut sum = 0u64;
    for &t in turns {
        let x = match store.turn(t) {
            Ok(r) => r as u64,
            Err(r) => (r as u64) << 40,
        };
        sum = sum.rotate_left(5).wrapping_add(x);
    }
    sum
}

/// The best of a few rounds, and the answers' sum of the first.
fn time<T: Store>(turns: &[Turn], rounds: usize) -> (f64, u64) {
    let mut store = T::open(vec![0; 4096]).unwrap();
    let first = sum(&mut store, turns);
    let mut best = f64::MAX;
    for _ in 0..rounds {
        let mut store = T::open(vec![0; 4096]).unwrap();
        let clock = Instant::now();
        black_box(sum(&mut store, black_box(turns)));
        best = best.min(clock.elapsed().as_nanos() as f64 / turns.len() as f64);
    }
    (best, first)
}

fn main() {
    let millions: f64 = std::env::args().nth(1).map_or(2.0, |a| a.parse().unwrap());
    let count = (millions * 1e6) as usize;
    println!("{count} turns, 4,096 words, ns for a turn (best of 5; plain of 1)");
    println!("{:12} {:>9} {:>9} {:>9}  sum", "mix", "snooping", "buffer", "plain");
    for mix in Mix::ALL {
        let list = turns(7, mix, 4096, count);
        let (snooping, s) = time::<Snooping>(&list, 5);
        let (buffer, b) = time::<Buffer>(&list, 5);
        let (plain, p) = time::<Plain>(&list, 1);
        assert!(s == p && b == p, "{mix:?}: the stores differ");
        let mix = format!("{mix:?}").to_lowercase();
        println!("{mix:12} {snooping:9.2} {buffer:9.2} {plain:9.2}  {p:016x}");
    }
}
