//! `compare FIRST COUNT [LENGTH]`: the three stores against each other, each
//! mix, each seed, with all lines, pointers, reports and rows after each turn.

use independent::definition::Trio;
use independent::generate::{Mix, Rng, Turns};

fn main() {
    let args: Vec<u64> = std::env::args().skip(1).map(|a| a.parse().unwrap()).collect();
    let (first, count) = (args[0], args[1]);
    let length = args.get(2).map_or(2000, |&l| l as usize);
    let mut turns = 0u64;
    for seed in first..first + count {
        for mix in Mix::ALL {
            let mut rng = Rng::new(seed);
            let n = rng.pick(&[1, 3, 16, 17, 33, 48, 100, 200, 1000, 4096]);
            let words: Vec<u32> = (0..n).map(|_| rng.u32()).collect();
            let mut trio = Trio::open(words).unwrap();
            for (i, t) in Turns::new(seed, mix, n).take(length).enumerate() {
                if let Err(why) = trio.turn(t) {
                    println!("{mix:?} seed {seed} words {n} turn {i}: {why}");
                    std::process::exit(1);
                }
                turns += 1;
            }
        }
    }
    println!("{turns} turns, no difference");
}
