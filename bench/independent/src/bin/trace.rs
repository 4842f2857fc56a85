//! `trace [FOLDER] [WORDS]`: plays `turns.txt` over `image.bin` on the snooping
//! store and prints, after each turn, the answer, the report and every valid
//! line. For comparison with another implementation.
//!
//!     turn 1 ok 0
//!     report kind address supplier invalidated written
//!     line p c state tag word next

use independent::{image, text, Snooping};
use std::io::Write;

fn main() {
    let args: Vec<String> = std::env::args().skip(1).collect();
    let folder = args.first().map_or(".", |s| s);
    let n: usize = args.get(1).map_or(4096, |s| s.parse().unwrap());
    let read = |name: &str| std::fs::read(format!("{folder}/{name}")).unwrap_or_default();
    let mut out = std::io::BufWriter::new(std::io::stdout());
    let mut words = vec![0; n];
    if let Err(fault) = image::load_image(&mut words, &read("image.bin")) {
        writeln!(out, "{fault}").unwrap();
        return;
    }
    let (turns, answer) = text::read_turns(&read("turns.txt"), 65_535);
    if let Err(fault) = answer {
        writeln!(out, "{fault}").unwrap();
        return;
    }
    let mut store = Snooping::open(words).expect("1 to 4,096 words");
    for (i, &t) in turns.iter().enumerate() {
        match store.turn(t) {
            Ok(r) => writeln!(out, "turn {} ok {r}", i + 1).unwrap(),
            Err(r) => writeln!(out, "turn {} no {r}", i + 1).unwrap(),
        }
        let (k, a, s, v, w) = store.report();
        writeln!(out, "report {k} {a} {s} {v} {w}").unwrap();
        for p in 0..4 {
            for c in 0..16 {
                let l = store.line(p, c);
                if l.state != 0 {
                    writeln!(out, "line {p} {c} {} {} {} {}", l.state, l.tag, l.word, l.next).unwrap();
                }
            }
        }
    }
}
