//! Compares the model's library for C with the independent implementation.
//!
//!     harness [SEED [RUNS]]                  random runs and listings (default: 1 10000)
//!     harness --break WHAT [SEED [RUNS]]     the same with one answer changed on purpose; `--break list` lists the changes
//!     harness speed                          turns a second of both, as a table
//!     harness once SIDE STORE MIX WORDS TIMES   one list of turns, for a profiler: SIDE model or independent,
//!                                            STORE snooping or buffer, MIX hits, violations or refusals

mod counts;
mod model;
mod player;
mod runs;
mod speed;
mod twist;

use counts::{grouped, Summary};
use independent::Kind;
use std::process::exit;
use std::time::Instant;
use twist::Twist;

fn usage() -> ! {
    eprintln!("harness [--break WHAT] [SEED [RUNS]] | harness speed | harness once SIDE STORE MIX WORDS TIMES");
    exit(2);
}

fn main() {
    let mut args: Vec<String> = std::env::args().skip(1).collect();
    match args.first().map(String::as_str) {
        Some("speed") if args.len() == 1 => return speed::table(),
        Some("once") => return speed::once(&args[1..]).unwrap_or_else(|| usage()),
        _ => {}
    }
    let mut twist = None;
    if args.first().is_some_and(|arg| arg == "--break") {
        match args.get(1).map(String::as_str) {
            Some("list") => return Twist::ALL.iter().for_each(|(name, _)| println!("{name}")),
            name => twist = Some(name.and_then(Twist::named).unwrap_or_else(|| usage())),
        }
        args.drain(..2);
    }
    let numbers: Option<Vec<u64>> = args.iter().map(|arg| arg.parse().ok()).collect();
    let (seed, count) = match numbers.as_deref() {
        Some([]) => (1, 10_000),
        Some(&[seed]) => (seed, 10_000),
        Some(&[seed, count]) => (seed, count),
        _ => usage(),
    };
    compare(seed, count, twist);
}

fn compare(seed: u64, count: u64, twist: Option<Twist>) {
    let clock = Instant::now();
    println!("seeds {seed} to {}", seed.saturating_add(count).saturating_sub(1));
    let mut commands = counts::Commands::default();
    let mut plays = player::Counts::default();
    for i in 0..count {
        let seed = seed.wrapping_add(i);
        for kind in [Kind::Snooping, Kind::Buffer] {
            let case = runs::Case::random(seed, kind);
            if runs::check(&case, twist, &mut commands).is_err() {
                run_differs(seed, &case, twist);
            }
            let case = player::Case::random(seed, kind);
            if player::check(&case, twist, &mut plays).is_err() {
                listing_differs(seed, &case, twist);
            }
        }
        if (i + 1) % (count / 10).max(1) == 0 {
            println!(
                "{} of {} seeds, {} turns, {} listings, no difference",
                grouped(i + 1),
                grouped(count),
                grouped(commands.total()),
                grouped(plays.total())
            );
        }
    }
    let mut summary = Summary::default();
    commands.tell(&mut summary);
    println!();
    println!("Lists of commands: {} turns", grouped(commands.total()));
    for line in summary.lines.drain(..) {
        println!("  {line}");
    }
    plays.tell(&mut summary);
    println!();
    println!("Images and turn texts: {} listings", grouped(plays.total()));
    for line in summary.lines.drain(..) {
        println!("  {line}");
    }
    println!();
    match &summary.missing[..] {
        [] => println!("Every case of this summary occurred."),
        missing => println!("Cases that did not occur: {}", missing.join("; ")),
    }
    println!("No difference, in {:.1} seconds.", clock.elapsed().as_secs_f64());
}

fn tell_difference(snooping: &str, other: &str, kind: Kind, seed: u64) {
    let name = if kind == Kind::Snooping { snooping } else { other };
    println!("DIFFERENCE in {name} at seed {seed} (again: harness {seed} 1)");
}

const NOT_AGAIN: &str = "It did not show again: the model does not always answer alike.";

fn run_differs(seed: u64, case: &runs::Case, twist: Option<Twist>) -> ! {
    tell_difference("model_snooping", "model_central", case.kind, seed);
    match runs::smallest_prefix(case, twist) {
        Some((prefix, difference)) => {
            println!("Smallest prefix that shows it: {} of {} turns", prefix.turns.len(), case.turns.len());
            runs::print(&prefix, &difference);
            let (small, difference) = runs::without_needless_turns(&prefix, twist);
            if small.turns.len() < prefix.turns.len() {
                println!("Of these turns, {} are enough for a difference", small.turns.len());
                runs::print(&small, &difference);
            }
        }
        None => println!("{NOT_AGAIN}"),
    }
    exit(1);
}

fn listing_differs(seed: u64, case: &player::Case, twist: Option<Twist>) -> ! {
    tell_difference("model_play_snooping", "model_play_central", case.kind, seed);
    match player::smallest_prefix(case, twist) {
        Some((prefix, difference)) => {
            println!("Smallest prefix that shows it: {} of {} bytes of the text", prefix.text.len(), case.text.len());
            player::print(&prefix, &difference);
        }
        None => println!("{NOT_AGAIN}"),
    }
    exit(1);
}
