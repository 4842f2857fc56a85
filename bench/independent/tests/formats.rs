//! Texts and images against a second reading, and listings of the three stores
//! against each other.

use independent::generate::{self, Rng};
use independent::image::{check_image, load_image};
use independent::text::{read_turns, write_turns};
use independent::*;
use std::collections::BTreeMap;

/// A text as the page says it "without tokens": split at byte 10 into lines,
/// each line at byte 32 into parts.
fn second_reading(text: &[u8], room: usize) -> (Vec<Turn>, Option<(Layer, u8, usize)>) {
    let mut turns = Vec::new();
    let mut place = 0;
    let mut lines: Vec<&[u8]> = text.split(|&b| b == 10).collect();
    let unended = lines.pop().unwrap();
    let ended = lines.len();
    if !unended.is_empty() {
        lines.push(unended);
    }
    for (i, line) in lines.iter().enumerate() {
        let parts: Vec<&[u8]> = line.split(|&b| b == 32).collect();
        let verbs = [("start", 1), ("load", 2), ("store", 3), ("squash", 1), ("commit", 1), ("replace", 2)];
        let Some(&(verb, k)) = verbs.iter().find(|v| v.0.as_bytes() == parts[0]) else {
            return (turns, Some((Layer::Text, 13, place)));
        };
        let mut fields = Vec::new();
        for f in 0..k {
            let part = parts.get(1 + f).copied().unwrap_or(b"");
            let shown = String::from_utf8_lossy(part).into_owned();
            let plain = !shown.is_empty()
                && shown.chars().all(|c| c.is_ascii_digit())
                && (shown == "0" || !shown.starts_with('0'));
            if !plain {
                return (turns, Some((Layer::Text, 14, place)));
            }
            match shown.parse::<u32>() {
                Ok(value) => fields.push(value),
                Err(_) => return (turns, Some((Layer::Text, 15, place))),
            }
        }
        if parts.len() > 1 + k || i >= ended {
            return (turns, Some((Layer::Text, 14, place)));
        }
        if turns.len() == room {
            return (turns, Some((Layer::List, 16, place)));
        }
        turns.push(match verb {
            "start" => Turn::Start(fields[0]),
            "load" => Turn::Load(fields[0], fields[1]),
            "store" => Turn::Store(fields[0], fields[1], fields[2]),
            "squash" => Turn::Squash(fields[0]),
            "commit" => Turn::Commit(fields[0]),
            _ => Turn::Replace(fields[0], fields[1]),
        });
        place += line.len() + 1;
    }
    (turns, None)
}

#[test]
fn texts() {
    let mut numbers: BTreeMap<u8, u64> = BTreeMap::new();
    for seed in 0..30_000 {
        let mut rng = Rng::new(seed);
        let room = if seed % 500 == 0 { 2048 } else { rng.pick(&[0, 5, 30, 100, 100, 100]) };
        let text = if rng.percent(15) {
            let count = generate::text_length(&mut rng, room);
            generate::text(&mut rng, 100, count)
        } else {
            generate::damaged_text(&mut rng, 100, room)
        };
        let (turns, answer) = read_turns(&text, room);
        let wanted = second_reading(&text, room);
        let shown = answer.err().map(|f| (f.layer, f.number, f.place));
        assert_eq!((&turns, shown), (&wanted.0, wanted.1), "{:?}", String::from_utf8_lossy(&text));
        // Exactness.
        let end = answer.err().map_or(text.len(), |f| f.place);
        assert_eq!(write_turns(&turns), &text[..end]);
        *numbers.entry(answer.err().map_or(0, |f| f.number)).or_default() += 1;
    }
    println!("{numbers:?}");
    for number in [0, 13, 14, 15, 16] {
        assert!(numbers[&number] > 100, "{number}");
    }
}

#[test]
fn images() {
    let mut numbers: BTreeMap<u8, u64> = BTreeMap::new();
    for seed in 0..30_000 {
        let mut rng = Rng::new(seed);
        let n = rng.pick(&[1, 2, 8, 63, 64, 65, 66, 100, 4096]);
        let good = rng.percent(20);
        let image = if good { generate::image(&mut rng, n) } else { generate::damaged_image(&mut rng, n) };
        let before: Vec<u32> = (0..n).map(|a| a ^ 0x5a5a).collect();
        let mut words = before.clone();
        let answer = load_image(&mut words, &image);
        assert_eq!(answer.err(), check_image(&image, n as usize).err());
        *numbers.entry(answer.err().map_or(0, |f| f.number)).or_default() += 1;
        if let Err(fault) = answer {
            assert!(!good, "{fault}");
            assert_eq!(words, before);
            continue;
        }
        // Read back: from each pair's offset on lie its words; all else stays.
        let num = |i: usize| u32::from_le_bytes(image[4 * i..4 * i + 4].try_into().unwrap());
        let count = num(0) as usize;
        let mut at = 1 + 2 * count;
        let mut wanted = before;
        for i in 0..count {
            for k in 0..num(2 + 2 * i) {
                wanted[(num(1 + 2 * i) + k) as usize] = num(at);
                at += 1;
            }
        }
        assert_eq!(4 * at, image.len());
        assert_eq!(words, wanted);
    }
    println!("{numbers:?}");
    for number in [0, 9, 10, 11, 12] {
        assert!(numbers[&number] > 100, "{number}");
    }
}

#[test]
fn listings() {
    let mut faults: BTreeMap<String, u64> = BTreeMap::new();
    for seed in 0..3_000 {
        let n = [1, 16, 40, 100, 4096][seed as usize % 5];
        let room = if seed % 10 == 0 { 2048 } else { 50 };
        let (image, text) = generate::case(seed, n, room);
        let plain = play(Kind::Plain, &image, &text, n as usize, room);
        assert_eq!(play(Kind::Snooping, &image, &text, n as usize, room), plain, "{seed}");
        assert_eq!(play(Kind::Buffer, &image, &text, n as usize, room), plain, "{seed}");
        assert_eq!(plain.last(), Some(&10));
        let shown = String::from_utf8(plain).unwrap();
        let key = if shown.starts_with("fault") {
            assert_eq!(shown.lines().count(), 1);
            shown.split(' ').take(3).collect::<Vec<_>>().join(" ")
        } else {
            "listing".into()
        };
        *faults.entry(key).or_default() += 1;
    }
    println!("{faults:?}");
    assert!(faults["listing"] > 500 && faults["fault list 16"] > 20);
}
