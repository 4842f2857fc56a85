//! Texts of turns.

use crate::fault::{Fault, Layer};
use crate::turn::Turn;

/// Runs to the next space, byte 10 or the end of the text.
fn part<'a>(text: &'a [u8], at: &mut usize) -> &'a [u8] {
    let from = *at;
    while *at < text.len() && text[*at] != b' ' && text[*at] != b'\n' {
        *at += 1;
    }
    &text[from..*at]
}

/// A field: plain decimal (else 14) and within 32 bits (else 15).
fn decimal(part: &[u8]) -> Result<u32, u8> {
    if part.is_empty() || !part.iter().all(u8::is_ascii_digit) {
        return Err(14);
    }
    if part[0] == b'0' && part.len() > 1 {
        return Err(14);
    }
    let mut value = 0u64;
    for digit in part {
        value = value * 10 + (digit - b'0') as u64;
        if value > u32::MAX as u64 {
            return Err(15);
        }
    }
    Ok(value as u32)
}

/// Reads the line at `at` and goes behind it.
fn line(text: &[u8], at: &mut usize) -> Result<Turn, u8> {
    let verb = part(text, at);
    let fields = match verb {
        b"start" | b"squash" | b"commit" => 1,
        b"load" | b"replace" => 2,
        b"store" => 3,
        _ => return Err(13),
    };
    let mut f = [0u32; 3];
    for field in &mut f[..fields] {
        if text.get(*at) != Some(&b' ') {
            return Err(14);
        }
        *at += 1;
        *field = decimal(part(text, at))?;
    }
    if text.get(*at) != Some(&b'\n') {
        return Err(14);
    }
    *at += 1;
    let [p, a, w] = f;
    Ok(match verb {
        b"start" => Turn::Start(p),
        b"squash" => Turn::Squash(p),
        b"commit" => Turn::Commit(p),
        b"load" => Turn::Load(p, a),
        b"replace" => Turn::Replace(p, a),
        _ => Turn::Store(p, a, w),
    })
}

/// The turns before the first fault, and the fault. `room` is how many turns
/// the list takes.
pub fn read_turns(text: &[u8], room: usize) -> (Vec<Turn>, Result<(), Fault>) {
    let mut turns = Vec::new();
    let mut at = 0;
    while at < text.len() {
        let place = at;
        match line(text, &mut at) {
            Err(number) => return (turns, Err(Fault { layer: Layer::Text, number, place })),
            Ok(_) if turns.len() >= room => {
                return (turns, Err(Fault { layer: Layer::List, number: 16, place }))
            }
            Ok(turn) => turns.push(turn),
        }
    }
    (turns, Ok(()))
}

/// The one way to write a turn, with its byte 10.
pub fn line_of(turn: Turn) -> String {
    match turn {
        Turn::Start(p) => format!("start {p}\n"),
        Turn::Load(p, a) => format!("load {p} {a}\n"),
        Turn::Store(p, a, w) => format!("store {p} {a} {w}\n"),
        Turn::Squash(p) => format!("squash {p}\n"),
        Turn::Commit(p) => format!("commit {p}\n"),
        Turn::Replace(p, a) => format!("replace {p} {a}\n"),
    }
}

pub fn write_turns(turns: &[Turn]) -> Vec<u8> {
    turns.iter().flat_map(|&t| line_of(t).into_bytes()).collect()
}
