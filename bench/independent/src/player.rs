//! The player: image, text and turns in, listing out.

use crate::fault::{Fault, Layer};
use crate::turn::{Store, Turn};
use crate::{image, text, Buffer, Plain, Snooping};
use std::io::Write;

#[derive(Clone, Copy, Debug, PartialEq, Eq, Hash)]
pub enum Kind {
    Plain,
    Snooping,
    Buffer,
}

impl Kind {
    pub const ALL: [Kind; 3] = [Kind::Plain, Kind::Snooping, Kind::Buffer];

    pub fn named(name: &str) -> Option<Kind> {
        match name {
            "plain" => Some(Kind::Plain),
            "snooping" | "play" => Some(Kind::Snooping),
            "buffer" | "central" => Some(Kind::Buffer),
            _ => None,
        }
    }
}

/// As the program `play` has them.
pub const FILE_BYTES: usize = 32_768;
pub const LIST_ROOM: usize = 2_048;
pub const WORDS: usize = 4_096;
/// No list takes more elements.
pub const MOST_ELEMENTS: usize = 65_535;

/// The listing, over `n_words` zero words (1 to 4,096), with lists of turns and
/// of answers that take `list_room` elements each. The image and the text are
/// taken whole; see [`play_files`] for the cut at 32,768 bytes.
pub fn play(kind: Kind, image: &[u8], text: &[u8], n_words: usize, list_room: usize) -> Vec<u8> {
    play_rooms(kind, image, text, n_words, list_room, list_room)
}

/// As the programs `play` (snooping) and `central` (buffer) do it.
pub fn play_files(kind: Kind, image: &[u8], text: &[u8]) -> Vec<u8> {
    let cut = |bytes: &[u8]| bytes[..bytes.len().min(FILE_BYTES)].to_vec();
    play(kind, &cut(image), &cut(text), WORDS, LIST_ROOM)
}

/// The lists of turns and of answers may have different room.
pub fn play_rooms(
    kind: Kind,
    image: &[u8],
    text: &[u8],
    n_words: usize,
    turn_room: usize,
    answer_room: usize,
) -> Vec<u8> {
    let listing = match kind {
        Kind::Plain => listing::<Plain>(image, text, n_words, turn_room, answer_room),
        Kind::Snooping => listing::<Snooping>(image, text, n_words, turn_room, answer_room),
        Kind::Buffer => listing::<Buffer>(image, text, n_words, turn_room, answer_room),
    };
    listing.unwrap_or_else(|fault| format!("{fault}\n").into_bytes())
}

fn listing<T: Store>(
    image: &[u8],
    text: &[u8],
    n_words: usize,
    turn_room: usize,
    answer_room: usize,
) -> Result<Vec<u8>, Fault> {
    assert!((1..=WORDS).contains(&n_words), "a memory has 1 to 4,096 words");
    let mut words = vec![0; n_words];
    image::load_image(&mut words, image)?;
    let (turns, read) = text::read_turns(text, turn_room.min(MOST_ELEMENTS));
    read?;
    let mut store = T::open(words).expect("the size was checked");
    let answers = play_turns(&mut store, &turns, answer_room.min(MOST_ELEMENTS))?;

    let mut out = Vec::new();
    for (i, answer) in answers.iter().enumerate() {
        match answer {
            Ok(result) => writeln!(out, "{} ok {result}", i + 1),
            Err(refusal) => writeln!(out, "{} no {refusal}", i + 1),
        }
        .unwrap();
    }
    writeln!(out, "tasks {}", store.tasks()).unwrap();
    for a in 0..store.size() {
        match store.word(a) {
            Ok(0) => {}
            Ok(w) => writeln!(out, "at {a} {w}").unwrap(),
            Err(_) => unreachable!(),
        }
    }
    Ok(out)
}

/// Plays turns until the list of answers is full: that turn is not played.
fn play_turns<T: Store>(
    store: &mut T,
    turns: &[Turn],
    room: usize,
) -> Result<Vec<Result<u32, u8>>, Fault> {
    let mut answers = Vec::with_capacity(turns.len().min(room));
    for (i, &turn) in turns.iter().enumerate() {
        if answers.len() >= room {
            return Err(Fault { layer: Layer::List, number: 16, place: i });
        }
        answers.push(store.turn(turn));
    }
    Ok(answers)
}
