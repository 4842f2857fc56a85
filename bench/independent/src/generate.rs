//! Deterministic generators of turns, images and texts, whole and damaged.

use crate::image::image_of;
use crate::plain::Plain;
use crate::text::{line_of, write_turns};
use crate::turn::Turn;

/// SplitMix64.
#[derive(Clone, Debug)]
pub struct Rng(u64);

impl Rng {
    pub fn new(seed: u64) -> Rng {
        Rng(seed)
    }

    pub fn next(&mut self) -> u64 {
        self.0 = self.0.wrapping_add(0x9e37_79b9_7f4a_7c15);
        let mut z = self.0;
        z = (z ^ z >> 30).wrapping_mul(0xbf58_476d_1ce4_e5b9);
        z = (z ^ z >> 27).wrapping_mul(0x94d0_49bb_1331_11eb);
        z ^ z >> 31
    }

    pub fn u32(&mut self) -> u32 {
        (self.next() >> 32) as u32
    }

    /// From 0 to `n` - 1; `n` is at least 1.
    pub fn below(&mut self, n: u32) -> u32 {
        ((self.u32() as u64 * n as u64) >> 32) as u32
    }

    pub fn index(&mut self, n: usize) -> usize {
        self.below(n as u32) as usize
    }

    /// True `k` times of 100.
    pub fn percent(&mut self, k: u32) -> bool {
        self.below(100) < k
    }

    pub fn pick<T: Copy>(&mut self, of: &[T]) -> T {
        of[self.index(of.len())]
    }
}

#[derive(Clone, Copy, Debug, PartialEq, Eq, Hash)]
pub enum Mix {
    /// Mostly loads and stores of what the task holds already.
    Hits,
    /// Later tasks load, earlier ones store, on few addresses.
    Violations,
    /// Most turns are refused, by every number.
    Refusals,
    /// Few classes with several addresses each: refusal 5, lists, squashes.
    Crowded,
    /// Fields are any numbers of 32 bits, or near an edge.
    Wild,
    /// Changes between the others.
    Mixed,
}

impl Mix {
    pub const ALL: [Mix; 6] =
        [Mix::Hits, Mix::Violations, Mix::Refusals, Mix::Crowded, Mix::Wild, Mix::Mixed];

    pub fn named(name: &str) -> Option<Mix> {
        Some(match name {
            "hits" => Mix::Hits,
            "violations" => Mix::Violations,
            "refusals" => Mix::Refusals,
            "crowded" => Mix::Crowded,
            "wild" => Mix::Wild,
            "mixed" => Mix::Mixed,
            _ => return None,
        })
    }
}

/// A stream of turns. It follows a plain store so as to know what is active
/// and held.
pub struct Turns {
    rng: Rng,
    mix: Mix,
    now: Mix,
    left: u32,
    base: u32,
    n: u32,
    store: Plain,
}

impl Turns {
    pub fn new(seed: u64, mix: Mix, n_words: u32) -> Turns {
        Turns {
            rng: Rng::new(seed),
            mix,
            now: mix,
            left: 0,
            base: 0,
            n: n_words,
            store: Plain::open(vec![0; n_words as usize]).expect("1 to 4,096 words"),
        }
    }

    fn word(&mut self) -> u32 {
        match self.rng.below(8) {
            0 => self.rng.u32(),
            1 => self.rng.pick(&[0, 1, u32::MAX, 1 << 31]),
            _ => self.rng.below(100),
        }
    }

    fn edge(&mut self) -> u32 {
        let n = self.n;
        match self.rng.below(4) {
            0 => self.rng.u32(),
            1 => self.rng.pick(&[0, 1, 3, 4, 5, 15, 16, 17, 255, 256, 65535, 65536]),
            2 => self.rng.pick(&[
                n - 1,
                n,
                n + 1,
                4095,
                4096,
                1 << 31,
                u32::MAX - 1,
                u32::MAX,
                n + (1 << 16),
                1 << 16 | 1,
            ]),
            _ => self.rng.below(n),
        }
    }

    /// One of the addresses that the task on `p` holds.
    fn held(&mut self, p: u32) -> Option<u32> {
        let i = self.store.place(p)?;
        let v = &self.store.order()[i].versions;
        if v.is_empty() {
            return None;
        }
        let k = self.rng.index(v.len());
        self.store.order()[i].versions.keys().nth(k).copied()
    }

    fn active(&mut self) -> Option<u32> {
        let k = self.store.order().len();
        if k == 0 {
            return None;
        }
        let i = self.rng.index(k);
        Some(self.store.order()[i].processor)
    }

    fn idle(&mut self) -> Option<u32> {
        let idle: Vec<u32> = (0..4).filter(|&p| self.store.place(p).is_none()).collect();
        if idle.is_empty() {
            None
        } else {
            Some(self.rng.pick(&idle))
        }
    }

    fn head(&self) -> Option<u32> {
        self.store.order().first().map(|t| t.processor)
    }

    fn hits(&mut self) -> Turn {
        if self.store.tasks() < 4 && self.rng.percent(50) {
            if let Some(p) = self.idle() {
                return Turn::Start(p);
            }
        }
        let Some(p) = self.active() else { return Turn::Start(self.rng.below(4)) };
        let held = self.held(p);
        // Each processor has its own 64 addresses, and all share a few.
        let fresh = if self.rng.percent(90) {
            (self.rng.below(16) + 16 * p + 64 * self.rng.below(2) * self.rng.below(2)) % self.n
        } else {
            self.rng.below(self.n)
        };
        let near = if self.rng.percent(88) { held.unwrap_or(fresh) } else { fresh };
        match self.rng.below(100) {
            0 => Turn::Commit(self.head().unwrap_or(0)),
            1 => match self.head() {
                Some(h) => {
                    let a = self.held(h).unwrap_or(near);
                    Turn::Replace(h, a)
                }
                None => Turn::Start(p),
            },
            2 if self.rng.percent(20) => Turn::Squash(p),
            x if x < 62 => Turn::Load(p, near),
            _ => Turn::Store(p, near, self.word()),
        }
    }

    fn violations(&mut self) -> Turn {
        if self.store.tasks() < 4 && self.rng.percent(75) {
            if let Some(p) = self.idle() {
                return Turn::Start(p);
            }
        }
        let tasks = self.store.order().len();
        if tasks == 0 {
            return Turn::Start(self.rng.below(4));
        }
        let a = (self.base + self.rng.below(5)) % self.n;
        let early = self.store.order()[self.rng.index(tasks).min(self.rng.index(tasks))].processor;
        let late = self.store.order()[self.rng.index(tasks).max(self.rng.index(tasks))].processor;
        match self.rng.below(20) {
            0 => Turn::Commit(self.head().unwrap_or(0)),
            1 => Turn::Replace(self.head().unwrap_or(0), a),
            2 if self.rng.percent(30) => Turn::Squash(late),
            x if x < 11 => Turn::Load(late, a),
            _ => Turn::Store(early, a, self.word()),
        }
    }

    fn refusals(&mut self) -> Turn {
        if self.rng.percent(12) {
            return self.crowded();
        }
        let p = if self.rng.percent(80) { self.rng.below(4) } else { self.edge() };
        let a = match self.rng.below(4) {
            0 => self.edge(),
            1 => self.held(p).unwrap_or(0).wrapping_add(16),
            2 => self.held(p).unwrap_or(0),
            _ => self.rng.below(self.n),
        };
        match self.rng.below(6) {
            0 => Turn::Start(p),
            1 => Turn::Load(p, a),
            2 => Turn::Store(p, a, self.word()),
            3 => Turn::Squash(self.head().unwrap_or(p)),
            4 => Turn::Commit(match self.rng.percent(90) {
                true => self.store.order().last().map_or(p, |t| t.processor),
                false => p,
            }),
            _ => Turn::Replace(p, a),
        }
    }

    fn crowded(&mut self) -> Turn {
        if self.store.tasks() < 4 && self.rng.percent(40) {
            if let Some(p) = self.idle() {
                return Turn::Start(p);
            }
        }
        let p = match self.active() {
            Some(p) if self.rng.percent(96) => p,
            _ => self.rng.below(5),
        };
        let classes = self.rng.pick(&[1, 2, 3]);
        let a = (self.base & 15) + self.rng.below(classes) + 16 * self.rng.pick(&[0, 0, 0, 1, 2]);
        match self.rng.below(100) {
            x if x < 38 => Turn::Load(p, a),
            x if x < 76 => Turn::Store(p, a, self.word()),
            x if x < 82 => Turn::Commit(self.head().unwrap_or(p)),
            x if x < 84 => Turn::Commit(p),
            x if x < 92 => Turn::Replace(self.head().unwrap_or(p), a),
            x if x < 94 => Turn::Replace(p, a),
            x if x < 97 => Turn::Squash(p),
            _ => Turn::Start(p),
        }
    }

    fn wild(&mut self) -> Turn {
        let p = match self.rng.below(10) {
            0 => self.rng.u32(),
            1 => self.edge(),
            _ => self.rng.below(4),
        };
        let a = match self.rng.below(4) {
            0 => self.edge(),
            1 => self.held(p).unwrap_or(0),
            _ => self.rng.below(self.n),
        };
        match self.rng.below(10) {
            0 | 1 => Turn::Start(p),
            2 | 3 => Turn::Load(p, a),
            4..=6 => Turn::Store(p, a, self.rng.u32()),
            7 => Turn::Squash(p),
            8 => Turn::Commit(p),
            _ => Turn::Replace(p, a),
        }
    }

    fn choose(&mut self) -> Turn {
        if self.left == 0 {
            self.left = 1 + self.rng.below(200);
            self.base = self.rng.below(self.n);
            if self.mix == Mix::Mixed {
                self.now = self.rng.pick(&Mix::ALL[..5]);
            }
        }
        self.left -= 1;
        match self.now {
            Mix::Hits => self.hits(),
            Mix::Violations => self.violations(),
            Mix::Refusals => self.refusals(),
            Mix::Crowded => self.crowded(),
            Mix::Wild | Mix::Mixed => self.wild(),
        }
    }
}

impl Iterator for Turns {
    type Item = Turn;

    fn next(&mut self) -> Option<Turn> {
        let t = self.choose();
        let _ = self.store.turn(t);
        Some(t)
    }
}

pub fn turns(seed: u64, mix: Mix, n_words: u32, count: usize) -> Vec<Turn> {
    Turns::new(seed, mix, n_words).take(count).collect()
}

/// A good image over `n` words, by its numbers: count, pairs, words.
fn good_numbers(rng: &mut Rng, n: u32) -> (Vec<(u32, u32)>, Vec<u32>) {
    let most = rng.pick(&[0u32, 1, 2, 5, 20, 64]);
    let mut pairs = Vec::new();
    let mut end = 0u32;
    while (pairs.len() as u32) < most && end < n {
        let room = n - end;
        let gap = if rng.percent(30) { 0 } else { rng.below(room.min(1 + 2 * n / most.max(1))) };
        let room = room - gap;
        let length = match rng.below(12) {
            0 => room,
            1 => 1 + rng.below(room),
            _ => 1 + rng.below(room.min(8)),
        };
        pairs.push((end + gap, length));
        end += gap + length;
    }
    let total: u32 = pairs.iter().map(|p| p.1).sum();
    let words = (0..total).map(|_| if rng.percent(20) { 0 } else { rng.u32() }).collect();
    (pairs, words)
}

fn bytes_of(pairs: &[(u32, u32)], words: &[u32]) -> Vec<u8> {
    let mut numbers = vec![pairs.len() as u32];
    numbers.extend(pairs.iter().flat_map(|&(o, l)| [o, l]));
    numbers.extend(words);
    image_of(&numbers)
}

/// A good image over `n` words.
pub fn image(rng: &mut Rng, n: u32) -> Vec<u8> {
    let (pairs, words) = good_numbers(rng, n);
    bytes_of(&pairs, &words)
}

/// An image with, mostly, something wrong.
pub fn damaged_image(rng: &mut Rng, n: u32) -> Vec<u8> {
    let (mut pairs, mut words) = good_numbers(rng, n);
    let some = !pairs.is_empty();
    let kind = rng.below(14);
    match kind {
        // Pairs out of order.
        0 if pairs.len() > 1 => {
            let (i, j) = (rng.index(pairs.len()), rng.index(pairs.len()));
            pairs.swap(i, j);
        }
        // Overlapping, by one or by more.
        1 if some => {
            let i = rng.index(pairs.len());
            pairs[i].0 = pairs[i].0.wrapping_sub(1 + rng.below(4));
        }
        2 if some => {
            let i = rng.index(pairs.len());
            let more = 1 + rng.below(3);
            pairs[i].1 += more;
            words.extend((0..more).map(|_| 7));
        }
        // No word in a pair; the words go with it or stay.
        3 if some => {
            let i = rng.index(pairs.len());
            let less = pairs[i].1;
            pairs[i].1 = 0;
            if rng.percent(50) {
                words.truncate(words.len() - less as usize);
            }
        }
        // Past the end, with the words for it or without.
        4 if some => {
            let last = pairs.len() - 1;
            let more = n - pairs[last].0 - pairs[last].1 + 1 + rng.below(2);
            pairs[last].1 += more;
            if rng.percent(50) {
                words.extend((0..more).map(|_| 9));
            }
        }
        // Numbers near 32 bits, whose sum passes them.
        5 if some => {
            let i = rng.index(pairs.len());
            let big = [u32::MAX, u32::MAX - 1, 1 << 31, n, n + 1, n.wrapping_sub(1)];
            match rng.below(3) {
                0 => pairs[i].0 = rng.pick(&big),
                1 => pairs[i].1 = rng.pick(&big),
                _ => pairs[i] = (rng.pick(&big), rng.pick(&big)),
            }
        }
        // 63 to 66 pairs, with all that belongs to them.
        6 => {
            let count = 63 + rng.below(4);
            pairs = (0..count).map(|i| (i, 1)).collect();
            words = (0..count).map(|_| rng.u32()).collect();
        }
        _ => {}
    }
    let mut bytes = bytes_of(&pairs, &words);
    match kind {
        // A count that does not fit.
        7 => {
            let count = rng.pick(&[0, 1, 2, 63, 64, 65, 66, 256, 1 << 16, 1 << 24, u32::MAX]);
            bytes[..4].copy_from_slice(&count.to_le_bytes());
        }
        // Cut anywhere, or near the ends of the parts.
        8 => bytes.truncate(rng.index(bytes.len() + 1)),
        9 => {
            let head = 4 + 8 * pairs.len();
            let at = rng.pick(&[0, 1, 3, 4, 5, head - 1, head, head + 1, bytes.len() - 1]);
            bytes.truncate(at);
        }
        // Too long.
        10 => {
            let more = 1 + rng.index(5);
            bytes.extend((0..more).map(|_| rng.u32() as u8));
        }
        // Bytes flipped.
        11 | 12 => {
            let near = if rng.percent(70) { bytes.len().min(4 + 8 * pairs.len()) } else { bytes.len() };
            for _ in 0..1 + rng.below(3) {
                let at = rng.index(near);
                bytes[at] ^= 1 << rng.below(8);
            }
        }
        // Any bytes.
        13 => {
            let length = rng.index(80);
            bytes = (0..length).map(|_| if rng.percent(60) { 0 } else { rng.below(9) as u8 }).collect();
        }
        _ => {}
    }
    // Sometimes a second damage.
    if rng.percent(15) && !bytes.is_empty() {
        match rng.below(3) {
            0 => bytes.truncate(rng.index(bytes.len())),
            1 => bytes.push(rng.u32() as u8),
            _ => {
                let at = rng.index(bytes.len());
                bytes[at] ^= 1 << rng.below(8);
            }
        }
    }
    bytes
}

/// A good text of `count` turns.
pub fn text(rng: &mut Rng, n: u32, count: usize) -> Vec<u8> {
    let mut mix = rng.pick(&Mix::ALL);
    // Mostly within the 32,768 bytes that the program reads.
    if count > 1000 && rng.percent(80) {
        mix = rng.pick(&[Mix::Hits, Mix::Crowded, Mix::Violations]);
    }
    write_turns(&turns(rng.next(), mix, n, count))
}

/// How many turns a text gets: mostly few, sometimes about the list's room.
pub fn text_length(rng: &mut Rng, room: usize) -> usize {
    match rng.below(16) {
        0 => 0,
        1 => room,
        2 => room + 1,
        3 => room.saturating_sub(1),
        4 => rng.index(room + 1),
        _ => 1 + rng.index(60),
    }
}

/// A text with, mostly, something wrong in one line.
pub fn damaged_text(rng: &mut Rng, n: u32, room: usize) -> Vec<u8> {
    let count = text_length(rng, room).max(1);
    let mut mix = rng.pick(&Mix::ALL);
    // Lines of 2,048 turns must be short to stay within 32,768 bytes.
    if count > 1000 {
        mix = rng.pick(&[Mix::Hits, Mix::Crowded]);
    }
    let list = turns(rng.next(), mix, n, count);
    let mut lines: Vec<Vec<u8>> = list.iter().map(|&t| line_of(t).into_bytes()).collect();
    let at = if rng.percent(30) { count - 1 } else { rng.index(count) };
    let line = &mut lines[at];
    // Where each part of the line begins.
    let parts: Vec<usize> = std::iter::once(0)
        .chain((0..line.len()).filter(|&i| line[i] == b' ').map(|i| i + 1))
        .collect();
    let field = parts[1 + rng.index(parts.len() - 1)];
    let field_end = (field..line.len()).find(|&i| line[i] == b' ' || line[i] == b'\n').unwrap();
    let mut put = |range: std::ops::Range<usize>, what: &[u8]| {
        line.splice(range, what.iter().copied());
    };
    match rng.below(24) {
        0 => put(field..field, b"0"),
        1 => put(field..field, b"00"),
        2 => put(field..field_end, b"4294967295"),
        3 => put(field..field_end, b"4294967296"),
        4 => put(field..field_end, rng.pick(&[&b"99999999999999999999999"[..], b"18446744073709551616", b"04294967296", b"99999999999x", b"10000000000"])),
        5 => put(field..field, b" "),
        6 => put(field_end..field_end, b" "),
        7 => put(0..0, b" "),
        8 => put(field..field, b"\t"),
        9 => put(field - 1..field, b"\t"),
        10 => put(field_end..field_end, b"\r"),
        11 => put(field_end..field_end, b"\t"),
        12 => put(field..field_end, b""),
        13 => put(field - 1..field_end, b""),
        14 => put(field..field, rng.pick(&[&b"+"[..], b"-", b"0x", b"a", b"/", b":", b"\0", b"\x80"])),
        15 => put(field_end..field_end, b" 1"),
        16 => put(0..0, b"\n"),
        17 => {
            let end = line.len();
            line.truncate(end - 1);
        }
        18 => {
            let i = rng.index(line.len());
            line[i] ^= 1 << rng.below(8);
        }
        19 => {
            let i = rng.index(line.len());
            line[i] = rng.u32() as u8;
        }
        20 => {
            let verb_end = parts[1] - 1;
            let verb = rng.pick(&[&b"Start"[..], b"LOAD", b"stor", b"stores", b"", b"squash", b"commit", b"start", b"load", b"store", b"replace"]);
            line.splice(0..verb_end, verb.iter().copied());
        }
        21 => line.truncate(rng.index(line.len())),
        _ => {}
    }
    let mut text = lines.concat();
    match rng.below(10) {
        0 => text.truncate(rng.index(text.len() + 1)),
        1 => {
            if text.last() == Some(&b'\n') {
                text.pop();
            }
        }
        2 => text.push(rng.pick(b"\n \t\rs0")),
        3 if !text.is_empty() => {
            let i = rng.index(text.len());
            text[i] ^= 1 << rng.below(8);
        }
        _ => {}
    }
    text
}

/// A case for the player: an image and a text, of which either may be damaged.
pub fn case(seed: u64, n: u32, room: usize) -> (Vec<u8>, Vec<u8>) {
    let mut rng = Rng::new(seed);
    let image = if rng.percent(70) { image(&mut rng, n) } else { damaged_image(&mut rng, n) };
    let text = if rng.percent(60) {
        let count = text_length(&mut rng, room);
        text(&mut rng, n, count)
    } else {
        damaged_text(&mut rng, n, room)
    };
    (image, text)
}
