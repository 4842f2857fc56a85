//! The snooping store: four private caches of 16 lines, version ordering lists
//! made of pointers from line to line, and a bus report.

use crate::turn::*;

/// No processor: an invalid pointer.
const NONE: u8 = 4;

/// State bits.
const L: u8 = 1;
const S: u8 = 2;

#[derive(Clone, Copy, Debug, PartialEq, Eq, Hash)]
struct Line {
    word: u32,
    tag: u16,
    /// 0 invalid, `L`, `S` or both.
    state: u8,
    /// The processor of the next line of this address, or `NONE`.
    next: u8,
}

const INVALID: Line = Line { word: 0, tag: 0, state: 0, next: NONE };

/// A line as the outside sees it.
#[derive(Clone, Copy, Debug, PartialEq, Eq, Hash)]
pub struct LineView {
    /// 0 invalid, 1 loaded, 2 stored, 3 both.
    pub state: u8,
    pub tag: u32,
    pub word: u32,
    /// A processor, or 4 for none.
    pub next: u8,
}

impl LineView {
    pub const INVALID: LineView = LineView { state: 0, tag: 0, word: 0, next: 4 };
}

/// (kind, address, supplier, invalidated, written)
pub type Report = (u32, u32, u32, u32, u32);

pub const NO_REQUEST: Report = (0, 0, 5, 0, 0);

#[derive(Clone, Copy, Debug, PartialEq, Eq, Hash)]
struct Bus {
    address: u32,
    kind: u8,
    supplier: u8,
    invalidated: u8,
    written: u8,
}

const QUIET: Bus = Bus { address: 0, kind: 0, supplier: 5, invalidated: 0, written: 0 };

#[derive(Clone, Debug, PartialEq, Eq, Hash)]
pub struct Snooping {
    words: Vec<u32>,
    /// `lines[c][p]` is line `c` of the cache of `p`.
    lines: [[Line; PROCESSORS]; CLASSES],
    /// Bit `c` of `valid[p]`: line `c` of `p` is valid.
    valid: [u16; PROCESSORS],
    /// The active processors, oldest first; only the first `active` count.
    order: [u8; PROCESSORS],
    /// The place of each processor in `order`, or `NONE`.
    place: [u8; PROCESSORS],
    active: u8,
    bus: Bus,
}

is_a_store!(Snooping);

impl Snooping {
    pub fn open(words: Vec<u32>) -> Result<Snooping, u8> {
        check_size(words.len())?;
        Ok(Snooping {
            words,
            lines: [[INVALID; PROCESSORS]; CLASSES],
            valid: [0; PROCESSORS],
            order: [0; PROCESSORS],
            place: [NONE; PROCESSORS],
            active: 0,
            bus: QUIET,
        })
    }

    pub fn close(self) -> Vec<u32> {
        self.words
    }

    pub fn size(&self) -> u32 {
        self.words.len() as u32
    }

    pub fn tasks(&self) -> u32 {
        self.active as u32
    }

    pub fn word(&self, a: u32) -> Result<u32, u8> {
        self.words.get(a as usize).copied().ok_or(NO_ADDRESS)
    }

    pub fn words(&self) -> &[u32] {
        &self.words
    }

    /// Line `c` (0 to 15) of processor `p` (0 to 3).
    pub fn line(&self, p: u32, c: u32) -> LineView {
        let l = self.lines[c as usize][p as usize];
        LineView { state: l.state, tag: l.tag as u32, word: l.word, next: l.next }
    }

    pub fn report(&self) -> Report {
        let b = self.bus;
        (b.kind as u32, b.address, b.supplier as u32, b.invalidated as u32, b.written as u32)
    }

    #[inline]
    pub fn turn(&mut self, t: Turn) -> Result<u32, u8> {
        match t {
            Turn::Load(p, a) => self.load(p, a),
            Turn::Store(p, a, w) => self.store(p, a, w),
            Turn::Start(p) => self.start(p),
            Turn::Squash(p) => self.squash(p),
            Turn::Commit(p) => self.commit(p),
            Turn::Replace(p, a) => self.replace(p, a),
        }
    }

    /// Refusals 1 and 3; else the processor and its place.
    #[inline(always)]
    fn running(&self, p: u32) -> Result<(usize, usize), u8> {
        if p >= PROCESSORS as u32 {
            return Err(NO_PROCESSOR);
        }
        let i = self.place[p as usize];
        if i == NONE {
            return Err(NO_TASK);
        }
        Ok((p as usize, (i & 3) as usize))
    }

    fn start(&mut self, p: u32) -> Result<u32, u8> {
        if p >= PROCESSORS as u32 {
            return Err(NO_PROCESSOR);
        }
        if self.place[p as usize] != NONE {
            return Err(TASK_ACTIVE);
        }
        let before = self.active;
        self.order[(before & 3) as usize] = p as u8;
        self.place[p as usize] = before;
        self.active = before + 1;
        self.bus = QUIET;
        Ok(before as u32)
    }

    #[inline]
    fn load(&mut self, p: u32, a: u32) -> Result<u32, u8> {
        let (p, i) = self.running(p)?;
        if a as usize >= self.words.len() {
            return Err(NO_ADDRESS);
        }
        let c = (a & 15) as usize;
        let own = &self.lines[c][p];
        if own.state != 0 {
            if own.tag as u32 != a {
                return Err(CLASS_TAKEN);
            }
            self.bus = QUIET;
            return Ok(own.word);
        }
        let (before, next) = self.neighbours(i, c, a);
        // Every earlier line of the address is asked, the nearest first.
        let mut supplier = 4;
        let mut word = self.words[a as usize];
        let row = &mut self.lines[c];
        if before != NONE {
            row[(before & 3) as usize].next = p as u8;
            for k in (0..i).rev() {
                let q = self.order[k] & 3;
                let l = &row[q as usize];
                if l.state & S != 0 && l.tag as u32 == a {
                    supplier = q;
                    word = l.word;
                    break;
                }
            }
        }
        row[p] = Line { word, tag: a as u16, state: L, next };
        self.valid[p] |= 1 << c;
        self.bus = Bus { kind: 1, address: a, supplier, invalidated: 0, written: 0 };
        Ok(word)
    }

    /// For a task at place `i` without a line for `a`: the processors of the
    /// line before it and after it in the list of `a`.
    #[inline]
    fn neighbours(&self, i: usize, c: usize, a: u32) -> (u8, u8) {
        let row = &self.lines[c];
        for k in (0..i).rev() {
            let q = self.order[k] & 3;
            let l = &row[q as usize];
            if l.state != 0 && l.tag as u32 == a {
                return (q, l.next);
            }
        }
        for k in i + 1..(self.active as usize).min(PROCESSORS) {
            let q = self.order[k] & 3;
            let l = &row[q as usize];
            if l.state != 0 && l.tag as u32 == a {
                return (NONE, q);
            }
        }
        (NONE, NONE)
    }

    #[inline]
    fn store(&mut self, p: u32, a: u32, w: u32) -> Result<u32, u8> {
        let (p, i) = self.running(p)?;
        if a as usize >= self.words.len() {
            return Err(NO_ADDRESS);
        }
        let c = (a & 15) as usize;
        let own = &mut self.lines[c][p];
        let had = own.state;
        if had != 0 {
            if own.tag as u32 != a {
                return Err(CLASS_TAKEN);
            }
            if had & S != 0 && own.next == NONE {
                own.word = w;
                self.bus = QUIET;
                return Ok(0);
            }
        }
        let (before, mut next) =
            if had != 0 { (NONE, own.next) } else { self.neighbours(i, c, a) };

        // Along the list: which line squashes first, and how far the
        // invalidations go (`reach` is the first place that gets none).
        let row = &self.lines[c];
        let mut victim = NONE;
        let mut reach = self.active;
        let mut q = next;
        while q != NONE {
            let l = &row[(q & 3) as usize];
            if l.state & L != 0 && victim == NONE {
                victim = q;
            }
            if l.state & S != 0 {
                reach = self.place[(q & 3) as usize] + (l.state & L);
                break;
            }
            q = l.next;
        }
        let mut invalidated = 0u8;
        for k in i + 1..(reach as usize).min(PROCESSORS) {
            invalidated |= 1 << (self.order[k] & 3);
        }

        let mut squashed = 0;
        if victim != NONE {
            squashed = self.cut(self.place[(victim & 3) as usize]);
            // All later lines up to an S have L, so the victim is the very next.
            next = NONE;
        }

        let row = &mut self.lines[c];
        if before != NONE {
            row[(before & 3) as usize].next = p as u8;
        }
        row[p] = Line { word: w, tag: a as u16, state: had | S, next };
        self.valid[p] |= 1 << c;
        self.bus = Bus { kind: 2, address: a, supplier: 5, invalidated, written: 0 };
        Ok(squashed)
    }

    /// Removes the tasks from place `from` on, with their lines, and ends the
    /// lists before them.
    fn cut(&mut self, from: u8) -> u32 {
        let from = from as usize;
        let active = (self.active as usize).min(PROCESSORS);
        let mut touched = 0u16;
        for k in from..active {
            let q = (self.order[k] & 3) as usize;
            let mut left = self.valid[q];
            touched |= left;
            while left != 0 {
                let c = left.trailing_zeros() as usize;
                left &= left - 1;
                self.lines[c & 15][q] = INVALID;
            }
            self.valid[q] = 0;
            self.place[q] = NONE;
        }
        // `place` is NONE for the cut ones: a pointer to one ends here.
        for k in 0..from.min(PROCESSORS) {
            let q = (self.order[k] & 3) as usize;
            let mut left = self.valid[q] & touched;
            while left != 0 {
                let c = left.trailing_zeros() as usize;
                left &= left - 1;
                let l = &mut self.lines[c & 15][q];
                if l.next != NONE && self.place[(l.next & 3) as usize] == NONE {
                    l.next = NONE;
                }
            }
        }
        self.active = from as u8;
        (active - from) as u32
    }

    fn squash(&mut self, p: u32) -> Result<u32, u8> {
        let (_, i) = self.running(p)?;
        if i == 0 {
            return Err(IS_HEAD);
        }
        self.bus = QUIET;
        Ok(self.cut(i as u8))
    }

    fn commit(&mut self, p: u32) -> Result<u32, u8> {
        let (p, i) = self.running(p)?;
        if i != 0 {
            return Err(NOT_HEAD);
        }
        // The head's lines are the first of their lists: nothing points here.
        let mut written = 0u8;
        let mut last = 0;
        let mut left = self.valid[p];
        while left != 0 {
            let c = left.trailing_zeros() as usize & 15;
            left &= left - 1;
            let l = &mut self.lines[c][p];
            if l.state & S != 0 {
                self.words[l.tag as usize] = l.word;
                last = l.tag as u32;
                written += 1;
            }
            *l = INVALID;
        }
        self.valid[p] = 0;
        self.place[p] = NONE;
        let active = (self.active as usize).min(PROCESSORS);
        for k in 1..active {
            let q = self.order[k];
            self.order[k - 1] = q;
            self.place[(q & 3) as usize] = (k - 1) as u8;
        }
        self.active = (active - 1) as u8;
        self.bus = if written == 0 {
            QUIET
        } else {
            Bus { kind: 3, address: last, supplier: 5, invalidated: 0, written }
        };
        Ok(written as u32)
    }

    fn replace(&mut self, p: u32, a: u32) -> Result<u32, u8> {
        let (p, i) = self.running(p)?;
        if a as usize >= self.words.len() {
            return Err(NO_ADDRESS);
        }
        if i != 0 {
            return Err(NOT_HEAD);
        }
        let c = (a & 15) as usize;
        let l = &mut self.lines[c][p];
        if l.state == 0 || l.tag as u32 != a {
            return Err(NOT_HELD);
        }
        let stored = l.state & S != 0;
        if stored {
            self.words[a as usize] = l.word;
            self.bus = Bus { kind: 3, address: a, supplier: 5, invalidated: 0, written: 1 };
        } else {
            self.bus = QUIET;
        }
        *l = INVALID;
        self.valid[p] &= !(1 << c);
        Ok(stored as u32)
    }
}
