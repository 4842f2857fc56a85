//! The central buffer: 16 sets of four rows; a row has an address and, for each
//! processor, perhaps a mark and perhaps an own word.

use crate::turn::*;

const WAYS: usize = 4;
const NONE: u8 = 4;

/// The address of a free row; no memory has it.
const FREE: u16 = u16::MAX;

/// Four rows, kept by column.
#[derive(Clone, Copy, Debug, PartialEq, Eq, Hash)]
struct Set {
    /// The address of each row, or `FREE`.
    address: [u16; WAYS],
    /// Bit `p` of `marks[r]`: processor `p` has a mark in row `r`.
    marks: [u8; WAYS],
    /// Bit `p` of `owns[r]`: processor `p` has an own word in row `r`.
    owns: [u8; WAYS],
    /// `words[r][p]`, of use where `owns` says so.
    words: [[u32; PROCESSORS]; WAYS],
}

impl Set {
    const EMPTY: Set = Set {
        address: [FREE; WAYS],
        marks: [0; WAYS],
        owns: [0; WAYS],
        words: [[0; PROCESSORS]; WAYS],
    };

    /// The first row with this address, or `WAYS`.
    #[inline(always)]
    fn find(&self, address: u16) -> usize {
        let mut found = 1u32 << WAYS;
        for r in 0..WAYS {
            found |= ((self.address[r] == address) as u32) << r;
        }
        found.trailing_zeros() as usize
    }

    #[inline(always)]
    fn held(&self, r: usize) -> u8 {
        self.marks[r] | self.owns[r]
    }

    /// Takes the version of `p` out of every row.
    #[inline(always)]
    fn forget(&mut self, p: usize) {
        let keep = !(1u8 << p);
        for r in 0..WAYS {
            self.marks[r] &= keep;
            self.owns[r] &= keep;
            if self.held(r) == 0 {
                self.address[r] = FREE;
            }
        }
    }
}

#[derive(Clone, Debug, PartialEq, Eq, Hash)]
pub struct Buffer {
    words: Vec<u32>,
    sets: [Set; CLASSES],
    /// Bit `c`: processor `p` holds a row of set `c`.
    holds: [u16; PROCESSORS],
    order: [u8; PROCESSORS],
    place: [u8; PROCESSORS],
    active: u8,
}

is_a_store!(Buffer);

impl Buffer {
    pub fn open(words: Vec<u32>) -> Result<Buffer, u8> {
        check_size(words.len())?;
        Ok(Buffer {
            words,
            sets: [Set::EMPTY; CLASSES],
            holds: [0; PROCESSORS],
            order: [0; PROCESSORS],
            place: [NONE; PROCESSORS],
            active: 0,
        })
    }

    pub fn close(self) -> Vec<u32> {
        self.words
    }

    pub fn size(&self) -> u32 {
        self.words.len() as u32
    }

    pub fn tasks(&self) -> u32 {
        self.active as u32
    }

    pub fn word(&self, a: u32) -> Result<u32, u8> {
        self.words.get(a as usize).copied().ok_or(NO_ADDRESS)
    }

    pub fn words(&self) -> &[u32] {
        &self.words
    }

    /// The rows of set `c` that are not free, by rising address: the address,
    /// and for each processor the mark and the own word.
    pub fn rows(&self, c: u32) -> Vec<(u32, [(bool, Option<u32>); PROCESSORS])> {
        let set = &self.sets[c as usize];
        let mut rows: Vec<_> = (0..WAYS)
            .filter(|&r| set.address[r] != FREE)
            .map(|r| {
                let versions = std::array::from_fn(|p| {
                    let own = set.owns[r] >> p & 1 != 0;
                    (set.marks[r] >> p & 1 != 0, own.then_some(set.words[r][p]))
                });
                (set.address[r] as u32, versions)
            })
            .collect();
        rows.sort();
        rows
    }

    #[inline]
    pub fn turn(&mut self, t: Turn) -> Result<u32, u8> {
        match t {
            Turn::Load(p, a) => self.load(p, a),
            Turn::Store(p, a, w) => self.store(p, a, w),
            Turn::Start(p) => self.start(p),
            Turn::Squash(p) => self.squash(p),
            Turn::Commit(p) => self.commit(p),
            Turn::Replace(p, a) => self.replace(p, a),
        }
    }

    #[inline(always)]
    fn running(&self, p: u32) -> Result<(usize, usize), u8> {
        if p >= PROCESSORS as u32 {
            return Err(NO_PROCESSOR);
        }
        let i = self.place[p as usize];
        if i == NONE {
            return Err(NO_TASK);
        }
        Ok((p as usize, (i & 3) as usize))
    }

    /// Refusals 4 and 5 of a load or a store; else the row of `a`, or `WAYS`.
    #[inline(always)]
    fn lookup(&self, p: usize, a: u32) -> Result<usize, u8> {
        if a as usize >= self.words.len() {
            return Err(NO_ADDRESS);
        }
        let c = (a & 15) as usize;
        let set = &self.sets[c];
        let r = set.find(a as u16);
        if self.holds[p] >> c & 1 != 0 && (r == WAYS || set.held(r & 3) >> p & 1 == 0) {
            return Err(CLASS_TAKEN);
        }
        Ok(r)
    }

    fn start(&mut self, p: u32) -> Result<u32, u8> {
        if p >= PROCESSORS as u32 {
            return Err(NO_PROCESSOR);
        }
        if self.place[p as usize] != NONE {
            return Err(TASK_ACTIVE);
        }
        let before = self.active;
        self.order[(before & 3) as usize] = p as u8;
        self.place[p as usize] = before;
        self.active = before + 1;
        Ok(before as u32)
    }

    #[inline]
    fn load(&mut self, p: u32, a: u32) -> Result<u32, u8> {
        let (p, i) = self.running(p)?;
        let r = self.lookup(p, a)?;
        let c = (a & 15) as usize;
        let set = &mut self.sets[c];
        if r == WAYS {
            // At most three other tasks hold a row each, so one is free.
            let r = set.find(FREE) & 3;
            set.address[r] = a as u16;
            set.marks[r] = 1 << p;
            self.holds[p] |= 1 << c;
            return Ok(self.words[a as usize]);
        }
        let r = r & 3;
        let owns = set.owns[r];
        if owns >> p & 1 != 0 {
            return Ok(set.words[r][p]);
        }
        set.marks[r] |= 1 << p;
        self.holds[p] |= 1 << c;
        if owns != 0 {
            for k in (0..i).rev() {
                let q = self.order[k] & 3;
                if owns >> q & 1 != 0 {
                    return Ok(set.words[r][q as usize]);
                }
            }
        }
        Ok(self.words[a as usize])
    }

    #[inline]
    fn store(&mut self, p: u32, a: u32, w: u32) -> Result<u32, u8> {
        let (p, i) = self.running(p)?;
        let mut r = self.lookup(p, a)?;
        let c = (a & 15) as usize;
        let mut squashed = 0;
        if r < WAYS {
            let (marks, owns) = (self.sets[c].marks[r & 3], self.sets[c].owns[r & 3]);
            for k in i + 1..(self.active as usize).min(PROCESSORS) {
                let q = self.order[k] & 3;
                if marks >> q & 1 != 0 {
                    squashed = self.cut(k);
                    // The row may have become free.
                    r = self.sets[c].find(a as u16);
                    break;
                }
                if owns >> q & 1 != 0 {
                    break;
                }
            }
        }
        let set = &mut self.sets[c];
        if r == WAYS {
            r = set.find(FREE);
            set.address[r & 3] = a as u16;
        }
        set.owns[r & 3] |= 1 << p;
        set.words[r & 3][p] = w;
        self.holds[p] |= 1 << c;
        Ok(squashed)
    }

    /// Takes the versions of processor `p` out of all rows.
    fn forget(&mut self, p: usize) {
        let mut left = self.holds[p];
        while left != 0 {
            let c = left.trailing_zeros() as usize & 15;
            left &= left - 1;
            self.sets[c].forget(p);
        }
        self.holds[p] = 0;
        self.place[p] = NONE;
    }

    fn cut(&mut self, from: usize) -> u32 {
        let active = (self.active as usize).min(PROCESSORS);
        for k in from..active {
            self.forget((self.order[k] & 3) as usize);
        }
        self.active = from as u8;
        (active - from) as u32
    }

    fn squash(&mut self, p: u32) -> Result<u32, u8> {
        let (_, i) = self.running(p)?;
        if i == 0 {
            return Err(IS_HEAD);
        }
        Ok(self.cut(i))
    }

    fn commit(&mut self, p: u32) -> Result<u32, u8> {
        let (p, i) = self.running(p)?;
        if i != 0 {
            return Err(NOT_HEAD);
        }
        let mut count = 0;
        let mut left = self.holds[p];
        while left != 0 {
            let c = left.trailing_zeros() as usize & 15;
            left &= left - 1;
            let set = &self.sets[c];
            for r in 0..WAYS {
                if set.owns[r] >> p & 1 != 0 {
                    self.words[set.address[r] as usize] = set.words[r][p];
                    count += 1;
                }
            }
        }
        self.forget(p);
        let active = (self.active as usize).min(PROCESSORS);
        for k in 1..active {
            let q = self.order[k];
            self.order[k - 1] = q;
            self.place[(q & 3) as usize] = (k - 1) as u8;
        }
        self.active = (active - 1) as u8;
        Ok(count)
    }

    fn replace(&mut self, p: u32, a: u32) -> Result<u32, u8> {
        let (p, i) = self.running(p)?;
        if a as usize >= self.words.len() {
            return Err(NO_ADDRESS);
        }
        if i != 0 {
            return Err(NOT_HEAD);
        }
        let c = (a & 15) as usize;
        let set = &mut self.sets[c];
        let r = set.find(a as u16);
        if r == WAYS || set.held(r & 3) >> p & 1 == 0 {
            return Err(NOT_HELD);
        }
        let wrote = set.owns[r & 3] >> p & 1;
        if wrote != 0 {
            self.words[a as usize] = set.words[r & 3][p];
        }
        set.forget(p);
        self.holds[p] &= !(1 << c);
        Ok(wrote as u32)
    }
}
