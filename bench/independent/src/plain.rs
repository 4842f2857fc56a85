//! The plain store of versions: words, order, and per task a map from address
//! to (mark, own word). Slow and obvious.

use crate::turn::*;
use std::collections::BTreeMap;

#[derive(Clone, Copy, Debug, PartialEq, Eq, Hash, Default, PartialOrd, Ord)]
pub struct Version {
    pub mark: bool,
    pub own: Option<u32>,
}

#[derive(Clone, Debug, PartialEq, Eq, Hash)]
pub struct Task {
    pub processor: u32,
    /// Only addresses that the task holds are in the map.
    pub versions: BTreeMap<u32, Version>,
}

impl Task {
    pub fn version(&self, a: u32) -> Version {
        self.versions.get(&a).copied().unwrap_or_default()
    }

    pub fn holds(&self, a: u32) -> bool {
        self.versions.contains_key(&a)
    }
}

#[derive(Clone, Debug, PartialEq, Eq, Hash)]
pub struct Plain {
    words: Vec<u32>,
    /// Oldest first.
    order: Vec<Task>,
}

is_a_store!(Plain);

impl Plain {
    pub fn open(words: Vec<u32>) -> Result<Plain, u8> {
        check_size(words.len())?;
        Ok(Plain { words, order: Vec::new() })
    }

    pub fn close(self) -> Vec<u32> {
        self.words
    }

    pub fn size(&self) -> u32 {
        self.words.len() as u32
    }

    pub fn tasks(&self) -> u32 {
        self.order.len() as u32
    }

    pub fn word(&self, a: u32) -> Result<u32, u8> {
        self.words.get(a as usize).copied().ok_or(NO_ADDRESS)
    }

    pub fn words(&self) -> &[u32] {
        &self.words
    }

    pub fn order(&self) -> &[Task] {
        &self.order
    }

    pub fn place(&self, p: u32) -> Option<usize> {
        self.order.iter().position(|t| t.processor == p)
    }

    /// The own word at `a` of the task at place `i` or of the nearest earlier
    /// one that has one, with that task's place.
    pub fn nearest_own(&self, i: usize, a: u32) -> Option<(usize, u32)> {
        (0..=i).rev().find_map(|k| self.order[k].version(a).own.map(|w| (k, w)))
    }

    /// The word that the task at place `i` sees at `a`.
    pub fn seen(&self, i: usize, a: u32) -> u32 {
        match self.nearest_own(i, a) {
            Some((_, w)) => w,
            None => self.words[a as usize],
        }
    }

    /// Does a store at `a` by the task at place `i` hit the task at place `k`?
    fn hits(&self, i: usize, k: usize, a: u32) -> bool {
        i < k
            && self.order[k].version(a).mark
            && !(i + 1..k).any(|b| self.order[b].version(a).own.is_some())
    }

    /// The conditions of a turn, in the order of the page.
    fn refusal(&self, t: Turn) -> Option<u8> {
        let numbers: &[u8] = match t {
            Turn::Start(_) => &[1, 2],
            Turn::Load(..) | Turn::Store(..) => &[1, 3, 4, 5],
            Turn::Squash(_) => &[1, 3, 7],
            Turn::Commit(_) => &[1, 3, 6],
            Turn::Replace(..) => &[1, 3, 4, 6, 8],
        };
        let (p, a) = match t {
            Turn::Start(p) | Turn::Squash(p) | Turn::Commit(p) => (p, 0),
            Turn::Load(p, a) | Turn::Store(p, a, _) | Turn::Replace(p, a) => (p, a),
        };
        let place = self.place(p);
        let task = place.map(|i| &self.order[i]);
        numbers.iter().copied().find(|number| match number {
            1 => p >= 4,
            2 => place.is_some(),
            3 => place.is_none(),
            4 => a >= self.size(),
            5 => task.is_some_and(|t| t.versions.keys().any(|&b| b != a && b % 16 == a % 16)),
            6 => place != Some(0),
            7 => place == Some(0),
            8 => task.is_some_and(|t| !t.holds(a)),
            _ => unreachable!(),
        })
    }

    pub fn turn(&mut self, t: Turn) -> Result<u32, u8> {
        if let Some(number) = self.refusal(t) {
            return Err(number);
        }
        Ok(match t {
            Turn::Start(p) => {
                self.order.push(Task { processor: p, versions: BTreeMap::new() });
                self.tasks() - 1
            }
            Turn::Load(p, a) => {
                let i = self.place(p).unwrap();
                let w = self.seen(i, a);
                if self.order[i].version(a).own.is_none() {
                    self.order[i].versions.entry(a).or_default().mark = true;
                }
                w
            }
            Turn::Store(p, a, w) => {
                let i = self.place(p).unwrap();
                let active = self.order.len();
                let cut = (i + 1..active).find(|&k| self.hits(i, k, a)).unwrap_or(active);
                self.order.truncate(cut);
                self.order[i].versions.entry(a).or_default().own = Some(w);
                (active - cut) as u32
            }
            Turn::Squash(p) => {
                let i = self.place(p).unwrap();
                let active = self.order.len();
                self.order.truncate(i);
                (active - i) as u32
            }
            Turn::Commit(_) => {
                let task = self.order.remove(0);
                let mut count = 0;
                for (&a, v) in &task.versions {
                    if let Some(w) = v.own {
                        self.words[a as usize] = w;
                        count += 1;
                    }
                }
                count
            }
            Turn::Replace(_, a) => {
                let v = self.order[0].versions.remove(&a).unwrap();
                match v.own {
                    Some(w) => {
                        self.words[a as usize] = w;
                        1
                    }
                    None => 0,
                }
            }
        })
    }
}
