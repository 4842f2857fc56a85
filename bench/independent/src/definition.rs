//! What the page on the snooping store says of lines and of the bus report,
//! computed from the plain store. Only for comparison: `snooping.rs` does not
//! use it.

use crate::plain::Plain;
use crate::snooping::{LineView, Report, NO_REQUEST};
use crate::turn::*;

/// The lines that stand for the versions of a plain store, `[p][c]`.
pub fn lines_of(s: &Plain) -> [[LineView; CLASSES]; PROCESSORS] {
    let mut lines = [[LineView::INVALID; CLASSES]; PROCESSORS];
    for (i, task) in s.order().iter().enumerate() {
        for (&a, v) in &task.versions {
            let next = s.order()[i + 1..]
                .iter()
                .find(|t| t.holds(a))
                .map_or(4, |t| t.processor as u8);
            lines[task.processor as usize][a as usize % 16] = LineView {
                state: v.mark as u8 + 2 * v.own.is_some() as u8,
                tag: a,
                word: s.seen(i, a),
                next,
            };
        }
    }
    lines
}

/// The bus report after a turn: from the plain store before it, the answer,
/// and the report before it.
pub fn report_of(s: &Plain, t: Turn, answer: Result<u32, u8>, old: Report) -> Report {
    if answer.is_err() {
        return old;
    }
    match t {
        Turn::Start(_) | Turn::Squash(_) => NO_REQUEST,
        Turn::Load(p, a) => {
            let i = s.place(p).unwrap();
            if s.order()[i].holds(a) {
                return NO_REQUEST;
            }
            let supplier = s.nearest_own(i, a).map_or(4, |(k, _)| s.order()[k].processor);
            (1, a, supplier, 0, 0)
        }
        Turn::Store(p, a, _) => {
            let i = s.place(p).unwrap();
            let later = &s.order()[i + 1..];
            let last = !later.iter().any(|t| t.holds(a));
            if s.order()[i].version(a).own.is_some() && last {
                return NO_REQUEST;
            }
            let end = later.iter().position(|t| t.version(a).own.is_some());
            let told = match end {
                None => later,
                Some(k) if later[k].version(a).mark => &later[..=k],
                Some(k) => &later[..k],
            };
            (2, a, 5, told.iter().map(|t| 1 << t.processor).sum(), 0)
        }
        Turn::Commit(_) => {
            let owns = s.order()[0].versions.iter().filter(|(_, v)| v.own.is_some());
            let addresses: Vec<u32> = owns.map(|(&a, _)| a).collect();
            match addresses.iter().max_by_key(|&&a| a % 16) {
                None => NO_REQUEST,
                Some(&a) => (3, a, 5, 0, addresses.len() as u32),
            }
        }
        Turn::Replace(_, a) => {
            if s.order()[0].version(a).own.is_some() {
                (3, a, 5, 0, 1)
            } else {
                NO_REQUEST
            }
        }
    }
}

/// Plays one turn on all three stores and compares all that can be seen. `Err`
/// says what differs.
pub struct Trio {
    pub plain: Plain,
    pub snooping: crate::Snooping,
    pub buffer: crate::Buffer,
    report: Report,
}

impl Trio {
    pub fn open(words: Vec<u32>) -> Result<Trio, u8> {
        Ok(Trio {
            plain: Plain::open(words.clone())?,
            snooping: crate::Snooping::open(words.clone())?,
            buffer: crate::Buffer::open(words)?,
            report: NO_REQUEST,
        })
    }

    pub fn turn(&mut self, t: Turn) -> Result<Result<u32, u8>, String> {
        let before = self.plain.clone();
        let wanted = self.plain.turn(t);
        self.report = report_of(&before, t, wanted, self.report);
        let snooping = self.snooping.turn(t);
        let buffer = self.buffer.turn(t);
        if wanted.is_err() && before != self.plain {
            return Err(format!("{t:?}: refused, but the plain store has changed"));
        }
        if snooping != wanted {
            return Err(format!("{t:?}: plain {wanted:?}, snooping {snooping:?}"));
        }
        if buffer != wanted {
            return Err(format!("{t:?}: plain {wanted:?}, buffer {buffer:?}"));
        }
        self.look().map_err(|e| format!("{t:?}: {e}"))?;
        Ok(wanted)
    }

    /// All that can be seen of the three, without a turn.
    pub fn look(&self) -> Result<(), String> {
        let (plain, snooping, buffer) = (&self.plain, &self.snooping, &self.buffer);
        if snooping.report() != self.report {
            return Err(format!("report {:?}, wanted {:?}", snooping.report(), self.report));
        }
        if snooping.tasks() != plain.tasks() || buffer.tasks() != plain.tasks() {
            return Err("tasks".into());
        }
        if snooping.words() != plain.words() || buffer.words() != plain.words() {
            return Err("words".into());
        }
        let lines = lines_of(plain);
        for p in 0..4 {
            for c in 0..16 {
                let (is, wanted) = (snooping.line(p, c), lines[p as usize][c as usize]);
                if is != wanted {
                    return Err(format!("line {p} {c}: {is:?}, wanted {wanted:?}"));
                }
            }
        }
        for c in 0..16 {
            let mut wanted = std::collections::BTreeMap::new();
            for task in plain.order() {
                for (&a, v) in task.versions.iter().filter(|(&a, _)| a % 16 == c) {
                    wanted.entry(a).or_insert([(false, None); 4])[task.processor as usize] =
                        (v.mark, v.own);
                }
            }
            if buffer.rows(c) != wanted.into_iter().collect::<Vec<_>>() {
                return Err(format!("rows of set {c}"));
            }
        }
        Ok(())
    }
}
