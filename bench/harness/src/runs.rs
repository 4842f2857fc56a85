//! Random lists of commands through `model_snooping` and `model_central`, against the independent stores.

use crate::counts::Commands;
use crate::model::{self, command_of, turn_of, Command, Reply};
use crate::twist::Twist;
use independent::definition::{lines_of, report_of};
use independent::generate::{turns, Mix, Rng};
use independent::snooping::{Report, NO_REQUEST};
use independent::text::line_of;
use independent::turn::{CLASSES, PROCESSORS};
use independent::{Buffer, Kind, LineView, Plain, Snooping, Turn};

/// One call: all that it is made from.
#[derive(Clone, Debug)]
pub struct Case {
    pub kind: Kind,
    pub words: Vec<u32>,
    pub turns: Vec<Turn>,
    /// What else is asked after each turn, and what stands in fields that a command does not have.
    pub seed: u64,
    /// Nothing else is asked: turns alone, perhaps none.
    pub turns_alone: bool,
    /// How many replies there are beyond the commands; below 0, too few.
    pub spare: i64,
}

/// The first place where the two sides differ.
#[derive(Clone, Debug, PartialEq, Eq)]
pub struct Difference {
    /// As many turns were played before.
    pub after: usize,
    pub asked: String,
    pub model: String,
    pub independent: String,
}

impl Case {
    /// The same words and the same mix for both stores.
    pub fn random(seed: u64, kind: Kind) -> Case {
        let mut rng = Rng::new(seed);
        let bad = rng.percent(2);
        let size = match rng.below(20) {
            _ if bad => rng.pick(&[0, 0, 4097, 4097, 4098, 5000, 8192, 70_000]),
            0 => 1,
            1..=5 => 2 + rng.below(15),
            6..=13 => 17 + rng.below(48),
            14..=17 => 65 + rng.below(200),
            18 => 1 + rng.below(4096),
            _ => rng.pick(&[4095, 4096, 4096]),
        };
        let fill = rng.below(4);
        let words = (0..size)
            .map(|a| match fill {
                0 => 0,
                1 => 1000 + a,
                2 => rng.below(100),
                _ => rng.u32(),
            })
            .collect();
        let length = match rng.below(100) {
            0 => 1500 + rng.below(1000),
            1..=5 => 0,
            6..=35 => rng.below(20),
            36..=75 => rng.below(100),
            _ => rng.below(300),
        };
        let mix = rng.pick(&Mix::ALL);
        // Turns for a size that is refused are made for one that is not.
        let turns = turns(rng.next(), mix, if bad { 33 } else { size }, length as usize);
        let spare = match rng.below(50) {
            0 => -1 - rng.below(3) as i64,
            1 => -1_000_000,
            2..=20 => 0,
            _ => 1 + rng.below(5) as i64,
        };
        Case { kind, words, turns, seed: rng.next(), turns_alone: rng.percent(15), spare }
    }

    pub fn commands(&self) -> Vec<Command> {
        let mut row = Vec::with_capacity(80 * (self.turns.len() + 1));
        self.ask(0, &mut row);
        for (i, &turn) in self.turns.iter().enumerate() {
            let mut rng = Rng::new(self.seed ^ (i as u64) << 32);
            row.push(command_of(turn, rng.u32(), rng.u32()));
            self.ask(i + 1, &mut row);
        }
        row
    }

    /// What is asked after as many turns: all lines, the report, the number of tasks, some words, sometimes what is not there.
    fn ask(&self, played: usize, row: &mut Vec<Command>) {
        if self.turns_alone {
            return;
        }
        let mut rng = Rng::new(self.seed.rotate_left(17) ^ (played as u64) << 32);
        let n = self.words.len() as u32;
        for p in 0..PROCESSORS as u32 {
            for c in 0..CLASSES as u32 {
                row.push(Command { code: model::LINE, p, a: c, w: rng.u32() });
            }
        }
        row.push(Command { code: model::REPORT, p: rng.u32(), a: rng.u32(), w: rng.u32() });
        row.push(Command { code: model::TASKS, p: rng.u32(), a: rng.u32(), w: rng.u32() });
        let at = match self.turns.get(played.wrapping_sub(1)) {
            Some(&Turn::Load(_, a) | &Turn::Store(_, a, _) | &Turn::Replace(_, a)) => a,
            _ => rng.below(n.max(1)),
        };
        for a in [at, rng.below(n.max(1)), rng.below(n.max(1)), n.wrapping_sub(1)] {
            row.push(Command { code: model::WORD, p: rng.u32(), a, w: rng.u32() });
        }
        if rng.percent(20) {
            let any = rng.u32();
            let edge = rng.pick(&[4, 5, 255, 256, 1 << 31, u32::MAX, any]);
            row.push(Command { code: model::LINE, p: edge, a: rng.below(16), w: 0 });
            let edge = rng.pick(&[16, 17, 256, 1 << 16, u32::MAX, any.max(16)]);
            row.push(Command { code: model::LINE, p: rng.below(4), a: edge, w: 0 });
            let edge = rng.pick(&[n, n.wrapping_add(1), 4096, 4097, 1 << 31, u32::MAX, any]);
            row.push(Command { code: model::WORD, p: 0, a: edge, w: 0 });
            let edge = rng.pick(&[10, 11, 255, 256, 1 << 16, 1 << 31, u32::MAX, any.max(10)]);
            row.push(Command { code: edge, p: rng.below(5), a: rng.below(16), w: rng.u32() });
        }
    }

    fn replies(&self, commands: usize) -> usize {
        (commands as i64 + self.spare).max(0) as usize
    }
}

/// The three stores, and what the plain one says of lines and the bus.
struct Sides {
    plain: Plain,
    snooping: Snooping,
    buffer: Buffer,
    lines: [[LineView; CLASSES]; PROCESSORS],
    report: Report,
}

fn line_reply(line: LineView) -> Reply {
    let LineView { state, tag, word, next } = line;
    Reply::numbers([state as u32 & 1, state as u32 >> 1, tag, word, next as u32])
}

fn report_reply(report: Report) -> Reply {
    let (kind, address, supplier, invalidated, written) = report;
    Reply::numbers([kind, address, supplier, invalidated, written])
}

impl Sides {
    fn open(words: &[u32]) -> Sides {
        let plain = Plain::open(words.to_vec()).expect("the size was checked");
        Sides {
            lines: lines_of(&plain),
            plain,
            snooping: Snooping::open(words.to_vec()).expect("the size was checked"),
            buffer: Buffer::open(words.to_vec()).expect("the size was checked"),
            report: NO_REQUEST,
        }
    }

    /// What each of the independent side's parts replies.
    fn replies(&mut self, kind: Kind, command: Command) -> ([(&'static str, Reply); 3], usize) {
        let Command { code, p, a, .. } = command;
        let one = |reply| ([("include/model.h", reply); 3], 1);
        if let Some(turn) = turn_of(command) {
            let before = self.plain.clone();
            let plain = self.plain.turn(turn);
            self.report = report_of(&before, turn, plain, self.report);
            self.lines = lines_of(&self.plain);
            let snooping = Reply::answer(self.snooping.turn(turn));
            let buffer = Reply::answer(self.buffer.turn(turn));
            return ([("snooping", snooping), ("buffer", buffer), ("plain", Reply::answer(plain))], 3);
        }
        let known = match code {
            model::WORD => [
                ("snooping", Reply::answer(self.snooping.word(a))),
                ("buffer", Reply::answer(self.buffer.word(a))),
                ("plain", Reply::answer(self.plain.word(a))),
            ],
            model::TASKS => [
                ("snooping", Reply::answer(Ok(self.snooping.tasks()))),
                ("buffer", Reply::answer(Ok(self.buffer.tasks()))),
                ("plain", Reply::answer(Ok(self.plain.tasks()))),
            ],
            model::LINE if kind == Kind::Snooping && p < 4 && a < 16 => {
                let caches = ("snooping", line_reply(self.snooping.line(p, a)));
                let page = ("lines of the plain store", line_reply(self.lines[p as usize][a as usize]));
                return ([caches, page, page], 2);
            }
            model::REPORT if kind == Kind::Snooping => {
                let caches = ("snooping", report_reply(self.snooping.report()));
                let page = ("report of the plain store", report_reply(self.report));
                return ([caches, page, page], 2);
            }
            _ => return one(Reply::status(model::NOTHING)),
        };
        (known, 3)
    }
}

fn asked(command: Command) -> String {
    let Command { code, p, a, .. } = command;
    match code {
        0..=5 => turn_of(command).map_or(String::new(), |turn| line_of(turn).trim_end().to_string()),
        model::WORD => format!("the memory's word at {a}"),
        model::TASKS => "the number of active tasks".into(),
        model::LINE => format!("line {a} of processor {p}"),
        model::REPORT => "the bus report".into(),
        _ => format!("a command of code {code}"),
    }
}

fn told(r: Reply) -> String {
    let Reply { status, first, second, third, fourth, fifth } = r;
    format!("status {status}, numbers {first} {second} {third} {fourth} {fifth}")
}

/// What lies round the two rows and in replies that nothing is to be written to.
const GUARD: usize = 8;
const GUARD_WORD: u32 = 0xdead_0001;
const UNTOUCHED: Reply = Reply { status: 77, first: 78, second: 79, third: 80, fourth: 81, fifth: 82 };

/// Makes the call and compares all that it tells.
pub fn check(case: &Case, twist: Option<Twist>, counts: &mut Commands) -> Result<(), Difference> {
    let commands = case.commands();
    let n = case.words.len();
    let room = case.replies(commands.len());

    let mut word_row = vec![GUARD_WORD; n + 2 * GUARD];
    word_row[GUARD..GUARD + n].copy_from_slice(&case.words);
    let mut reply_row = vec![UNTOUCHED; room + 2 * GUARD];
    let outcome = model::run(
        case.kind,
        &mut word_row[GUARD..GUARD + n],
        &commands,
        &mut reply_row[GUARD..GUARD + room],
    );
    match twist {
        Some(Twist::BehindWords) => word_row[GUARD + n] = 0,
        Some(Twist::BeforeReplies) => reply_row[GUARD - 1] = Reply::default(),
        Some(Twist::RefusedWords) if outcome != 0 && n > 0 => word_row[GUARD] ^= 1,
        Some(Twist::RefusedReplies) if outcome != 0 && room > 0 => reply_row[GUARD] = Reply::default(),
        Some(Twist::SpareReply) if outcome == 0 && room > commands.len() => {
            reply_row[GUARD + commands.len()] = Reply::default();
        }
        _ => {}
    }
    let words = &word_row[GUARD..GUARD + n];
    let replies = &reply_row[GUARD..GUARD + room];

    let differs = |after: usize, asked: String, model: String, independent: String| {
        Err(Difference { after, asked, model, independent })
    };
    let count = case.turns.len();
    let bad_size = independent::turn::check_size(n).is_err();
    let too_few = room < commands.len();
    let wanted = match (bad_size, too_few) {
        (true, _) => 17,
        (false, true) => 16,
        (false, false) => 0,
    };
    let told_outcome = twist.map_or(wanted, |t| t.outcome(n, wanted));
    if outcome != told_outcome {
        return differs(count, "what the call returns".into(), outcome.to_string(), told_outcome.to_string());
    }
    let outside = word_row[..GUARD].iter().chain(&word_row[GUARD + n..]).all(|&w| w == GUARD_WORD)
        && reply_row[..GUARD].iter().chain(&reply_row[GUARD + room..]).all(|&r| r == UNTOUCHED);
    if !outside {
        return differs(count, "what lies round the rows".into(), "changed".into(), "as it was".into());
    }
    counts.calls[(case.kind == Kind::Buffer) as usize] += 1;
    counts.alone[commands.is_empty() as usize] += case.turns_alone as u64;
    counts.size(n);
    counts.outcomes[match (bad_size, too_few) {
        (true, true) => 3,
        (true, false) => 2,
        (false, true) => 1,
        (false, false) => 0,
    }] += 1;
    if wanted != 0 {
        if words != case.words {
            return differs(count, "the words of a refused call".into(), "changed".into(), "as they were".into());
        }
        if replies.iter().any(|&r| r != UNTOUCHED) {
            return differs(count, "the replies of a refused call".into(), "changed".into(), "as they were".into());
        }
        return Ok(());
    }

    let mut sides = Sides::open(&case.words);
    let mut played = 0;
    let snooping = case.kind == Kind::Snooping;
    for (i, &command) in commands.iter().enumerate() {
        let (views, view_count) = sides.replies(case.kind, command);
        for &(whose, reply) in &views[..view_count] {
            let reply = twist.map_or(reply, |t| t.reply(command, reply));
            if replies[i] != reply {
                let independent = format!("{} ({whose})", told(reply));
                return differs(played, asked(command), told(replies[i]), independent);
            }
        }
        counts.reply(snooping, command, replies[i]);
        if command.code <= 5 {
            played += 1;
            let hit = replies[i].status == 0 && sides.report.0 == 0;
            if let 1 | 2 = command.code {
                counts.hits[command.code as usize - 1] += hit as u64;
            }
        }
    }
    if replies[commands.len()..].iter().any(|&r| r != UNTOUCHED) {
        return differs(count, "the replies beyond the commands".into(), "changed".into(), "as they were".into());
    }
    let Sides { plain, snooping, buffer, .. } = sides;
    for (whose, mut left) in [("snooping", snooping.close()), ("buffer", buffer.close()), ("plain", plain.close())] {
        if let Some(t) = twist {
            t.words(&mut left);
        }
        if let Some(a) = (0..n).find(|&a| words[a] != left[a]) {
            let independent = format!("{} ({whose})", left[a]);
            return differs(count, format!("the word at {a} in the end"), words[a].to_string(), independent);
        }
    }
    Ok(())
}

/// The smallest prefix of the turns that still differs, and how.
pub fn smallest_prefix(case: &Case, twist: Option<Twist>) -> Option<(Case, Difference)> {
    (0..=case.turns.len()).find_map(|length| {
        let prefix = Case { turns: case.turns[..length].to_vec(), ..case.clone() };
        let difference = check(&prefix, twist, &mut Commands::default()).err()?;
        Some((prefix, difference))
    })
}

/// Leaves out each turn without which there still is a difference, and the words if zeros do as well.
pub fn without_needless_turns(case: &Case, twist: Option<Twist>) -> (Case, Difference) {
    let look = |case: &Case| check(case, twist, &mut Commands::default()).err();
    let mut small = case.clone();
    let mut difference = look(&small).expect("it differs");
    let mut again = true;
    while again {
        again = false;
        for i in (0..small.turns.len()).rev() {
            let mut less = small.clone();
            less.turns.remove(i);
            if let Some(found) = look(&less) {
                (small, difference, again) = (less, found, true);
            }
        }
    }
    let zeros = Case { words: vec![0; small.words.len()], ..small.clone() };
    if let Some(found) = look(&zeros) {
        (small, difference) = (zeros, found);
    }
    (small, difference)
}

pub fn print(case: &Case, difference: &Difference) {
    let n = case.words.len();
    if case.words.iter().all(|&w| w == 0) {
        println!("{n} words, all 0");
    } else if n <= 64 {
        println!("{n} words: {:?}", case.words);
    } else {
        println!("{n} words, the first of them: {:?}", &case.words[..64]);
    }
    let commands = case.commands().len();
    if case.replies(commands) < commands {
        println!("{} replies for {commands} commands", case.replies(commands));
    }
    for &turn in &case.turns {
        print!("    {}", line_of(turn));
    }
    println!("after {} turns, asked: {}", difference.after, difference.asked);
    println!("  model:       {}", difference.model);
    println!("  independent: {}", difference.independent);
}
