//! One answer of the independent side, or one place that the model must leave alone, changed on purpose: what shows that the
//! comparison can fail.

use crate::model::{self, Command, Reply};

#[derive(Clone, Copy, Debug, PartialEq, Eq)]
pub enum Twist {
    /// A store that squashes two tasks or more tells one less.
    Answer,
    /// A replacement by a task that is not the head is refused with 8 instead of 6.
    Refusal,
    /// A line's pointer to processor 3 is none.
    Pointer,
    /// A line with L and S has S alone.
    State,
    /// A line's tag has lost its upper bits.
    Tag,
    /// A line's word is 0 where the line has L and a pointer.
    Copy,
    /// The supplier 2 is the memory.
    Supplier,
    /// Invalidations do not name processor 0.
    Invalidations,
    /// More than one word written back counts as one.
    Written,
    /// Four tasks are three.
    Tasks,
    /// A word past the memory's end is 0.
    Word,
    /// An unknown code tells a number.
    Code,
    /// The last word in the end is 0.
    LastWord,
    /// Too few replies are not refused.
    TooFew,
    /// 4,097 words are not refused.
    TooMany,
    /// A listing tells two tasks where there are three.
    Listing,
    /// A fault of a text is told one byte too far.
    Place,
    /// A fault 11 of an image is 12.
    Pair,
    /// As if the model had changed what lies behind the words, before the replies, the words or replies of a refused call, a reply
    /// beyond the commands, what lies behind a listing, or a listing's room where it is too small.
    BehindWords,
    BeforeReplies,
    RefusedWords,
    RefusedReplies,
    SpareReply,
    BehindListing,
    SmallRoom,
    /// As if the model told another length where the listing has room.
    Length,
}

impl Twist {
    pub const ALL: [(&'static str, Twist); 26] = [
        ("answer", Twist::Answer),
        ("refusal", Twist::Refusal),
        ("pointer", Twist::Pointer),
        ("state", Twist::State),
        ("tag", Twist::Tag),
        ("copy", Twist::Copy),
        ("supplier", Twist::Supplier),
        ("invalidations", Twist::Invalidations),
        ("written", Twist::Written),
        ("tasks", Twist::Tasks),
        ("word", Twist::Word),
        ("code", Twist::Code),
        ("last-word", Twist::LastWord),
        ("too-few", Twist::TooFew),
        ("too-many", Twist::TooMany),
        ("listing", Twist::Listing),
        ("place", Twist::Place),
        ("pair", Twist::Pair),
        ("behind-words", Twist::BehindWords),
        ("before-replies", Twist::BeforeReplies),
        ("refused-words", Twist::RefusedWords),
        ("refused-replies", Twist::RefusedReplies),
        ("spare-reply", Twist::SpareReply),
        ("behind-listing", Twist::BehindListing),
        ("small-room", Twist::SmallRoom),
        ("length", Twist::Length),
    ];

    pub fn named(name: &str) -> Option<Twist> {
        Twist::ALL.iter().find(|(known, _)| *known == name).map(|&(_, twist)| twist)
    }

    /// The reply to a command, changed where this twist says so.
    pub fn reply(self, command: Command, r: Reply) -> Reply {
        let ok = r.status == 0;
        let line = ok && command.code == model::LINE;
        let report = ok && command.code == model::REPORT;
        match self {
            Twist::Answer if ok && command.code == 2 && r.first >= 2 => Reply { first: r.first - 1, ..r },
            Twist::Refusal if command.code == 5 && r.status == 6 => Reply::status(8),
            Twist::Pointer if line && r.fifth == 3 => Reply { fifth: 4, ..r },
            Twist::State if line && r.first == 1 && r.second == 1 => Reply { first: 0, ..r },
            Twist::Tag if line && r.third >= 16 => Reply { third: r.third % 16, ..r },
            Twist::Copy if line && r.first == 1 && r.fifth != 4 => Reply { fourth: 0, ..r },
            Twist::Supplier if report && r.third == 2 => Reply { third: 4, ..r },
            Twist::Invalidations if report => Reply { fourth: r.fourth & !1, ..r },
            Twist::Written if report && r.fifth > 1 => Reply { fifth: 1, ..r },
            Twist::Tasks if ok && command.code == model::TASKS && r.first == 4 => Reply { first: 3, ..r },
            Twist::Word if command.code == model::WORD && r.status == 4 => Reply::default(),
            Twist::Code if command.code > model::REPORT => Reply::default(),
            _ => r,
        }
    }

    /// The outcome of a whole run.
    pub fn outcome(self, words: usize, outcome: u32) -> u32 {
        match self {
            Twist::TooFew if outcome == 16 => 0,
            Twist::TooMany if words == 4097 && outcome == 17 => 0,
            _ => outcome,
        }
    }

    pub fn words(self, words: &mut [u32]) {
        if self == Twist::LastWord {
            if let Some(last) = words.last_mut() {
                *last = 0;
            }
        }
    }

    pub fn listing(self, listing: Vec<u8>) -> Vec<u8> {
        let Ok(text) = std::str::from_utf8(&listing) else { return listing };
        match self {
            Twist::Listing => text.replace("tasks 3\n", "tasks 2\n").into_bytes(),
            Twist::Place => match text.strip_prefix("fault text 14 ").map(|place| place.trim().parse::<u64>()) {
                Some(Ok(place)) => format!("fault text 14 {}\n", place + 1).into_bytes(),
                _ => listing,
            },
            Twist::Pair => text.replace("fault image 11 ", "fault image 12 ").into_bytes(),
            _ => listing,
        }
    }
}
