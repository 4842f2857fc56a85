//! The model's calls, as include/model.h declares them.

use independent::{Kind, Turn};

pub const NOTHING: u32 = 255;

pub const WORD: u32 = 6;
pub const TASKS: u32 = 7;
pub const LINE: u32 = 8;
pub const REPORT: u32 = 9;

#[repr(C)]
#[derive(Clone, Copy, Debug, PartialEq, Eq)]
pub struct Command {
    pub code: u32,
    pub p: u32,
    pub a: u32,
    pub w: u32,
}

#[repr(C)]
#[derive(Clone, Copy, Debug, PartialEq, Eq, Default)]
pub struct Reply {
    pub status: u32,
    pub first: u32,
    pub second: u32,
    pub third: u32,
    pub fourth: u32,
    pub fifth: u32,
}

impl Reply {
    pub fn status(status: u32) -> Reply {
        Reply { status, ..Reply::default() }
    }

    /// What a turn gave, or its refusal.
    #[inline]
    pub fn answer(answer: Result<u32, u8>) -> Reply {
        match answer {
            Ok(first) => Reply { first, ..Reply::default() },
            Err(refusal) => Reply::status(refusal as u32),
        }
    }

    pub fn numbers(numbers: [u32; 5]) -> Reply {
        let [first, second, third, fourth, fifth] = numbers;
        Reply { status: 0, first, second, third, fourth, fifth }
    }
}

/// The command of a turn. In a field that it does not have stands the one given here.
pub fn command_of(turn: Turn, no_a: u32, no_w: u32) -> Command {
    let (code, p, a, w) = match turn {
        Turn::Start(p) => (0, p, no_a, no_w),
        Turn::Load(p, a) => (1, p, a, no_w),
        Turn::Store(p, a, w) => (2, p, a, w),
        Turn::Squash(p) => (3, p, no_a, no_w),
        Turn::Commit(p) => (4, p, no_a, no_w),
        Turn::Replace(p, a) => (5, p, a, no_w),
    };
    Command { code, p, a, w }
}

/// The turn of a command, if it is one.
#[inline]
pub fn turn_of(command: Command) -> Option<Turn> {
    let Command { code, p, a, w } = command;
    Some(match code {
        0 => Turn::Start(p),
        1 => Turn::Load(p, a),
        2 => Turn::Store(p, a, w),
        3 => Turn::Squash(p),
        4 => Turn::Commit(p),
        5 => Turn::Replace(p, a),
        _ => return None,
    })
}

extern "C" {
    fn model_snooping(
        words: *mut u32,
        word_count: usize,
        commands: *const Command,
        command_count: usize,
        replies: *mut Reply,
        reply_count: usize,
    ) -> u32;
    fn model_central(
        words: *mut u32,
        word_count: usize,
        commands: *const Command,
        command_count: usize,
        replies: *mut Reply,
        reply_count: usize,
    ) -> u32;
    fn model_play_snooping(
        image: *const u8,
        image_length: usize,
        text: *const u8,
        text_length: usize,
        listing: *mut u8,
        room: usize,
    ) -> usize;
    fn model_play_central(
        image: *const u8,
        image_length: usize,
        text: *const u8,
        text_length: usize,
        listing: *mut u8,
        room: usize,
    ) -> usize;
}

/// A whole run of the model's store of this kind.
pub fn run(kind: Kind, words: &mut [u32], commands: &[Command], replies: &mut [Reply]) -> u32 {
    let call = match kind {
        Kind::Snooping => model_snooping,
        Kind::Buffer => model_central,
        Kind::Plain => unreachable!("the model's library has no plain store"),
    };
    // SAFETY: three rows with their lengths, none null, no two overlapping.
    unsafe {
        call(
            words.as_mut_ptr(),
            words.len(),
            commands.as_ptr(),
            commands.len(),
            replies.as_mut_ptr(),
            replies.len(),
        )
    }
}

/// The listing's length; it is written where it is not above the row's.
pub fn play(kind: Kind, image: &[u8], text: &[u8], listing: &mut [u8]) -> usize {
    let call = match kind {
        Kind::Snooping => model_play_snooping,
        Kind::Buffer => model_play_central,
        Kind::Plain => unreachable!("the model's library has no plain store"),
    };
    // SAFETY: three rows with their lengths, none null, no two overlapping.
    unsafe {
        call(
            image.as_ptr(),
            image.len(),
            text.as_ptr(),
            text.len(),
            listing.as_mut_ptr(),
            listing.len(),
        )
    }
}
