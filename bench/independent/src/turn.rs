//! Turns, refusal numbers, and what every store offers.

#[derive(Clone, Copy, Debug, PartialEq, Eq, Hash)]
pub enum Turn {
    /// `start p`
    Start(u32),
    /// `load p a`
    Load(u32, u32),
    /// `store p a w`
    Store(u32, u32, u32),
    /// `squash p`
    Squash(u32),
    /// `commit p`
    Commit(u32),
    /// `replace p a`
    Replace(u32, u32),
}

pub const NO_PROCESSOR: u8 = 1;
pub const TASK_ACTIVE: u8 = 2;
pub const NO_TASK: u8 = 3;
pub const NO_ADDRESS: u8 = 4;
pub const CLASS_TAKEN: u8 = 5;
pub const NOT_HEAD: u8 = 6;
pub const IS_HEAD: u8 = 7;
pub const NOT_HELD: u8 = 8;
pub const BAD_SIZE: u8 = 17;

pub const PROCESSORS: usize = 4;
pub const CLASSES: usize = 16;
pub const MOST_WORDS: usize = 4096;

/// 1 to 4,096 words, else refusal 17.
pub fn check_size(n: usize) -> Result<(), u8> {
    if n == 0 || n > MOST_WORDS {
        Err(BAD_SIZE)
    } else {
        Ok(())
    }
}

/// What every version store offers. The stores also have these as methods of
/// their own, so that the trait need not be imported.
pub trait Store: Sized {
    fn open(words: Vec<u32>) -> Result<Self, u8>;
    fn turn(&mut self, t: Turn) -> Result<u32, u8>;
    fn word(&self, a: u32) -> Result<u32, u8>;
    fn tasks(&self) -> u32;
    fn size(&self) -> u32;
    fn close(self) -> Vec<u32>;
}

macro_rules! is_a_store {
    ($t:ty) => {
        impl crate::turn::Store for $t {
            fn open(words: Vec<u32>) -> Result<Self, u8> {
                <$t>::open(words)
            }
            #[inline]
            fn turn(&mut self, t: crate::turn::Turn) -> Result<u32, u8> {
                <$t>::turn(self, t)
            }
            fn word(&self, a: u32) -> Result<u32, u8> {
                <$t>::word(self, a)
            }
            fn tasks(&self) -> u32 {
                <$t>::tasks(self)
            }
            fn size(&self) -> u32 {
                <$t>::size(self)
            }
            fn close(self) -> Vec<u32> {
                <$t>::close(self)
            }
        }
    };
}
pub(crate) use is_a_store;
