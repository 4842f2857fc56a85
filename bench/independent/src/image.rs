//! Images: which words go where before the first turn.

use crate::fault::{Fault, Layer};

pub const MOST_PAIRS: u32 = 64;

fn number(image: &[u8], at: usize) -> u32 {
    u32::from_le_bytes([image[at], image[at + 1], image[at + 2], image[at + 3]])
}

/// All checks, in order; gives the number of pairs.
pub fn check_image(image: &[u8], n: usize) -> Result<usize, Fault> {
    let fault = |number, place| Err(Fault { layer: Layer::Image, number, place });
    if image.len() < 4 {
        return fault(9, image.len());
    }
    let count = number(image, 0);
    if count > MOST_PAIRS {
        return fault(10, 0);
    }
    let count = count as usize;
    let head = 4 + 8 * count;
    if image.len() < head {
        return fault(9, image.len());
    }
    let mut end = 0u64;
    let mut total = 0u64;
    for i in 0..count {
        let place = 4 + 8 * i;
        let offset = number(image, place) as u64;
        let length = number(image, place + 4) as u64;
        if length == 0 || offset < end {
            return fault(11, place);
        }
        end = offset + length;
        if end > n as u64 {
            return fault(12, place);
        }
        total += length;
    }
    if image.len() as u64 != head as u64 + 4 * total {
        return fault(9, image.len());
    }
    Ok(count)
}

/// Lays the image over the words, or changes nothing.
pub fn load_image(words: &mut [u32], image: &[u8]) -> Result<(), Fault> {
    let count = check_image(image, words.len())?;
    let mut from = 4 + 8 * count;
    for i in 0..count {
        let offset = number(image, 4 + 8 * i) as usize;
        let length = number(image, 8 + 8 * i) as usize;
        for word in &mut words[offset..offset + length] {
            *word = number(image, from);
            from += 4;
        }
    }
    Ok(())
}

/// The bytes of any numbers.
pub fn image_of(numbers: &[u32]) -> Vec<u8> {
    numbers.iter().flat_map(|n| n.to_le_bytes()).collect()
}
