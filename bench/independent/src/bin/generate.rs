//! `generate FOLDER FIRST COUNT`: for each seed a folder with `image.bin`,
//! `turns.txt` and the listing `wanted.txt` of the plain store, over 4,096
//! words with lists of 2,048.

use independent::generate::case;
use independent::player::{play_files, Kind, LIST_ROOM};
use std::fs;

fn main() {
    let args: Vec<String> = std::env::args().skip(1).collect();
    let [folder, first, count] = &args[..] else {
        panic!("generate FOLDER FIRST COUNT");
    };
    let first: u64 = first.parse().unwrap();
    let count: u64 = count.parse().unwrap();
    for seed in first..first + count {
        // Turns are made as if the memory were smaller, so that they meet.
        let n = [4096, 40, 100, 4096, 20][seed as usize % 5];
        let (image, text) = case(seed, n, LIST_ROOM);
        let here = format!("{folder}/{seed}");
        fs::create_dir_all(&here).unwrap();
        fs::write(format!("{here}/image.bin"), &image).unwrap();
        fs::write(format!("{here}/turns.txt"), &text).unwrap();
        fs::write(format!("{here}/wanted.txt"), play_files(Kind::Plain, &image, &text)).unwrap();
    }
}
