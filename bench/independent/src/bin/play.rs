//! `play [kind] [folder]`: the listing of `image.bin` and `turns.txt` in the
//! folder (default: snooping, the current one). A missing file is empty.

use independent::player::{play_files, Kind};
use std::io::Write;

fn main() {
    let args: Vec<String> = std::env::args().skip(1).collect();
    let kind = args.first().map_or(Some(Kind::Snooping), |name| Kind::named(name));
    let kind = kind.expect("kind: plain, snooping or buffer");
    let folder = args.get(1).map_or(".", |s| s);
    let read = |name: &str| std::fs::read(format!("{folder}/{name}")).unwrap_or_default();
    let listing = play_files(kind, &read("image.bin"), &read("turns.txt"));
    std::io::stdout().write_all(&listing).unwrap();
}
