//! Images and turn texts through `model_play_snooping` and `model_play_central`, against the independent player.

use crate::counts::Summary;
use crate::model;
use crate::runs::Difference;
use crate::twist::Twist;
use independent::generate::{case, Rng};
use independent::player::{play_files, FILE_BYTES, LIST_ROOM, WORDS};
use independent::text::line_of;
use independent::{image::image_of, Kind, Turn};

#[derive(Clone, Debug)]
pub struct Case {
    pub kind: Kind,
    pub image: Vec<u8>,
    pub text: Vec<u8>,
    /// What the room for the listing is, beside the listing's length; `None`: more than enough.
    pub room: Option<i64>,
}

impl Case {
    /// The same files for both stores.
    pub fn random(seed: u64, kind: Kind) -> Case {
        let mut rng = Rng::new(seed ^ 0x706c_6179);
        // Turns and images are made as if the memory were smaller, so that they meet.
        let n = rng.pick(&[4096, 40, 100, 4096, 20]);
        let (mut image, mut text) = case(rng.next(), n, LIST_ROOM);
        match rng.below(40) {
            0..=3 => damage(&mut rng, &mut text),
            4 | 5 => damage(&mut rng, &mut image),
            // Texts about as long as a program reads, and longer.
            6 => {
                let lines = rng.pick(&[1364, 1365, 1366, 1367, 2047, 2048]);
                text = b"store 3 4095 4294967295\n".repeat(lines);
                if rng.percent(50) {
                    damage(&mut rng, &mut text);
                }
            }
            // More lines than the list takes, the last ones perhaps at fault.
            7 => {
                let lines = LIST_ROOM - 2 + rng.index(5);
                text = b"start 2\n".repeat(lines);
                text.extend_from_slice(rng.pick(&[&b""[..], b"start 0\n", b"start 0", b"start x\n", b"begin\n", b"start 4294967296\n", b"\n"]));
            }
            // Images about as long as a program reads, and longer.
            8 => image.resize(rng.pick(&[32_760, 32_767, 32_768, 32_769, 40_000]), 0),
            9 => text.clear(),
            10 => image.clear(),
            11 => image = vec![0; 4],
            // The longest listing, or nearly: a word at every address, and as many turns as the list takes, each with a long answer.
            12 => {
                let words: Vec<u32> = (0..WORDS).map(|_| u32::MAX - rng.below(1_000_000_000)).collect();
                image = image_of(&[&[1, 0, WORDS as u32], &words[..]].concat());
                text = line_of(Turn::Start(0)).into_bytes();
                for _ in 1..LIST_ROOM {
                    text.extend(line_of(Turn::Load(0, rng.below(16))).into_bytes());
                }
            }
            _ => {}
        }
        let room = match rng.below(6) {
            0 => Some(0),
            1 => Some(-1),
            2 => Some(-1 - rng.below(100_000) as i64),
            3 => Some(1 + rng.below(50) as i64),
            _ => None,
        };
        Case { kind, image, text, room }
    }
}

/// A few bytes changed, cut out, put in or doubled, at any place.
fn damage(rng: &mut Rng, bytes: &mut Vec<u8>) {
    for _ in 0..1 + rng.below(3) {
        let at = rng.index(bytes.len() + 1);
        let to = (at + 1 + rng.index(12)).min(bytes.len());
        match rng.below(5) {
            0 if at < bytes.len() => bytes[at] ^= 1 << rng.below(8),
            1 => drop(bytes.drain(at..to)),
            2 => {
                let what: Vec<u8> = (0..1 + rng.below(4)).map(|_| rng.u32() as u8).collect();
                bytes.splice(at..at, what);
            }
            3 => {
                let twice = bytes[at..to].to_vec();
                bytes.splice(at..at, twice);
            }
            _ => {
                let what = rng.pick(&[&b"\n"[..], b" ", b"0", b"\0", b"\xff", b"\xc3\xa9", b"99999999999999999999", b"start 1\n"]);
                bytes.splice(at..at, what.iter().copied());
            }
        }
    }
}

/// What the images, texts and turns were answered with.
#[derive(Default)]
pub struct Counts {
    pub calls: [u64; 2],
    pub without_room: u64,
    /// Listings, and faults 9 to 16.
    pub faults: [u64; 9],
    pub long_images: u64,
    pub long_texts: u64,
    pub many_lines: u64,
    /// Accepted, and refused with 1 to 8.
    pub turns: [u64; 9],
    pub at_lines: u64,
    pub bytes: u64,
    pub longest: u64,
}

impl Counts {
    fn add(&mut self, case: &Case, listing: &[u8]) {
        self.calls[(case.kind == Kind::Buffer) as usize] += 1;
        self.bytes += listing.len() as u64;
        self.longest = self.longest.max(listing.len() as u64);
        self.long_images += (case.image.len() > FILE_BYTES) as u64;
        self.long_texts += (case.text.len() > FILE_BYTES) as u64;
        self.many_lines += (case.text.iter().filter(|&&b| b == b'\n').count() > LIST_ROOM) as u64;
        let listing = String::from_utf8_lossy(listing);
        let number = |word: Option<&str>| word.and_then(|word| word.parse::<usize>().ok()).unwrap_or(0);
        if listing.starts_with("fault ") {
            self.faults[number(listing.split(' ').nth(2)).clamp(9, 16) - 8] += 1;
            return;
        }
        self.faults[0] += 1;
        for line in listing.lines() {
            let mut words = line.trim_end().split(' ');
            let (first, second, third) = (words.next(), words.next(), words.next());
            match (first, second) {
                (Some("at"), _) => self.at_lines += 1,
                (_, Some("ok")) => self.turns[0] += 1,
                (_, Some("no")) => self.turns[number(third).min(8)] += 1,
                _ => {}
            }
        }
    }

    pub fn total(&self) -> u64 {
        self.calls.iter().sum()
    }

    pub fn tell(&self, out: &mut Summary) {
        out.list("calls", &["model_play_snooping", "model_play_central", "with too little room"], &[self.calls[0], self.calls[1], self.without_room]);
        let [listings, f9, f10, f11, f12, f13, f14, f15, f16] = self.faults;
        out.list("listings without a fault", &["compared"], &[listings]);
        out.list("images refused", &["with 9", "with 10", "with 11", "with 12"], &[f9, f10, f11, f12]);
        out.list("texts refused", &["with 13", "with 14", "with 15", "with 16"], &[f13, f14, f15, f16]);
        let long = ["images of more than 32,768 bytes", "texts of more than 32,768 bytes", "texts of more than 2,048 lines"];
        out.list("long", &long, &[self.long_images, self.long_texts, self.many_lines]);
        out.list("turns in listings", &crate::counts::ANSWERS, &self.turns);
        out.list("words in listings", &["compared"], &[self.at_lines]);
        out.list("bytes of listings", &["compared", "most in one"], &[self.bytes, self.longest]);
    }
}

const UNTOUCHED: u8 = 0xa5;

/// Where two listings differ first: the line, and both lines.
fn first_line_that_differs(after: usize, whose: &str, model: &[u8], other: &[u8]) -> Difference {
    let lines = |bytes: &[u8]| -> Vec<String> {
        String::from_utf8_lossy(bytes).split_inclusive('\n').map(|line| format!("{line:?}")).collect()
    };
    let (model, other) = (lines(model), lines(other));
    let at = (0..).find(|&i| model.get(i) != other.get(i)).unwrap_or(0);
    let line = |lines: &[String]| lines.get(at).cloned().unwrap_or_else(|| "no such line".into());
    Difference {
        after,
        asked: format!("line {} of the listing", at + 1),
        model: line(&model),
        independent: format!("{} ({whose})", line(&other)),
    }
}

pub fn check(case: &Case, twist: Option<Twist>, counts: &mut Counts) -> Result<(), Difference> {
    let after = case.text.iter().filter(|&&b| b == b'\n').count();
    let mut listings = Kind::ALL.map(|kind| play_files(kind, &case.image, &case.text));
    if let Some(t) = twist {
        listings = listings.map(|listing| t.listing(listing));
    }
    let [plain, snooping, buffer] = &listings;
    let length = snooping.len();
    let room = case.room.map_or(length + 200_000, |more| (length as i64 + more).max(0) as usize);

    let differs = |asked: &str, model: String, independent: String| {
        Err(Difference { after, asked: asked.into(), model, independent })
    };
    let mut row = vec![UNTOUCHED; room + 64];
    let mut told = model::play(case.kind, &case.image, &case.text, &mut row[..room]);
    let mut written = if told <= room { told } else { 0 };
    match twist {
        Some(Twist::BehindListing) if told <= room => row[written] = 0,
        Some(Twist::SmallRoom) if told > room && room > 0 => row[0] = 0,
        _ => {}
    }
    if row[written..].iter().any(|&b| b != UNTOUCHED) {
        return differs("what lies behind the listing", "changed".into(), "as it was".into());
    }
    if told > room {
        counts.without_room += 1;
        let length = told;
        row = vec![UNTOUCHED; length + 64];
        told = model::play(case.kind, &case.image, &case.text, &mut row[..length]);
        if twist == Some(Twist::Length) {
            told -= 1;
        }
        if told != length {
            return differs("the listing's length, with room for it", told.to_string(), length.to_string());
        }
        written = told;
    }
    let listing = &row[..written];
    for (whose, other) in [("snooping", snooping), ("buffer", buffer), ("plain", plain)] {
        if listing != other {
            return Err(first_line_that_differs(after, whose, listing, other));
        }
    }
    counts.add(case, listing);
    Ok(())
}

/// The shortest prefix of the text that still differs; then over an image of no pair if that does too, else over the shortest
/// prefix of the image.
pub fn smallest_prefix(case: &Case, twist: Option<Twist>) -> Option<(Case, Difference)> {
    let look = |case: Case| {
        let difference = check(&case, twist, &mut Counts::default()).err()?;
        Some((case, difference))
    };
    let (mut small, mut difference) =
        (0..=case.text.len()).find_map(|length| look(Case { text: case.text[..length].to_vec(), ..case.clone() }))?;
    let of_image = |length: usize| Case { image: small.image[..length].to_vec(), ..small.clone() };
    let shorter = look(Case { image: vec![0; 4], ..small.clone() })
        .or_else(|| (0..small.image.len()).find_map(|length| look(of_image(length))));
    if let Some(found) = shorter {
        (small, difference) = found;
    }
    Some((small, difference))
}

pub fn print(case: &Case, difference: &Difference) {
    let image: Vec<String> = case.image.iter().map(|byte| format!("{byte:02x}")).collect();
    println!("image of {} bytes: {}", case.image.len(), image.join(" "));
    println!("text of {} bytes:", case.text.len());
    for line in case.text.split_inclusive(|&b| b == b'\n') {
        println!("    {}", line.escape_ascii());
    }
    match case.room {
        Some(more) => println!("room for the listing: its length and {more}"),
        None => println!("room for the listing: more than enough"),
    }
    println!("{}:", difference.asked);
    println!("  model:       {}", difference.model);
    println!("  independent: {}", difference.independent);
}
