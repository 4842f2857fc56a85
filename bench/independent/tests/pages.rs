//! The worked examples of the pages.

use independent::definition::Trio;
use independent::image::{image_of, load_image};
use independent::player::{play_files, play_rooms};
use independent::text::{read_turns, write_turns};
use independent::Turn::*;
use independent::*;

fn trio(n: usize, turns: &[(Turn, Result<u32, u8>)]) -> Trio {
    let mut s = Trio::open(vec![0; n]).unwrap();
    for &(t, wanted) in turns {
        assert_eq!(s.turn(t).unwrap(), wanted, "{t:?}");
    }
    s
}

#[test]
fn plain_store_page() {
    let s = trio(
        100,
        &[
            (Start(0), Ok(0)),
            (Start(1), Ok(1)),
            (Start(2), Ok(2)),
            (Start(3), Ok(3)),
            (Store(0, 5, 7), Ok(0)),
            (Load(2, 5), Ok(7)),
            (Store(0, 5, 7), Ok(2)),
        ],
    );
    assert_eq!(s.plain.tasks(), 2);
    assert_eq!(s.snooping.line(0, 5), LineView { state: 2, tag: 5, word: 7, next: 4 });
    // Told were all later ones: 1, 2, 3.
    assert_eq!(s.snooping.report(), (2, 5, 5, 14, 0));
}

#[test]
fn central_buffer_page() {
    let mut s = trio(100, &[(Start(0), Ok(0)), (Start(1), Ok(1))]);
    let none = (false, None);
    let mark = (true, None);
    let own = |w| (false, Some(w));
    type Rows = Vec<(u32, [(bool, Option<u32>); 4])>;
    let run: [(Turn, u32, Rows); 6] = [
        (Store(0, 5, 7), 0, vec![(5, [own(7), none, none, none])]),
        (Load(1, 5), 7, vec![(5, [own(7), mark, none, none])]),
        (Store(0, 5, 8), 1, vec![(5, [own(8), none, none, none])]),
        (Start(1), 1, vec![(5, [own(8), none, none, none])]),
        (
            Store(1, 21, 9),
            0,
            vec![(5, [own(8), none, none, none]), (21, [none, own(9), none, none])],
        ),
        (Commit(0), 1, vec![(21, [none, own(9), none, none])]),
    ];
    for (t, gives, rows) in run {
        assert_eq!(s.turn(t).unwrap(), Ok(gives), "{t:?}");
        assert_eq!(s.buffer.rows(5), rows, "{t:?}");
    }
    assert_eq!(s.buffer.word(5), Ok(8));
}

#[test]
fn refusals_page() {
    let mut s = trio(
        40,
        &[
            (Start(4), Err(1)),
            (Start(0), Ok(0)),
            (Start(0), Err(2)),
            (Load(1, 99), Err(3)),
            (Load(0, 40), Err(4)),
            (Store(0, 39, 1), Ok(0)),
            (Load(0, 23), Err(5)),
            (Load(0, 55), Err(4)),
            (Store(0, 23, 1), Err(5)),
            (Store(u32::MAX, 23, 1), Err(1)),
            (Start(1), Ok(1)),
            (Commit(1), Err(6)),
            (Replace(1, 40), Err(4)),
            (Replace(1, 39), Err(6)),
            (Replace(0, 23), Err(8)),
            (Replace(0, 38), Err(8)),
            (Squash(0), Err(7)),
            (Squash(2), Err(3)),
            (Squash(1), Ok(1)),
            (Replace(0, 39), Ok(1)),
            (Replace(0, 39), Err(8)),
            (Load(0, 39), Ok(1)),
            (Replace(0, 39), Ok(0)),
            (Commit(0), Ok(0)),
            (Commit(0), Err(3)),
        ],
    );
    assert_eq!(s.snooping.report(), (0, 0, 5, 0, 0));
    assert_eq!(s.plain.word(40), Err(4));
    assert_eq!(s.snooping.word(40), Err(4));
    assert_eq!(s.buffer.word(u32::MAX), Err(4));
    assert_eq!(s.turn(Start(3)).unwrap(), Ok(0));
    for n in [0, 4097] {
        assert_eq!(Plain::open(vec![0; n]).err(), Some(17));
        assert_eq!(Snooping::open(vec![0; n]).err(), Some(17));
        assert_eq!(Buffer::open(vec![0; n]).err(), Some(17));
    }
}

#[test]
fn snooping_page() {
    let mut s = trio(100, &[(Start(2), Ok(0)), (Start(0), Ok(1)), (Start(3), Ok(2)), (Start(1), Ok(3))]);
    assert_eq!(s.snooping.report(), (0, 0, 5, 0, 0));
    let run = [
        // By memory, then by a processor; then hits.
        (Load(2, 5), 0, (1, 5, 4, 0, 0)),
        (Load(2, 5), 0, (0, 0, 5, 0, 0)),
        // L alone and no pointer: still a request, to all later ones.
        (Store(2, 5, 7), 0, (2, 5, 5, 1 + 8 + 2, 0)),
        (Store(2, 5, 8), 0, (0, 0, 5, 0, 0)),
        (Load(3, 5), 8, (1, 5, 2, 0, 0)),
        (Load(1, 5), 8, (1, 5, 2, 0, 0)),
        // Between: 0 stores, and squashes 3 and 1.
        (Store(0, 5, 9), 2, (2, 5, 5, 8 + 2, 0)),
        // 2 has a pointer to 0, which has S alone: told is nobody.
        (Store(2, 5, 10), 0, (2, 5, 5, 0, 0)),
        (Start(1), 2, (0, 0, 5, 0, 0)),
        (Start(3), 3, (0, 0, 5, 0, 0)),
        (Load(3, 5), 9, (1, 5, 0, 0, 0)),
        // 3 has L and S: told although it has S.
        (Store(3, 5, 11), 0, (2, 5, 5, 0, 0)),
        (Store(2, 21 + 2, 1), 0, (2, 23, 5, 11, 0)),
        (Store(0, 5, 12), 1, (2, 5, 5, 2 + 8, 0)),
        (Store(2, 40, 2), 0, (2, 40, 5, 3, 0)),
        // Own words of lines 5, 7 and 8.
        (Commit(2), 3, (3, 40, 5, 0, 3)),
        (Replace(0, 5), 1, (3, 5, 5, 0, 1)),
        (Load(0, 6), 0, (1, 6, 4, 0, 0)),
        (Replace(0, 6), 0, (0, 0, 5, 0, 0)),
        (Commit(0), 0, (0, 0, 5, 0, 0)),
    ];
    for (t, gives, report) in run {
        assert_eq!(s.turn(t).unwrap(), Ok(gives), "{t:?}");
        assert_eq!(s.snooping.report(), report, "{t:?}");
        // A refused turn leaves the report.
        assert_eq!(s.turn(Load(1, 100)).unwrap().is_err(), true);
        assert_eq!(s.snooping.report(), report, "{t:?}");
    }
    assert_eq!(s.snooping.word(5), Ok(12));
}

#[test]
fn images_page() {
    let image = image_of(&[2, 1, 2, 5, 1, 70, 71, 72]);
    assert_eq!(image.len(), 32);
    let before: Vec<u32> = (10..18).collect();
    let mut words = before.clone();
    assert_eq!(load_image(&mut words, &image), Ok(()));
    assert_eq!(words, [10, 70, 71, 13, 14, 72, 16, 17]);

    let fault = |image: &[u8]| {
        let mut words = before.clone();
        let answer = load_image(&mut words, image);
        assert_eq!(words, before);
        answer.map_err(|f| (f.layer, f.number, f.place))
    };
    let mut long = image.clone();
    long.push(0);
    assert_eq!(fault(&long), Err((Layer::Image, 9, 33)));
    assert_eq!(fault(&image[..31]), Err((Layer::Image, 9, 31)));
    assert_eq!(fault(&image[..19]), Err((Layer::Image, 9, 19)));
    assert_eq!(fault(&[0; 4]), Ok(()));
    assert_eq!(fault(&[]), Err((Layer::Image, 9, 0)));
    assert_eq!(fault(&[255; 3]), Err((Layer::Image, 9, 3)));
    assert_eq!(fault(&[65, 0, 0, 0]), Err((Layer::Image, 10, 0)));
    assert_eq!(fault(&[64, 0, 0, 0]), Err((Layer::Image, 9, 4)));
    assert_eq!(fault(&image_of(&[1, u32::MAX, 1, 5])), Err((Layer::Image, 12, 4)));
    assert_eq!(fault(&image_of(&[1, u32::MAX, u32::MAX, 5])), Err((Layer::Image, 12, 4)));
    assert_eq!(fault(&image_of(&[1, 3, 0])), Err((Layer::Image, 11, 4)));
    assert_eq!(fault(&image_of(&[2, 1, 2, 2, 1, 1, 2, 3])), Err((Layer::Image, 11, 12)));
    assert_eq!(fault(&image_of(&[2, 7, 2, 2, 1, 1, 2, 3])), Err((Layer::Image, 12, 4)));
    assert_eq!(fault(&image_of(&[2, 1, 1, 8, 1, 1, 2])), Err((Layer::Image, 12, 12)));
    // Pairs may touch.
    let mut words = before.clone();
    assert_eq!(load_image(&mut words, &image_of(&[2, 0, 3, 3, 5, 1, 2, 3, 4, 5, 6, 7, 8])), Ok(()));
    assert_eq!(words, [1, 2, 3, 4, 5, 6, 7, 8]);
}

#[test]
fn turn_text_page() {
    let read = |text: &str| {
        let (turns, answer) = read_turns(text.as_bytes(), 100);
        (turns, answer.err().map(|f| (f.layer, f.number, f.place)))
    };
    let text = |number, place| Some((Layer::Text, number, place));
    assert_eq!(read("start 2\nload 2 5\n"), (vec![Start(2), Load(2, 5)], None));
    assert_eq!(read("start 0\n"), (vec![Start(0)], None));
    assert_eq!(read("start 00\n"), (vec![], text(14, 0)));
    assert_eq!(read("start 1\n\n"), (vec![Start(1)], text(13, 8)));
    assert_eq!(read("store 4294967296 x 1\n"), (vec![], text(15, 0)));
    assert_eq!(read("start 99999999999x\n"), (vec![], text(14, 0)));
    assert_eq!(read("start 1 \n"), (vec![], text(14, 0)));
    assert_eq!(read("commit 1\nreplace 1 2"), (vec![Commit(1)], text(14, 9)));
    assert_eq!(read("comm"), (vec![], text(13, 0)));
    assert_eq!(read(""), (vec![], None));
    assert_eq!(read(" start 1\n"), (vec![], text(13, 0)));
    assert_eq!(read("start\t1\n"), (vec![], text(13, 0)));
    assert_eq!(read("start 1\r\n"), (vec![], text(14, 0)));
    assert_eq!(read("store 1 2\n"), (vec![], text(14, 0)));
    assert_eq!(read("store  1 2 3\n"), (vec![], text(14, 0)));
    assert_eq!(read("store 1 4294967295 4294967296"), (vec![], text(15, 0)));
    assert_eq!(read("start"), (vec![], text(14, 0)));
    assert_eq!(read("squash 4294967295\n"), (vec![Squash(u32::MAX)], None));

    let lines = "start 1\n".repeat(2048);
    let (turns, answer) = read_turns(lines.as_bytes(), 2048);
    assert_eq!((turns.len(), answer), (2048, Ok(())));
    let more = lines.clone() + "start 1\n";
    let (turns, answer) = read_turns(more.as_bytes(), 2048);
    let full = Fault { layer: Layer::List, number: 16, place: 8 * 2048 };
    assert_eq!((turns.len(), answer), (2048, Err(full)));
    let bad = lines + "start 1";
    let (turns, answer) = read_turns(bad.as_bytes(), 2048);
    let fault = Fault { layer: Layer::Text, number: 14, place: 8 * 2048 };
    assert_eq!((turns.len(), answer), (2048, Err(fault)));
}

#[test]
fn lists_page() {
    let fault = Fault { layer: Layer::Image, number: 11, place: 12 };
    assert_eq!(fault.to_string(), "fault image 11 12");
}

#[test]
fn player_page() {
    let turns =
        b"start 2\nstart 0\nstart 3\nstore 2 5 70\nload 3 5\nstore 0 5 71\ncommit 2\ncommit 0\n";
    let wanted = "1 ok 0\n2 ok 1\n3 ok 2\n4 ok 0\n5 ok 70\n6 ok 1\n7 ok 1\n8 ok 1\ntasks 0\nat 5 71\n";
    let show = |bytes: Vec<u8>| String::from_utf8(bytes).unwrap();
    for kind in Kind::ALL {
        assert_eq!(show(play_files(kind, &[0; 4], turns)), wanted);
        // The image's fault hides the text's; a missing image is empty.
        assert_eq!(show(play_files(kind, b"", b"x")), "fault image 9 0\n");
        assert_eq!(show(play_files(kind, &[0; 4], b"start 0\nx")), "fault text 13 8\n");
        assert_eq!(show(play_files(kind, &[0; 4], b"")), "tasks 0\n");
        assert_eq!(show(play(kind, &[0; 4], turns, 8, 7)), "fault list 16 68\n");
        assert_eq!(show(play_rooms(kind, &[0; 4], turns, 8, 8, 5)), "fault list 16 5\n");
        assert_eq!(show(play(kind, &[0; 4], b"start 0\nstart 0\n", 8, 2)), "1 ok 0\n2 no 2\ntasks 1\n");
        // A text of 32,769 bytes is cut in its last line.
        let long = [b"start 1\n".repeat(1000), b"store 1 1 1\n".repeat(2064), b"x".to_vec()].concat();
        assert_eq!(long.len(), 32_769);
        let listing = show(play_files(kind, &[0; 4], &long));
        assert_eq!(listing, format!("fault list 16 {}\n", 8000 + 1048 * 12));
        // Own words of active tasks do not show.
        let image = image_of(&[1, 5, 1, 9]);
        assert_eq!(
            show(play(kind, &image, b"start 1\nstore 1 5 1\n", 8, 9)),
            "1 ok 0\n2 ok 0\ntasks 1\nat 5 9\n"
        );
    }
    assert_eq!(read_turns(turns, 8).0.len(), 8);
    assert_eq!(write_turns(&read_turns(turns, 8).0), turns);
}
