#!/usr/bin/env python3
"""Runs `play` and `central` on files at the ends of what they take, and on random ones, and compares their listings.

    (cd crates/play && rt run) && (cd crates/central && rt run) && tools/program_cases.py [RANDOM]

The cases at the ends are below, each with the listing that docs/player.md demands, worked out by hand. With a number RANDOM,
as many whole and damaged cases more are made by the independent implementation (bench/independent, built with cargo), which
also says what their listings must be. The status is 0 if every listing is as it must be.
"""
import pathlib
import struct
import subprocess
import sys
import tempfile

ROOT = pathlib.Path(__file__).resolve().parent.parent
PROGRAMS = [ROOT / "crates" / name / "out" / name for name in ("play", "central")]
NO_PAIRS = bytes(4)


def image(*numbers):
    return b"".join(struct.pack("<I", number) for number in numbers)


def pairs(count):
    """As many pairs of one word each, at every other address, and the words 1, 2, 3, ..."""
    listed = [number for i in range(count) for number in (2 * i, 1)]
    return image(count, *listed, *range(1, count + 1))


LONG = b"store 3 4095 4294967295\n"  # 24 bytes: 1,365 of them are 32,760
assert len(LONG) == 24

CASES = [
    ("no files", None, None, "fault image 9 0\n"),
    ("no image", None, b"start 0\n", "fault image 9 0\n"),
    ("no turns", NO_PAIRS, None, "tasks 0\n"),
    ("empty image, faulty text", b"", b"begin 0\n", "fault image 9 0\n"),
    ("image of three bytes", b"\0\0\0", b"", "fault image 9 3\n"),
    ("one pair", image(1, 4095, 1, 7), b"", "tasks 0\nat 4095 7\n"),
    ("one pair past the end", image(1, 4096, 1, 7), b"", "fault image 12 4\n"),
    ("a pair whose end passes 32 bits", image(1, 0xFFFFFFFF, 0xFFFFFFFF), b"", "fault image 12 4\n"),
    ("64 pairs", pairs(64), b"", "tasks 0\n" + "".join(f"at {2 * i} {i + 1}\n" for i in range(64))),
    ("65 pairs", pairs(65), b"", "fault image 10 0\n"),
    ("a byte too many", pairs(1) + b"\0", b"", "fault image 9 17\n"),
    ("all 4,096 words", image(1, 0, 4096, *range(4096)), b"", "tasks 0\n" + "".join(f"at {a} {a}\n" for a in range(1, 4096))),
    ("2,048 lines", NO_PAIRS, b"start 9\n" * 2048, "".join(f"{i} no 1\n" for i in range(1, 2049)) + "tasks 0\n"),
    ("2,049 lines", NO_PAIRS, b"start 9\n" * 2049, f"fault list 16 {8 * 2048}\n"),
    ("2,048 lines and a faulty one", NO_PAIRS, b"start 9\n" * 2048 + b"start x\n", f"fault text 14 {8 * 2048}\n"),
    ("a line cut by the text's end", NO_PAIRS, b"start 0\nload 0 1", "fault text 14 8\n"),
    ("a verb cut by the text's end", NO_PAIRS, b"start 0\nloa", "fault text 13 8\n"),
    ("32,768 bytes cut inside a line", NO_PAIRS, LONG * 1366, "fault text 14 32760\n"),
    ("32,768 bytes cut after a line", NO_PAIRS, LONG * 1365 + b"start 0\n" + b"no verb at all", "".join(f"{i} no 3\n" for i in range(1, 1366)) + "1366 ok 0\ntasks 1\n"),
    ("an image of more than 32,768 bytes", image(1, 0, 4096, *range(4096)) + bytes(20000), b"", "fault image 9 32768\n"),
    ("bytes that are no text", NO_PAIRS, b"start 0\n\xff\xfe\0\n", "fault text 13 8\n"),
    ("a field that is no text", NO_PAIRS, b"start \xc3\x28\n", "fault text 14 0\n"),
    ("a carriage return", NO_PAIRS, b"start 0\r\n", "fault text 14 0\n"),
    ("a tab", NO_PAIRS, b"start\t0\n", "fault text 13 0\n"),
    ("an own word does not show", image(1, 5, 1, 9), b"start 1\nstore 1 5 7\nload 1 5\n", "1 ok 0\n2 ok 0\n3 ok 7\ntasks 1\nat 5 9\n"),
]


def listings(folder):
    return [subprocess.run([program], cwd=folder, capture_output=True) for program in PROGRAMS]


def differs(folder, wanted):
    told = []
    for program, run in zip(PROGRAMS, listings(folder)):
        if run.returncode != 0 or run.stdout != wanted:
            told.append(f"{program.name}: status {run.returncode}, wrote {run.stdout[:120]!r}, wanted {wanted[:120]!r}")
    return told


def at_the_ends(place):
    wrong = 0
    for name, image_bytes, text, wanted in CASES:
        folder = place / name.replace(" ", "_").replace("'", "")
        folder.mkdir()
        if image_bytes is not None:
            (folder / "image.bin").write_bytes(image_bytes)
        if text is not None:
            (folder / "turns.txt").write_bytes(text)
        for line in differs(folder, wanted.encode()):
            wrong += 1
            print(f"{name}: {line}")
    print(f"cases at the ends: {len(CASES)}, wrong: {wrong}")
    return wrong


def random_cases(place, count):
    built = place / "built"
    crate = ROOT / "bench" / "independent"
    subprocess.run(["cargo", "build", "--release", "--quiet", "--target-dir", built], cwd=crate, check=True)
    cases = place / "cases"
    cases.mkdir()
    subprocess.run([built / "release" / "generate", cases, "1", str(count)], check=True, stdout=subprocess.DEVNULL)
    wrong = 0
    for folder in sorted(cases.iterdir(), key=lambda f: int(f.name)):
        for line in differs(folder, (folder / "wanted.txt").read_bytes()):
            wrong += 1
            print(f"case {folder.name}: {line}")
    print(f"random cases: {count}, wrong: {wrong}")
    return wrong


def main():
    with tempfile.TemporaryDirectory() as name:
        place = pathlib.Path(name)
        wrong = at_the_ends(place)
        if len(sys.argv) > 1:
            wrong += random_cases(place, int(sys.argv[1]))
    return 1 if wrong else 0


if __name__ == "__main__":
    sys.exit(main())
