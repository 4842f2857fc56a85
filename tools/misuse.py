#!/usr/bin/env python3
"""Shows that two misuses of the player do not compile: an image after opening, and a turn after close.

    tools/misuse.py

An edit that does not compile can't stand in the gate, so each misuse is tried here, in a crate of its own in a copy of the
repository, together with the same text without the misuse, which must be proved: otherwise a misspelt name would pass for a
refusal. The status is 0 if all is as it must be.
"""
import pathlib
import shutil
import subprocess
import sys
import tempfile

ROOT = pathlib.Path(__file__).resolve().parent.parent

HEAD = """#![tactic(auto)]

use memory::Memory;
use player::Loading;
use stores::{SnoopingStore, VersionStore};

"""

LOADING = """pub fn loaded<M: Memory>(mut loading: Loading<M>, image: &[u8]) -> M
    requires { M.Memory.sound loading.memory }
{
    let _ = loading.load(image);
    let mut store = loading.open::<SnoopingStore<M>>();
    let _ = store.start(1);
MISUSE    store.close()
}
"""

CLOSING = """pub fn closed<M: Memory>(loading: Loading<M>) -> M
    requires { M.Memory.sound loading.memory }
{
    let mut store = loading.open::<SnoopingStore<M>>();
    let _ = store.start(1);
    let memory = store.close();
MISUSE    memory
}
"""

TRIALS = [
    ("images, then turns", LOADING.replace("MISUSE", ""), None),
    ("an image after opening", LOADING.replace("MISUSE", "    let _ = loading.load(image);\n"), "error[borrow-e0382]"),
    ("turns, then close", CLOSING.replace("MISUSE", ""), None),
    ("a turn after close", CLOSING.replace("MISUSE", "    let _ = store.start(2);\n"), "error[borrow-e0382]"),
]


def main():
    wrong = 0
    with tempfile.TemporaryDirectory() as name:
        place = pathlib.Path(name)
        shutil.copytree(ROOT / "crates", place / "crates", ignore=shutil.ignore_patterns("must-fail"))
        shutil.copy2(ROOT / "crates.txt", place / "crates.txt")
        with open(place / "crates.txt", "a") as crates:
            crates.write("misuse: memory versions buffer snooping stores player\n")
        source = place / "crates" / "misuse" / "src"
        source.mkdir(parents=True)
        for title, text, error in TRIALS:
            (source / "lib.rt").write_text(HEAD + text)
            run = subprocess.run(["rt", "check"], cwd=source.parent, capture_output=True, text=True)
            told = run.stdout + run.stderr
            if error is None:
                good = run.returncode == 0
                outcome = "proved" if good else "not proved:\n" + told[-2000:]
            else:
                good = run.returncode != 0 and error in told
                lines = [line for line in told.splitlines() if error in line]
                outcome = lines[0] if lines else "not refused as it must be:\n" + told[-2000:]
            wrong += not good
            print(f"{title}: {outcome}", flush=True)
    return 1 if wrong else 0


if __name__ == "__main__":
    sys.exit(main())
