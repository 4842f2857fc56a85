#!/usr/bin/env python3
"""Tries the planted bugs that the gate leaves out, and prints those that the prover does not refuse.

planted/CRATE/*.edit are edits of the same form as crates/CRATE/must-fail/*.edit. The gate proves a crate from nothing for
each edit, which takes from half a minute to a minute, so it has those that show most; the others stand here. With --all the
gate's own edits are tried too.

    tools/planted_bugs.py [--all] [CRATE ...]

A copy of the repository is made in a temporary folder, the edits are put in the place of the crate's must-fail edits, and
`rt must-fail CRATE` is run there. Its lines are printed as they come; the last lines name the survivors. The status is 0
if there are none.
"""
import pathlib
import shutil
import subprocess
import sys
import tempfile

ROOT = pathlib.Path(__file__).resolve().parent.parent


def copy_of_repository(place):
    names = subprocess.run(["git", "ls-files"], cwd=ROOT, check=True, capture_output=True, text=True).stdout.split("\n")
    for name in filter(None, names):
        source = ROOT / name
        if source.is_file():
            target = place / name
            target.parent.mkdir(parents=True, exist_ok=True)
            shutil.copy2(source, target)


def try_crate(place, crate, everything):
    folder = place / "crates" / crate / "must-fail"
    kept = list(folder.glob("*.edit")) if folder.is_dir() else []
    if not everything:
        for edit in kept:
            edit.unlink()
    folder.mkdir(exist_ok=True)
    for edit in sorted((ROOT / "planted" / crate).glob("*.edit")):
        shutil.copy2(edit, folder / edit.name)
    count = len(list(folder.glob("*.edit")))
    print(f"{crate}: {count} edits", flush=True)
    run = subprocess.Popen(["rt", "must-fail", crate], cwd=place, stdout=subprocess.PIPE, stderr=subprocess.STDOUT, text=True)
    lines = []
    for line in run.stdout:
        print("  " + line.rstrip(), flush=True)
        lines.append(line)
    if run.wait() == 0:
        return []
    told = [line.strip() for line in lines if "refused, as it must be" not in line and ".edit" in line]
    return told or [f"{crate}: rt must-fail failed; its lines stand above"]


def main():
    words = sys.argv[1:]
    everything = "--all" in words
    asked = [word for word in words if not word.startswith("-")]
    planted = sorted(p.name for p in (ROOT / "planted").iterdir() if p.is_dir())
    crates = asked or planted
    survivors = []
    with tempfile.TemporaryDirectory() as name:
        place = pathlib.Path(name)
        copy_of_repository(place)
        for crate in crates:
            survivors += try_crate(place, crate, everything)
    print(f"survivors: {len(survivors)}")
    for line in survivors:
        print("  " + line)
    return 1 if survivors else 0


if __name__ == "__main__":
    sys.exit(main())
