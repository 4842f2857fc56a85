#!/usr/bin/env python3
"""Writes docs/planted-bugs.md: every planted bug, where it stands, and what refuses it.

The bugs are crates/*/must-fail/*.edit and planted/*/*.edit. What refused each is read from the lines

    rt: must-fail CRATE/NAME.edit: refused, as it must be: FIRST ERROR

of one or more logs, which `rt ci`, `rt must-fail` and `tools/planted_bugs.py` print. Of several lines for one bug the last
counts, so the newest log comes last.

    tools/bug_table.py LOG ...

The status is 1 where a bug has no such line, was not refused, or no longer fits its file; those are listed.
"""
import pathlib
import re
import sys

ROOT = pathlib.Path(__file__).resolve().parent.parent
LINE = re.compile(r"rt: must-fail (\S+)/(\S+)\.edit: (.*)")
REFUSED = "refused, as it must be: "
ITEM = re.compile(r"(\s*)(?:pub(?:\([a-z]+\))? )?(?:extern \"C\" )?(?:(fn|const|enum|struct|trait) (\w+)|impl\b(.*))")

HEAD = """# Planted bugs

A planted bug is a small change of one function, constant or case: a wrong answer, a write left out, a limit that is off by one, two
arguments exchanged, a check in the wrong place. Each compiles, and each changes what the program does. It is put into a copy
of its crate, and the crate is proved again: the contracts stay as they are, so the prover must find that one of them no longer
holds. Where it does not, the contract is too weak.

{gate} bugs are tried by every run of the gate, and {outside} more outside it, by `python3 tools/planted_bugs.py`; [gate.md](gate.md)
says how. {survivors}

"Refused by" is the prover's first error: what the function, or one that calls it, ensures (with the name of its clause, where it has
several; `writes` is the text that a `Display` gives), what a call in it requires, an invariant of a loop or of a type, or that an index or a number stays
within its bounds. "By hand" says that the error is in a proof that is written out in the crate's `proofs/`; elsewhere the prover looks for
the proof itself, and finds none. After the first error the others are not looked at.

This page is written by `python3 tools/bug_table.py LOG ...` from the edits and from what the prover said of each.

| Crate | In the gate | Outside | Together |
|---|---|---|---|
{counts}
"""

TAIL = """
## Where nothing is planted

The programs `play`, `central` and `buffered` promise nothing: each names a store and a memory, and calls functions that have contracts. So
does `memories`, but for the functions that stand above. A bug in their `main` is refused only where a call no longer gets what it
requires; what each program writes the gate compares with its file `stdout`. `memory_tests`, `stores_tests` and `player_tests` are tests.

## Bugs that no contract refuses

These were tried too. The prover passes them, since no contract can say more, and other checks have to find them.

| Bug | Why no contract refuses it | What looks there |
|---|---|---|
| `first_bytes` takes half as many bytes of a file as are asked for | what a file holds no contract can say; it promises that there are no more | the test `as_many_bytes_of_a_file_are_read_as_asked_for` of `files` |
| `listing_of_files` reads half as many bytes of a file | the same; it promises the listing of some image and some text | `tools/program_cases.py` has files of more than 32,768 bytes |
| `read_start` or `first_bytes` gives an error where there is no file | whether a file is there no contract can say | the tests `a_missing_file_is_empty` and `a_missing_file_has_no_first_bytes` of `files` |
| `read_start` and `first_bytes` take every error for a missing file | the same | the test `another_error_is_no_missing_file` of `files` |
| `listing_of_files` reads the image from `turns.txt` | it promises the listing of some image and some text | the programs `play` and `central`, whose output the gate compares |
| `listing_of_files` plays the first half of its text | the same | `play` and `central` |
| `SecondLevel::write` asks the memory below before it refuses | a refused call leaves a memory as it is, and so may ask it | the test `a_refused_call_leaves_the_line_of_its_address` of `memory_tests`, whose memory counts its calls in cells |
"""


def edits_of(path):
    """The file of an edit, and its old texts, each of one line."""
    lines = path.read_text().split("\n")
    file = next(line for line in lines if line.startswith("file: "))
    return file[len("file: "):], [line[len("old: "):] for line in lines if line.startswith("old: ")]


def place_of(lines, at):
    """The function, constant or type that line `at` stands in, with the type that it is a method of."""
    found = []
    indent = len(lines[at]) - len(lines[at].lstrip())
    closed = set()
    for k in range(at, -1, -1):
        line = lines[k]
        item = ITEM.match(line)
        if item and (k == at or len(item[1]) < indent) and item[1] not in closed:
            indent = len(item[1])
            if item[3]:
                found.append(item[3])
            else:
                owner = re.search(r"(?:.* for )?\W*(\w+)", re.sub(r"^<[^>]*>", "", item[4].strip()).strip())
                found.append(owner[1])
        elif line.strip() == "}" and k != at:
            closed.add(line[: -1])
    return "::".join(reversed(found))


def where(crate, file, olds):
    text = (ROOT / "crates" / crate / file).read_text()
    places = []
    for old in olds:
        if text.count(old) != 1:
            return None
        at = text.index(old) + len(old) - len(old.lstrip())
        place = place_of(text.split("\n"), text.count("\n", 0, at))
        if place and place not in places:
            places.append(place)
    return f"`{file}`" + (": " + ", ".join(f"`{p}`" for p in places) if places else "")


def reason(error):
    """What an error says, in plain words."""
    goal = next((g for g in re.findall(r"`([^` ]+)`", error) if re.match(r"returns|loop-|invariant|overflow|index|slice_bounds|.*-requires", g)), None)
    if goal is None:
        said = error.split(" ", 2)[-1] if error.startswith("note: ") else error
        return "another need: " + re.sub(r"[|`]", "", said)[:80]
    clause = re.search(r"-clause-([\w]+)", goal)
    name = f": {clause[1]}" if clause else ""
    case = re.search(r"-in-([A-Z]\w*)", goal)
    if goal.startswith("returns"):
        said = "what it ensures" + name + (f", in the case {case[1]}" if case else "")
    elif goal.startswith("loop-"):
        said = "the invariant of a loop" + (", at its start" if goal.endswith("-init") else "")
    elif goal.startswith("invariant"):
        said = "the invariant of its type"
    elif goal.startswith("overflow"):
        said = "that a number stays within its bounds"
    elif goal.startswith(("index", "slice_bounds")):
        said = "that an index or a range is within its row"
    else:
        said = f"what `{goal.split('-')[0]}` requires" + name
    return said + (" (by hand)" if "proofs/" in error.split(" ")[0] else "")


def main():
    told = {}
    for log in sys.argv[1:]:
        for line in pathlib.Path(log).read_text(errors="replace").split("\n"):
            found = LINE.search(line)
            if found:
                told[found[1], found[2]] = found[3]
    tables, counts, faults, survivors, sums = [], [], [], [], [0, 0]
    crates = sorted({p.parent.parent.name for p in ROOT.glob("crates/*/must-fail/*.edit")} | {p.parent.name for p in ROOT.glob("planted/*/*.edit")})
    for crate in crates:
        rows, numbers = [], [0, 0]
        for k, folder in enumerate((ROOT / "crates" / crate / "must-fail", ROOT / "planted" / crate)):
            for path in sorted(folder.glob("*.edit")):
                name = f"{crate}/{path.stem}"
                said = told.get((crate, path.stem))
                place = where(crate, *edits_of(path))
                numbers[k] += 1
                if place is None:
                    faults.append(f"{name}: its text no longer stands once in its file")
                elif said is None:
                    faults.append(f"{name}: no log tells of it")
                elif not said.startswith(REFUSED):
                    faults.append(f"{name}: {said}")
                    if "NOT REFUSED" in said:
                        survivors.append(name)
                else:
                    words = re.sub(r"[-_]", " ", path.stem)
                    rows.append((words, place, ("the gate", "outside")[k], reason(said[len(REFUSED):])))
        counts.append(f"| `{crate}` | {numbers[0]} | {numbers[1]} | {sum(numbers)} |")
        sums = [sums[0] + numbers[0], sums[1] + numbers[1]]
        body = "\n".join("| " + " | ".join(row) + " |" for row in sorted(rows))
        tables.append(f"\n## {crate}\n\n| Bug | Where | Tried in | Refused by |\n|---|---|---|---|\n{body}\n")
    counts.append(f"| together | {sums[0]} | {sums[1]} | {sum(sums)} |")
    left = "Not refused: " + ", ".join(survivors) + "." if survivors else "All are refused." if not faults else "Those below are refused; the others have not been tried."
    head = HEAD.format(gate=sums[0], outside=sums[1], survivors=left, counts="\n".join(counts))
    (ROOT / "docs" / "planted-bugs.md").write_text(head + "".join(tables) + TAIL)
    print("\n".join(faults) if faults else f"{sum(sums)} bugs, each refused")
    return 1 if faults else 0


if __name__ == "__main__":
    sys.exit(main())
