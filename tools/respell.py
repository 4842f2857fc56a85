#!/usr/bin/env python3
"""Respells the repository's own words of specs/ and proofs/ as the kit spells its own: functions, lemmas and fields in snake case.

    tools/respell.py [FOLDER]        (FOLDER: the repository; default: the one that holds this script)

Run once, after the kit's port.py. A word here begins with a small letter and has a capital inside; a dash joins the words of a
lemma's name and stays. Types, modules, functions of src/, texts and exported names keep their spelling. Fields of records in
specs/ that were joined by dashes are joined by underscores. Two names that would fall together stop the script.
"""
import pathlib
import re
import sys

ROOT = pathlib.Path(sys.argv[1] if len(sys.argv) > 1 else pathlib.Path(__file__).resolve().parent.parent)
WORD = re.compile(r"[A-Za-z_][A-Za-z0-9_']*")
FIELD = re.compile(r"^\s+pub ([a-z0-9_']+(?:-[a-z0-9_']+)+) :", re.M)
# Words that the rule would spell as another word of the same file, or by a name that the kit has given up.
BY_HAND = {"notEnd": "not_the_end"}


def files(*endings):
    for path in sorted((ROOT / "crates").rglob("*")):
        if path.suffix in endings and path.is_file() and "out" not in path.relative_to(ROOT).parts[:3]:
            yield path


def respelled(word):
    if word in BY_HAND:
        return BY_HAND[word]
    word = re.sub(r"^getD(?![a-z])", "get_or", word)
    return re.sub("[A-Z]+", lambda m: "_" + m[0].lower(), word)


def main():
    texts = {path: path.read_text() for path in files(".rt", ".antt")}
    words = {w for t in texts.values() for w in WORD.findall(t) if w[0].islower() and re.search("[A-Z]", w)}
    new = {w: respelled(w) for w in words}
    fields = {f for p, t in texts.items() if p.suffix == ".antt" and "specs" in p.parts for f in FIELD.findall(t)}
    together = [(a, b) for a in new for b in new if a < b and new[a] == new[b]]
    # A word that a definition already has stands for another thing only if both are defined in one file.
    for path, text in texts.items():
        has = set(WORD.findall(text))
        defined = {w for w in has if re.search(r"^(?:abbrev |unfoldable )?(?:pub )?" + re.escape(w) + " :", text, re.M)}
        together += [(w, str(path)) for w in has & set(new) if w in defined and new[w] in defined]
    if together:
        sys.exit(f"names fall together: {together}")

    def turn(text, in_specs_or_proofs):
        if in_specs_or_proofs:
            for field in sorted(fields, key=len, reverse=True):
                text = re.sub(r"(?<![A-Za-z0-9_'-])" + re.escape(field) + r"(?![A-Za-z0-9_'-])", field.replace("-", "_"), text)
        return WORD.sub(lambda m: new.get(m[0], m[0]), text)

    for path, text in texts.items():
        path.write_text(turn(text, path.suffix == ".antt"))
    for path in [ROOT / "README.md", *sorted((ROOT / "docs").glob("*.md"))]:
        if not path.name.startswith("PORT") and path.is_file():
            path.write_text(turn(path.read_text(), True))
    print(f"{len(new)} words and {len(fields)} fields respelled")


main()
