#!/usr/bin/env python3
"""Brings the repository's own names to the spelling of today's Rattle: words in snake case. Run once, at the top, after /opt/rattle/port/port.py.

Every word in camel case that begins with a small letter, in specs/, proofs/, the clauses of src/ and the must-fail edits, also as a part of a name with
dashes, is turned: `windowOf` to `window_of`, `length-windowOf` to `length-window_of`. Functions of src/, exported names, strings, inputs and outputs have no
such words. What would fall together is named in EXACT.
"""
import os
import re

# A definition that would be hidden by the parameters of its name; laws that would have the name of the definition that they speak of; fields with dashes.
EXACT = {
    "windowLength": "window_length_of",
    "due_all": "due_all_lem",
    "lane_in": "lane_in_lem",
    "moved_on": "moved_on_lem",
    "sums_at": "sums_at_lem",
    "told_in": "told_in_lem",
    "within_end": "within_end_lem",
    "count-is": "count_is",
    "first-le": "first_le",
    "second-le": "second_le",
    "third-le": "third_le",
    "fourth-le": "fourth_le",
    "mark-is": "mark_is",
    "marks-are": "marks_are",
    "values-are": "values_are",
}
# Words of the library that end in a type's name, as walk_Meets, keep it; they hold an underscore before the capital.
UNITS = {"kV", "mV", "kHz"}
CAMEL = re.compile(r"[a-z][a-z0-9]*(?:[A-Z][a-z0-9]*)+")
WORD = re.compile(r"[\w'-]+")


def snake(word):
    return re.sub("[A-Z]", lambda m: "_" + m.group().lower(), word)


def part(p):
    bare = p.rstrip("'₀₁₂₃₄₅₆₇₈₉")
    if bare in EXACT:
        return EXACT[bare] + p[len(bare) :]
    return snake(bare) + p[len(bare) :] if CAMEL.fullmatch(bare) and bare not in UNITS else p


def turned(m):
    word = m.group()
    if word in EXACT:
        return EXACT[word]
    return "-".join(part(p) for p in word.split("-"))


def main():
    count = 0
    for folder, folders, files in os.walk("crates"):
        folders[:] = sorted(f for f in folders if f != "out")
        for name in sorted(files):
            if name.endswith((".antt", ".rt", ".edit")):
                path = os.path.join(folder, name)
                with open(path, encoding="utf-8") as f:
                    before = f.read()
                after = WORD.sub(turned, before)
                if after != before:
                    count += 1
                    with open(path, "w", encoding="utf-8") as f:
                        f.write(after)
    print(f"respell: {count} files")


if __name__ == "__main__":
    main()
