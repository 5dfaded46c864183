#!/usr/bin/env python3
"""Checks that the pages point at what is there: python3 tests/pages.py

In docs/RULES.md every reference (its section "How to read the references" says what each form stands for) must lead to a declaration, a test or a file, and each
rule's number must stand once. In all pages every path in backticks or in a link must exist: from the top, from crates/, in some crate, or beside the page; a file of specs/
may stand without .antt. Paths under target/ are made by commands, and not looked for. Prints what leads nowhere and ends with 1, or tells how many there are."""
import re
import sys
from pathlib import Path

TOP = Path(__file__).resolve().parent.parent
ALL = {path.relative_to(TOP) for path in TOP.rglob("*") if not {".git", "target", "out"} & set(path.relative_to(TOP).parts)}
NAMES = {path.name for path in ALL}
CRATES = [path for path in ALL if path.match("crates/*")]
RULES = Path("docs/RULES.md")
PAGES = [Path("README.md"), *sorted(path for path in ALL if path.parts[0] == "docs" and path.suffix == ".md"), Path("outside/README.md")]
FILE = re.compile(r"[\w.-]+\.(antt|rt|rs|py|sh|c|h|md|toml|bin|txt|edit)")
PATH = re.compile(r"[\w.-]+(/[\w.-]+)*/?")


def read(*patterns):
    """The text of the files that patterns give."""
    return "".join(path.read_text() for pattern in patterns for path in sorted(TOP.glob(pattern)))


def declares(text, word, name):
    """Whether the text declares the name, behind this word."""
    return bool(re.search(rf"\b(?:{word}) {re.escape(name)}(?![\w-])", text))


def specs(name):
    """The file of that name in the specs/ of reading, or else in the specs/ or among the lemmas of the one crate that has it."""
    files = [crate / f"{part}/{name}.antt" for crate in CRATES for part in ("specs", "proofs") if crate / f"{part}/{name}.antt" in ALL]
    files = [file for file in files if file.parent.parent.name == "reading"] or files
    return read(str(files[0])) if len(files) == 1 else ""


def leads(code):
    """Whether a reference of docs/RULES.md leads somewhere; None where it is none."""
    if m := re.fullmatch(r"([A-Z]\w*)\.([\w-]+)", code):
        return declares(specs(m[1]), "pub|pub record|pub data", m[2])
    if m := re.fullmatch(r"outside::(\w+)", code):
        return declares(read("outside/src/**/*.rs", "outside/tests/*.rs"), "fn", m[1])
    if m := re.fullmatch(r"(\w+)::(\w+)", code):
        return declares(read(f"crates/{m[1]}/src/*.rt"), "fn|const", m[2])
    if m := re.fullmatch(r"log: (\w+)", code):
        return f"\n{m[1]}() {{" in read("examples/host/test.sh")
    if m := re.fullmatch(r"(\w+)/(\w+)", code):
        return Path(f"crates/{m[1]}/must-fail/{m[2]}.edit") in ALL or exists(code, RULES)
    return None


def exists(path, page):
    """Whether a path leads somewhere, seen from a page."""
    places = [Path(), page.parent, page.parent / "src", Path("crates"), *CRATES]
    return path in NAMES or any(place / (path.rstrip("/") + end) in ALL for place in places for end in ("", ".antt"))


def inline(text):
    """What stands in backticks, code blocks left out."""
    return re.findall(r"`([^`\n]+)`", re.sub(r"^```.*?^```$", "", text, flags=re.MULTILINE | re.DOTALL))


def paths(text):
    """The words in backticks, and the links, that look like paths of the repository."""
    words = [word for code in inline(text) for word in code.split() if FILE.fullmatch(code) or ("/" in word and PATH.fullmatch(word))]
    links = [link for link in re.findall(r"\]\(([^)#\s]+)[^)]*\)", text) if ":" not in link]
    return [path for path in words + links if not path.startswith("target/")]


def main():
    text = {page: (TOP / page).read_text() for page in PAGES}
    references = [(RULES, code, leads(code)) for code in inline(text[RULES]) if leads(code) is not None]
    references += [(page, path, exists(path, page)) for page in PAGES for path in paths(text[page]) if page != RULES or leads(path) is None]
    wrong = [f"{page}: {what} leads nowhere" for page, what, found in references if not found]
    numbers = re.findall(r"^\| ([A-Z]\d+) \|", text[RULES], re.MULTILINE)
    wrong += [f"{RULES}: {number} stands twice" for number in sorted(set(numbers)) if numbers.count(number) > 1]
    wrong += [f"{page}: {word} is still to be filled in" for page in PAGES for word in re.findall(r"@[A-Z]+@", text[page])]
    wrong += [f"{RULES}: no rule {number}" for number in re.findall(r"\b[A-Z]\d+\b", text[RULES]) if number not in numbers]
    print(*wrong, sep="\n", end="\n" if wrong else "")
    print(f"{len(references)} references, {len(wrong)} wrong" if wrong else f"{len(references)} references, all there")
    return 1 if wrong else 0


if __name__ == "__main__":
    sys.exit(main())
