#!/usr/bin/env python3
"""Lists the places in crates/*/src that docs/DESIGN-PASS.md counts, by point: tools/forms.py [FOLDER] [--list]"""
import collections, glob, os, re, sys

FOLDER = next((a for a in sys.argv[1:] if not a.startswith("-")), ".")
LIST = "--list" in sys.argv

def sources():
    for path in sorted(glob.glob(os.path.join(FOLDER, "crates/*/src/*.rt"))):
        yield os.path.relpath(path, FOLDER).replace("crates/", "").replace("/src/lib.rt", "").replace("/src/main.rt", ""), open(path).read()

def functions(text):
    """Each function: name, parameters, clauses, body."""
    for m in re.finditer(r"^( *)(?:pub )?(?:extern \"C\" )?fn (\w+)[^(]*\(", text, re.M):
        close = "\n" + m[1] + "}"
        end = text.find(close, m.end())
        brace = text.find("\n" + m[1] + "{", m.end())
        if brace < 0 or brace > end:
            brace = text.find("{", m.end())
        head = text[m.end():brace]
        yield m[2], head, text[brace:end], text.count("\n", 0, m.start()) + 1

def by_line(pattern):
    found = []
    for crate, text in sources():
        for n, line in enumerate(text.split("\n"), 1):
            if re.search(pattern, line) and not line.strip().startswith("//"):
                found.append(f"{crate}:{n}: {line.strip()}")
    return found

def blocks(word):
    """Each struct or each enum: its crate, name, and the lines inside."""
    for crate, text in sources():
        for m in re.finditer(word + r" (\w+)(?:<[^>]*>)? \{\n(.*?)\n\}", text, re.S):
            yield crate, m[1], m[2]

def option_like():
    """Enums with one variant that holds the value and one that holds nothing, a number or a refusal."""
    found = []
    for crate, name, inside in blocks("enum"):
        variants = [v.strip().rstrip(",") for v in inside.split("\n") if v.strip() and not v.strip().startswith("//")]
        if len(variants) == 2 and any(re.fullmatch(r"\w+(\(u32\)|\(Refusal\))?", v) for v in variants) and name != "Stop":
            found.append(f"{crate}: enum {name} {{ {', '.join(variants)} }}")
    return found

def flags():
    """Structs that hold a bool beside other fields."""
    fields = [(crate, name, re.findall(r"(\w+): ([^,\n]+),", inside)) for crate, name, inside in blocks("struct")]
    return [f"{crate}: {name}.{field}" for crate, name, all in fields if len(all) > 1 for field, kind in all if kind == "bool"]

def codes():
    """Numbers that stand for a kind, a reason or a refusal: their fields, parameters and results, constants, and where one is made or read."""
    return by_line(r"\b(why|kind|code|phase): (u8|u32|u64)\b|const (START|FEED|LOOK|SAVE|RESTORE_\w+|GATHER|TRIAL|NOTHING|CHANGING|DIP|SWELL|INTERRUPTION|CHANGE): u8"
                   r"|return [1-9]\d*;|[Rr]efused\((\w+, )*\d+\)|why: \d|why == \d|0 < (half\.|told\.)?why|let mut why = \d|-> u32$")

WORDS = re.compile(r"\w+|[^\w\s]")
def shape(head, body):
    names, out = {}, []
    for w in WORDS.findall(re.sub(r"//[^\n]*", "", head.split("requires")[0].split("ensures")[0] + body)):
        if re.fullmatch(r"[A-Za-z_]\w*", w) and w not in ("fn", "let", "mut", "if", "else", "while", "for", "in", "return", "match", "self", "true", "false"):
            w = "#%d" % names.setdefault(w, len(names))
        out.append(w)
    return " ".join(out)

def twins():
    groups = collections.defaultdict(list)
    for crate, text in sources():
        for name, head, body, line in functions(text):
            s = shape(head, body)
            if len(s.split()) >= 40:
                groups[s].append(f"{crate}::{name}:{line}")
    return [" = ".join(g) for g in groups.values() if len(g) > 1]

def loops():
    return by_line(r"^\s*while ")

def by_hand():
    return by_line(r"numbers::(minus|flag)\(|check::same|io::decimal|fn (lower|higher|distance|chunk_of|copy|set_all|sample|digit|put_hex|print_decimal|put_kind|put_column|put_line|phase_number|is_true"
                   r"|minus|flag|one_if|print_mark|no_item|word|wide|put)\(")

def facts():
    """Conjuncts of requires (names of parameters as they are) that stand in three or more functions."""
    count = collections.defaultdict(set)
    for crate, text in sources():
        for name, head, body, line in functions(text):
            for clause in re.findall(r"requires(?: \w+)? \{(.*?)\}\s*(?=requires|ensures|$)", head, re.S):
                depth, part, parts = 0, "", []
                for ch in clause:
                    depth += (ch == "(") - (ch == ")")
                    if ch == "×" and depth == 0:
                        parts.append(part); part = ""
                    else:
                        part += ch
                parts.append(part)
                for p in parts:
                    p = re.sub(r"\s+", " ", p.strip())
                    p = p[1:-1] if p.startswith("(") and p.endswith(")") and p.count("(") == 1 else p
                    p = re.sub(r"\b\w+(?=\.(?:old|now|new)\b)", "x", p)
                    p = re.sub(r"\b(self|logger|list|result)\.(?=state|logger)", "x.", p).replace("x.logger.", "x.")
                    count[p].add(f"{crate}::{name}:{line}")
    return [f"{len(v)}: {k}" for k, v in sorted(count.items(), key=lambda i: -len(i[1])) if len(v) > 2]

def together():
    """Pairs of parameters that stand together in three or more functions, where each stands with the other in most."""
    count, alone = collections.Counter(), collections.Counter()
    for crate, text in sources():
        for name, head, body, line in functions(text):
            params = [p for p in re.findall(r"(\w+): ", head.split(") ")[0].split("requires")[0]) if p not in ("rt",)]
            for p in set(params):
                alone[p] += 1
            for a in params:
                for b in params:
                    if a < b:
                        count[a, b] += 1
    return [f"{n}: {a}, {b}" for (a, b), n in count.most_common() if n >= 5 and 2 * n >= max(alone[a], alone[b])]

def buffers():
    return by_line(r"fn \w+.*(\bat: usize|kept: usize|widths: &\[u8\]|, count: usize\))|^\s+(saves|kept|at|widths): (&mut \[u8\]|usize|&\[u8\]),?")

def switches():
    return by_line(r"\btrial: bool|if kind == |if trial\b|item\.kind (==|!=)")

def answers():
    files = [p for p in glob.glob(os.path.join(FOLDER, "crates/*/proofs/**/*.antt"), recursive=True)]
    return [f"{os.path.relpath(p, FOLDER)}: {sum(1 for _ in open(p))}" for p in sorted(files) if os.path.basename(p) in ("Answers.antt", "Invariants.antt")]

POINTS = [
    ("1a enums of the shape of Option or Result", option_like),
    ("1b a flag beside values in a struct", flags),
    ("1c numbers for kinds, reasons and refusals", codes),
    ("2 functions of one shape", twins),
    ("3 loops by `while`", loops),
    ("4 equality, conversion and printing by hand", by_hand),
    ("5a facts in three or more contracts", facts),
    ("5b parameters that travel together", together),
    ("6 buffers with a length or a place beside them", buffers),
    ("7 switches on which step to run", switches),
    ("8 files of answers and invariants", answers),
]
for title, find in POINTS:
    found = find()
    print(f"{title}: {len(found)}")
    if LIST:
        for f in found:
            print("    " + f)
