#!/usr/bin/env python3
"""Lists the places of docs/DESIGN-PASS.md: tools/places.py [COMMIT], the working tree where no commit is given."""
import collections
import re
import subprocess
import sys

COMMIT = sys.argv[1:2]


def git(*words):
    return subprocess.run(["git", *words], check=True, capture_output=True, text=True).stdout


def files(pattern):
    if COMMIT:
        names = git("ls-tree", "-r", "--name-only", COMMIT[0]).split("\n")
        return {n: git("show", f"{COMMIT[0]}:{n}") for n in names if re.fullmatch(pattern, n)}
    return {n: open(n).read() for n in git("ls-files").split("\n") if re.fullmatch(pattern, n)}


def told(title, rows):
    print(f"{title}: {len(rows)}")
    for row in rows:
        print(f"    {row}")


SRC = files(r"crates/[a-z_]+/src/.*\.rt")
LINES = [(n, i + 1, l) for n, s in SRC.items() for i, l in enumerate(s.split("\n")) if not l.lstrip().startswith("//")]


def grep(pattern):
    return [f"{n}:{i}: {l.strip()}" for n, i, l in LINES if re.search(pattern, l)]


def functions():
    """Each function with its file, name, parameters, clauses and body."""
    for name, text in SRC.items():
        for m in re.finditer(r"^( *)(?:pub(?:\(crate\))? )?(?:extern \"C\" )?fn (\w+)(.*?)^\1\{\n(.*?)^\1\}$", text, re.M | re.S):
            head = m.group(3)
            yield name, m.group(2), head.split("ensures")[0].split("requires")[0], head, m.group(4)


FUNCTIONS = list(functions())


def shape(code):
    """The code with each name that is its own called by its place, and each number N."""
    seen = {}
    own = re.compile(r"[A-Za-z_]\w*|\d\w*|\S")
    keep = {"let", "mut", "if", "else", "match", "return", "while", "for", "in", "fn", "as", "u8", "u16", "u32", "u64", "usize", "bool", "true", "false"}
    out = []
    for t in own.findall(re.sub(r"//.*", "", code)):
        if t[0].isdigit():
            out.append("N")
        elif re.fullmatch(r"u8|u16|u32|u64|usize", t):
            out.append("width")
        elif re.fullmatch(r"[A-Za-z_]\w*", t) and t not in keep:
            out.append(seen.setdefault(t, f"n{len(seen)}"))
        else:
            out.append(t)
    return " ".join(out)


def option_like(text):
    for m in re.finditer(r"^pub enum (\w+) \{\n(.*?)^\}", text, re.M | re.S):
        flat = re.sub(r"\{[^}]*\}", "(..)", m.group(2))
        cases = [c.strip() for c in flat.split(",") if c.strip()]
        bare = [c for c in cases if "(" not in c]
        if len(cases) == 2 and len(bare) == 1:
            yield m.group(1)


told("1a enums of one bare case and one with a value", [f"{n}: {e}" for n, s in SRC.items() for e in option_like(s)])
told("1b flags with values beside, numbers for kinds, refusals, controls and none", grep(
    r"fits: bool|\b(number|check|kind|answer|reason|control|exiting): u(8|32|64)\b|match (kind|byte_at\(\w+, KIND\)) \{|kind == \d|KINDS <=|\b(refused|numbered)\(\d"
    r"|^const [A-Z_]+: u8 = \d;|is_on\([A-Z]|fn (failing_check|check_of|highest_bit|highest_in|highest_from|place_in|place_from)\b.*-> u(8|32)"))
twins = collections.defaultdict(list)
for n, f, head, clauses, body in FUNCTIONS:
    s = shape(head + body)
    if len(s.split()) > 12:
        twins[n.split("/")[1], s].append(f)
told("2a functions of one crate alike but for names, widths and numbers", [f"{c}: {', '.join(f)}" for (c, s), f in twins.items() if len(f) > 1])
told("2b exports and functions with the same parameters in two crates", [f"{', '.join(sorted(w))}: {f}" for f, w in sorted(
    {f: {n.split('/')[1] for n, g, h, _, _ in FUNCTIONS if g == f and f.startswith('gg_')} for _, f, _, _, _ in FUNCTIONS}.items()) if len(w) > 1])
told("3 loops", grep(r"^\s*(while|for|loop)\b"))
told("4 conversions, orders, copies and printing by hand", grep(
    r"/ 0x1(00|_0000|00_0000|_0000_0000)\b|\b0x1(00|_0000|00_0000|_0000_0000) \* |fn (say|say_\w+|truth_byte|by_fields|with_controls|larger_of|numbers_of|or|digit|word_of|no_controls)\b"))
clauses = collections.Counter(re.sub(r"\s+", " ", c) for _, _, _, h, _ in FUNCTIONS for c in re.findall(r"requires(?: \w+)? \{ (.*?) \}\n", h))
told("5a clauses that three or more functions require", [f"{k} times {c}" for c, k in clauses.most_common() if k > 2])
runs = collections.Counter()
for _, _, h, _, _ in FUNCTIONS:
    ps = [p.strip() for p in re.sub(r"\s+", " ", h.split(")")[0].partition("(")[2]).split(",") if ":" in p]
    for i in range(len(ps) - 1):
        runs[ps[i] + ", " + ps[i + 1]] += 1
told("5b pairs of parameters, the same in five or more functions", [f"{k} functions: {p}" for p, k in runs.most_common() if k > 4])
told("6 lengths and places beside buffers, fields by number", grep(r"\[u8\], at: u64|\[u8; READ\], length: usize|pub \w+_[0-3]: u64,"))
told("7 functions and fields that take or hold a function, and dyn", grep(r"\bdyn\b|\bfn\(|impl Fn|: Fn(Mut|Once)?\("))
proofs = files(r"crates/[a-z_]+/proofs/.+/(Answers|Invariants)\.antt")
lemmas = files(r"crates/[a-z_]+/proofs/[A-Z]\w+\.antt")
print(f"8 files of answers and invariants: {len(proofs)}, {sum(s.count(chr(10)) for s in proofs.values())} lines; of lemmas and theorems: {len(lemmas)}, {sum(s.count(chr(10)) for s in lemmas.values())} lines")
