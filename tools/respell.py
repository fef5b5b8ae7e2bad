#!/usr/bin/env python3
"""Brings the repository's own definitions to snake case, once, after port.py: `wrongMode` becomes `wrong_mode`.

usage: python3 tools/respell.py [TREE]      rewrites crates/ of TREE (here, if left out), its must-fail edits too
       python3 tools/respell.py --list      prints each old name and its new one

A name is the repository's own where a definition, a field, a constructor or a lemma of some .antt file declares it. Strings and names that
begin with a capital stay as they are. A new name that another declaration has already is an error, and nothing is written.
"""

import pathlib
import re
import sys

WORD = re.compile(r"[A-Za-z_][A-Za-z0-9_']*")
CAMEL = re.compile(r"^[a-z][A-Za-z0-9_]*[A-Z][A-Za-z0-9_']*$")
NAME = r"[^\s:;{}()«».,]+"
DECLARED = re.compile(rf"^\s*(?:(?:abbrev|unfoldable|pub|record|data|irreducible)\s+)*({NAME})\s*:\s")
# Lemmas that would fall together with a definition, by the files that speak of them: they keep their hyphen.
APART = {
    "playback/proofs/On.antt": {"goes_on": "goes-on"},
    "playback/proofs/Going.antt": {"goes_on": "goes-on"},
    "recorded/proofs/Cuts.antt": {"next_place": "next-place"},
}
# Names that port.py has respelled already, but for where they are a part of another name.
HALF = {"isSet", "putBit"}
STRING = re.compile(r'b?"(?:[^"\\]|\\.)*"')


def snake(word):
    return re.sub(r"(?<=[a-z0-9])(?=[A-Z])", "_", word).lower()


def files(tree, *ends):
    crates = pathlib.Path(tree) / "crates"
    return [p for p in sorted(crates.rglob("*")) if p.is_file() and p.name.endswith(ends) and "/out/" not in str(p)]


def set_apart(tree):
    for name, words in APART.items():
        path = pathlib.Path(tree) / "crates" / name
        if path.is_file():
            path.write_text(WORD.sub(lambda m: words.get(m.group(0), m.group(0)), path.read_text()))


def own_names(tree):
    """Every word that a declaration of an .antt file has, and those of them that are to be respelled."""
    words = set()
    for path in files(tree, ".antt"):
        for line in path.read_text().splitlines():
            found = DECLARED.match(line)
            if found:
                words.update(found.group(1).split("-"))
                words.add(found.group(1))
    return words, {w: snake(w) for w in words if CAMEL.match(w)}


def respelled(text, names):
    """The text with each own name respelled, what stands in a string left out."""
    out, at = [], 0
    for string in list(STRING.finditer(text)) + [None]:
        end = string.start() if string else len(text)
        out.append(WORD.sub(lambda m: names.get(m.group(0), m.group(0)), text[at:end]))
        if string:
            out.append(string.group(0))
            at = string.end()
    return "".join(out)


def main(args):
    tree = next((a for a in args if not a.startswith("--")), ".")
    if "--list" not in args:
        set_apart(tree)
    words, names = own_names(tree)
    together = sorted((w, s) for w, s in names.items() if s in words and w not in HALF)
    if "--list" in args:
        print("\n".join(f"{w} {s}" for w, s in sorted(names.items())))
        return 0
    for w, s in together:
        print(f"respell: {w} would fall together with {s}", file=sys.stderr)
    if together:
        return 1
    count = 0
    for path in files(tree, ".antt", ".rt", ".edit", ".edit.txt"):
        text = path.read_text()
        new = respelled(text, names)
        if new != text:
            path.write_text(new)
            count += 1
    print(f"respell: {len(names)} names in {count} files")
    return 0


if __name__ == "__main__":
    sys.exit(main(sys.argv[1:]))
