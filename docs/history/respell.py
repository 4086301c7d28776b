#!/usr/bin/env python3
"""Brings the repository's own definitions and lemmas to the spelling that Rattle's library uses.

Run once at the top, right after port.py. Types and facts go to camel case, all else to snake case:
Card-state to CardState, times-x to times_x, keccakF to keccak_f. A name that the library has already is left
and printed. Names of src/ and names that the check makes for goals are not touched.
"""
import glob
import re
import sys

LIBRARY = [f"/opt/rattle/rattle/{d}" for d in ("core", "std", "std_alloc", "std_collections", "std_heap", "std_io", "logic", "antt")]
WORD = r"[^\s(){}\[\],;.\"«»⌜⌝]+"
HEAD = re.compile(r"^((?:abbrev |unfoldable |opaque |pub )*)(record |data )?(" + WORD + r")(?=[\s(:]|$)")
FIELD = re.compile(r"^  (?:pub )?(" + WORD + r") :")
KEYWORDS = {"use", "mod", "open", "unfolding", "syntax", "--"}


def declared(path):
    """The names that a file of definitions or lemmas declares at its top level, with fields and constructors."""
    names = set()
    inside = False
    for line in open(path, encoding="utf-8"):
        if not line.strip() or line.startswith("--"):
            continue
        if line.startswith("  "):
            m = FIELD.match(line)
            if inside and m:
                names.add(m.group(1))
            continue
        m = HEAD.match(line)
        if not m or m.group(3) in KEYWORDS or line.startswith("pub mod"):
            inside = False
            continue
        inside = bool(m.group(2))
        names.add(m.group(3))
    return names


def respelled(name):
    if not re.fullmatch(r"[A-Za-z0-9][A-Za-z0-9_'\-]*", name):
        return name
    if name[0].isupper():
        parts = re.split(r"[-_]", name)
        return parts[0] + "".join(p[:1].upper() + p[1:] for p in parts[1:])
    name = re.sub(r"(?<=[a-z0-9])([A-Z])", lambda m: "_" + m.group(1).lower(), name)
    return re.sub(r"(?<=[A-Za-z0-9'])-(?=[A-Za-z0-9])", "_", name)


def main():
    own = set()
    for path in glob.glob("crates/*/specs/*.antt") + glob.glob("crates/*/proofs/*.antt"):
        own |= declared(path)
    library = set()
    for folder in LIBRARY:
        for path in glob.glob(folder + "/**/*.antt", recursive=True):
            if "/examples/" not in path and "/tests/" not in path:
                library |= declared(path)
    rust = set()
    for path in glob.glob("crates/*/src/**/*.rt", recursive=True):
        rust |= set(re.findall(r"\b(?:fn|struct|enum|trait|mod|const|type) (\w+)", open(path, encoding="utf-8").read()))
    turns = {}
    for name in sorted(own):
        new = respelled(name)
        if new == name:
            continue
        if name in library:
            print(f"left: {name}: the library has one of that name")
        elif new in library:
            print(f"left: {name}: the library has {new}")
        elif new in own or new in turns.values():
            print(f"left: {name}: falls together with {new}")
        else:
            if new in rust:
                print(f"look: {name} -> {new}, which src/ has too")
            turns[name] = new
    token = re.compile(WORD)
    files = [p for p in glob.glob("crates/**/*", recursive=True) if re.search(r"\.(rt|antt|edit)$", p) and "/out/" not in p]
    changed = 0
    for path in files:
        text = open(path, encoding="utf-8").read()
        comment = "//" if path.endswith(".rt") else "--"
        lines = []
        for line in text.split("\n"):
            code, sep, rest = line, "", ""
            if not path.endswith(".edit"):
                m = re.search(r"(^|\s)" + re.escape(comment) + r"(\s|$)", line)
                if m:
                    code, sep, rest = line[: m.start()], "", line[m.start() :]
            lines.append(token.sub(lambda m: turns.get(m.group(0), m.group(0)), code) + sep + rest)
        new = "\n".join(lines)
        if new != text:
            open(path, "w", encoding="utf-8").write(new)
            changed += 1
    print(f"{len(turns)} names, {changed} files")
    for name, new in turns.items():
        print(f"  {name} -> {new}", file=sys.stderr)


main()
