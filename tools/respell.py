#!/usr/bin/env python3
"""Brings the names of the repository's own definitions and lemmas to one spelling: words in snake case, types in camel case.

usage: tools/respell.py      at the top of the repository, once

A name is the repository's own where a file of specs/ or proofs/ declares it: a definition, a lemma, a field, a constructor. A
name that some file imports from the kit keeps its spelling, as do names of the source, strings, and English words in comments.
Answers to goals are not declarations: their names are made from the code. It stops before writing where two names would fall
together.
"""

import os
import re
import sys

NAME = r"[^\s(){}\[\].,;:=\\\"]+"
DECLARED = re.compile(rf"^\s*(?:(?:abbrev|unfoldable|pub|ruleset)\s+)*({NAME})(?: [({{].*)? : (.*)$")
SORTED = re.compile(rf"^\s*(?:(?:pub|deriving)\s+)*(?:record|data|ruleset)\s+(?:pub\s+)?({NAME})")
IMPORT = re.compile(r"\buse ((?:[\w'-]+\.)+)\{([^}]*)\}")


def files(endings):
    for top in ("crates",):
        for folder, dirs, names in os.walk(top):
            dirs[:] = sorted(d for d in dirs if d != "out")
            for name in sorted(names):
                if name.endswith(endings):
                    yield os.path.join(folder, name)


def read(path):
    with open(path, encoding="utf-8") as f:
        return f.read()


def crate_names():
    return {c for c in os.listdir("crates") if os.path.isdir(os.path.join("crates", c))}


def imported(texts, crates):
    """The names that come from the kit's libraries."""
    found = set()
    for text in texts:
        for path, names in IMPORT.findall(text):
            parts = path.rstrip(".").split(".")
            if parts[0] == "Rattle" and len(parts) > 1 and parts[1] in crates:
                continue
            found |= {n.strip().split(" as ")[0] for n in names.split(",")}
    return found


def declared(text):
    for line in text.split("\n"):
        if line.lstrip().startswith(("--", "use ", "let ", "in ", "|", "λ")):
            continue
        m = SORTED.match(line)
        if m:
            yield m.group(1)
            continue
        m = DECLARED.match(line)
        if m and not re.match(r"(?:given|goal)\.", m.group(2)):
            yield m.group(1)


# A name that would fall together with another of the repository's, and what it is called from now on.
APART = {"Card-written": "CardsAreWritten"}


def spelled(name):
    if name in APART:
        return APART[name]
    name = name.replace("′", "'")
    if "-" not in name.strip("-"):
        return name
    if name[0].isupper():
        return "".join(p[:1].upper() + p[1:] for p in name.split("-"))
    return name.replace("-", "_")


def split_comment(line, mark):
    """The line's code and its comment; a mark inside a string is no comment."""
    inside = False
    for i, c in enumerate(line):
        if c == '"' and mark == "//":
            inside = not inside
        if not inside and line.startswith(mark, i) and (i == 0 or line[i - 1].isspace()):
            return line[:i], line[i:]
    return line, ""


def respell(text, path, token, new):
    def swap(part):
        return token.sub(lambda m: new[m.group(0)], part)

    mark = "--" if path.endswith(".antt") else "//"
    out = []
    for line in text.split("\n"):
        code, comment = split_comment(line, mark)
        if mark == "//":
            pieces = re.split(r'("(?:[^"\\]|\\.)*")', code)
            code = "".join(p if i % 2 else swap(p) for i, p in enumerate(pieces))
        else:
            code = swap(code)
        comment = re.sub(r"`[^`]*`", lambda m: swap(m.group(0)), comment)
        out.append(code + comment)
    return "\n".join(out)


def main():
    crates = crate_names()
    antt = {p: read(p) for p in files((".antt",))}
    rest = {p: read(p) for p in files((".rt", ".edit"))}
    kit = imported(list(antt.values()) + list(rest.values()), crates)
    own = {n for t in antt.values() for n in declared(t)} - kit
    new = {n: spelled(n) for n in own if spelled(n) != n}
    for old, name in new.items():
        twins = [o for o in own if o != old and new.get(o, o) == name]
        if twins or name in kit:
            sys.exit(f"respell: {old} would fall together with {twins or name}")
    if not new:
        return
    edge = r"[\w'′-]"
    token = re.compile(rf"(?<!{edge})(?:{'|'.join(re.escape(n) for n in sorted(new, key=len, reverse=True))})(?!{edge})")
    count = 0
    for path, text in {**antt, **rest}.items():
        changed = respell(text, path, token, new)
        if changed != text:
            count += 1
            with open(path, "w", encoding="utf-8") as f:
                f.write(changed)
    print(f"respell: {len(new)} names in {count} files")


if __name__ == "__main__":
    main()
