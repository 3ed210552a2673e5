#!/usr/bin/env python3
"""Brings the repository's own definitions, lemmas and fields to snake case, in specs/, proofs/ and clauses.

usage: python3 tools/respell.py [--dry]     at the top of the repository, after the kit's port.py

A name is turned where it has a dash or a prime (′) and is defined in an .antt file of this repository: a definition, a lemma, a field, a
constructor, or a name that a proof binds by `let` or `λ`. Names that the check makes (goals, loops, branches) keep their dashes, and so
do comments. Names that are then spelt as another word of the repository are listed: here each is a function of src/, a parameter or a
label, which stand in a place of their own.
"""

import os
import re
import sys

TOKEN = re.compile(r"[^\s(){}\[\],;.:|«»\"⌜⌝⟨⟩]+")
DEFINED = re.compile(r"^\s*(?:(?:abbrev|unfoldable|pub|data|record|module)\s+)*(\S+(?:\s+\S+)*?)\s+:\s")
LET = re.compile(r"\blet\s+(\S+)\s+(?:[:=])|^\s*([^\s(){}|]+)\s+(?::[^:=]*)?=\s")
MADE = re.compile(r"\bgoal\.|\bgiven\.|\bneed\.")
GOALS = re.compile(r"^use\s+\S+\.(?:Goals|Given)\.\{([^}]*)\}", re.M)


def sources():
    for folder, dirs, files in os.walk("crates"):
        dirs[:] = sorted(d for d in dirs if d not in ("out", "data", "must-fail"))
        for name in sorted(files):
            if name.endswith((".rt", ".antt")):
                yield os.path.join(folder, name)


def halves(path, line):
    """A line's text and its comment."""
    mark = "//" if path.endswith(".rt") else "-- "
    at = line.find(mark)
    if at < 0:
        return line, ""
    return line[:at], line[at:]


def dashed(name):
    return bool(re.search(r"[^\W\d]", name)) and ("-" in name.strip("-") or "′" in name) and not name.startswith("-") and "+" not in name


def made_names(text):
    """Names of goals and branches that a proof file answers or imports."""
    names = set()
    for found in GOALS.finditer(text):
        names.update(w.strip() for w in found.group(1).split(","))
    for line in text.split("\n"):
        found = DEFINED.match(line)
        if found and MADE.search(line):
            names.update(found.group(1).split())
    return names


def collect():
    own, made = {}, set()
    for path in sources():
        if not path.endswith(".antt"):
            continue
        text = open(path, encoding="utf-8").read()
        made |= made_names(text)
        for n, whole in enumerate(text.split("\n"), 1):
            line, _ = halves(path, whole)
            found = DEFINED.match(line)
            names = []
            if found and not MADE.search(line):
                names += [w for w in found.group(1).split() if TOKEN.fullmatch(w)]
            names += [w for pair in LET.findall(line) for w in pair if w and TOKEN.fullmatch(w)]
            for name in names:
                if dashed(name):
                    own.setdefault(name, f"{path}:{n}")
    return own, made


def spelled(name):
    return name.replace("-", "_").replace("′", "'")


def turn(line, turned):
    """The line with its names turned, but for those read from a goal's facts, as in w.low-is."""

    def one(found):
        if re.search(r"\b[cw]\.$", line[: found.start()]):
            return found.group(0)
        return turned.get(found.group(0), found.group(0))

    return TOKEN.sub(one, line)


def main():
    own, made = collect()
    turned = {name: spelled(name) for name in own if name not in made}
    seen, fall = {}, []
    for path in sources():
        for n, whole in enumerate(open(path, encoding="utf-8").read().split("\n"), 1):
            line, _ = halves(path, whole)
            for found in TOKEN.finditer(line):
                seen.setdefault(found.group(0), f"{path}:{n}")
    for old, new in sorted(turned.items()):
        if new in seen:
            fall.append(f"{old} ({own[old]}) is then spelt as {new} ({seen[new]})")
    for line in fall:
        print(line)
    print(f"{len(turned)} names, {len(fall)} spelt as another word; kept, since the check makes them: {sorted(set(own) & made)}")
    if "--list" in sys.argv:
        for old, new in sorted(turned.items()):
            print(f"  {old} -> {new}   {own[old]}")
    if "--dry" in sys.argv:
        return
    count = 0
    for path in sources():
        text = open(path, encoding="utf-8").read()
        lines = []
        for whole in text.split("\n"):
            line, comment = halves(path, whole)
            lines.append(turn(line, turned) + comment)
        new = "\n".join(lines)
        if new != text:
            open(path, "w", encoding="utf-8").write(new)
            count += 1
    print(f"{count} files written")


if __name__ == "__main__":
    main()
