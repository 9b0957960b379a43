#!/usr/bin/env python3
"""Respells this repository's own definitions, laws and fields in snake case, once, behind port.py: a capital inside a word and a dash
become an underscore, `f-spec` becomes `f_spec`. Names of types and modules, of Rattle's functions, of the kit and of what Rattle makes stay.

usage: python3 tools/respell.py          at the top of the repository: .antt and .rt files of crates/, their edits and tests/pinned, and
                                         what stands between backquotes in README.md and docs/ (docs/landings/ keeps the words of its day)
       python3 tools/respell.py names    only prints what each name becomes"""

import glob
import re
import subprocess
import sys

KIND = r"(?:abbrev pub|unfoldable pub|pub record|pub data|pub ruleset|abbrev|unfoldable|record|data|ruleset|pub)"
NAME = r"[^\s(){}\[\]<>;:,.\"`]+"
WORD = re.compile(NAME)
# The commit before port.py, whose pages and edits still have the names that port.py respelled.
LANDED = "1167d475f19ab1b3411d50bc70c5de7fc71cae68"
# An English word in comments, and a field elsewhere.
ENGLISH = "one-packet"
NOT_OURS = {"let", "in", "use", "where", "elim", "open", "mod", "unfolding"}


def files(*patterns):
    return sorted(p for pattern in patterns for p in glob.glob(pattern, recursive=True))


def text_of(path):
    return open(path, encoding="utf-8").read()


def landed(path):
    found = subprocess.run(["git", "show", f"{LANDED}:{path}"], capture_output=True, text=True)
    return found.stdout


def declared(text):
    """The names that a file of specs/ or proofs/ declares: definitions, laws, constructors, fields of records."""
    for line in text.splitlines():
        if line.lstrip().startswith("--"):
            continue
        found = re.match(rf"\s*(?:{KIND}\s+)?({NAME})\s+(?:\(|\{{|:)", line) or re.match(rf"\s*{KIND}\s+({NAME})", line)
        if found and found.group(1) not in NOT_OURS:
            yield found.group(1)


def respelled(name):
    if "-" not in name and (name[:1].isupper() or not re.search(r"[a-z0-9][A-Z]", name)):
        return name
    head, *rest = re.split(r"-", name)
    parts = [p if p[:1].isupper() else re.sub(r"(?<=[a-z0-9])([A-Z])", lambda m: "_" + m.group(1).lower(), p) for p in [head, *rest]]
    return "_".join(parts)


def imported():
    """Names that come from the kit: a law of ours that has one of them keeps it, as every use of it would have to be told apart."""
    for path in files("crates/**/*.antt"):
        for module, listed in re.findall(r"^use ([\w.]+)\.\{([^}]*)\}", text_of(path), re.M):
            if module.startswith(("Rattle.std", "native.", "lib.", "mathlib.", "Prim.")):
                yield from (n.strip() for n in listed.split(","))


def names():
    kits = set(imported())
    ours = [n for p in files("crates/*/specs/**/*.antt", "crates/*/proofs/*.antt") for n in declared(text_of(p))]
    ours = [n for n in dict.fromkeys(ours) if re.fullmatch(r"[\w₀-₉'-]+", n) and n not in kits]
    new = {n: respelled(n) for n in ours if "-" not in n and respelled(n) != n}
    taken = set(new.values()) | {n for n in ours if "-" not in n}
    # A law that would have its definition's name gets `_lem`.
    for law in ("listed_below", "read_told", "head_bytes"):
        new[law] = law + "_lem"
    for n in ours:
        if "-" in n:
            to = respelled(n)
            new[n] = to + "_lem" if to in taken else to
    return new


def pages_names(ours):
    """The same for what still has the names of LANDED: what port.py respelled too."""
    now = {n for p in files("crates/*/specs/**/*.antt", "crates/*/proofs/*.antt") for n in declared(text_of(p))}
    for path in files("crates/*/specs/**/*.antt", "crates/*/proofs/*.antt"):
        for name in declared(landed(path)):
            to = respelled(name)
            if name not in ours and name not in now and to != name:
                if to in now:
                    ours[name] = to
                elif to + "_lem" in now:
                    ours[name] = to + "_lem"
    return ours


def turned(text, ours, walk=False):
    """The text with our names respelled. In a function's proof a name behind a dot is one that Rattle made of the source: only its dashes go."""

    def one(m):
        name = m.group(0)
        if name not in ours or name == ENGLISH and re.search(r"(--|//)[^\n]*$", text[: m.start()]):
            return name
        if walk and m.start() and text[m.start() - 1] == "." and ours[name].endswith("_lem"):
            return ours[name][:-4]
        return ours[name]

    return WORD.sub(one, text)


def main():
    ours = names()
    if sys.argv[1:] == ["names"]:
        for old, new in sorted(ours.items()):
            print(old, new)
        return
    for path in files("crates/**/*.antt", "crates/**/*.rt"):
        if "/out/" in path:
            continue
        was = text_of(path)
        walk = bool(re.search(r"/proofs/.+/", path))
        now = turned(was, ours, walk)
        if walk:
            now = re.sub(r"\b([A-Za-z]\w*(?:-\w+)*)-spec\b", lambda m: m.group(1).replace("-", "_") + "_spec", now)
        if now != was:
            open(path, "w", encoding="utf-8").write(now)
    ours = pages_names(ours)
    for path in files("crates/*/must-fail/*.edit", "tests/pinned/*.edit"):
        was = text_of(path)
        now = turned(was, ours)
        if now != was:
            open(path, "w", encoding="utf-8").write(now)
    for path in files("README.md", "docs/*.md"):
        was = text_of(path)
        now = re.sub(r"`[^`\n]+`", lambda m: turned(m.group(0), ours), was)
        if now != was:
            open(path, "w", encoding="utf-8").write(now)


main()
