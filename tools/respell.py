#!/usr/bin/env python3
"""Brings the repository's own names to one spelling: words in snake case, types in upper camel case.

usage: tools/respell.py            at the top of the repository; writes the files in place
       tools/respell.py --list     prints each name and what it becomes, and names that would fall together

It served once, for the move to today's Rattle (docs/PORT.md), and knows files Proof.antt of the older form, not Answers.antt: on
today's crates it would turn goals' names too.

A name is the repository's own where a file of specs/ or proofs/ declares or binds it. Names of the library, names of
src/ and names that the check makes for a function's proof (the files Proof.antt declare those) stay as they are.
"""

import os
import re
import subprocess
import sys

WORD = re.compile(r"[^\s(){}\[\];,.@«»\"`]+")
DASHED = re.compile(r"[\w'₀-₉⁰-⁹]-[\w'₀-₉⁰-⁹]")
HEAD = re.compile(r"^(\s*)((?:(?:unfoldable|abbrev|pub|data|record|mutual|package|module|ruleset)\s+)*)([^\s(){}\[\];,.@«»\"`:]+)\s*(?=[:({])")


def files(top, *endings):
    for folder, dirs, names in os.walk(os.path.join(top, "crates")):
        dirs[:] = sorted(d for d in dirs if d not in ("out", "must-fail"))
        for name in sorted(names):
            if name.endswith(endings):
                yield os.path.join(folder, name)


def read(path):
    with open(path, encoding="utf-8") as f:
        return f.read()


def parts(line, mark):
    """The code of a line and its comment."""
    at = 0
    while True:
        at = line.find(mark, at)
        if at < 0:
            return line, ""
        if at == 0 or line[at - 1] in " \t":
            return line[:at], line[at:]
        at += 1


def words(code):
    for m in WORD.finditer(code):
        yield m


def declared(path, text):
    """The dashed names that a file declares or binds, and those among them that follow a dot (fields)."""
    own, fields = set(), set()
    by_hand = os.path.basename(path) != "Proof.antt"
    inside = None
    for line in text.splitlines():
        code, _ = parts(line, "--")
        m = re.match(r"^\s+(?:pub )?((?:[^\s(){}\[\];,.@«»\"`:]+ )+):", code)
        if m and by_hand and not code.lstrip().startswith("let "):
            own.update(m.group(1).split())
        own.update(re.findall(r"^\s*(?:pub )?(?:ghost )?use \S+ as (\S+)$", code))
        m = HEAD.match(code)
        if m and not code.lstrip().startswith(("use ", "pub use ", "open ", "unfolding ")):
            name, indent = m.group(3), len(m.group(1))
            if by_hand or indent > 0:
                own.add(name)
                if indent > 0:
                    fields.add(name)
        # Binders: λ x y. · (x y : T) · {x y : T} · let x = · let x : · x ↦ · x ← · clauses f x y =
        for m in re.finditer(r"λ\s*([^.]*)\.", code):
            own.update(w.group(0) for w in words(m.group(1)))
        for m in re.finditer(r"[({]([^(){}:]*)\s:\s", code):
            own.update(w.group(0) for w in words(m.group(1)))
        for m in re.finditer(r"\blet\s+([^\s:=]+)\s*[:=]", code):
            own.add(m.group(1))
        for m in re.finditer(r"let\s+\(([^)]*)\)\s*=", code):
            own.update(w.group(0) for w in words(m.group(1)))
        for m in re.finditer(r"(?:\[|\|)\s*([^\[|↦]*?)\s*↦", code):
            own.update(w.group(0) for w in words(m.group(1)))
        m = re.match(r"^\s*([^\s(){}\[\];,.:=]+)\s+([^=:]*?)\s=(?:\s|$)", code)
        if m and not code.lstrip().startswith(("let ", "use ", "in ")):
            own.update(w.group(0) for w in words(m.group(2)))
    return {n for n in own if DASHED.search(n)}, {n for n in fields if DASHED.search(n)}


def tops(text):
    """The names that a file Proof.antt declares for the check."""
    found = set()
    for line in text.splitlines():
        m = HEAD.match(line)
        if m and not m.group(1):
            found.add(m.group(3))
    return found


def library():
    """The dashed names of the kit's own libraries."""
    found = set()
    kit = os.path.dirname(subprocess.run(["rt", "doc"], capture_output=True, text=True, check=True).stdout.strip())
    for folder in ("rattle",):
        for where, dirs, names in os.walk(os.path.join(kit, folder)):
            for name in names:
                if name.endswith(".antt"):
                    for line in read(os.path.join(where, name)).splitlines():
                        m = HEAD.match(line)
                        if m and DASHED.search(m.group(3)):
                            found.add(m.group(3))
    return found


def spelled(name):
    if name[0].isupper() and name.split("-")[0][1:].islower():
        return re.sub(r"-(\w)", lambda m: m.group(1).upper(), name)
    return name.replace("-", "_")


def imported(text):
    """The dashed names that a file takes from the kit's libraries."""
    found = set()
    for m in re.finditer(r"^\s*(?:pub )?(?:ghost )?use\s+([^\s{;]+)\.\{([^}]*)\}", text, re.M):
        if not re.match(r"Rattle\.(\w+)\.", m.group(1)) or re.match(r"Rattle\.(std|core|io|libc|os|std_alloc|std_heap)\.", m.group(1)):
            found.update(w.strip() for w in m.group(2).split(","))
    return found


def main():
    if sys.argv[1:] in (["-h"], ["--help"]):
        print(__doc__.strip())
        return 0
    if sys.argv[1:] not in ([], ["--list"]):
        print("tools/respell.py: one option, --list, or none; see --help", file=sys.stderr)
        return 2
    top = "."
    if next(files(top, "Answers.antt"), None) is not None and os.path.exists(os.path.join(top, "docs/PORT.md")):
        print("tools/respell.py: the crates are in today's form already; see --help", file=sys.stderr)
        return 2
    listing = "--list" in sys.argv
    texts = {p: read(p) for p in files(top, ".antt", ".rt")}
    own, fields = set(), set()
    for path, text in texts.items():
        if path.endswith(".antt"):
            a, b = declared(path, text)
            own |= a
            fields |= b
    theirs = library()
    both = sorted(own & theirs)
    table = {n: spelled(n) for n in own}
    # Two names that would become one, in one file.
    together = []
    for path, text in texts.items():
        mark = "--" if path.endswith(".antt") else "//"
        seen = set()
        for line in text.splitlines():
            seen.update(w.group(0) for w in words(parts(line, mark)[0]))
            if path.endswith(".rt"):
                seen.update(m.group(1) for m in re.finditer(r"\b(\w+)\s*:", line))
        for n in seen:
            if n in table and table[n] in seen:
                together.append((path, n))
    if listing:
        for n in sorted(table):
            print(n, table[n])
        print("in the library too:", " ".join(both))
        for path, n in sorted(together):
            print("together:", path, n)
        return 0
    for path, text in texts.items():
        mark = "--" if path.endswith(".antt") else "//"
        keep = imported(text)
        generated = tops(text) if os.path.basename(path) == "Proof.antt" else set()
        a_proof = bool(generated)
        out = []
        for line in text.split("\n"):
            code, comment = parts(line, mark)

            def turn(m):
                w = m.group(0)
                if w not in table or w in keep or w in generated:
                    return w
                before = code[m.start() - 1] if m.start() else " "
                if before == "." and a_proof and w not in fields:
                    return w
                return table[w]

            code = WORD.sub(turn, code)
            comment = re.sub(r"`([^`]*)`", lambda m: "`" + WORD.sub(lambda w: table.get(w.group(0), w.group(0)), m.group(1)) + "`", comment)
            out.append(code + comment)
        new = "\n".join(out)
        if new != text:
            with open(path, "w", encoding="utf-8") as f:
                f.write(new)
    return 0


if __name__ == "__main__":
    sys.exit(main())
