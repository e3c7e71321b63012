#!/usr/bin/env python3
"""Brings the repository's own ghost names to snake case, and its facts and types to camel case.

usage: python3 tools/snake_names.py [--list]     at the top of the repository, once, after the kit's port.py

A name is the repository's own where a file of specs/ or proofs/ declares it. Names that a file imports from
a library keep their spelling there. Functions of src/, exported names, strings and comments in code stay;
in clauses and ghost lines only the own names are turned. --list prints the names that fall together and writes nothing.
"""
import os, re, sys

CRATES = "crates"
if not os.path.isdir(CRATES):
    sys.exit("snake_names: no folder crates here: run it at the top of the repository")
OWN = sorted(c for c in os.listdir(CRATES) if os.path.isdir(os.path.join(CRATES, c)))
WORD = re.compile(r"[^\W\d][\w'′]*(?:-[\w'′]+)*", re.U)
DECL = re.compile(r"^\s*(?:(?:pub|abbrev|unfoldable|opaque|record|data|module|mod|private|instance|syntax)\s+)*([^\W\d][\w'′]*(?:-[\w'′]+)*)\s*(?::|\(|\{|where\b)", re.U)


def files(*endings):
    for folder, dirs, names in os.walk(CRATES):
        dirs[:] = sorted(d for d in dirs if d != "out")
        for f in sorted(names):
            if f.endswith(endings or (".rt", ".antt")):
                yield os.path.join(folder, f)


def split_comment(line):
    i = line.find("--")
    while i >= 0:
        if (i == 0 or line[i - 1] in " \t") and (i + 2 == len(line) or line[i + 2] in " -\n"):
            return line[:i], line[i:]
        i = line.find("--", i + 1)
    return line, ""


def imported(text):
    """Names that a file brings in from a library that is not of the repository."""
    out = set()
    for m in re.finditer(r"(?m)^\s*(?:ghost )?(?:pub )?use ([\w.′'+-]+?)(?:\.\{([^}]*)\})?(?: as ([\w'-]+))?;?\s*$", text):
        path, names = m.group(1), m.group(2)
        own = path.startswith("Rattle.") and path.split(".")[1] in OWN
        if not own:
            for n in WORD.findall(names or path.split(".")[-1]):
                out.add(n)
    return out


def declared():
    names = set()
    for p in files():
        if not p.endswith(".antt"):
            continue
        in_function = os.path.basename(p) in ("Proof.antt", "Answers.antt", "Invariants.antt")
        for line in open(p, encoding="utf-8"):
            code, _ = split_comment(line)
            m = DECL.match(code)
            if m and "-" in m.group(1) and not (in_function and "Need-" in code):
                names.add(m.group(1))
            # constructors and fields stand alone with a colon, and so do names in a row before one
            m = re.match(r"^\s*(?:pub\s+)?((?:[^\W\d][\w'′-]*\s+)+):", code)
            if m:
                for n in m.group(1).split():
                    if "-" in n and not (in_function and "Need-" in code):
                        names.add(n)
    return names


def turned(name):
    name = name.replace("′", "'")
    if name[0].isupper():
        return "".join(w[:1].upper() + w[1:] for w in re.split("[-_]", name))
    return name.replace("-", "_")


QUOTED = re.compile(r"`[^`]*`")


def ghost_spans(text):
    """The parts of a source that are ghost: use lines, clauses, ghost items."""
    spans = []
    for m in re.finditer(r"(?m)^[ \t]*ghost use [^;]*;", text):
        spans.append(m.span())
    for m in re.finditer(r"(?m)(?:^|[ \t])(?:requires|ensures|decreases)(?: [\w]+)? \{|^[ \t]*ghost (?!use\b)\w+[^{;]*\{", text):
        i, depth = m.end(), 1
        while depth and i < len(text):
            depth += {"{": 1, "}": -1}.get(text[i], 0)
            i += 1
        spans.append((m.start(), i))
    return sorted(spans)


def main():
    names = declared()
    # names that port.py turned halfway, as Has_bits
    half = set()
    for p in files():
        t = open(p, encoding="utf-8").read()
        for n in WORD.findall(t):
            if re.match(r"[A-Z][a-z]+_[a-z]", n):
                half.add(n)
    # a field that port.py leaves where a parameter has its name
    names |= half | {"came-from"}
    clash = 0
    for p in files():
        text = open(p, encoding="utf-8").read()
        keep = imported(text)
        seen = set(WORD.findall(text))

        def one(m):
            n = m.group(0)
            if n in names and n not in keep and turned(n) != n:
                return turned(n)
            return n

        if p.endswith(".antt"):
            out = []
            for line in text.splitlines(keepends=True):
                code, comment = split_comment(line)
                out.append(WORD.sub(one, code) + QUOTED.sub(lambda q: WORD.sub(one, q.group(0)), comment))
            new = "".join(out)
        else:
            new, last = "", 0
            for a, b in ghost_spans(text):
                new += text[last:a] + WORD.sub(one, text[a:b])
                last = b
            new += text[last:]
        if "--list" in sys.argv:
            for n in sorted(seen):
                if n in names and n not in keep and turned(n) != n and turned(n) in seen:
                    print(os.path.relpath(p, CRATES), n, turned(n))
                    clash += 1
        elif new != text:
            open(p, "w", encoding="utf-8").write(new)
    # an edit changes lines of these files, so its lines are turned as they are
    for p in files(".edit") if "--list" not in sys.argv else ():
        text = open(p, encoding="utf-8").read()
        new = "".join(WORD.sub(lambda m: turned(m.group(0)) if m.group(0) in names else m.group(0), l) if l.startswith(("old:", "new:")) else l for l in text.splitlines(keepends=True))
        if new != text:
            open(p, "w", encoding="utf-8").write(new)
    if "--list" in sys.argv:
        print(sorted(half))
        print(len(names), "own names,", clash, "places where both spellings stand in one file")


main()
