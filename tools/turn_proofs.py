#!/usr/bin/env python3
"""Turns the Proof.antt files of an older Rattle into Invariants.antt and Answers.antt.

usage: python3 tools/turn_proofs.py NAMES CRATE [FUNCTION..]     at the top of the repository

NAMES is the names.json that `rt check --generated DIR --old-names` writes in the crate's folder. An answer that is only
`search rules` is left out, since the check tries that by itself. What a file has that this does not know stands as it was,
after a line `-- by hand:`; the check then says what is wrong with it.
"""
import json, os, re, sys

NAME = r"[^\W\d][\w'₀₁₂]*(?:-[\w'₀₁₂]+)*"


def norm(n):
    return n.replace("-", "_")


class Function:
    def __init__(self, data, crate, path):
        self.d, self.crate, self.path = data, crate, path
        self.places = {}
        self.index = {}
        for i, (name, parent, step, callee, more) in enumerate(data["places"]):
            self.places[name] = (parent, step, callee)
            self.index[name] = i
        self.notes = []

    def chain(self, place):
        while place is not None:
            yield place
            place = self.places[place][0]

    def clause_fields(self, info, rest):
        """The numbers of a conjunction of clauses, as their names."""
        fields = info["fields"]
        n = len(fields)
        if n < 2 or not rest:
            return rest
        k, i = 0, 0
        while i < len(rest) and k < n - 1 and rest[i] == "1":
            k += 1
            i += 1
        if k == n - 1:
            return [fields[k]] + rest[i:]
        if i < len(rest) and rest[i] == "0":
            return [fields[k]] + rest[i + 1:]
        self.notes.append("a conjunction is named whole: " + ".".join(rest))
        return rest

    def resolve(self, fields, goal):
        """A path of the older form, whose steps are nested, at the place of a goal; today's has them side by side."""
        depth = 0
        while depth < len(fields) and fields[depth] == "before":
            depth += 1
        rest = fields[depth:]
        if not rest:
            return "c"
        f = rest[0]
        if f in ("args", "requires", "lifetimes", "well_formed"):
            if f == "requires" and self.d["pre"]:
                rest = ["requires"] + self.clause_fields(self.d["pre"], rest[1:])
            if f == "args" and len(rest) > 1:
                for table in self.d["args"]:
                    for old, new in [table] if isinstance(table[0], str) else table:
                        if old == ".args ." + rest[1]:
                            rest[1] = new.split(".")[-1]
            return "c." + ".".join(rest)
        chain = list(self.chain(goal))
        found = [p for p in chain if norm(self.places[p][1][0]).lower() == norm(f).lower()]
        if not found:
            plain = lambda n: re.sub(r"\d+$", "", norm(n)).lower()
            found = [p for p in chain if plain(self.places[p][1][0]) == plain(f)]
            found.sort(key=lambda p: abs(chain.index(p) - depth))
            if len(found) > 1:
                self.notes.append(f"{f} may be one of {len(found)} steps")
        if not found:
            self.notes.append(f"no step {f}")
            return "c." + ".".join(rest)
        p = found[0]
        parent, step, callee = self.places[p]
        f, after = step[0], rest[1:]
        for q in chain:
            arm = self.d["arms"][self.index[q]]
            if arm:
                for new, old_step, old_fields in arm[2]:
                    if norm(old_step) == norm(f) and old_fields and after[: len(old_fields)] == old_fields and not new.endswith("-own"):
                        return ".".join(["c", arm[0], new] + after[len(old_fields):])
        info = self.d["clauses"][self.index[p]]
        if info and after[:1] == ["ensures"]:
            after = ["ensures"] + self.clause_fields(info, after[1:])
        return ".".join(["c", step[1]] + after)

    def body(self, text, place):
        """A body with its paths turned."""
        names, conditions = {"c"}, set()
        out, last = [], 0
        for m in re.finditer(r"(?<![\w.'])(" + NAME + r")((?:\.[\w'₀-]+)*)", text):
            if m.group(1) in conditions and m.group(2):
                fields = self.clause_fields(self.d["pre"], m.group(2)[1:].split("."))
                out.append(text[last : m.start()] + ".".join([m.group(1)] + fields))
                last = m.end()
            if m.group(1) not in names:
                continue
            new = self.resolve([x for x in m.group(2).split(".") if x], place)
            bind = re.search(r"let (" + NAME + r") = $", text[: m.start()])
            if bind and new == "c" and re.match(r"\s+in\b", text[m.end():]):
                names.add(bind.group(1))
            if bind and new == "c.requires" and self.d["pre"]:
                conditions.add(bind.group(1))
            out.append(text[last : m.start()] + new)
            last = m.end()
        out.append(text[last:])
        return "".join(out)


def items(text):
    """The top-level items of a file: (comments, text)."""
    out, comments, now = [], [], []
    for line in text.split("\n"):
        if line.startswith("--"):
            if now:
                out.append((comments, now))
                comments, now = [], []
            comments.append(line)
        elif not line.strip():
            if now:
                out.append((comments, now))
                comments, now = [], []
        elif line[0] not in " \t)]}" and now and not line.startswith("unfolding") and not same_item(now, line):
            out.append((comments, now))
            comments, now = [], [line]
        else:
            now.append(line)
    if now:
        out.append((comments, now))
    return [(c, "\n".join(n)) for c, n in out]


def same_item(now, line):
    head = re.match(r"(?:(?:abbrev|unfoldable|pub) )*(" + NAME + ")", now[0])
    if now[0].startswith("use ") or line.startswith("use "):
        return False
    mine = re.match(NAME, line)
    return bool(head and mine and head.group(1) == mine.group(0))


def top_tuple(text):
    """The parts of the tuple at the end of a body, and what stands before it; None where it does not end in one."""
    t = text.rstrip()
    if not t.endswith(")"):
        return None
    depth, i = 0, len(t) - 1
    commas = []
    while i >= 0:
        ch = t[i]
        if ch in ")]}":
            depth += 1
        elif ch in "([{":
            depth -= 1
            if depth == 0:
                break
        elif ch == "," and depth == 1:
            commas.append(i)
        i -= 1
    head = t[:i].rstrip()
    if not commas or not (head == "" or head.endswith(" in") or head.endswith("=")):
        return None
    cuts = [i] + commas[::-1] + [len(t) - 1]
    parts = [t[a + 1 : b].strip() for a, b in zip(cuts, cuts[1:])]
    if not parts[-1]:
        parts.pop()
    return (head, parts) if len(parts) > 1 else None


def named(body, fields):
    got = top_tuple(body)
    if not got:
        return None
    head, parts = got
    if len(parts) > len(fields):
        parts = parts[: len(fields) - 1] + ["(" + ", ".join(parts[len(fields) - 1 :]) + ")"]
    # (a, (b, c)) is (a, b, c)
    while len(parts) < len(fields):
        inner = top_tuple(parts[-1])
        if not inner or inner[0]:
            return None
        parts = parts[:-1] + inner[1]
    if len(parts) > len(fields):
        return None
    return (head + " " if head else "") + "record { " + "; ".join(f"{f} = {p}" for f, p in zip(fields, parts)) + " }"


def turn(file, data, crate, path):
    text = open(file, encoding="utf-8").read()
    fn = Function(data, crate, path)
    answers, invariants, uses, hand = [], [], [], []
    for table in data["args"]:
        for old, new in [table] if isinstance(table[0], str) else table:
            if old.startswith(".args ."):
                text = re.sub(r"\." + old[7:] + r"\b", "." + new[7:], text)
    needs = data["needs"]
    by_old = {norm(o): i for i, (o, n) in enumerate(needs)}
    order = re.search(r"tie\.spec\b([^)]*)\)", text)
    order = order.group(1).split() if order else []
    loops = data["loops"]
    fixed = [n for n in order if norm(n).startswith(("invariant", "decreases"))]
    order = [n for n in order if n not in fixed]
    by_place = {norm(n): i for i, n in enumerate(order)} if len(order) == len(needs) else {}
    helpers = []
    loop_names = {}
    for i, (names, _) in enumerate(loops):
        loop_names[norm(names[0])] = i
    for comments, item in items(text):
        comments = [c for c in comments if not re.match(r"-- src/\S+:\d+", c)]
        if item.startswith("use "):
            if not re.search(r"\.(Statement|Tie|Reads)\b", item):
                uses.append(item)
            continue
        m = re.match(r"(?:abbrev )?(" + NAME + r") : tie\.(" + NAME + ")", item)
        if re.match(r"pub " + NAME + r"_spec ", item) or re.match(r"pub " + NAME + r"-spec ", item):
            continue
        if not m:
            helpers.append("\n".join(comments + [item]))
            continue
        name, what = m.groups()
        lines = item.split("\n")
        if norm(what).startswith(("invariant", "decreases")):
            kind, loop = re.match(r"(invariant|decreases)[-_](.*)", what).groups()
            i = loop_names.get(norm(loop))
            if i is None:
                hand.append(item)
                continue
            (old, new), live = loops[i]
            unfold = [l for l in lines[1:] if l.startswith("unfolding")]
            clause = "\n".join(l for l in lines[1:] if not l.startswith("unfolding"))
            head, body = clause.split("=", 1)
            args = head.split()[1:]
            changed = data["changed"][i]
            want = ["l.initial." + n if ch else "l." + n for n, ch in zip(live, changed)] + ["l." + n for n, ch in zip(live, changed) if ch]
            if len(args) != len(want):
                hand.append(f"-- by hand: {len(args)} arguments, {len(want)} live\n" + item)
                fn.notes.append("loop arguments")
                continue
            table = dict(zip(args, want))
            body = re.sub(r"(?<![\w.'₀])(" + NAME + r")(?=[^\w'₀]|$)", lambda q: table.get(q.group(1), q.group(1)), body)
            invariants.append("\n".join(comments + [f"abbrev pub {kind}-{new} : goal.{kind}-{new}"] + unfold + [f"{kind}-{new} l =" + body]))
            continue
        old = re.sub(r"^Need-", "", what)
        i = by_place.get(norm(name))
        if i is None:
            i = by_old.get(norm(name), by_old.get(norm(re.sub(r"^overflow-", "", old)), None))
        if i is None and norm(name).startswith("slice_aggregate"):
            continue  # what today's check asks nowhere
        if i is None:
            hand.append("-- by hand: no goal " + name + "\n" + item)
            fn.notes.append("no goal " + name)
            continue
        new = needs[i][1]
        if new in data["settled"]:
            continue
        unfold = [l for l in lines[1:] if l.startswith("unfolding")]
        clause = "\n".join(l for l in lines[1:] if not l.startswith("unfolding"))
        head, body = clause.split("=", 1)
        if body.strip() == "search rules" and not unfold:
            continue
        place = data["asked_at"][i][0]
        body = fn.body(body, place)
        fields = data["asked"].get(needs[i][0]) or data["asked"].get(new)
        if fields and len(fields) > 1:
            made = named(body.strip(), fields)
            if made is None:
                fn.notes.append(f"{new}: clauses {fields} are not a tuple here")
            else:
                body = " " + made
        if "κs" in body:
            fn.notes.append(f"{new}: κs")
        answers.append("\n".join(comments + [f"pub {new} : goal.{new}"] + unfold + [f"{new} c =" + (body if body.startswith(("\n", " ")) else " " + body)]))
    base = f"Rattle.{crate}.proofs.{path}"
    folder = os.path.dirname(file)
    if invariants or any("invariant" in norm(h) for h in hand):
        open(os.path.join(folder, "Invariants.antt"), "w", encoding="utf-8").write("\n".join(uses + [f"use {base}.Given as goal", ""]) + "\n" + "\n\n".join(invariants) + "\n")
    keep = helpers + answers + hand
    if keep:
        open(os.path.join(folder, "Answers.antt"), "w", encoding="utf-8").write("\n".join(uses + [f"use {base}.Goals as goal", ""]) + "\n" + "\n\n".join(keep) + "\n")
    return fn.notes


def main():
    names, crate, only = sys.argv[1], sys.argv[2], sys.argv[3:]
    data = json.load(open(names))
    top = os.path.join("crates", crate, "proofs")
    for folder, dirs, files in os.walk(top):
        dirs.sort()
        if "Proof.antt" not in files:
            continue
        path = os.path.relpath(folder, top).replace(os.sep, ".")
        if only and path not in only and path.split(".")[-1] not in only:
            continue
        key = f"Rattle-{crate}-proofs.{path}.Lts"
        if key not in data:
            print(f"{crate}.{path}: no names")
            continue
        notes = turn(os.path.join(folder, "Proof.antt"), data[key], crate, path)
        os.remove(os.path.join(folder, "Proof.antt"))
        if notes:
            print(f"{crate}.{path}: " + "; ".join(dict.fromkeys(notes)))


main()
