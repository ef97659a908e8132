#!/usr/bin/env python3
"""Turns the old proofs of a crate's functions, proofs/F/Proof.antt, into Invariants.antt and Answers.antt.

usage: port_proofs.py CRATE [F..]   at the top of the repository; the crates below CRATE are proved

An answer that only searched by `rules` goes: the check tries more. What cannot be turned is printed, and stays in Proof.antt.
"""
import glob
import json
import os
import re
import subprocess
import sys
import tempfile

SIGNATURE = re.compile(r"^(?:(?:unfoldable|abbrev|pub) )*(\S+) : (.*)$")
PATH = re.compile(r"(?<![\w.'₀-₉-])c((?:\.[A-Za-z0-9_'-]+)+)")


def read(p):
    with open(p, encoding="utf-8") as f:
        return f.read()


def plain(name):
    return name.replace("_", "-")


def contracts():
    """The labels of the requires and the ensures of each function, by crate and name."""
    out = {}
    for p in sorted(glob.glob("crates/*/src/*.rt")):
        crate, fn, state = p.split("/")[1], None, None
        for line in read(p).splitlines():
            m = re.match(r"\s*(?:pub )?(?:extern \"C\" )?fn (\w+)", line)
            if m:
                fn = m.group(1)
                state = out.setdefault((crate, fn), {"requires": [], "ensures": []})
            m = re.match(r"\s*(requires|ensures) (\w+ )?\{", line)
            if m and state is not None:
                state[m.group(1)].append((m.group(2) or "").strip())
    return out


def blocks(text):
    """The imports, and each declaration: its comment, name, type, unfolding line and clauses."""
    uses, out, comment = [], [], []
    for line in text.splitlines():
        if line.startswith("use "):
            uses.append(line)
        elif line.startswith("--"):
            comment.append(line)
        elif not line.strip():
            if out and not comment:
                out[-1]["body"].append(line)
        elif SIGNATURE.match(line) and not line.startswith(" "):
            m = SIGNATURE.match(line)
            out.append({"comment": comment, "name": m.group(1), "type": m.group(2), "head": line, "unfolding": None, "body": []})
            comment = []
        elif line.startswith("unfolding ") and out and not out[-1]["body"]:
            out[-1]["unfolding"] = line
        elif out:
            out[-1]["body"].append(line)
        else:
            raise ValueError(line)
    for b in out:
        while b["body"] and not b["body"][-1].strip():
            b["body"].pop()
    return uses, out


def split(text, ends):
    """The parts of a text between the characters that end one, outside brackets."""
    out, depth, cur = [], 0, ""
    for ch in text:
        depth += (ch in "([{") - (ch in ")]}")
        if depth == 0 and ends(ch):
            out.append(cur.strip())
            cur = ""
        else:
            cur += ch
    return [part for part in [*out, cur.strip()] if part]


def tuple_of(text):
    """The parts of a text that is one tuple."""
    t = text.strip()
    if not (t.startswith("(") and t.endswith(")")):
        return None
    depth = 0
    for i, ch in enumerate(t):
        depth += ch in "([{"
        depth -= ch in ")]}"
        if depth == 0 and i < len(t) - 1:
            return None
    parts = split(t[1:-1], lambda ch: ch == ",")
    return parts if len(parts) > 1 else None


def flat(text, n):
    """The n parts of a tuple whose last part is nested; None where it is none."""
    if n == 1:
        return [text]
    parts = tuple_of(text)
    if parts is None:
        return None
    if len(parts) == n:
        return parts
    if len(parts) == 2:
        rest = flat(parts[1], n - 1)
        return rest and [parts[0], *rest]
    return None


def nth(labels, rest):
    """A clause's label for the fields .1.1.0 of the old pair of clauses; a list of labels where the fields name several."""
    if len(labels) < 2:
        return rest
    i, fields = 0, rest.split(".")[1:]
    while i < len(labels) - 1 and fields:
        f = fields.pop(0)
        if f == "0":
            return "." + ".".join([labels[i], *fields])
        if f != "1":
            return rest
        i += 1
    if i < len(labels) - 1:
        return labels[i:]
    return "." + ".".join([labels[i], *fields])


def behind(path, rest):
    """The path with what is behind it: a tuple where that is several clauses."""
    if isinstance(rest, str):
        return path + rest
    text = f"c.{path}.{rest[-1]}"
    for l in reversed(rest[:-1]):
        text = f"(c.{path}.{l}, {text})"
    return "!" + text


class Function:
    def __init__(self, crate, path, names, all_contracts):
        self.crate, self.path, self.names, self.all = crate, path, names, all_contracts
        self.fn = path.lstrip("+").split(".")[-1]
        self.said = []
        self.places = {p[0]: p for p in names["places"]}

    def labels(self, callee, kind):
        if callee and "::" in callee:
            parts = callee.split("::")
            key = (parts[0], parts[-1])
        else:
            key = (self.crate, callee)
        if key not in self.all:
            keys = [k for k in self.all if k[1] == key[1]]
            if not keys:
                return []
            key = keys[0]
        return self.all[key][kind]

    def step(self, place, fields):
        """Today's path for the fields behind `c` at a place."""
        cur, rest = place, list(fields)
        while rest and rest[0] == "before":
            rest.pop(0)
            at = self.places.get(cur)
            cur = at[1] if at else None
        if not rest:
            return None
        at = self.places.get(cur)
        name = rest.pop(0)
        tail = "".join("." + f for f in rest)
        if name == "requires":
            return behind("requires", nth(self.labels(self.fn, "requires"), tail))
        tail = re.sub(r"^\.keys\d+$", ".is", tail)
        if not (at and plain(at[2][0]) == plain(name)):
            near = [p for p in (*self.above(cur), *self.above(place)) if plain(p[2][0]) == plain(name)]
            at = near[0] if near else None
        if at:
            new = at[2][1]
            if tail.startswith(".ensures") and at[3]:
                return behind(new + ".ensures", nth(self.labels(at[3], "ensures"), tail[8:]))
            return new + tail
        if name not in ("args", "ranges"):
            self.said.append(f"step {name} at {cur}")
        return name + tail

    def above(self, place):
        """The places from one up to the start."""
        out = []
        while place in self.places:
            out.append(self.places[place])
            place = self.places[place][1]
        return out

    def paths(self, text, place):
        def new(m):
            to = self.step(place, m.group(1).split(".")[1:])
            if to is None:
                return m.group(0)
            return to[1:] if to.startswith("!") else "c." + to

        return PATH.sub(new, text)

    def callee(self, need):
        name = re.sub(r"-requires(-.*)?$", "", need)
        for p in self.names["places"]:
            if p[3] and plain(p[3].split("::")[-1]) == plain(name):
                return p[3]
        return name.replace("-", "_")

    def answer(self, need, place, body):
        """The body of an answer; a pair of clauses is a record by their labels."""
        old, new = need
        body = self.paths(body, place)
        labels = []
        if "-requires" in old:
            labels = self.labels(self.callee(old), "requires")
        elif old.startswith("returns"):
            labels = self.labels(self.fn, "ensures")
        if len(labels) > 1:
            body = re.sub(r"let p = \((c\.requires\.\w+), (c\.requires\.\w+)\) in(.*)$", lambda m: m.group(3).replace("p.0", m.group(1)).replace("p.1", m.group(2)), body, flags=re.S)
            head, tail = re.match(r"(?s)(.*(?<![\w.-])in(?![\w-]))?(.*)$", body).groups()
            parts = flat(tail.strip(), len(labels))
            if parts:
                inner = "; ".join(f"{l} = {p}" for l, p in zip(labels, parts))
                return (head or "") + " record { " + inner + " }"
            if body.strip() != "search rules":
                self.said.append(f"{new}: clauses {labels} of {body.strip()[:60]}")
        return body

    def loops(self, block, used):
        """An invariant or a measure over `l`."""
        m = re.match(r"tie\.(invariant|decreases)-(\S+)", block["type"])
        kind, old = m.groups()
        loop = next((x for x in self.names["loops"] if plain(x[0][0]) == plain(old)), None)
        changed = self.names["changed"][self.names["loops"].index(loop)] if loop else None
        if loop is None:
            self.said.append(f"loop {old}")
            return None
        new = f"{kind}-{loop[0][1]}"
        values = [f"l.initial.{v}" if c else f"l.{v}" for v, c in zip(loop[1], changed)] + [f"l.{v}" for v, c in zip(loop[1], changed) if c]
        text = "\n".join(block["body"])
        left, _, right = text.partition("=")
        params = left.split()[1:]
        if len(params) != len(values):
            self.said.append(f"{new}: parameters {params} for {values}")
        for p, v in sorted(zip(params, values), key=lambda x: -len(x[0])):
            right = re.sub(rf"(?<![\w.'₀-₉-]){re.escape(p)}(?![\w'₀-₉-])", v, right)
        lines = block["comment"] + [f"abbrev pub {new} : goal.{new}"]
        if block["unfolding"]:
            lines.append(block["unfolding"])
        return lines + [f"{new} l ={right}"]

    def turn(self):
        folder = f"crates/{self.crate}/proofs/{self.path.replace('.', '/')}"
        uses, decls = blocks(read(f"{folder}/Proof.antt"))
        spec = decls[-1]
        text = re.sub(r"\s+", " ", " ".join(spec["body"]))
        m = re.match(r"^\S+ = tie\.close \(tie\.spec (.*)\)$", text)
        if not m:
            self.said.append("no tie.close (tie.spec ..)")
            return
        args = split(m.group(1), str.isspace)
        by_name = {b["name"]: b for b in decls[:-1]}
        invariants, rest = [], []
        for a in args:
            b = by_name.get(a)
            if b and re.match(r"tie\.(invariant|decreases)-", b["type"]):
                invariants.append(b)
            else:
                rest.append(a)
        needs = list(zip(self.names["needs"], self.names["asked_at"]))
        if len(needs) != len(rest):
            self.said.append(f"{len(rest)} arguments for {len(needs)} needs; settled {self.names['settled']}")
            pool, needs2 = list(needs), []
            for a in rest:
                b = by_name.get(a)
                named = b and re.match(r"tie\.Need-(\S+)", b["type"])
                it = None
                if named:
                    it = next((n for n in pool if plain(n[0][0]) == plain(named.group(1)) or plain(n[0][1]) == plain(named.group(1))), None)
                needs2.append(it)
            needs = needs2
        out, done = [], set()
        for a, at in zip(rest, needs):
            if at is None:
                if not re.match(r"^\(λ c( κs)?\. search rules\)$", a):
                    self.said.append(f"not placed: {a[:80]}")
                continue
            need, place = at
            b = by_name.get(a)
            if b:
                done.add(a)
                body = "\n".join(b["body"])
                left, _, right = body.partition("=")
                if left.split()[1:2] == [] and "c" not in left.split()[1:]:
                    self.said.append(f"{need[1]}: clauses {left.strip()[:60]}")
                out.append([*b["comment"], f"pub {need[1]} : goal.{need[1]}", *([b["unfolding"]] if b["unfolding"] else []), f"{need[1]} c ={self.answer(need, place[0], right)}"])
                continue
            m = re.match(r"^\(λ c( κs)?\. (.*)\)$", a)
            if not m:
                self.said.append(f"{need[1]}: {a[:80]}")
                continue
            if m.group(2) == "search rules" and not spec["unfolding"]:
                continue
            if m.group(2) == "search rules" and re.match(r"(overflow|bounds|slice_bounds|shape_of|loop-.*-smaller)", need[1]):
                continue
            out.append([f"pub {need[1]} : goal.{need[1]}", *([spec["unfolding"]] if spec["unfolding"] else []), f"{need[1]} c ={self.answer(need, place[0], ' ' + m.group(2))}"])
        helpers = [b for b in decls[:-1] if b["name"] not in done and b not in invariants]
        kept = [u for u in uses if not re.search(r"\.(Statement|Tie)\b", u)]
        module = f"Rattle.{self.crate}.proofs.{self.path}"
        shown = ["\n".join([*b["comment"], b["head"], *([b["unfolding"]] if b["unfolding"] else []), *b["body"]]) for b in helpers]
        inv = [x for x in (self.loops(b, uses) for b in invariants) if x]
        files = {}
        if inv:
            files["Invariants"] = "\n".join(kept + [f"use {module}.Given as goal", ""]) + "\n" + "\n\n".join("\n".join(i) for i in inv) + "\n"
        if out:
            files["Answers"] = "\n".join(kept + [f"use {module}.Goals as goal", ""]) + "\n" + "\n\n".join(shown + ["\n".join(o) for o in out]) + "\n"
        elif shown:
            self.said.append("helpers without answers: " + " ".join(b["name"] for b in helpers))
        for f, t in files.items():
            with open(f"{folder}/{f}.antt", "w", encoding="utf-8") as w:
                w.write(t)
        os.remove(f"{folder}/Proof.antt")
        if not os.listdir(folder):
            os.rmdir(folder)


def main(argv):
    crate, only = argv[0], argv[1:]
    where = f"crates/{crate}"
    to = os.path.join(tempfile.mkdtemp(), crate)
    r = subprocess.run(["rt", "check", "--generated", to, "--old-names"], cwd=where, capture_output=True, text=True)
    if not os.path.exists(f"{to}/names.json"):
        print(r.stdout[-3000:], r.stderr[-2000:])
        return 1
    names = json.loads(read(f"{to}/names.json"))
    all_contracts = contracts()
    for p in sorted(glob.glob(f"{where}/proofs/**/Proof.antt", recursive=True)):
        path = os.path.dirname(p).split("/proofs/")[1].replace("/", ".")
        if only and path not in only:
            continue
        of = names.get(f"Rattle-{crate}-proofs.{path}.Lts")
        if of is None:
            print(f"{path}: no names; {[k for k in names if path.lstrip('+') in k][:4]}")
            continue
        f = Function(crate, path, of, all_contracts)
        try:
            f.turn()
        except (ValueError, KeyError, TypeError, IndexError) as e:
            f.said.append(f"{type(e).__name__}: {e}")
        for s in f.said:
            print(f"{path}: {s}")
    subprocess.run(["rt", "fmt"], cwd=where, stdout=subprocess.DEVNULL, check=False)
    return 0


if __name__ == "__main__":
    sys.exit(main(sys.argv[1:]))
