#!/usr/bin/env python3
"""Brings the repository's own definitions, lemmas, fields and clause labels to today's spelling, once, after port.py.

Words are in snake case; a dash stays only between two names (as in `part-write`), and a plain word is added with `_`. Types keep
their capitals. Functions of src/, strings, inputs and outputs keep their names. Prints the names that would fall together.
"""
import collections
import glob
import os
import re
import subprocess
import sys

STOP = r"\s(){}\[\].,;\"«»·`"
TOKEN = re.compile(rf"[^{STOP}]+")
SIGNATURE = re.compile(r"^\s*(?:(?:unfoldable|abbrev|pub|data|record)\s+)*([^\s:(){}\[\].,;]+)\s*(?:\{[^}]*\}\s*|\([^)]*\)\s*)*:\s")
LET = re.compile(r"\blet ([^\s:(){}\[\].,;=]+)\s*[:=]")
# Words of the library that lemma names are made of, beside the repository's own definitions.
LIBRARY = set("length set sets take drop append get_or cond eqb ltb leb not replicate max min suc add mul sub le lt pow map".split())
# What an automatic label of a clause says, by the clause.
LABELS = [
    (r"^s < 128$", "slot_there"),
    (r"^d\.answer < 256$", "is_byte"),
    (r"u\.steps <", "room"),
    (r"f ≤ finishes_?[mM]ade t\.\w+\)?$", "made"),
    (r"^Whole t\.(now|old)( × LocalBook f p)?$", "whole"),
    (r"^sound t\.(now|old) ≡ true$|^\(sound t\.(now|old) ≡ true\) × \(s < 128\)$", "ranges"),
    (r"^\(?no_?[aA]ction", "named"),
    (r"^step_?[aA]nswer", "taken"),
    (r"^messageAt|^message_at", "message"),
    (r"^fits t\.old \(message", "message_fits"),
    (r"^(fits p ≡ true)$|^\(fits p ≡ true\) × \(10445", "fits"),
    (r"places t\.(old|now) ≤ 8|^finishes_?[mM]ade t", "counts"),
    (r"^tasks_?[mM]ade t", "room"),
    (r"^n ≤ live t|^received t\.old f j v ≤ n$", "covered"),
    (r"slots_?[fF]ull", "room"),
    (r"lowest_?[eE]mpty", "lowest"),
    (r"≤ 254", "fits_byte"),
    (r"^result ≡ goes", "value"),
    (r"^\(result ≡ at \+ length|^\(result ≡ length \(step", "ends"),
    (r"^out\.new ≡", "written"),
    (r"^log\.new ≡", "log"),
    (r"^result ≡ noted", "tally"),
    (r"^byte t\.(now|old) \(at \+ 1\) < 256$", "is_byte"),
    (r"^t\.new ≡ write t\.old at \(kill", "written"),
    (r"^home t\.old f < 8$", "home"),
    (r"≤ 15104$|^schedule_len|^\(length schedule", "inside"),
]
# Crates whose fields share no scope with the functions of the rules.
MODELS = ("crates/model/", "crates/witness/")
HYPOTHESES = {"end-wanted", "first-from", "is-main", "is-published", "may-run"}
OVERRIDE = {
    "bit-or": "bit_at-bit_or",
    "climb-goes-on": "climb_goes_on",
    "is-home-dead": "is_home_dead",
    "no-answer-lost": "no_answer_lost",
    "read-task-at": "read_task_at",
}
AUTOMATIC = re.compile(r"^(le_\w|\w+_bound(_2)?|\w+_value(_2)?|\w+_after|value|whole)$")


def read(p):
    with open(p, encoding="utf-8") as f:
        return f.read()


def of_function(p):
    """Whether a proof file is of one function, whose steps and goals Rattle names."""
    return "/proofs/" in p and os.path.basename(p) in ("Proof.antt", "Answers.antt", "Invariants.antt")


def defined():
    """All names of the repository; those of its specs; its functions; its fields and constructors."""
    own, public, functions, parts = set(), set(), set(), set()
    for p in glob.glob("crates/**/*.antt", recursive=True):
        own.update(n for n in TOKEN.findall(read(p)) if is_camel(n))
        if of_function(p):
            continue
        block = None
        for line in read(p).splitlines():
            m = SIGNATURE.match(line)
            depth = len(line) - len(line.lstrip())
            if block is not None and line.strip() and depth <= block:
                block = None
            if m and block is not None:
                parts.add(m.group(1))
            if re.match(r"\s*(?:pub )?(?:data|record) ", line):
                block = depth
            names = ([m.group(1)] if m else []) + LET.findall(line)
            own.update(names)
            if m and "/specs/" in p:
                if p.count("/") == 3:
                    public.add(m.group(1))
                if re.match(r"\s*(unfoldable|abbrev) ", line):
                    functions.add(m.group(1))
    return own, public, functions, parts


def foreign():
    crates = {p.split("/")[1] for p in glob.glob("crates/*")}
    names = collections.defaultdict(set)
    for p in glob.glob("crates/**/*.antt", recursive=True):
        for module, items in re.findall(r"use\s+([\w.-]+)\.\{([^}]*)\}", read(p)):
            if not (module.startswith("Rattle.") and module.split(".")[1] in crates):
                for n in items.split(","):
                    names[n.strip()].add(p)
    return names


def snake(name):
    return re.sub(r"(?<=[a-z0-9])([A-Z])", lambda m: "_" + m.group(1).lower(), name)


def is_camel(name):
    return name[:1].islower() and re.search(r"[a-z0-9][A-Z]", name) and "-" not in name


def renamed(own, functions, parts):
    """The new spelling of each old one."""
    words = {snake(n) for n in functions if "-" not in n} | LIBRARY
    out = {}
    for n in sorted(own):
        if is_camel(n):
            out[n] = snake(n)
        elif "-" in n.strip("-") and re.match(r"^[\w'₀-₉]+(-[\w'₀-₉]+)+$", n):
            pieces = [snake(p) for p in n.split("-")]
            text = pieces[0]
            for a, b in zip(pieces, pieces[1:]):
                text += ("-" if a in words and b in words and n not in parts else "_") + b
            if text != n:
                out[n] = text
    return out | {n: v for n, v in OVERRIDE.items() if n in own}


def apart(out, own, public):
    """No two names fall together: of two, the lemma gets `_lem`."""
    taken = collections.defaultdict(list)
    for n in own:
        taken[out.get(n, n)].append(n)
    for new, olds in sorted(taken.items()):
        if len(olds) > 1:
            olds = sorted(olds, key=lambda n: (n not in public or "-" in n, "-" in n, not is_camel(n)))
            for n in olds[1:]:
                print(f"together: {' '.join(olds)} -> {new}; {n} -> {new}_lem")
                out[n] = new + "_lem"


def scoped(text, p, out, parts):
    """A field keeps its plain name where nothing else in scope bears it: in the model, which cites no rules, and behind a dot."""
    for n in sorted(n for n in parts | HYPOTHESES if out.get(n, "").endswith("_lem")):
        new = out[n]
        before = r"(?<![\w'.-])" if p.startswith(MODELS) else r"(?<=\.)(?<!Use\.)"
        text = re.sub(rf"{before}{new}(?![\w'-])|(?<=\.)(?<!Use\.){new}(?![\w'-])", new.removesuffix("_lem"), text)
    return text


def labels(text):
    def label(m):
        if not AUTOMATIC.match(m.group(2)):
            return m.group(0)
        for pattern, name in LABELS:
            if re.search(pattern, m.group(3).strip()):
                return f"{m.group(1)}{name} {{{m.group(3)}}}"
        return f"{m.group(1)}in_range {{{m.group(3)}}}"

    return re.sub(r"(?m)^(\s*(?:requires|ensures) )(\w+) \{(.*)\}$", label, text)


def respell(text, out, steps=False):
    """With steps, a name behind a dot may be a step that Rattle names after a function: it gets no `_lem`."""

    def new(m):
        to = out.get(m.group(0), m.group(0))
        if steps and m.start() and text[m.start() - 1] == ".":
            to = to.removesuffix("_lem")
        return to

    return TOKEN.sub(new, text)


def main():
    own, public, functions, parts = defined()
    other = foreign()
    out = renamed(own, functions, parts)
    for n in [n for n in out if n in other]:
        print(f"the library's too, kept: {n}")
        del out[n]
    apart(out, own, public)
    for n, new in out.items():
        if new in other:
            print(f"look: {n} -> {new}, which {sorted(other[new])[:3]} import from a library")
    camel = {n: v for n, v in out.items() if is_camel(n)}
    files = glob.glob("crates/**/*.antt", recursive=True) + glob.glob("crates/*/src/*.rt") + glob.glob("crates/*/must-fail/*.edit")
    for p in sorted(files):
        old = read(p)
        if p.endswith(".antt"):
            new = scoped(respell(old, out, of_function(p)), p, out, parts)
        else:
            pieces = re.split(r'("(?:[^"\\\n]|\\.)*")', old)
            new = "".join(t if i % 2 else respell(t, camel) for i, t in enumerate(pieces))
        if p.endswith(".rt"):
            new = labels(new)
        if new != old:
            with open(p, "w", encoding="utf-8") as f:
                f.write(new)
    for p in sorted(glob.glob("*.md") + glob.glob("docs/*.md") + glob.glob("crates/*/README.md")):
        old = read(p)
        new = re.sub(r"`[^`\n]+`", lambda m: respell(m.group(0), out), old)
        if new != old:
            with open(p, "w", encoding="utf-8") as f:
                f.write(new)
    for c in sorted(glob.glob("crates/*/src")):
        subprocess.run(["rt", "fmt"], cwd=os.path.dirname(c), stdout=subprocess.DEVNULL, check=False)
    print(f"{len(out)} names")
    if "--list" in sys.argv:
        print("\n".join(f"{n} {v}" for n, v in sorted(out.items())))


if __name__ == "__main__":
    sys.exit(main())
