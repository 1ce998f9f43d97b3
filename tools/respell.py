#!/usr/bin/env python3
"""Respells the repository's own definitions and lemmas: words in snake case, as `way_step` for `wayStep` and `keeps_sound` for `keeps-sound`.

usage: python3 tools/respell.py [--dry]      at the top of the repository, after the kit's port.py

It turns names that the files of specs/ and proofs/ define, wherever they stand: there, in clauses and ghost items of src/, and in the texts of
must-fail edits. It leaves types and modules, names of the toolchain's library, names from Rust source, and goals' names, where a dash joins
parts. What falls together is printed, and stops it.
"""
import os
import re
import sys

DRY = "--dry" in sys.argv
ID = re.compile(r"[^\W\d][\w'\-]*", re.U)
CAMEL = re.compile(r"^[a-z][a-z0-9']*(?:[A-Z][A-Za-z0-9']*)+$")
OWN = re.compile(r"^\s*(?:pub )?use Rattle\.(?!std\b|core\b|check\b|io\b|libc\b|os\b)")
USE = re.compile(r"^\s*(?:ghost )?(?:pub )?use ([\w.\u00b7]+)(?:\.\{([^}]*)\})?", re.U)
ALIAS = re.compile(r"^\s*use Rattle\.[\w.+]+ as ([\w'\-]+)\s*$", re.M)
GOAL = re.compile(r"^(returns|invariant-|measure-|loop-|overflow|bounds|slice_bounds|nonzero|prove-|after-|close-|.*-requires|.*-(init|preserved|smaller))(-|$)")
DEF = re.compile(r"^\s*(?:(?:pub|abbrev|unfoldable|private|instance|rule)\s+)*([^\W\d][\w'\-]*)(?:\s+[^\W\d][\w'\-]*)*\s+:(?:\s|$)", re.U)
HEAD = re.compile(r"^\s*(?:(?:pub|abbrev|unfoldable)\s+)*(?:ruleset|let)\s+([^\W\d][\w'\-]*)", re.U)


def files(*ends):
    for top, dirs, names in os.walk("crates"):
        dirs[:] = sorted(d for d in dirs if d != "out")
        for n in sorted(names):
            if n.endswith(ends):
                yield os.path.join(top, n)


def read(p):
    with open(p, encoding="utf-8") as f:
        return f.read()


def snake(name):
    name = name.replace("-", "_")
    name = re.sub(r"([a-z0-9'])([A-Z])", r"\1_\2", name)
    return name.lower() if CAMEL.match(name.replace("_", "")) or "_" in name else name


def code(line):
    """The line without its comment, and the comment."""
    i = line.find("--")
    while i >= 0 and not (i == 0 or line[i - 1] in " \t"):
        i = line.find("--", i + 1)
    return (line, "") if i < 0 else (line[:i], line[i:])


def main():
    antt = [(p, read(p)) for p in files(".antt")]
    rt = [(p, read(p)) for p in files(".rt")]
    edits = [(p, read(p)) for p in files(".edit")]
    foreign, own_ids = set(), set()
    for p, t in antt + rt:
        for line in t.split("\n"):
            m = USE.match(line)
            if m and not OWN.match(line.replace("ghost use", "use")) and m.group(2):
                for part in m.group(2).split(","):
                    foreign.update(ID.findall(part))
    camel, dashed, fields = set(), set(), set()
    for p, t in antt + rt:
        for line in t.split("\n"):
            body = code(line)[0] if p.endswith(".antt") else line.split("//")[0]
            for w in ID.findall(body):
                if p.endswith(".antt"):
                    own_ids.add(w)
                if CAMEL.match(w) and w not in foreign:
                    camel.add(w)
    for p, t in antt:
        for line in t.split("\n"):
            m = DEF.match(code(line)[0]) or HEAD.match(code(line)[0])
            if m and "-" in m.group(1) and m.group(1)[0].islower() and m.group(1) not in foreign and not GOAL.match(m.group(1)):
                base = os.path.basename(p)
                if base in ("Proof.antt", "Answers.antt", "Invariants.antt"):
                    continue
                dashed.add(m.group(1))
                if line.startswith(" "):
                    fields.add(m.group(1))
    # Lemmas in snake case already that have the snake-case name of a definition.
    named = {"parent_row": "", "slot_row": "", "unit_row": "", "put_rest": "", "step_line": "OneToOne.antt"}
    antt = [(p, lem(p, t, named)) for p, t in antt]
    # A lemma that would have the name of a definition, or one that stands already, gets _lem.
    names = {n: snake(n) for n in camel}
    taken = set(names.values()) | own_ids
    for n in dashed:
        names[n] = snake(n) + ("_lem" if snake(n) in taken else "")
    falls = {}
    for n, s in sorted(names.items()):
        falls.setdefault(s, []).append(n)
    defined = {}
    for p, t in antt:
        for line in t.split("\n"):
            m = DEF.match(code(line)[0])
            if m:
                defined.setdefault(m.group(1), []).append(p)
    together = {s: ns for s, ns in falls.items() if len(ns) > 1 or s in defined or s in foreign or (s in own_ids and s.endswith("_lem"))}
    for s, ns in sorted(together.items()):
        print("falls together:", ", ".join(ns), "->", s, "(defined in %s)" % defined[s][:3] if s in defined else "", "(foreign)" if s in foreign else "")
    for n in sorted(dashed):
        if names[n].endswith("_lem"):
            print("lemma of a definition's name:", n, "->", names[n])
    print(len(camel), "in camel case,", len(dashed), "with dashes,", len(together), "fall together")
    if DRY:
        return

    def turn(text, aliases=()):
        def sub(m):
            w = m.group(0)
            if w not in names:
                return w
            if "-" in w and m.start() > 0 and text[m.start() - 1] == "." and w not in fields:
                # behind a module, or a short name of one
                before = re.search(r"([\w'\-]+)\.$", text[:m.start()])
                if not (before and (before.group(1)[:1].isupper() or before.group(1) in aliases)):
                    return w
            return names[w]
        return ID.sub(sub, text)

    def ticks(text):
        return re.sub(r"`[^`]*`", lambda m: turn(m.group(0)), text)

    for p, t in antt:
        out = []
        aliases = set(ALIAS.findall(t))
        for line in t.split("\n"):
            body, comment = code(line)
            out.append(turn(body, aliases) + (ticks(comment) if comment else ""))
        write(p, read(p), "\n".join(out))
    for p, t in rt + edits:
        write(p, t, turn(t) if p.endswith(".edit") else "\n".join(ghost(l, turn, ticks) for l in t.split("\n")))


def lem(p, text, named):
    """The text of a file of proofs/, the lemmas `named` with _lem behind their names: in that file alone, or everywhere."""
    if "/proofs/" not in p:
        return text
    for n, only in named.items():
        if p.endswith(only):
            text = re.sub(r"(?<![\w'.\-])%s(?![\w'.\-])" % n, n + "_lem", text)
    return text


def ghost(line, turn, ticks):
    i = line.find("//")
    body, comment = (line, "") if i < 0 else (line[:i], line[i:])
    if '"' in body:
        return line
    return turn(body) + ticks(comment)


def write(p, old, new):
    if old != new:
        with open(p, "w", encoding="utf-8") as f:
            f.write(new)


main()
