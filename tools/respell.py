#!/usr/bin/env python3
"""Brings the repository's own definitions and lemmas to Rattle's spelling: words in snake case (types and modules keep their camel case).

usage: python3 tools/respell.py [--tell]      at the top of the repository, once, after port.py
       --tell changes nothing, and lists names that fall together

A name is the repository's own where a file of specs/ or proofs/ declares it: a definition, a lemma, a field of a record, a constructor. A file
that takes the name from a library keeps it there. Names of goals, which Rattle makes, stay as they are, and so do functions, strings and
comments (but for names in backticks).
"""

import collections
import glob
import re
import sys

OTHER = re.compile(r"^(?:ghost )?use ((?:Rattle\.(?:std|core|io|libc)|mathlib|native|lib|Prim|borrow|denote|mir|types|seplogic)[.\w]*)\.\{([^}]*)\}", re.M)
SPLIT = re.compile(r"([\s(){}\[\];,.«»\"]+)")
DECLARED = re.compile(r"^\s*(?:unfoldable\s+|abbrev\s+)?(?:pub\s+)?((?:[^\s:(){}=.;,\"]+\s+)*[^\s:(){}=.;,\"]+)\s*:(?=\s|$)")
# Names that would fall together with others, and how they are told apart.
APART = {"in-slots": "in_slots_lem"}
# Own names whose declarations do not look like one: they begin like a reserved word, or are parameters of records.
ALSO = {"keepIf", "withDistances", "areaAfter", "bufferAfter", "fromNear", "fromFar", "in-slots", "in-slot", "in-folded", "in-column", "in-extended", "in-gives", "in-make"}


def antt_files():
    return sorted(glob.glob("crates/*/specs/**/*.antt", recursive=True) + glob.glob("crates/*/proofs/**/*.antt", recursive=True))


def snake(name):
    if name in APART:
        return APART[name]
    name = name.replace("-", "_").replace("′", "'")
    if name[:1].islower():
        name = re.sub(r"(?<=[a-z0-9])([A-Z])(?=[a-z]|$|_|[A-Z])", lambda m: "_" + m.group(1), name)
        name = re.sub(r"([A-Z]+)(?=[A-Z][a-z]|_|$|[0-9])", lambda m: m.group(1), name)
        name = name.lower() if not re.search(r"[^\x00-\x7f]", name) else re.sub(r"[A-Z]", lambda m: m.group(0).lower(), name)
    return name


def is_value(name):
    return ("-" in name or re.match(r"^[a-z]+[A-Za-z0-9]*[A-Z]", name)) and "◌" not in name and not re.match(r"^[-→←]+$", name)


def declared(text):
    """The names that a file declares, in definitions, fields and constructors."""
    names = set()
    data = False
    for line in text.split("\n"):
        if line.strip().startswith("--"):
            continue
        if re.match(r"^\s*(pub )?data ", line):
            data = True
        elif line.strip() and not line.startswith(" "):
            data = False
        m = DECLARED.match(line)
        if m and not re.match(r"^\s*(use|module|let|in|where|data|record|pub data|pub record)\b", line):
            words = [w for w in m.group(1).split() if w not in ("pub", "abbrev", "unfoldable", "instance")]
            rest = line[m.end():]
            if len(words) == 1 or data:
                if re.match(r"\s*(tie|goal)\.", rest):
                    continue
                names.update(words)
    return names


def is_snake(name):
    return "-" not in name and not re.search(r"[A-Z]", name)


def turn_tokens(text, names):
    """A name that was in snake case already may be a function's too: it is turned in lemmas alone, and never as a step or a field of a path."""
    pieces = SPLIT.split(text)
    for i, t in enumerate(pieces):
        if t in names and not (is_snake(t) and i > 0 and pieces[i - 1].endswith(".")):
            pieces[i] = names[t]
    return "".join(pieces)


def turn_line(line, names):
    m = re.match(r"^(.*?)(\s*--\s.*)$|^(\s*--.*)$", line)
    code, comment = (line, "") if not m else ((m.group(1), m.group(2)) if m.group(3) is None else ("", m.group(3)))
    comment = re.sub(r"`([^`]*)`", lambda m: "`" + turn_tokens(m.group(1), names) + "`", comment)
    return turn_tokens(code, names) + comment


def turn_rt(text, names):
    out = []
    names = {o: n for o, n in names.items() if not is_snake(o)}
    for line in text.split("\n"):
        code, mark, comment = line.partition("//") if '"' not in line.split("//")[0] else (line, "", "")
        comment = re.sub(r"`([^`]*)`", lambda m: "`" + turn_tokens(m.group(1), names) + "`", comment)
        pieces = re.split(r"(\"(?:[^\"\\]|\\.)*\")", code)
        out.append("".join(p if p.startswith('"') else turn_tokens(p, names) for p in pieces) + mark + comment)
    return "\n".join(out)


def turn_edit(text, names):
    out = []
    names = {o: n for o, n in names.items() if not is_snake(o)}
    for line in text.split("\n"):
        m = re.match(r"^(old|new):(.*)$", line)
        out.append(m.group(1) + ":" + turn_tokens(m.group(2), names) if m else line)
    return "\n".join(out)


def main():
    tell = "--tell" in sys.argv
    own = set(ALSO)
    texts = {f: open(f, encoding="utf-8").read() for f in antt_files()}
    for f, t in texts.items():
        own |= declared(t)
    names = {n: snake(n) for n in own if is_value(n) and snake(n) != n}
    fell = collections.defaultdict(set)
    for n in own:
        fell[names.get(n, n)].add(n)
    for new, olds in sorted(fell.items()):
        if len(olds) > 1:
            # the definition has the plain name, and a lemma on it has `_lem` after its own
            owner = min(olds, key=lambda n: ("-" in n, n == new, n))
            for n in olds - {owner}:
                names[n] = new + "_lem"
            print("fall together:", new, "<-", owner, "and", ", ".join(sorted(olds - {owner})))
    rts = {f: open(f, encoding="utf-8").read() for f in sorted(glob.glob("crates/*/src/**/*.rt", recursive=True))}
    for f, t in {**texts, **rts}.items():
        taken = set()
        for m in OTHER.finditer(t):
            for w in re.split(r"[,\s]+", m.group(2)):
                taken.add(w)
        here = {o: n for o, n in names.items() if o not in taken}
        tokens = set(SPLIT.split(t))
        for o, n in here.items():
            if o in tokens and n in tokens and n not in here:
                print("look:", f, o, "->", n, "which stands there already")
        kept = [o for o in taken if o in names]
        if kept and any(k in tokens for k in kept):
            print("kept in", f, kept)
        if tell:
            continue
        new = "\n".join(turn_line(l, here) for l in t.split("\n")) if f.endswith(".antt") else turn_rt(t, here)
        if new != t:
            open(f, "w", encoding="utf-8").write(new)
    if not tell:
        for f in sorted(glob.glob("crates/*/must-fail/*.edit")):
            t = open(f, encoding="utf-8").read()
            new = turn_edit(t, names)
            if new != t:
                open(f, "w", encoding="utf-8").write(new)
    print(len(names), "names")


main()
