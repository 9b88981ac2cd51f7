#!/usr/bin/env python3
"""Brings the repository's own definitions and lemmas to the spelling of the kit, after its port.py has run once.

usage: python3 tools/port_names.py --before   before port.py, which takes a file with a name of today's library for one of today's
       python3 tools/port_names.py            after it, at the top of the repository: rewrites the files below crates/
       python3 tools/port_names.py --list     prints the old and the new name of each, and writes nothing

Definitions, fields, constructors and lemmas are in snake case. A dash in a lemma's name stays where it joins two names, of definitions,
constructors, fields or words of the library, and is an underscore elsewhere. A lemma that would have a definition's name gets `_lem`.
Functions of src/, types and modules keep their names.
"""
import os
import re
import sys

MARKS = r"(?:(?:pattern|unfoldable|abbrev|pub|axiom) )*"
NAME = r"[^\s(){}\[\];:,.\"]+"
DECLARED = re.compile(rf"^\s*{MARKS}({NAME}(?: {NAME})*) : ")
TYPED = re.compile(rf"^\s*{MARKS}(?:record|data) ({NAME})")
# words of the library that names of lemmas are put together from
WORDS = """length take drop append map set get_or cons nil snoc replicate zip filter reverse sum min max all any head tail foldr
foldl ltb leb eqb cond true false zero suc and or not add sub mul div mod pow le lt eq some none""".split()
NOT_NAMES = {"let", "in", "use", "mod", "where", "unfolding", "module", "elim", "→", "λ"}
# fields whose type begins on the next line
LATE = {"readPayload": "read_payload", "readFeatures": "read_features"}
SPLIT = re.compile(r"([\s(){}\[\];,.\"`]+)")


def snake(name):
    return re.sub(r"(?<=[a-z0-9])([A-Z])(?=[a-z]|$)", lambda m: "_" + m[1].lower(), re.sub(r"(?<=[a-z0-9])([A-Z][A-Z0-9]+)", lambda m: "_" + m[1].lower(), name))


def texts(root="crates"):
    for folder, dirs, files in os.walk(root):
        dirs[:] = sorted(d for d in dirs if d not in ("out", ".git"))
        for f in sorted(files):
            yield os.path.join(folder, f)


def by_hand(path):
    return path.endswith("/Proof.antt")


def declared():
    """The names that files of specs/ and proofs/ declare, proofs of functions left out: the definitions, and the lemmas."""
    definitions, lemmas, types = set(), set(), set()
    for path in texts():
        if not path.endswith(".antt") or by_hand(path):
            continue
        kind = None
        for line in open(path, encoding="utf-8"):
            if line.lstrip().startswith("--"):
                continue
            t = TYPED.match(line)
            if t:
                types.add(t[1])
                kind = len(line) - len(line.lstrip())
            d = DECLARED.match(line)
            if not d:
                if line.strip() and not line.startswith(" "):
                    kind = kind if t else None
                continue
            names = [n for n in d[1].split(" ") if n not in NOT_NAMES]
            if len(names) != len(d[1].split(" ")):
                continue
            inside = kind is not None and line.startswith(" ")
            if not line.startswith(" "):
                kind = None
            marked = re.match(r"\s*" + MARKS, line)[0]
            for n in names:
                (definitions if inside or "abbrev" in marked or "unfoldable" in marked else lemmas).add(n)
    return definitions, lemmas - definitions, types


def sources():
    """The names of src/, which keep their spelling."""
    found = set()
    for path in texts():
        if path.endswith(".rt"):
            text = open(path, encoding="utf-8").read()
            found |= set(re.findall(r"\bfn (\w+)", text)) | set(re.findall(r"\b(?:pub )?(\w+): ", text))
    return found


def new_names():
    definitions, lemmas, types = declared()
    marked = set(definitions)
    every = definitions | lemmas
    plain = {n: snake(n) for n in every if "-" not in n and not n[0].isupper()}
    known = {plain.get(n, n) for n in definitions if "-" not in n} | sources() | types | set(WORDS)
    final = {}
    for n in every:
        if n[0].isupper() and "-" not in n:
            final[n] = n
        elif "-" not in n:
            final[n] = plain[n]
        else:
            pieces, i, parts = snake(n).split("-"), 0, []
            while i < len(pieces):
                for j in range(len(pieces), i, -1):
                    word = "_".join(pieces[i:j])
                    if word in known or j == i + 1:
                        parts.append((word, word in known))
                        i = j
                        break
            s = parts[0][0]
            for (a, b) in zip(parts, parts[1:]):
                s += ("-" if a[1] and b[1] else "_") + b[0]
            final[n] = s
    together = {}
    for n, s in final.items():
        together.setdefault(s, []).append(n)
    for s, names in together.items():
        if len(names) > 1:
            # the definition keeps the name: one in camel case before, or marked so
            names.sort(key=lambda n: ("-" in n, n not in marked, snake(n) == n, n))
            for n in names[1:]:
                final[n] = s + "_lem"
            if len(names) > 2:
                print("look: three names fall together:", names)
    return {n: s for n, s in final.items() if n != s} | LATE


def imported(text):
    """The names that a file's use lines bring from a crate of this repository."""
    crates = set(os.listdir("crates"))
    found = set()
    for crate, names in re.findall(r"use Rattle\.(\w+)[\w.+]*\.\{([^}]*)\}", text):
        if crate in crates:
            found |= {n.split(" as ")[0].strip() for n in names.split(",")}
            found |= {n.split(" as ")[1].strip() for n in names.split(",") if " as " in n}
    return found


def own(text):
    found = set()
    for line in text.split("\n"):
        d = DECLARED.match(line)
        if d and not line.lstrip().startswith("--"):
            found |= set(d[1].split(" "))
    return found


def turned(text, new, scope, fields=True):
    out = []
    for line in text.split("\n"):
        pieces = SPLIT.split(line)
        for i in range(0, len(pieces), 2):
            w = pieces[i]
            field = i > 0 and pieces[i - 1] == "."
            tick = w.rstrip("':?!…") if w not in new else w
            if tick in new and (tick in scope or (field and fields)):
                pieces[i] = new[tick] + w[len(tick):]
        out.append("".join(pieces))
    return "\n".join(out)


def before():
    """An alias of a module that is spelled as a name of today's library."""
    path = "crates/walk_read/proofs/ContractsLaws.antt"
    text = open(path, encoding="utf-8").read()
    text = text.replace(".read_entry.Reads as read_entry\n", ".read_entry.Reads as entry-reads\n")
    text = text.replace("\u2192 read_entry.Post", "\u2192 entry-reads.Post")
    open(path, "w", encoding="utf-8").write(text)


def everywhere(text, new):
    """Names in camel case wherever they still stand, as fields of a record that is written out, parameters and words of comments; in comments those in backticks too."""
    camel = {n for n in new if "-" not in n and re.search(r"[a-z][A-Z]", n)}
    text = re.sub(r"(?<![\w'-])([a-z]\w*)(?![\w'-])", lambda m: new[m[1]] if m[1] in camel else m[1], text)
    return "\n".join(
        re.sub(r"`([^`\s]+)`", lambda m: "`" + new.get(m[1], m[1]) + "`", line) if re.match(r"\s*(--|//)", line) else line for line in text.split("\n")
    )


def main():
    if "--before" in sys.argv:
        before()
        return
    new = new_names()
    if "--list" in sys.argv:
        for a in sorted(new):
            print(a, new[a])
        return
    for path in texts():
        if not path.endswith((".antt", ".rt", ".edit")):
            continue
        text = open(path, encoding="utf-8").read()
        if path.endswith(".edit"):
            scope = set(new)
        elif path.endswith(".rt"):
            scope = imported(text)
        else:
            scope = imported(text) | (set() if by_hand(path) else own(text))
        for clash in sorted((scope & set(new))):
            s = new[clash]
            if not path.endswith(".edit") and re.search(rf"(?<![\w.'-]){re.escape(s)}(?![\w'-])", text) and s not in new:
                print("look:", path, clash, s)
        turn = everywhere(turned(text, new, scope, fields=not by_hand(path)), new)
        if turn != text:
            open(path, "w", encoding="utf-8").write(turn)


if __name__ == "__main__":
    main()
