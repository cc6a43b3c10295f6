#!/usr/bin/env python3
"""Brings the names of this repository's own definitions and lemmas to Rattle's spelling.

Words in snake case, types in camel case. In a lemma's name a dash stays where it joins the names
of two functions (`dot-add`); everywhere else it becomes `_`. Names that Rattle makes (the goals
that an answer file answers) and names of the kit are left as they are. Comments, strings and
Rust code are not touched: no Rust name has a dash.

Run once at the top of the repository. With --map it prints the names and changes nothing.
"""
import collections
import glob
import re
import sys

TOKEN = r"[^\s(){}\[\],;.@\"`]+"
# what lemmas of the library join by a dash
WORDS = {
    "add", "mul", "sub", "neg", "abs", "zero", "one", "le", "lt", "eq", "pos", "append", "take",
    "drop", "length", "map", "set", "get", "listed", "replicate",
}
HEAD = re.compile(
    r"\s*((?:(?:abbrev|unfoldable|pub|private)\s+)*)(" + TOKEN + r")(?:\s+[({][^=]*)?\s+:\s")
KIND = re.compile(r"\s*(?:pub\s+)?(record|data|ruleset)\s+(" + TOKEN + ")")


def antt_files():
    return sorted(f for f in glob.glob("crates/**/*.antt", recursive=True) if "/out/" not in f)


def source_files():
    return sorted(f for f in glob.glob("crates/**/*.rt", recursive=True) if "/out/" not in f)


def has_dash(name):
    return "-" in name and re.search(r"[A-Za-z]", name) is not None


def definitions(text):
    """Name and kind of each thing that a file defines."""
    inside = None
    for line in text.split("\n"):
        bare = line.strip()
        if not bare or bare.startswith("--") or bare.startswith("use "):
            continue
        kind = KIND.match(line)
        if kind:
            inside = kind.group(1)
            yield kind.group(2), kind.group(1)
            continue
        head = HEAD.match(line)
        if not head:
            if not line[:1].isspace():
                inside = None
            continue
        if re.search(r":\s*goal\.", line):
            continue
        if line[:1].isspace() and inside in ("record", "data"):
            yield head.group(2), "field"
            continue
        inside = None
        marks = head.group(1)
        yield head.group(2), "function" if "abbrev" in marks or "unfoldable" in marks else "lemma"


def renamings():
    kinds = collections.defaultdict(set)
    for path in antt_files():
        with open(path, encoding="utf8") as file:
            for name, kind in definitions(file.read()):
                kinds[name].add(kind)
    functions = {n for n, k in kinds.items() if "function" in k and "-" not in n} | WORDS
    names = {}
    for name, kind in sorted(kinds.items()):
        if not has_dash(name):
            continue
        parts = name.split("-")
        if name[0].isupper():
            new = "".join(p[:1].upper() + p[1:] for p in parts)
        elif kind == {"lemma"}:
            new = parts[0]
            for before, after in zip(parts, parts[1:]):
                new += ("-" if before in functions and after in functions else "_") + after
        else:
            new = name.replace("-", "_")
        if new != name:
            names[name] = new
    return names, set(kinds)


def respelled(text, names, comment):
    out = []
    for line in text.split("\n"):
        if line.lstrip().startswith(comment):
            out.append(line)
            continue
        pieces = re.split(r'("(?:[^"\\]|\\.)*")', line)
        for i in range(0, len(pieces), 2):
            pieces[i] = re.sub(TOKEN, lambda m: names.get(m.group(0), m.group(0)), pieces[i])
        out.append("".join(pieces))
    return "\n".join(out)


def main():
    names, known = renamings()
    together = collections.defaultdict(list)
    for old, new in names.items():
        together[new].append(old)
    for new, olds in sorted(together.items()):
        if len(olds) > 1 or new in known:
            print("fall together:", new, "from", ", ".join(olds), "" if new not in known else "(stands already)")
    if "--map" in sys.argv:
        for old, new in sorted(names.items()):
            print(old, new)
        return
    for paths, comment in ((antt_files(), "--"), (source_files(), "//")):
        for path in paths:
            with open(path, encoding="utf8") as file:
                text = file.read()
            new = respelled(text, names, comment)
            if new != text:
                with open(path, "w", encoding="utf8") as file:
                    file.write(new)
    print(len(names), "names respelled")


if __name__ == "__main__":
    main()
