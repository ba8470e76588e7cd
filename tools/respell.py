#!/usr/bin/env python3
"""Spells this repository's definitions and lemmas as today's Rattle does: words in snake case, a dash only between two names.

usage: tools/respell.py [--check]     at the top, once, after port.py

A fact and a type keep their capital, and what Rattle makes keeps its name. Names that would fall together with another of the
same file, or with a parameter, a field or a constant of a clause, are listed and get an ending of their own.
"""

import collections
import glob
import os
import re
import subprocess
import sys

WORD = r"[^\s(){}.;,@\"«»\[\]\\`:]+"
TOKEN = re.compile(r"«[^»]*»|\"(?:[^\"\\]|\\.)*\"|" + WORD)
DECLARED = re.compile(r"^(\s*)((?:(?:abbrev|unfoldable|pub)\s+)*)(" + WORD + r")\s+:\s")
MADE = re.compile(
    r"^(record|data|where|let|in|use|module|pub|unfolding|abbrev|elim|λ|\||--.*)$"
)
# Each of these would have the name of something else in scope.
APART = {}


def read(path):
    with open(path, encoding="utf-8", newline="") as it:
        return it.read()


def plain(name):
    """The name in snake case, but for the parts that begin with a capital, and its dashes."""
    def part(it):
        if it[:1].isupper():
            return it
        return re.sub(r"(?<=[a-z0-9])[A-Z]+", lambda m: "_" + m.group().lower(), it)
    return [part(it) for it in name.split("-")]


def new_name(name, defined):
    if name in APART:
        return APART[name]
    parts = plain(name)
    if len(parts) > 1 and all(it in defined for it in parts):
        return "-".join(parts)
    out = parts[0]
    for before, it in zip(parts, parts[1:]):
        out += ("-" if before[:1].isupper() or it[:1].isupper() or not before or not it else "_") + it
    return out


def clauses(text):
    """Which characters of a source stand in a clause, a ghost item or a `ghost use`."""
    inside = bytearray(len(text))
    for m in re.finditer(r"\b(requires|ensures)\*?(?: \w+)? \{|\bghost (?:use|invariant|\w+:)", text):
        at = m.start()
        if m.group().startswith("ghost use"):
            end = text.index(";", at) + 1
        else:
            open_ = text.index("{", at)
            depth, end = 0, open_
            while True:
                depth += {"{": 1, "}": -1}.get(text[end], 0)
                end += 1
                if depth == 0:
                    break
        inside[at:end] = b"\1" * (end - at)
    return inside


def turn(text, names, allowed=None):
    out, at = [], 0
    for m in TOKEN.finditer(text):
        word = m.group()
        bare_only = "_" in word and names.get(word) == word + "_lem" and m.start() and text[m.start() - 1] == "."
        if word in names and not bare_only and (allowed is None or allowed(m.start())):
            out += [text[at : m.start()], names[word]]
            at = m.end()
    return "".join(out) + text[at:]


def camel(names):
    return {a: b for a, b in names.items() if re.search(r"[a-z0-9][A-Z]", a)}


def turn_antt(text, names):
    of_comments = camel(names)
    lines = []
    for line in text.split("\n"):
        m = re.search(r"(^|\s)--\s", line + " ")
        cut = m.start() if m else len(line)
        lines.append(turn(line[:cut], names) + turn(line[cut:], of_comments))
    return "\n".join(lines)


def turn_rt(text, names):
    inside = clauses(text)
    return turn(turn_in(text, names, inside), camel(names))


def turn_in(text, names, inside):
    return turn(text, names, lambda at: inside[at])


def turn_edit(text, names):
    lines = []
    antt = False
    for line in text.split("\n"):
        if line.startswith("file:"):
            antt = line.strip().endswith(".antt")
        head = re.match(r"(old|new): ?", line)
        if head:
            body = line[head.end() :]
            body = turn_antt(body, names) if antt else turn(body, camel(names))
            line = line[: head.end()] + body
        elif line.startswith("#"):
            line = turn(line, camel(names))
        lines.append(line)
    return "\n".join(lines)


def bare(text):
    """The words of a text that name no module and no field."""
    text = re.sub(r"(?m)(^|\s)--(\s.*)?$", "", text)
    return {m.group() for m in TOKEN.finditer(text) if not (m.start() and text[m.start() - 1] == ".")}


def found(files):
    names = collections.defaultdict(set)
    for path, text in files.items():
        if not path.endswith(".antt"):
            continue
        for line in text.split("\n"):
            m = DECLARED.match(line)
            if m and not MADE.match(m.group(3)):
                names[m.group(3)].add(path)
            m = re.match(r"\s*(?:(?:pub|unfoldable|abbrev)\s+)*(?:record|data)\s+(" + WORD + ")", line)
            if m:
                names[m.group(1)].add(path)
        for alias in re.findall(r" as (" + WORD + ")", text):
            names[alias].add("an alias")
    return names


def main(argv):
    paths = [it for it in glob.glob("crates/**/*", recursive=True) if it.endswith((".antt", ".rt", ".edit")) and "/out/" not in it]
    files = {it: read(it) for it in sorted(paths)}
    names = found(files)
    defined = {plain(n)[0] for n, where in names.items() if "-" not in n and any("/specs/" in it for it in where)}
    table = {}
    for name in names:
        new = new_name(name, defined)
        if new != name:
            table[name] = new
    # what falls together
    words = {it: bare(text) for it, text in files.items()}
    fall = collections.defaultdict(set)
    # a lemma that would have its function's name
    taken = collections.defaultdict(set)
    for old, new in table.items():
        taken[new].add(old)
    for new, old in taken.items():
        lemmas = sorted(it for it in old if "-" in it)
        if new in names or len(old) > 1:
            for it in lemmas if new in names or len(lemmas) < len(old) else lemmas[1:]:
                table[it] = new + "_lem"
    for new in [it for it in taken if it in names and any("-" not in old for old in taken[it])]:
        table[new] = new + "_lem"
    for it, there in words.items():
        for word in there:
            if word in table and "-" in word and table[word] in there:
                table[word] = table[word].removesuffix("_lem") + "_lem"
    for it, there in words.items():
        into = collections.defaultdict(set)
        for word in there:
            if word in table:
                into[table[word]].add(word)
        for new, old in into.items():
            if it.endswith(".rt"):
                inside = clauses(files[it])
                own = {m.group() for m in TOKEN.finditer(files[it]) if inside[m.start()] and files[it][m.start() - 1] != "."}
                own |= set(re.findall(r"(\w+)\s*:(?!:)", files[it]))
                clash = new in own
            else:
                clash = new in there and table.get(new, new) == new
            if len(old) > 1 or clash:
                fall[new, tuple(sorted(old))].add(it)
    for (new, old), where in sorted(fall.items()):
        print("falls together:", new, "<-", " ".join(old), "in", " ".join(sorted(where)[:4]), f"({len(where)})")
    print(len(table), "names respelled,", len(fall), "fall together")
    if "--check" in argv:
        return 0
    if fall:
        return 1
    kinds = {".antt": turn_antt, ".rt": turn_rt, ".edit": turn_edit}
    for it in paths:
        text = read(it)
        new = kinds[os.path.splitext(it)[1]](text, table)
        if new != text:
            with open(it, "w", encoding="utf-8", newline="") as out:
                out.write(new)
    for crate in sorted(glob.glob("crates/*/")):
        subprocess.run(["rt", "fmt"], cwd=crate, stdout=subprocess.DEVNULL, stderr=subprocess.DEVNULL)
    return 0


if __name__ == "__main__":
    raise SystemExit(main(sys.argv[1:]))
