#!/usr/bin/env python3
"""Brings the definitions and lemmas of this repository to snake case: words in camel case (signExtend) and words joined by dashes (ub-cut).

usage: tools/respell.py [--dry]      at the top of the repository, once, after the kit's port.py

The names are those declared in specs/*.antt and proofs/*.antt: definitions, lemmas, constructors and fields; and those that an import gives. Types, facts and modules keep their capital.
Functions of src/, what Rattle makes (goals, steps), strings and exported names stay. What falls together with another name of the same file is printed, and stays as it is.
"""
import collections
import os
import re
import subprocess
import sys

TOP = os.path.dirname(os.path.dirname(os.path.realpath(__file__))) if os.path.basename(os.path.dirname(os.path.realpath(__file__))) == "tools" else os.getcwd()
WORD = re.compile(r"[A-Za-z_][\w'-]*")
HEAD = re.compile(r"(?:(?:abbrev|pub|unfoldable|opaque|private) )*([a-z][\w'-]*)(?: \{[^}]*\})? :")
INNER = re.compile(r" +(?:(?:abbrev|pub|unfoldable|opaque|private) )*([a-z][\w'-]*)(?: \{[^}]*\})? :(?!\=)")
KEEP = {"with", "where", "unfolding", "record", "data", "elim", "let", "in", "rw", "use", "mod", "pub", "abbrev", "as"}
# words of today's library and grammar that a name may not become
WORDS = {"record", "ruleset", "data", "open", "in", "let", "rw", "use", "mod", "pub"}


def snake(name):
    if name == "transform2D":
        return "transform_2d"
    name = re.sub(r"(?<=[a-z0-9])([A-Z]+)(?=$|[-_0-9'])", lambda m: "_" + m.group(1).lower(), name)
    name = re.sub(r"(?<=[a-z0-9])([A-Z])", lambda m: "_" + m.group(1).lower(), name)
    return name.replace("-", "_").lower()


def files(pattern):
    out = subprocess.run(["git", "ls-files"], cwd=TOP, capture_output=True, text=True, check=True).stdout.split("\n")
    return [f for f in out if re.search(pattern, f) and os.path.isfile(os.path.join(TOP, f))]


def read(f):
    with open(os.path.join(TOP, f), encoding="utf-8") as it:
        return it.read()


def declared():
    names = set()
    for f in files(r"^crates/\w+/(specs|proofs)/\w+\.antt$"):
        for line in read(f).split("\n"):
            m = HEAD.match(line) or INNER.match(line)
            if m:
                names.add(m.group(1))
    for f in files(r"^crates/\w+/.*\.(antt|rt)$"):
        for line in re.findall(r"(?m)^(?:ghost )?use .*$", read(f)):
            names.update(re.findall(r" as ([a-z][a-z0-9]*[A-Z]\w*)", line))
    return names


def main():
    dry = "--dry" in sys.argv
    own = declared()
    turn = {n: snake(n) for n in own if snake(n) != n and not n.startswith("get_or-")}
    back = collections.defaultdict(list)
    for n in own:
        back[turn.get(n, n)].append(n)
    for new, olds in sorted(back.items()):
        if len(olds) > 1:
            print(f"fall together: {new}: {', '.join(sorted(olds))}")
    # A lemma that would have its definition's name gets _lem: the dashed one, or the one that port.py has turned from a dash.
    for new, olds in back.items():
        if len(olds) > 1:
            dashed = [n for n in olds if "-" in n] or [n for n in olds if n == new]
            assert len(olds) == 2 and len(dashed) == 1, olds
            turn[dashed[0]] = new + "_lem"
    changed = 0
    for f in files(r"^crates/\w+/.*\.(antt|rt)$"):
        text = read(f)
        code = f.endswith(".rt")
        aliases = set(re.findall(r"(?m)^(?:ghost )?use [\w.]+ as ([\w-]+)", text)) - {"tie", "goal"}
        tokens = set(WORD.findall(text))
        for t in sorted(tokens):
            if t in turn and turn[t] in tokens:
                print(f"both: {f}: {t} and {turn[t]}")

        def one(m):
            t = m.group(0)
            if t not in turn:
                return t
            # a lemma that port.py gave the spelling of a function: proofs alone cite it
            if turn[t] == t + "_lem" and (code or text[m.start() - 1:m.start()] == "." or "/specs/" in f):
                return t
            before = text[max(0, m.start() - 120):m.start()]
            if before.endswith(".") and not before.endswith("..") and "-" in t:
                owner = re.search(r"([\w'-]+)\.$", before)
                if owner and owner.group(1) not in aliases and not re.search(r"Rattle(\.[\w'-]+)+\.$", before):
                    return t
            return turn[t]

        new = WORD.sub(one, text)
        if new != text:
            changed += 1
            if not dry:
                with open(os.path.join(TOP, f), "w", encoding="utf-8") as it:
                    it.write(new)
    print(f"{len(turn)} names, {changed} files")


main()
