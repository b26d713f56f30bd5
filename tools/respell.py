#!/usr/bin/env python3
"""Brings the repository's own definitions and lemmas to today's spelling: words in snake case, types in camel case.

usage: python3 tools/respell.py        at the top of the repository, once, after port.py

A name is the repository's own if a file of specs/ or proofs/ declares it: at the head of a signature, as a
constructor or as a record's field. Names that the kit makes (goals, labels, calls) are not declared there by the
repository, and stay. Functions of src/, strings, inputs and outputs keep their names.
"""

import os
import re
import sys

WORD = r"[A-Za-z_][\w']*(?:-[\w']+)*"
APPENDED = re.compile(r"\b([a-z_]+(?:-[a-z]+)*)-\+\+(?!\+)")  # the lemma of a word at `++`
HYPHEN = re.compile(r"[A-Za-z_][\w']*(?:-[\w']+)+")
HEAD = re.compile(r"^\s*(?:(?:pub|abbrev|unfoldable|private)\s+)*((?:" + WORD + r"\s+)*" + WORD + r")\s+:\s")
TYPE = re.compile(r"^\s*(?:pub\s+)?(?:record|data)\s+(" + WORD + r")\s")
# heads of the answers and invariants that the kit asks for by name
GOALS = re.compile(r"^(?:returns|invariant|decreases|ghost|in|if|loop|add_at|add-at|call|from)(?:[-_]|$)")


def files(root, ends):
    for folder, dirs, names in os.walk(os.path.join(root, "crates")):
        dirs[:] = sorted(d for d in dirs if d != "out")
        for name in sorted(names):
            if name.endswith(ends):
                yield os.path.join(folder, name)


def code(line, mark):
    at = line.find(mark)
    return line if at < 0 else line[:at]


def is_answer(path):
    return os.path.basename(path) in ("Answers.antt", "Invariants.antt", "Choices.antt", "Proof.antt")


def declared(root):
    found = set()
    for path in files(root, (".antt",)):
        with open(path, encoding="utf-8") as f:
            for line in f:
                head = TYPE.match(code(line, "--")) or HEAD.match(code(line, "--"))
                if not head:
                    continue
                for name in head.group(1).split():
                    if HYPHEN.fullmatch(name) and not (is_answer(path) and GOALS.match(name)):
                        found.add(name)
    return found


def spelled(name):
    name = name.replace("getD", "get_or")
    if name[0].isupper():
        return "".join(part[0].upper() + part[1:] for part in name.split("-"))
    return name.replace("-", "_")


def turned(text, names, quoted_only=False):
    def new(match):
        return names.get(match.group(0), match.group(0))

    if quoted_only:
        return re.sub(r"`[^`]*`", lambda m: HYPHEN.sub(new, m.group(0)), text)
    return HYPHEN.sub(new, text)


def turn_antt(text, names):
    lines = []
    for line in text.split("\n"):
        body = code(line, "--")
        spelled_out = APPENDED.sub(lambda m: m.group(1).replace("-", "_") + "_append", body)
        lines.append(turned(spelled_out, names) + turned(line[len(body) :], names, quoted_only=True))
    return "\n".join(lines)


def turn_rt(text, names):
    """Ghost text alone: strings and comments stay as they are, and code has no hyphens inside words."""
    lines = []
    for line in text.split("\n"):
        body = code(line, "//")
        parts = re.split(r'("(?:[^"\\]|\\.)*")', body)
        body = "".join(p if i % 2 else turned(p, names) for i, p in enumerate(parts))
        lines.append(body + line[len(code(line, "//")):])
    return "\n".join(lines)


def main():
    root = "."
    if not os.path.isdir(os.path.join(root, "crates")):
        print("run it at the top of the repository", file=sys.stderr)
        return 2
    names = {name: spelled(name) for name in sorted(declared(root))}
    for new in sorted(set(names.values())):
        old = [n for n in names if names[n] == new]
        if len(old) > 1:
            print(f"{' and '.join(old)} would fall together as {new}", file=sys.stderr)
            return 1
    for path in files(root, (".antt", ".rt")):
        with open(path, encoding="utf-8") as f:
            text = f.read()
        new = turn_antt(text, names) if path.endswith(".antt") else turn_rt(text, names)
        if new != text:
            with open(path, "w", encoding="utf-8") as f:
                f.write(new)
    for old in names:
        print(old, "->", names[old])
    return 0


if __name__ == "__main__":
    raise SystemExit(main())
