#!/usr/bin/env python3
"""Brings the repository's own definitions and lemmas to one spelling: words joined by `_`, types in camel case.

usage: python3 tools/spell_names.py          at the top of the repository, after the toolchain's porting script
       python3 tools/spell_names.py --list   only tells what it would rename

A name is the repository's own if a line of a .antt file of specs/, or of a lemma file of proofs/, defines it: the files
that answer for a function (Answers, Invariants, Choices, Given) define names that the toolchain makes, which stay. Names
of src/, strings and comments stay, but for a name in back quotes that is no text of an example.
"""

import collections
import os
import re
import sys

ANSWERING = {"Answers.antt", "Invariants.antt", "Choices.antt", "Proof.antt", "Given.antt"}
# Types, which are in camel case.
TYPES = {"In-three": "InThree"}
# Names that would fall together with a word of the library, of src/ or of a clause's parameters.
APART = {"run-over": "run_over_byte", "bit-or": "bit_of_or", "window-from": "window_begin", "window-to": "window_end"}
# Back quotes in comments have these as texts and not as names.
TEXTS = {"re-cut", "cut-it", "cut-", "a-b"}

DEFINES = re.compile(
    r"^ *(?:(?:abbrev|opaque|unfoldable|pub|instance)\s+)*(?:(?:record|data)\s+)?([^\s:(){},.=|→λ\"]+)"
    r"(?:\s+[({][^(){}]*(?:\([^()]*\)[^(){}]*)*[)}])*\s*:(?:\s|$)"
)
TOKEN = re.compile(r"[^\s(){}\[\],;.\"`]+")


def files():
    """Every .rt and .antt file of the crates, in order."""
    for folder, names, found in os.walk("crates"):
        names[:] = sorted(n for n in names if n not in ("out", "target", "must-fail"))
        for name in sorted(found):
            if name.endswith((".rt", ".antt")):
                yield os.path.join(folder, name)


def own_names():
    """The repository's own names that have a dash or an old prime, each with the file that defines it first."""
    found = {}
    for path in files():
        if not path.endswith(".antt") or ("/proofs/" in path and os.path.basename(path) in ANSWERING):
            continue
        with open(path, encoding="utf-8") as file:
            for line in file:
                match = DEFINES.match(line)
                if match and re.search(r"[A-Za-z0-9]-|′", match[1]) and match[1] not in ("->", "-"):
                    found.setdefault(match[1], path)
    return found


def spelled(name):
    """The new spelling of a name."""
    return TYPES.get(name) or APART.get(name) or name.replace("-", "_").replace("′", "'")


def parts(line, rust):
    """A line in parts, each with its kind: code, string or comment."""
    mark = "//" if rust else "--"
    at, begun, out = 0, 0, []
    while at < len(line):
        if line[at] == '"':
            end = at + 1
            while end < len(line) and line[end] != '"':
                end += 2 if line[end] == "\\" else 1
            out += [("code", line[begun:at]), ("string", line[at : end + 1])]
            at = begun = end + 1
        elif line.startswith(mark, at) and (at == 0 or line[at - 1].isspace()):
            out += [("code", line[begun:at]), ("comment", line[at:])]
            return out
        else:
            at += 1
    out.append(("code", line[begun:]))
    return out


def turned(line, rust, names, count):
    """The line with the names respelled."""

    def one(match):
        name = match[0]
        if name in names:
            count[name] += 1
            return names[name]
        return name

    out = []
    for kind, text in parts(line, rust):
        if kind == "code":
            text = TOKEN.sub(one, text)
        elif kind == "comment":
            text = re.sub(r"`([^`]*)`", lambda m: "`" + (m[1] if m[1].split(" ")[0] in TEXTS else TOKEN.sub(one, m[1])) + "`", text)
        out.append(text)
    return "".join(out)


def main():
    """Respells the names in place, and tells those that fall together."""
    own = own_names()
    names = {name: spelled(name) for name in own}
    taken = collections.defaultdict(set)
    for path in files():
        with open(path, encoding="utf-8") as file:
            for token in re.findall(r"[^\s(){}\[\],;.\"`:&<>*!?#=+]+", file.read()):
                taken[token].add(path)
    for name, new in sorted(names.items()):
        if new in taken:
            print("falls together: %s and %s, which stands in %s" % (name, new, " ".join(sorted(taken[new])[:3])))
    if "--list" in sys.argv:
        for name, new in sorted(names.items()):
            print("%s %s %s" % (name, new, own[name]))
        return
    count = collections.Counter()
    for path in files():
        with open(path, encoding="utf-8") as file:
            old = file.read()
        new = "".join(turned(line, path.endswith(".rt"), names, count) for line in old.splitlines(keepends=True))
        if new != old:
            with open(path, "w", encoding="utf-8") as file:
                file.write(new)
    print("%d names respelled at %d places" % (len(names), sum(count.values())))


if __name__ == "__main__":
    main()
