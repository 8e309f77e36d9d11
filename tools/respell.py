#!/usr/bin/env python3
"""Brings this repository's own definitions and lemmas to snake case, once, after port.py: `keyOf` and `key-of` become `key_of`.

usage: python3 tools/respell.py          at the top of the repository

Types, modules and constructors of types keep their camel case. Functions of src/, exported names, strings and inputs are not
touched. It prints the names that fall together and leaves those as they were, but for the ones in OTHER.
"""
import os
import re
import sys

NAME = r"[A-Za-z\u0370-\u03ff][\w'\u2080-\u2089-]*"
TOKEN = re.compile(r"(?<![\w'\u2080-\u2089-])" + NAME)

# a name that would fall together with another one, and what it is called instead
OTHER = {
    "srcLine": "source_line",
    "srcCol": "source_col",
    "digit-of": "digit_is",
    "firstOff": "first_off",
    "first_off": "first_off_from",
    "isSame": "is_same_name",
    "made-of": "made_of_token",
    "bad-table": "answers_bad_table",
    "is-delim": "delim_is",
    "low-char": "low_char_is",
    "src-line": "source_line",
    "src-col": "source_col",
    "map-append": "map_append",
    "segment-at": "segment_here",
    "takes-each": "takes_each_lenient",
    "takes-from": "takes_from_lenient",
    "takes_all": "takes_all_lenient",
}

FIELDS = ("srcLine", "srcCol", "src-line", "src-col")


def files(root, ends):
    for folder, dirs, names in os.walk(os.path.join(root, "crates")):
        dirs[:] = sorted(d for d in dirs if d not in ("out", "target"))
        for n in sorted(names):
            if n.endswith(ends):
                yield os.path.join(folder, n)


def plain(text):
    """Without comments and strings, at the same places."""
    text = re.sub(r'"(?:[^"\\\n]|\\.)*"', lambda m: " " * len(m.group()), text)
    text = re.sub(r"b'(?:[^'\\\n]|\\.)'", lambda m: " " * len(m.group()), text)
    return re.sub(r"(?m)(^|(?<=\s))(--|//).*$", lambda m: " " * len(m.group()), text)


def snake(name):
    if name in OTHER:
        return OTHER[name]
    n = name.replace("-", "_")
    if n[:1].islower():
        n = re.sub(r"(?<=[a-z0-9'])([A-Z])", lambda m: "_" + m.group().lower(), n)
        n = n.replace("__", "_")
    return n


DEFINES = re.compile(r"^\s*(?:abbrev |unfoldable |syntax |data |record )*(?:pub )?((?:" + NAME + r")(?:\s+(?:" + NAME + r"))*)\s*(?:\{[^}]*\})?\s*:(?!=)")


def own(root):
    """The names that this repository defines in specs/ and proofs/*.antt, fields and constructors too."""
    found = {}
    for p in files(root, ".antt"):
        t = plain(open(p, encoding="utf-8").read())
        for line in t.split("\n"):
            m = DEFINES.match(line)
            if m and not line.strip().startswith(("let ", "in ", "use ", "module ")):
                for n in m.group(1).split():
                    if n not in ("pub", "abbrev", "unfoldable", "syntax", "where", "data", "record"):
                        found.setdefault(n, set()).add(p)
    return found


def foreign(root):
    """The names that are imported from outside."""
    found = set()
    for p in files(root, (".antt", ".rt")):
        t = plain(open(p, encoding="utf-8").read())
        for m in re.finditer(r"use\s+([\w.\-\u00b7]+)\.\{([^}]*)\}", t):
            path = m.group(1)
            ours = path.startswith("Rattle.") and os.path.isdir(os.path.join(root, "crates", path.split(".")[1])) and ".declared" not in path and not path.endswith((".Statement", ".Tie", ".Goals"))
            if not ours:
                for n in m.group(2).split(","):
                    found.add(n.split(" as ")[0].strip())
                    found.add(n.split(" as ")[-1].strip())
    return found


def respell(text, names, path):
    keep = plain(text)

    def turn(m):
        n = m.group()
        if n not in names or n == "map-append" and "changes/" not in path:
            return n
        if keep[m.start()] == " ":
            a, b = text.rfind("`", 0, m.start()), text.find("`", m.end())
            line = text.rfind("\n", 0, m.start())
            if a <= line or text[line:a].count("`") % 2 or b < 0 or "\n" in text[m.end():b]:
                return n
        # after a dot it is a field, or a name that the check makes
        if m.start() and text[m.start() - 1] == "." and n in OTHER and n not in FIELDS:
            return n.replace("-", "_")
        return names[n]

    return TOKEN.sub(turn, text)


def main():
    root = "."
    have, out = own(root), foreign(root)
    names, left = {}, []
    every = set()
    per = {}
    for p in files(root, (".antt", ".rt")):
        per[p] = set(TOKEN.findall(plain(open(p, encoding="utf-8").read())))
        every |= per[p]
    for n in sorted(have):
        if n[:1].isupper() or snake(n) == n:
            continue
        if n in out and n not in OTHER:
            left.append((n, "is also a name from outside"))
            continue
        names[n] = snake(n)
    # two that become one, in a file that has both
    back = {}
    for n in names:
        back.setdefault(names[n], []).append(n)
    for new, olds in sorted(back.items()):
        for p, toks in per.items():
            both = [o for o in olds if o in toks] + ([new] if new in toks and not p.endswith(".rt") else [])
            if len(both) > 1:
                left.append((", ".join(both), "fall together in " + p))
    for n, why in left:
        print(f"left: {n}: {why}")
    print(f"{len(names)} names, {len(left)} left")
    if "--write" in sys.argv:
        for p in files(root, (".antt", ".rt")):
            t = open(p, encoding="utf-8").read()
            u = respell(t, names, p)
            if u != t:
                open(p, "w", encoding="utf-8").write(u)
        for p in files(root, ".edit"):
            t = open(p, encoding="utf-8").read()
            u = "\n".join(TOKEN.sub(lambda m: names.get(m.group(), m.group()), l) if l.startswith(("old:", "new:")) else l for l in t.split("\n"))
            if u != t:
                open(p, "w", encoding="utf-8").write(u)
        with open("tools/respelled.txt", "w", encoding="utf-8") as f:
            for n in sorted(names):
                f.write(f"{n} {names[n]}\n")


main()
