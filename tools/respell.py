#!/usr/bin/env python3
"""Brings the repository's own definitions and lemmas to the spelling of today's library.

usage: python3 tools/respell.py [--list]    at the top of the repository, once, right after the toolchain's own script

Definitions and lemmas become snake case, and facts and types (which begin with a capital) camel case. Names that the source, the toolchain
or its library gives stay as they are, and so do comments, but for names in backticks. --list prints the names and changes nothing.
"""

import collections
import os
import re
import sys

NAME = r"[A-Za-z_α-ωΑ-Ω][A-Za-z0-9_α-ωΑ-Ωℕℤ'-]*"
TOKEN = re.compile(r"(?<![A-Za-z0-9_α-ωΑ-Ω'«-])" + NAME)
SIGNATURE = re.compile(r"^(\s*)(?:(?:abbrev|unfoldable|pub|where) )*(" + NAME + r") :(?!=)\s+(.*)$")
TYPE = re.compile(r"^\s*(?:pub )?(?:record|data) (" + NAME + r")")
USE = re.compile(r"^(?:pub )?(?:ghost )?use ([^{;]+)\.\{([^}]*)\}")
# Names by no rule: two would fall together with definitions beside them, and two have no dash.
OTHER = {"isAwaited": "is_awaited", "isRejected": "is_rejected", "Judged-by-rows": "AllJudgedByRows", "Judged-by-numbers": "AllJudgedByNumbers"}


def files(root):
    for folder, dirs, names in os.walk(os.path.join(root, "crates")):
        dirs[:] = sorted(d for d in dirs if d != "out")
        for n in sorted(names):
            if n.endswith((".rt", ".antt")):
                yield os.path.join(folder, n)


# A comment of antt begins a line or follows a space, since names have dashes too.
NOT_CODE = {
    ".antt": re.compile(r"(?:(?<=\s)|^)--(?=\s|$)[^\n]*", re.M),
    ".rt": re.compile(r"//[^\n]*|b?\"(?:[^\"\\]|\\.)*\"", re.M),
}


def parts(text, ending):
    """The text in parts, each with whether it is code (and no comment or string)."""
    last = 0
    for m in NOT_CODE[ending].finditer(text):
        yield text[last:m.start()], True
        yield m.group(0), False
        last = m.end()
    yield text[last:], True


def new_name(old):
    if old in OTHER:
        return OTHER[old]
    if old[0].isupper():
        return "".join(p[0].upper() + p[1:] for p in re.split(r"[-_]", old) if p)
    return old.replace("-", "_")


def write(path, text):
    with open(path, "w", encoding="utf-8") as f:
        f.write(text)


def main():
    root = os.getcwd()
    defined = collections.defaultdict(set)
    imported = collections.defaultdict(set)
    texts = {}
    for p in files(root):
        with open(p, encoding="utf-8") as f:
            t = texts[p] = f.read()
        for line in t.split("\n"):
            m = USE.match(line)
            if m and not re.match(r"Rattle\.(decimals|inspection|texts|worksheet|entries|books|plans|plan_texts|regimes|runs|line)\.(specs|proofs)\.", m.group(1)):
                for n in m.group(2).split(","):
                    imported[n.strip().split(" ")[0]].add(p)
            if not p.endswith(".antt"):
                continue
            m = SIGNATURE.match(line)
            if m and not re.match(r"(goal|given|need)\b", m.group(3)):
                defined[m.group(2)].add(p)
            m = TYPE.match(line)
            if m:
                defined[m.group(1)].add(p)
            for m in re.finditer(r"\bas (" + NAME + r")", line):
                if "use " in line and "-" in m.group(1):
                    defined[m.group(1)].add(p)
    names = {n: new_name(n) for n in defined if new_name(n) != n}
    clash = {n for n in names if n in imported}
    if "--list" in sys.argv:
        for n in sorted(names):
            print(n, names[n], "IMPORTED" if n in clash else "", "DEFINED" if names[n] in defined else "", "LIBRARY" if names[n] in imported else "")
        return
    def respelled(text):
        return TOKEN.sub(lambda m: names.get(m.group(0), m.group(0)), text)

    def in_backticks(text):
        return re.sub(r"`[^`\n]*`", lambda m: respelled(m.group(0)), text)

    for p, t in texts.items():
        ending = os.path.splitext(p)[1]
        write(p, "".join(respelled(part) if is_code else in_backticks(part) for part, is_code in parts(t, ending)))
    for p in ["README.md"] + sorted(os.path.join("docs", n) for n in os.listdir("docs") if n.endswith(".md")):
        with open(p, encoding="utf-8") as f:
            t = f.read()
        write(p, in_backticks(t))


main()
