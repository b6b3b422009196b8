#!/usr/bin/env python3
"""usage: tools/snake_case.py

Brings the definitions and lemmas of this repository, which were in camel case, to snake case, in every crate, edit and
page. Names of functions, types, modules and constructors stay. Eight lemmas that would get the name of a definition get
the ending _lem first. It was run once, after the porting script; a second run changes nothing.
"""
import os
import re
import sys

TOKEN = re.compile(r"(?<![A-Za-z0-9_'\-·◌])[A-Za-z][A-Za-z0-9_'\-₀-₉]*")
CAMEL = re.compile(r"^[a-z][a-z0-9]*[A-Z]")
LEMMAS = {"code_by", "goes_on", "left_by", "no_read", "one_more", "other_length", "read_number", "ready_words"}


def files(top, endings):
    for folder, dirs, names in os.walk(top):
        dirs[:] = sorted(d for d in dirs if d not in ("out", "target", ".git"))
        for name in sorted(names):
            if name.endswith(endings):
                yield os.path.join(folder, name)


def read(path):
    with open(path, encoding="utf-8") as f:
        return f.read()


def snake(name):
    return re.sub(r"(?<=[a-z0-9])[A-Z]", lambda m: "_" + m.group(0).lower(), name)


def main():
    if len(sys.argv) > 1:
        print(__doc__, file=sys.stderr)
        return 2
    os.chdir(os.path.join(os.path.dirname(os.path.realpath(__file__)), ".."))
    words = {w for p in files("crates", (".antt", ".rt")) for w in TOKEN.findall(read(p))}
    camel = {w for w in words if CAMEL.match(w)}

    def turned(path):
        code = path.endswith((".antt", ".rt"))

        def one(m):
            w = m.group(0)
            if camel and path.endswith(".antt") and w in LEMMAS:
                return w + "_lem"
            # The porting script brought some definitions to snake case already; edits and pages still have the old name.
            return snake(w) if w in camel or not code and CAMEL.match(w) and snake(w) in words else w

        return TOKEN.sub(one, read(path))

    # Edits and pages first, while the crates still tell the names.
    pages = [*files("crates", ".edit"), *files("edits", ".edit"), *files("docs", ".md"), "README.md"]
    for path in [*pages, *files("crates", (".antt", ".rt"))]:
        text = turned(path)
        if text != read(path):
            with open(path, "w", encoding="utf-8") as f:
                f.write(text)
    print(f"{len(camel)} names in snake case")
    return 0


if __name__ == "__main__":
    sys.exit(main())
