#!/usr/bin/env python3
"""Gives this repository's `if◌then◌else◌` another name, whether◌then◌else◌, since the library has an operator of the first name.

usage: python3 tools/whether.py     at the top of the repository, once, behind tools/respell.py

In specs/, proofs/, clauses and ghost imports; the `if` of code stays. Must-fail edits of specs/ and of clauses follow.
"""
import os
import re

WORD = re.compile(r"(?<![\w.'◌-])if(?![\w'-])")


def code(line):
    """line without its comment and strings turned"""
    note = ""
    at = re.search(r"(?:^|\s)--(?:\s|-|$)", line)
    if at:
        line, note = line[:at.start()], line[at.start():]
    parts = line.split('"')
    for k in range(0, len(parts), 2):
        parts[k] = WORD.sub("whether", parts[k])
    return '"'.join(parts) + note


def main():
    n = 0
    for top, dirs, files in os.walk("crates"):
        dirs[:] = sorted(d for d in dirs if d != "out")
        for f in sorted(files):
            p = os.path.join(top, f)
            if not f.endswith((".antt", ".rt", ".edit")):
                continue
            with open(p, encoding="utf-8") as it:
                old = it.read()
            out = []
            specs = re.search(r"(?m)^file: (?:specs|proofs)/", old) is not None
            for line in old.split("\n"):
                line = line.replace("if◌then◌else◌", "whether◌then◌else◌")
                if f.endswith(".antt"):
                    line = line if re.match(r"\s*--", line) else code(line)
                elif f.endswith(".rt"):
                    if re.match(r"\s*(requires|ensures|invariant|ghost)\b", line):
                        line = WORD.sub("whether", line)
                elif re.match(r"(old|new): ", line) and (specs or re.match(r"(old|new):\s+(requires|ensures)\b", line)):
                    line = WORD.sub("whether", line)
                out.append(line)
            new = "\n".join(out)
            if new != old:
                n += 1
                with open(p, "w", encoding="utf-8") as it:
                    it.write(new)
    print(f"whether: {n} files")


if __name__ == "__main__":
    main()
