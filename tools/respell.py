#!/usr/bin/env python3
"""Brings this repository's own names in specs/, proofs/ and clauses to snake case, as the library spells its words.

usage: python3 tools/respell.py [--names FILE]     at the top of the repository, once, behind port.py

A definition, a lemma, a constructor or a field of specs/ and proofs/ that has a dash or a hump, as cells-of or cellsOf, becomes cells_of; what a
Proof.antt declares for itself stays, since goals give those names. Types and
facts keep their capitals (a dash in one becomes '_'). Names that come from src/, strings and the words of comments stay; a comment's names in back
quotes follow. Each file is turned by what it declares and what it brings in from a crate of this repository, so that a name of the library that is
spelled alike stays as it is. --names writes each name that was turned: crate/folder/Module, old, new.
"""
import os
import re
import sys

# port.py gave a definition and a lemma one name here: the definitions, and in the files that have both the places of the lemma, counted from 0.
FELL_TOGETHER = """above_from asked_of by_digits by_length head_of in_turn kept_line
line_after line_at line_here lines_from no_row rest_of row_line row_lines row_on row_read rows_behind""".split()
LEMMA_AT = {
    ("crates/lines/proofs/line_after/Proof.antt", "line_after"): [0, 3],
}

BREAK = set(" \t\n(){},.;\"`")
DECLARED = re.compile(r"^(?P<indent>[ ]*)(?:abbrev |unfoldable )?(?:pub )?(?P<name>[^\s:(){}]+)(?:\s*\{[^}]*\})*\s*:(?=\s)")
KIND = re.compile(r"^[ ]*(?:unfoldable |abbrev )?(?:pub )?(?P<kind>data|record) (?P<name>[^\s:(){}]+)")
USE = re.compile(r"^(?P<head>\s*(?:ghost use|pub use|use) Rattle\.)(?P<path>[\w.+']+?)\.\{(?P<names>[^}]*)\}", re.M)
PLAIN = re.compile(r"^[A-Za-z][A-Za-z0-9_'-]*$")


def snake(name):
    if not PLAIN.match(name):
        return name
    if name[0].isupper():
        return name.replace("-", "_")
    name = name.replace("-", "_")
    name = re.sub(r"(?<=[a-z0-9])(?=[A-Z])", "_", name)
    return name.lower()


def is_hump(name):
    return bool(PLAIN.match(name)) and not name[0].isupper() and bool(re.search(r"[a-z0-9][A-Z]", name))


def turned(name, in_proofs, humps):
    """The new name. A lemma that would have a definition's name gets _lem."""
    new = snake(name)
    if in_proofs and not is_hump(name) and new in humps:
        return new + "_lem"
    return new


def tokens(text):
    """The parts of text: names and what parts them."""
    at, out = 0, []
    while at < len(text):
        end = at
        if text[at] in BREAK:
            while end < len(text) and text[end] in BREAK:
                end += 1
            out.append((False, text[at:end]))
        else:
            while end < len(text) and text[end] not in BREAK:
                end += 1
            out.append((True, text[at:end]))
        at = end
    return out


def files(root):
    for crate in sorted(os.listdir(os.path.join(root, "crates"))):
        for folder in ("specs", "proofs", "src"):
            top = os.path.join(root, "crates", crate, folder)
            for at, dirs, names in os.walk(top):
                dirs.sort()
                for n in sorted(names):
                    if n.endswith((".antt", ".rt")):
                        yield crate, folder, os.path.join(at, n)


def module(crate, folder, top, path):
    rel = os.path.relpath(path, os.path.join(top, "crates", crate, folder))
    return f"{crate}.{folder}." + rel[:-5].replace(os.sep, ".")


def declared(text):
    """The names that an antt file declares, and the fields of its records."""
    names, fields = set(), set()
    body = None
    for line in text.split("\n"):
        if line.lstrip().startswith("--") or not line.strip():
            continue
        indent = len(line) - len(line.lstrip())
        k = KIND.match(line)
        if k:
            names.add(k["name"])
            body = (k["kind"], indent)
            continue
        if body and indent <= body[1]:
            body = None
        d = DECLARED.match(line)
        if d and d["name"] not in ("use", "let", "module", "where", "in", "record"):
            if body and body[0] == "record":
                fields.add(d["name"])
            else:
                names.add(d["name"])
    return names, fields


def by_alias(text, crates):
    """alias of a module -> module"""
    found = re.findall(r"^\s*(?:ghost use|pub use|use) Rattle\.([\w.+']+?) as (\S+?);?$", text, re.M)
    return {alias: path for path, alias in found if path.split(".")[0] in crates}


def imported(text, crates):
    """name as written in the file -> (module, name there)"""
    out = []
    for m in USE.finditer(text):
        path = m["path"]
        if path.split(".")[0] not in crates:
            continue
        for item in m["names"].split(","):
            parts = item.split(" as ")
            if parts[0].strip():
                out.append((path, parts[0].strip(), parts[-1].strip()))
    return out


def turn_text(text, names, fields, source):
    """names: old -> new of this file; fields: old -> new of all records"""
    out = []
    for line in text.split("\n"):
        mark = "//" if source else "--"
        code, note = line, ""
        at = 0
        while True:
            i = line.find(mark, at)
            if i < 0:
                break
            if (i == 0 or line[i - 1] in " \t") and (source or i + 2 >= len(line) or line[i + 2] in " -"):
                if line[:i].count('"') % 2 == 0:
                    code, note = line[:i], line[i:]
                    break
            at = i + 2
        parts = code.split('"')
        for k in range(0, len(parts), 2):
            parts[k] = turn_code(parts[k], names, fields)
        note = re.sub(r"`([^`]*)`", lambda m: "`" + turn_code(m[1], names, fields) + "`", note)
        out.append('"'.join(parts) + note)
    return "\n".join(out)


def turn_code(code, names, fields):
    out, before = [], ""
    for word, t in tokens(code):
        if word:
            if before.endswith(".") and not before.endswith(" ."):
                t = fields.get(t, names.get(t, t))
            else:
                t = names.get(t, fields.get(t, t))
        before = t
        out.append(t)
    return "".join(out)


def parted(text, path):
    """The text with the lemmas that fell together with a definition under names of their own."""
    for (where, name), places in LEMMA_AT.items():
        if where != path:
            continue
        seen, out = -1, []
        for word, t in tokens(text):
            if word and snake(t) == name:
                seen += 1
                if seen in places:
                    t = name + "_lem"
            out.append(t)
        text = "".join(out)
    return text


def together(old, new, crates, folder):
    """The names that are brought in or declared twice in the new text and were not in the old one."""
    def twice(text):
        all_names = []
        for m in re.finditer(r"^\s*(?:ghost use|pub use|use) [\w.+']+?\.\{([^}]*)\}", text, re.M):
            all_names += [i.split(" as ")[-1].strip() for i in m[1].split(",") if i.strip()]
        if folder != "src":
            all_names += list(declared(text)[0])
        return {n for n in all_names if all_names.count(n) > 1}, len(declared(text)[0]) if folder != "src" else 0
    (a, m), (b, n) = twice(old), twice(new)
    return sorted(b - {snake(x) for x in a}) + (["(fewer names than before)"] if n < m else [])


def main(argv):
    root = os.getcwd()
    crates = {c for c in os.listdir(os.path.join(root, "crates"))}
    said = None
    if argv[:1] == ["--names"]:
        said = argv[1]
    texts, own, fields = {}, {}, {}
    for crate, folder, path in files(root):
        with open(path, encoding="utf-8") as f:
            texts[path] = (crate, folder, parted(f.read(), os.path.relpath(path, root)))
        if folder != "src":
            names, fs = declared(texts[path][2])
            own[module(crate, folder, root, path)] = names
            for f in fs:
                if snake(f) != f:
                    fields[f] = snake(f)
    humps = {snake(n) for ns in own.values() for n in ns if is_hump(n)} | set(FELL_TOGETHER)
    told = []
    for path, (crate, folder, text) in texts.items():
        names = {}
        if folder != "src" and os.path.basename(path) != "Proof.antt":
            here = module(crate, folder, root, path)
            for n in own[here]:
                new = turned(n, folder == "proofs", humps)
                if new != n:
                    names[n] = new
                    told.append((here, n, new))
        for path_of, name, alias in imported(text, crates):
            where = path_of
            if where in own and name in own[where]:
                new = turned(name, where.split(".")[1] == "proofs", humps)
                if new != name:
                    names[name] = new
        new = turn_text(text, names, fields, path.endswith(".rt"))
        for alias, where in by_alias(text, crates).items():
            def member(m):
                n = turned(m[1], where.split(".")[1] == "proofs", humps) if m[1] in own.get(where, ()) else m[1]
                return alias + "." + n
            new = re.sub(r"(?<![\w.'-])" + re.escape(alias) + r"\.([A-Za-z][\w'-]*)", member, new)
        with open(path, "w", encoding="utf-8") as f:
            f.write(new)
    for f, g in sorted(fields.items()):
        told.append(("field", f, g))
    if said:
        with open(said, "w", encoding="utf-8") as f:
            for t in sorted(set(told)):
                f.write("\t".join(t) + "\n")
    print(f"respell: {len(set(told))} names")
    for path, (crate, folder, text) in texts.items():
        with open(path, encoding="utf-8") as f:
            fell = together(text, f.read(), crates, folder)
        for n in fell:
            print(f"respell: look: {path}: {n} is two things now")


if __name__ == "__main__":
    main(sys.argv[1:])
