#!/usr/bin/env python3
"""Respells the repository's own definitions and lemmas as today's Rattle spells names: words in snake case, types in camel case.

usage: python3 tools/respell.py [--dry]     at the top of the repository, once, after the kit's port.py

Names come from specs/ and from the files of lemmas in proofs/. A camel hump becomes `_`. A dash stays where it joins names
of definitions alone, as in `length-list_of`; beside a plain word it becomes `_`, as in `count_same`. Names of Rust source, types,
strings and outputs stay. Where a lemma would take a definition's name it gets `_lem` behind it. In a Proof.antt only what it imports is
respelled: the other names there are the checker's. In documents and comments only what stands between backquotes is.
"""
import os
import re
import sys

SIG = re.compile(r"^(\s*)((?:(?:unfoldable|abbrev|pub|opaque)\s+)*)([^\s:(){}]+)\s*:\s")
HEAD = re.compile(r"^\s*(?:pub\s+|abbrev\s+|unfoldable\s+)*(?:record|data)\s+(\S+)")
TOKEN = re.compile(r"Rattle\.[\w.+-]*|[^\s(){}\[\],;.:=`\"|«»λ∀∃⌜⌝\\/+]+")
STD = "length take drop set get_or map replicate min max cond not append reverse sum bit_and bit_or bit_xor eqb ltb leb fst snd".split()

# What std has under the plain name: bit k of `bit_and ..` and so on.
TAKEN = {"bit-and": "bit-bit_and", "bit-or": "bit-bit_or", "bit-xor": "bit-bit_xor"}


def files(endings, top="crates"):
    for folder, dirs, names in os.walk(top):
        dirs[:] = sorted(d for d in dirs if d not in ("out", "target", ".git"))
        for name in sorted(names):
            if name.endswith(endings):
                yield os.path.join(folder, name)


def snake(part):
    return re.sub(r"(?<=[a-z0-9'])([A-Z])", lambda m: "_" + m.group(1).lower(), part)


def declared():
    """The names declared, and those among them that are definitions."""
    found, defined = set(), set()
    for path in files(".antt"):
        if path.endswith("/Proof.antt"):
            continue
        law = "/proofs/" in path
        for line in open(path, encoding="utf-8"):
            head = HEAD.match(line)
            if head:
                defined.add(head.group(1))
            sig = SIG.match(line)
            if sig:
                found.add(sig.group(3))
                if (not law and not sig.group(1)) or "unfoldable" in sig.group(2) or "abbrev" in sig.group(2):
                    defined.add(sig.group(3))
    return found, defined


def table():
    found, defined = declared()
    words = {snake(n) for n in defined if "-" not in n and len(n) > 2} | set(STD)
    plain = {}
    for name in found:
        if re.match(r"[a-z]", name) and (re.search(r"[a-z0-9'][A-Z]", name) or "-" in name):
            parts = [snake(p) for p in name.split("-")]
            plain[name] = TAKEN.get(name) or ("-" if all(p in words for p in parts) else "_").join(parts)
    groups = {}
    for name in found:
        groups.setdefault(plain.get(name, name), []).append(name)
    new = {}
    for now, olds in groups.items():
        keeps = sorted(olds, key=lambda o: (o not in defined, o != now, o))
        for n, old in enumerate(keeps):
            to = now + "_lem" * n
            if to in groups and n:
                raise SystemExit(f"falls together: {olds} as {to}")
            if to != old:
                new[old] = to
        if len(olds) > 1:
            print("fell together:", [(o, new.get(o, o), "definition" if o in defined else "lemma") for o in keeps])
    return new, found


def respell(text, new):
    return TOKEN.sub(lambda m: new.get(m.group(0), m.group(0)), text)


def quoted(text, new):
    return re.sub(r"`[^`\n]*`", lambda m: respell(m.group(0), new), text)


def in_code(text, new, comment):
    """Code respelled, comments only between backquotes."""
    lines = []
    for line in text.split("\n"):
        at = line.find(comment)
        if at >= 0 and (at == 0 or line[at - 1] in " \t(" or comment == "//"):
            lines.append(respell(line[:at], new) + quoted(line[at:], new))
        else:
            lines.append(respell(line, new))
    return "\n".join(lines)


def clauses(text, new):
    """The contracts of a .rt file: `ghost use` lines and the braces behind requires and ensures."""
    out, at = [], 0
    for m in re.finditer(r"(?m)^ghost use [^;]*;|\b(?:requires|ensures)\b[^{\n]*\{|//[^\n]*", text):
        if m.start() < at:
            continue
        out.append(text[at : m.start()])
        end = m.end()
        if m.group(0).startswith("//"):
            out.append(quoted(m.group(0), new))
        elif m.group(0).startswith("ghost"):
            out.append(respell(m.group(0), new))
        else:
            depth = 1
            while depth:
                depth += {"{": 1, "}": -1}.get(text[end], 0)
                end += 1
            out.append(m.group(0) + respell(text[m.end() : end], new))
        at = end
    out.append(text[at:])
    return "".join(out)


def imported(text):
    names = set()
    for m in re.finditer(r"(?m)^use [^\n{]*\{([^}]*)\}", text):
        names |= {w.split(" as ")[-1].strip() for w in m.group(1).split(",")}
        names |= {w.split(" as ")[0].strip() for w in m.group(1).split(",")}
    return names


def foreign(text, crates):
    """The names that a file imports from libraries of the kit: they keep their spelling, in that file."""
    names = set()
    for m in re.finditer(r"(?m)^\s*(?:ghost )?use ([^\s{]*)\.\{([^}]*)\}", text):
        parts = m.group(1).split(".")
        if not (parts[0] == "Rattle" and len(parts) > 1 and parts[1] in crates):
            names |= {w.strip() for part in m.group(2).split(",") for w in part.split(" as ")}
    return names


def main(dry):
    table_of_all, found = table()
    new = table_of_all
    crates = set(os.listdir("crates"))
    if dry:
        for old, now in sorted(new.items()):
            print(old, now)
        return
    for path in files((".antt", ".rt", ".edit")):
        text = open(path, encoding="utf-8").read()
        kept = foreign(text, crates)
        new = {o: n for o, n in table_of_all.items() if o not in kept}
        if path.endswith(".rt"):
            now = clauses(text, new)
        elif path.endswith(".edit"):
            spec = re.search(r"(?m)^file: (specs|proofs)/", text)
            now = respell(text, new) if spec else clauses(text, new)
        elif path.endswith("/Proof.antt"):
            mine = {o: n for o, n in new.items() if o in imported(text)}
            fields = re.compile(r"(?<![.\w'-])")
            now = "".join(
                TOKEN.sub(lambda m: mine.get(m.group(0), m.group(0)) if (m.start() == 0 or part[m.start() - 1] != ".") else m.group(0), part)
                for part in [text]
            )
        else:
            now = in_code(text, new, "--")
        if now != text:
            open(path, "w", encoding="utf-8").write(now)
    new = table_of_all
    for top in ("docs", "README.md", "crates.txt", "cases/README.md"):
        for path in files(".md", top) if os.path.isdir(top) else [top]:
            if os.path.isfile(path) and "landings" not in path:
                text = open(path, encoding="utf-8").read()
                now = quoted(text, new)
                if now != text:
                    open(path, "w", encoding="utf-8").write(now)


if __name__ == "__main__":
    main("--dry" in sys.argv)
