#!/usr/bin/env python3
"""Turns the proofs of an older Rattle, one Proof.antt a function, into Invariants.antt and Answers.antt.

usage: python3 tools/answers.py NAMES CRATE..    at the top; NAMES is what `rt names NAMES` wrote

An answer that only says `search rules` is left out: the check finds it. What could not be turned is printed, with its file, and the
Proof.antt then stays. Cycles of calls and proofs that walk the code stay too.
"""
import json
import os
import re
import sys

WORD = r"[A-Za-z0-9_'\u2080-\u2089+\u0370-\u03ff-]+"


def fold(s):
    return s.replace("_", "-")


class Odd(Exception):
    pass


def declarations(text):
    """The top-level declarations: comment, name, type, the lines from the signature on."""
    uses, decls, lines, i = [], [], text.split("\n"), 0
    comment = []
    while i < len(lines):
        line = lines[i]
        if line.startswith("use "):
            uses.append(line)
        elif line.startswith("--"):
            comment.append(line)
        elif line.strip() and not line.startswith(" "):
            m = re.match(r"((?:(?:abbrev|pub|unfoldable|opaque)\s+)*)(\S+)\s*:\s*(.*)$", line)
            if not m:
                raise Odd(f"line {i + 1}: {line[:60]}")
            name, body, j = m.group(2), [], i + 1
            sig = [line]
            while j < len(lines) and lines[j].startswith(" ") and lines[j].strip():
                sig.append(lines[j])
                j += 1
            rest = []
            while j < len(lines) and (lines[j].startswith((name + " ", "unfolding ")) or lines[j] == name or lines[j].startswith(" ") or lines[j] == ")" or lines[j].startswith(")") or not lines[j].strip()):
                if not lines[j].strip():
                    # a blank line ends it, unless a clause of the same name follows
                    k = j
                    while k < len(lines) and not lines[k].strip():
                        k += 1
                    if not (k < len(lines) and lines[k].startswith(name + " ")):
                        break
                rest.append(lines[j])
                j += 1
            decls.append(dict(comment=comment, mods=m.group(1), name=name, sig=sig, rest=rest))
            comment = []
            i = j
            continue
        else:
            if not line.strip():
                if comment and not decls:
                    decls.append(dict(comment=comment, mods="", name="", sig=[], rest=[]))
                comment = comment if not comment or decls else []
        i += 1
    return uses, decls


class Function:
    def __init__(self, names):
        self.names = names
        self.places = [p[0] for p in names["places"]]
        self.by = {p[0]: k for k, p in enumerate(names["places"])}

    def chain(self, place):
        """The places from this one up to Start."""
        out = []
        while place is not None:
            out.append(place)
            place = self.names["places"][self.by[place]][1]
        return out

    def need(self, local, need):
        needs = self.names["needs"]
        base = re.sub(r"^(overflow|slice-bounds|element)-", "", fold(need))
        for key in (local, need, base, "slice-" + base if fold(need).startswith("element-") else base, "part-" + base):
            for k, (old, new) in enumerate(needs):
                if fold(old) == fold(key):
                    return k
        for k, (old, new) in enumerate(needs):
            if fold(new) == fold(need):
                return k
        settled = {fold(s) for s in self.names["settled"]}
        if fold(need) in settled or fold(local) in settled:
            return None
        raise Odd(f"no goal for {local} : {need}")

    def step(self, place, up, path):
        """The new words for a field: from `place`, after `up` times before."""
        chain = self.chain(place)
        field = path[0]
        if field in ("args", "requires", "ranges", "well_formed", "lifetimes"):
            return path
        keys = {fold(field), re.sub("-lem$", "", fold(field)), {"type-size": "size-of"}.get(fold(field), fold(field))}
        keys = {k.lower() for k in keys}
        named = lambda q: fold(self.names["places"][self.by[q]][2][0]).lower() in keys
        found = [q for q in chain if named(q)] or [q for q in self.places if named(q)]
        if not found:
            return self.changed(chain, path) or self.lost(place, path)
        q = found[0]
        entry = self.names["places"][self.by[q]]
        k = self.by[q]
        arm = self.names["arms"][k] if k < len(self.names["arms"]) else None
        rest = path[1:]
        if arm:
            best = None
            for new, old, words in arm[2]:
                if fold(old) == fold(field) and rest[: len(words)] == words and (best is None or len(words) > len(best[1])):
                    best = (new, words)
            if best:
                return [arm[0], best[0]] + rest[len(best[1]) :]
        new = entry[2][1]
        if rest and rest[0] == "new" and entry[3]:
            params = self.names["params"].get(entry[3], [])
            ones = 1
            while ones < len(rest) and rest[ones] == "1":
                ones += 1
            if ones < len(rest) and rest[ones] == "0" and ones - 1 < len(params):
                rest = ["new", params[ones - 1]] + rest[ones + 1 :]
        return [new] + rest

    def changed(self, chain, path):
        return None

    def lost(self, place, path):
        raise Odd(f"no step .{'.'.join(path)} above {place}")


def turn_body(fn, place, text, helpers, need, notes):
    """Paths of c, and of what a let names after a place, turned."""
    alias = {"c": place}
    out, at = [], 0
    # let x = c.before.before in : x is a place
    for m in re.finditer(r"let (" + WORD + r") =\s*(" + WORD + r")((?:\.before)*) in\b", text):
        if m.group(2) in alias:
            chain = fn.chain(alias[m.group(2)])
            alias[m.group(1)] = chain[min(m.group(3).count(".before"), len(chain) - 1)]
    text = re.sub(r"let (" + WORD + r") =\s*(" + WORD + r")((?:\.before)*) in\s*", lambda m: "" if m.group(2) in alias and m.group(1) in alias else m.group(0), text)
    pattern = re.compile(r"(?<![\w'.-])(" + "|".join(map(re.escape, alias)) + r")(?![\w'-])((?:\.before)*)((?:\.[A-Za-z0-9_-]+)*)")
    for m in pattern.finditer(text):
        out.append(text[at : m.start()])
        path = [w for w in m.group(3).split(".") if w]
        if not path:
            if m.group(1) == "c" and not m.group(2) and text[: m.start()].strip() == "":
                out.append(m.group(0))
            else:
                before = re.search(r"(" + WORD + r")\s*$", text[: m.start()])
                h = helpers.get(before.group(1)) if before else None
                if h and need:
                    out.append(f"(goal.at.{need} c).{h}")
                elif h:
                    out.append(f"c.HERE.{h}")
                    notes.append(f"helper {before.group(1)} within a helper")
                else:
                    notes.append(f"bare {m.group(0)} in {need}")
                    out.append(m.group(0))
        else:
            out.append("c." + ".".join(fn.step(alias[m.group(1)], m.group(2).count(".before"), path)))
        at = m.end()
    out.append(text[at:])
    return "".join(out)


def loops(fn, name):
    """The k-th loop for invariant-loopK."""
    k = re.search(r"loop(\d*)$", name).group(1)
    for n, (pair, vs) in enumerate(fn.names["loops"]):
        if pair[0] == "loop" + k:
            return pair[1], vs, fn.names["changed"][n]
    raise Odd(f"no loop for {name}")


def live(fn, d):
    """An invariant or a measure over l."""
    new, vs, changed = loops(fn, d["name"].split("-", 1)[1])
    body = "\n".join(d["rest"])
    unf = [l for l in d["rest"] if l.startswith("unfolding ")]
    text = "\n".join(l for l in d["rest"] if not l.startswith("unfolding "))
    m = re.match(re.escape(d["name"]) + r"((?:\s+\S+)*?)\s*=(.*)$", text, re.S)
    if not m:
        raise Odd(f"clauses of {d['name']}")
    params = m.group(1).split()
    targets = [("l.initial." if c else "l.") + v for v, c in zip(vs, changed)] + ["l." + v for v, c in zip(vs, changed) if c]
    if len(params) != len(targets):
        raise Odd(f"{d['name']} has {len(params)} parameters, the loop {len(targets)}: {vs} {changed}")
    to = dict(zip(params, targets))
    # neither the field's name in a record nor what a λ binds
    text = re.sub(r"(?<![\w'.-])(?<!λ )(" + "|".join(sorted(map(re.escape, params), key=len, reverse=True)) + r")(?![\w'\u2080-\u2089-])(?! = )", lambda m: to[m.group(1)] if m.group(1) != "_" else "_", m.group(2))
    kind = d["name"].split("-")[0]
    n = f"{kind}-{new}"
    return n, unf, f"{n} l ={text}"


def words_of(text):
    return set(re.findall(r"[^\s(){}\[\],;.:=|«»λ]+", text))


def split_uses(uses, text):
    have = words_of(text)
    out = []
    for u in uses:
        m = re.match(r"use (\S+)\.\{(.*)\}$", u)
        if not m:
            out.append(u)
            continue
        items = [i.strip() for i in m.group(2).split(",")]
        keep = []
        for i in items:
            shown = i.split(" as ")[-1].strip()
            parts = [p for p in shown.split("◌") if p]
            if shown in have or ("◌" in shown and all(p in have or p in text for p in parts)):
                keep.append(i)
        if keep:
            out.append(f"use {m.group(1)}.{{{', '.join(keep)}}}")
    return out


def turn(path, names, module, notes):
    text = open(path, encoding="utf-8").read()
    fn = Function(names)
    uses, decls = declarations(text)
    uses = [u for u in uses if not re.search(r"\.(Statement\.\{statement\}|Tie as tie|Lts as \w+)$", u) and ".Statement.{" not in u]
    fname = os.path.basename(os.path.dirname(path))
    invariants, answers, helpers, goals = [], [], {}, set()
    for d in decls:
        sig = " ".join(s.strip() for s in d["sig"])
        h = re.search(r"\(\w+ : tie\.(\S+?)(?: [^)]*)?\)", sig)
        if h and not re.search(r": tie\.Need-", sig):
            if h.group(1) not in fn.by:
                cand = [p for p in fn.by if fold(p) == fold(h.group(1))]
                if not cand:
                    raise Odd(f"no place {h.group(1)}")
                d["place"] = cand[0]
            else:
                d["place"] = h.group(1)
            helpers[d["name"]] = names["places_by_name"][fn.by[d["place"]]]
    for d in decls:
        sig = " ".join(s.strip() for s in d["sig"])
        if not d["name"]:
            answers.append("\n".join(d["comment"]))
            continue
        if re.search(r"statement M$", sig):
            continue
        if re.match(r"(invariant|decreases)-loop\d*$", d["name"]):
            n, unf, body = live(fn, d)
            invariants.append("\n".join(d["comment"] + [f"abbrev pub {n} : goal.{n}"] + unf + [body.rstrip()]))
            continue
        m = re.search(r": tie\.Need-(\S+)", sig)
        if m:
            try:
                k = fn.need(d["name"], m.group(1))
            except Odd:
                if not re.search(r"= search rules$", d["rest"][-1]) or len(d["rest"]) > 1:
                    raise
                k = None
            if k is None:
                continue
            new = names["needs"][k][1]
            place = names["asked_at"][k][0]
            unf = [l for l in d["rest"] if l.startswith("unfolding ")]
            body = "\n".join(l for l in d["rest"] if not l.startswith("unfolding "))
            b = re.match(re.escape(d["name"]) + r"((?:\s+[^\s=]+)*)\s*=(.*)$", body, re.S)
            if not b:
                raise Odd(f"clauses of {d['name']}")
            binders = [w for w in b.group(1).split() if w != "κs"]
            if binders != ["c"]:
                raise Odd(f"binders {binders} of {d['name']}")
            if b.group(2).strip() in ("search rules",) and not unf:
                continue
            t = turn_body(fn, place, b.group(2), helpers, new, notes)
            answers.append("\n".join(d["comment"] + [f"pub {new} : goal.{new}"] + unf + [f"{new} c ={t.rstrip()}"]))
            continue
        # a lemma of its own
        sigt = "\n".join(d["sig"])
        rest = "\n".join(d["rest"])
        if "place" in d:
            to = helpers[d["name"]]
            goals.add(to)
            sigt = re.sub(r"tie\.\S+?(?=[ )])( [^)]*?)?(?=\))", to, sigt, count=1)
            sigt = turn_body(fn, d["place"], sigt, helpers, None, notes) if "c." in sigt else sigt
            binder = re.search(r"\((\w+) : tie\.", sig).group(1)
            lhs = re.match(r"((?:unfolding [^\n]*\n)?" + re.escape(d["name"]) + r"[^=]*=)(.*)$", rest, re.S)
            body = lhs.group(2)
            if binder != "c":
                body = re.sub(r"(?<![\w'.-])" + binder + r"(?![\w'-])", "c", body)
                sigt = re.sub(r"(?<![\w'.-])" + binder + r"(?![\w'-])", "c", sigt)
            rest = re.sub(r"(?<![\w'.-])" + binder + r"(?![\w'-])", "c", lhs.group(1)) + turn_body(fn, d["place"], body, helpers, None, notes)
        answers.append("\n".join(d["comment"] + [sigt] + ([rest.rstrip()] if rest.strip() else [])))
    folder = os.path.dirname(path)
    head = f"use {module}.Given as goal\n"
    if invariants:
        body = "\n\n".join(invariants)
        u = split_uses(uses, body)
        open(os.path.join(folder, "Invariants.antt"), "w").write("\n".join(u + [head]) + "\n" + body + "\n")
    body = "\n\n".join(answers)
    if re.search(r"(?m)^pub ", body):
        u = split_uses(uses, body)
        u.append(f"use {module}.Goals as goal")
        if goals:
            u.append(f"use {module}.Goals.{{{', '.join(sorted(goals))}}}")
        open(os.path.join(folder, "Answers.antt"), "w").write("\n".join(u) + "\n\n" + body + "\n")
    elif body.strip():
        notes.append("only lemmas left")
    os.remove(path)
    try:
        os.rmdir(folder)
    except OSError:
        pass


def main(names_at, crates):
    done = odd = 0
    for c in crates:
        js = os.path.join(names_at, "crates", c, "names.json")
        if not os.path.isfile(js):
            print(f"{c}: no names")
            continue
        names = json.load(open(js))
        top = f"crates/{c}/proofs"
        for folder, dirs, fs in os.walk(top):
            dirs[:] = [d for d in dirs if d != "out"]
            if "Proof.antt" not in fs:
                continue
            inner = os.path.relpath(folder, top).replace("/", ".")
            key = f"Rattle-{c}-proofs.{inner}.Lts"
            path = os.path.join(folder, "Proof.antt")
            if key not in names:
                print(f"{path}: kept (no {key})")
                odd += 1
                continue
            notes = []
            try:
                turn(path, names[key], f"Rattle.{c}.proofs.{inner}", notes)
                done += 1
            except Odd as e:
                print(f"{path}: {e}")
                odd += 1
            for n in notes:
                print(f"{path}: look: {n}")
    print(f"{done} turned, {odd} kept")


if __name__ == "__main__":
    main(sys.argv[1], sys.argv[2:])
