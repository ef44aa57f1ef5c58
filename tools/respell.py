#!/usr/bin/env python3
"""Brings the repository's own definitions and lemmas to one spelling: words in snake case, types in upper camel case.

usage: python3 tools/respell.py [--dry]      once, at the top of the repository, right after the kit's port.py

It renames in specs/, in proofs/ and in the ghost parts of src/. Names that Rattle makes (goals, and the steps that answers cite), names of
the library, functions of src/, strings and comments stay. In src/ an import's other name goes where the new name is free in that file.
It prints each pair of names that would fall together in a file, and writes nothing while there is one that RENAMED does not part.
"""

import os
import re
import sys

ROOT = os.getcwd()
WORD = re.compile(r"(?<![\w'·.-])()([A-Za-z_][\w']*(?:-[\w']+)*)(?![\w'])|(?<=[\w'})])(\.)([A-Za-z_][\w']*(?:-[\w']+)*)(?![\w'])")
DECLARED = re.compile(r"^\s*((?:(?:abbrev|unfoldable|pub|private|opaque|data|record)\s+)*)([A-Za-z_][\w']*(?:-[\w']+)*)(?=[ :])([^=\n]*)", re.M)
GENERATED_GOAL = re.compile(r"^\s*(?:abbrev )?(?:pub )?([\w'-]+) : goal\.", re.M)
GENERATED_USE = re.compile(r"^use [^\n]*\.(?:Goals|Given)\.\{([^}]*)\}", re.M)
OUTSIDE_USE = re.compile(r"^(?:ghost )?use (?:Rattle\.std|native|lib|denote|mathlib|Prim)\.[^\n]*\{([^}]*)\}", re.M)

# Names whose respelling another name of their file has already: a name of their own.
RENAMED = {"bit-xor": "bit_of_xor", "bit-and": "bit_of_and"}


def snake(name):
    if "-" in name:
        name = name.replace("-", "_")
    return re.sub(r"(?<=[a-z0-9])([A-Z])(?=[a-z])", lambda m: "_" + m.group(1).lower(), name) if name[0].islower() else name


def camel(name):
    return "".join(part[:1].upper() + part[1:] for part in name.split("-"))


def files(suffix):
    for folder, dirs, names in os.walk(os.path.join(ROOT, "crates")):
        dirs[:] = sorted(d for d in dirs if d not in ("out", "target", "data"))
        for n in sorted(names):
            if n.endswith(suffix):
                yield os.path.join(folder, n)


def parts(text, comment):
    """The text cut into code and what is left alone: comments and strings."""
    pattern = re.compile(comment + r"[^\n]*|\"(?:[^\"\\\n]|\\.)*\"")
    at = 0
    for m in pattern.finditer(text):
        yield True, text[at : m.start()]
        yield False, m.group(0)
        at = m.end()
    yield True, text[at:]


def code_of(text, comment):
    return "".join(t if code else " " for code, t in parts(text, comment))


def names_in(lists):
    return {w.strip() for l in lists for n in l.split(",") for w in n.split(" as ") if w.strip()}


def steps(text, source):
    """Turns the names that Rattle makes in a proof file: a name of the source keeps its spelling in them."""
    known = sorted({n for n in re.findall(r"(?<![\w'])[A-Za-z][A-Za-z0-9]*(?:_[A-Za-z0-9]+)+(?![\w'])", source)} | {"in_err", "in_ok", "from_residual", "overflow_add", "overflow_sub", "overflow_mul"}, key=len, reverse=True)

    def turn(m):
        name = m.group(0)
        for k in known:
            name = re.sub(r"(?<![A-Za-z0-9_])" + k.replace("_", "-") + r"(?![A-Za-z0-9_])", k, name)
        return name

    made = re.compile(r"(?:(?<=[\w'})]\.)|(?<=decreases-)|(?<=invariant-))[a-z][\w']*(?:-[\w']+)+(?![\w'])")
    declared = set(GENERATED_GOAL.findall(text)) | names_in(GENERATED_USE.findall(text))
    out = made.sub(turn, text)
    for d in sorted(declared, key=len, reverse=True):
        new = turn(re.match(r".*", d))
        if new != d:
            out = re.sub(r"(?<![\w'.-])" + re.escape(d) + r"(?![\w'-])", new, out)
    return out


def main():
    dry = "--dry" in sys.argv
    antt = {p: open(p, encoding="utf-8").read() for p in files(".antt")}
    rust = {p: open(p, encoding="utf-8").read() for p in files(".rt")}
    types, own = set(), set()
    for p, t in antt.items():
        code = code_of(t, r"--(?![\w])")
        goals = set(GENERATED_GOAL.findall(code))
        for m in DECLARED.finditer(code):
            words, name, rest = m.groups()
            if name in goals or ":" not in rest and "record" not in words and "data" not in words:
                continue
            own.add(name)
            if "record" in words or "data" in words or re.search(r":.*Type 0\s*$|:.*Type 0 where", rest):
                types.add(name)

    def new_name(name):
        if name in RENAMED:
            return RENAMED[name]
        if name in types and name[0].isupper():
            return camel(name)
        return snake(name)

    clashes = []
    written = {}
    renamed_all = {}
    for p, t in antt.items():
        code = code_of(t, r"--(?![\w])")
        left = set(GENERATED_GOAL.findall(code)) | names_in(GENERATED_USE.findall(code)) | names_in(OUTSIDE_USE.findall(code))
        seen = {}

        def turn(m, left=left, seen=seen):
            dot, name = (m.group(3) or "", m.group(2) or m.group(4))
            new = name
            if dot:
                before = m.string[max(0, m.start() - 60) : m.start()]
                chain = re.search(r"[\w'.-]*$", before).group(0)
                generated = re.match(r"(c|w|l|goal|given)(\.|$)", chain) is not None and name not in PROJECTIONS
                if name in own and not generated:
                    new = new_name(name)
            elif name not in left and ("-" in name or name in own):
                new = new_name(name)
            seen.setdefault(new, set()).add(name)
            if new != name:
                renamed_all.setdefault(name, set()).add(new)
            return dot + new

        out = "".join(WORD.sub(turn, s) if c else s for c, s in parts(t, r"--(?![\w])"))
        if os.path.basename(p) in ("Answers.antt", "Invariants.antt"):
            crate = os.path.relpath(p, ROOT).split(os.sep)[1]
            source = "\n".join(code_of(r, r"//") for q, r in rust.items() if os.path.relpath(q, ROOT).split(os.sep)[1] == crate)
            out = steps(out, source)
        for new, olds in seen.items():
            if len(olds) > 1:
                clashes.append((p, new, sorted(olds)))
        if out != t:
            written[p] = out

    for p, t in rust.items():
        code = code_of(t, r"//")
        uses = re.findall(r"^\s*ghost use (Rattle[^\n]*?);", code, re.M)
        outside = names_in(OUTSIDE_USE.findall(code))
        # imports, paths, and where a function is declared or called: a function may have a definition's name
        plain = re.sub(r"^\s*(?:ghost )?(?:pub )?(?:use|mod) [^\n]*\n", "", code, flags=re.M)
        plain = re.sub(r"\bfn \w+|\w+(?=\()|::\s*\w+|\w+(?=::)", " ", plain)
        turned = {}
        out = t
        for u in uses:
            if u.startswith("Rattle.std."):
                continue
            m = re.search(r"\{(.*)\}", u)
            if not m:
                continue
            items = []
            for item in [i.strip() for i in m.group(1).split(",")]:
                old, _, other = item.partition(" as ")
                new = new_name(old) if old in own or "-" in old else old
                here = other or old
                if old == new and not other:
                    items.append(item)
                    continue
                # the words of the file that are not this import
                taken = re.search(r"(?<![\w'.-])" + re.escape(new) + r"(?![\w'-])", plain) is not None and here != new
                if taken:
                    mine = new_name(here) if here != old else new
                    if mine == new or re.search(r"(?<![\w'.-])" + re.escape(mine) + r"(?![\w'-])", plain) and mine != here:
                        clashes.append((p, new, [item]))
                        mine = here
                    items.append(new + " as " + mine)
                    if mine != here:
                        turned[here] = mine
                else:
                    items.append(new)
                    if here != new:
                        turned[here] = new
            out = out.replace("{" + m.group(1) + "}", "{" + ", ".join(items) + "}")

        def turn(m, turned=turned):
            dot, name = (m.group(3) or "", m.group(2) or m.group(4))
            if not dot and name in turned:
                return turned[name]
            if "-" in name and name in own and not dot:
                return new_name(name)
            if dot and "-" in name and name in own:
                return dot + new_name(name)
            return dot + name

        lines = []
        for c, s in parts(out, r"//"):
            if not c:
                lines.append(s)
                continue
            pieces = re.split(r"(^\s*ghost use [^\n]*$)", s, flags=re.M)
            lines.append("".join(x if x.lstrip().startswith("ghost use") else WORD.sub(turn, x) for x in pieces))
        out = "".join(lines)
        if out != t:
            written[p] = out

    for p, new, olds in clashes:
        print(os.path.relpath(p, ROOT), new, olds)
    print(len(written), "files,", len(renamed_all), "names,", len(clashes), "fall together")
    if not dry:
        for p, t in written.items():
            open(p, "w", encoding="utf-8").write(t)
    return 0


# Steps of answers that are named after a function, and have a definition's name too.
PROJECTIONS = {"gate-byte", "letter-bits", "new-sign", "outcome-of"}

if __name__ == "__main__":
    raise SystemExit(main())
