#!/usr/bin/env python3
"""Spells the repository's own definitions and lemmas in snake case: words joined by dashes or humps get underscores.

usage: python3 tools/snake_names.py [--say]     at the top of the repository, once

A name is taken where specs/ or proofs/ of a crate declare it (`name : type`), begins with a small letter and has a dash or a hump. It is then
respelled wherever it stands as a whole word in .antt files, in the clauses and `ghost` lines of .rt files and in must-fail edits.
Types, modules and constructors keep their capitals. A label that Rattle makes keeps its dashes: what stands behind `tie.` or `goal.`, or in a path
that begins at `c.` or `l.`, unless it is a field of a record that the repository declares. Names that would fall together are listed with --say.
"""
import os
import re
import sys

WORD = r"[A-Za-z_][\w'₀-₉′-]*"
DECLARED = re.compile(r"^ *(?:(?:pub|abbrev|unfoldable|opaque|infixl|infixr) +)*([a-z][\w'₀-₉′-]*)(?: \{[^{}\n]*\})* :(?= |$)")
CLAUSE = re.compile(r"^\s*(ghost |requires|ensures)")


def snake(name):
    words = re.sub(r"(?<=[a-z0-9])[A-Z]", lambda m: "_" + m[0].lower(), name)
    return words.replace("-", "_")


def files(ending):
    for top, _, names in sorted(os.walk("crates")):
        if "out" in top.split(os.sep):
            continue
        for n in sorted(names):
            if n.endswith(ending):
                yield os.path.join(top, n)


def read(path):
    with open(path, encoding="utf-8") as f:
        return f.read()


def is_proof(path):
    return path.endswith("/Proof.antt")


def declared():
    found = {}
    for path in files(".antt"):
        text = read(path)
        ghosts = set()
        for line in text.split("\n"):
            m = DECLARED.match(line)
            if not m:
                continue
            name = m[1]
            # a proof's answer to a goal has the goal's name, and the proof itself the function's
            if is_proof(path) and (": tie." in line or re.search(r"→ statement M$|: statement", line)):
                continue
            if name != snake(name):
                found.setdefault(name, set()).add(path)
    return found


def library():
    """Names that some file imports from a library."""
    crates = set(os.listdir("crates"))
    taken = {}
    for path in list(files(".antt")) + list(files(".rt")):
        for m in re.finditer(r"\buse ([\w.·]+)\.\{([^}]*)\}", read(path)):
            parts = m[1].split(".")
            if parts[0] == "Rattle" and len(parts) > 1 and parts[1] in crates:
                continue
            for n in m[2].split(","):
                taken.setdefault(n.split(" as ")[0].strip(), set()).add(path)
    return taken


def respell_line(line, names, access):
    def one(m):
        w = m[0]
        if w not in names or (w == "put_byte" and not access):
            return w
        before = line[: m.start()]
        # a label of Rattle's: behind tie. and goal., or a step in a path from c or l
        if re.search(r"\b(?:tie|goal)\.(?:Need-)?$", before):
            return w
        path = re.search(r"(?<![\w'-])([cl])((?:\.[\w'-]+)*)\.$", before)
        if path and not re.search(r"\.(?:ensures|requires|result|args|new|now|invariant|of)\b", path[2]):
            return w
        return names[w]

    return re.sub(rf"(?<![\w'-]){WORD}", one, line)


def main():
    say = "--say" in sys.argv
    found, lib = declared(), library()
    names = {n: snake(n) for n in found if n not in lib}
    for n in sorted(set(found) & set(lib)):
        print(f"left: {n} is a library's too: {sorted(found[n])[:3]}")
    # where a lemma and a definition fall together, the lemma is told apart
    by_new = {}
    for n, s in names.items():
        by_new.setdefault(s, set()).add(n)
    for s, olds in by_new.items():
        if len(olds) > 1:
            for n in olds:
                if "-" in n:
                    names[n] = s + "_lem"
    # port.py has spelled this lemma so; the definition `putByte` comes to the name
    names["put_byte"] = "put_byte_lem"
    by_new = {}
    for n, s in names.items():
        by_new.setdefault(s, set()).add(n)
    for s, olds in sorted(by_new.items()):
        if len(olds) > 1:
            print(f"look: {sorted(olds)} fall together in {s}: {[sorted(found[o])[:2] for o in sorted(olds)]}")
    stood = {}
    for path in list(files(".antt")) + list(files(".rt")):
        text = read(path)
        words = set(re.findall(rf"(?<![\w'-]){WORD}", text))
        for s, olds in by_new.items():
            if s in words:
                cited = [o for o in olds if o in words]
                stood.setdefault(s, []).append((path, cited))
    for s, places in sorted(stood.items()):
        for path, cited in places:
            if cited:
                print(f"look: {s} stands beside {cited} in {path}")
    for s in sorted(set(by_new) & set(lib)):
        print(f"look: {s} is a library's too: {sorted(by_new[s])} {sorted(found[sorted(by_new[s])[0]])[:2]} {sorted(lib[s])[:2]}")
    if say:
        print(len(names), "names")
        return
    changed = 0
    for path in list(files(".antt")) + list(files(".rt")) + list(files(".edit")):
        text = read(path)
        rt = path.endswith(".rt")
        out = []
        inside = False
        for line in text.split("\n"):
            if rt:
                # clauses run until the brace that opens the body
                if CLAUSE.match(line):
                    inside = True
                elif re.match(r"^\s*\{\s*$", line) or re.match(r"^\s*(pub )?(extern \"C\" )?fn ", line):
                    inside = False
                out.append(respell_line(line, names, False) if inside else line)
                if re.match(r"^\s*ghost use .*;\s*$", line):
                    inside = False
            else:
                out.append(respell_line(line, names, path.startswith("crates/access/proofs/")))
        new = "\n".join(out)
        if new != text:
            changed += 1
            with open(path, "w", encoding="utf-8") as f:
                f.write(new)
    print(len(names), "names,", changed, "files")


main()
