#!/usr/bin/env python3
"""Lists the places of one point of docs/DESIGN-PASS.md in crates/*/src, a line each, and how many there are.

    tools/places.py POINT [COMMIT]      POINT is 1 to 8; without COMMIT the files as they stand
"""
import collections
import re
import subprocess
import sys

INTEGER = r"u8|u16|u32|u64|usize"


def show(commit, path):
    if commit:
        return subprocess.run(["git", "show", f"{commit}:{path}"], capture_output=True, text=True, check=True).stdout
    return open(path, encoding="utf-8").read()


def paths(commit, pattern):
    args = ["git", "ls-tree", "-r", "--name-only", commit, "crates"] if commit else ["git", "ls-files", "-co", "--exclude-standard", "crates"]
    names = subprocess.run(args, capture_output=True, text=True, check=True).stdout.split()
    return sorted(p for p in names if re.search(pattern, p))


class Function:
    def __init__(self, path, line, name, params, head, body):
        self.path, self.line, self.name, self.params, self.head, self.body = path, line, name, params, head, body

    def __str__(self):
        return f"{self.path}:{self.line}: {self.name}"


def code(text):
    """Without comments; lines keep their numbers."""
    return re.sub(r"//[^\n]*", "", text)


def functions(path, text):
    """Every function: its parameters, its clauses, its body."""
    found = []
    for m in re.finditer(r"\bfn (\w+)(<[^{}]*?>)?\(", text):
        depth, i = 1, m.end()
        while depth:
            depth += {"(": 1, ")": -1}.get(text[i], 0)
            i += 1
        params = text[m.end():i - 1]
        j = i
        while True:  # clauses stand in braces too: the body is the first brace that begins a line or follows the result's type
            k = text.index("{", j)
            before = text[i:k].rstrip()
            word = re.search(r"(requires|ensures)(\s+\w+)?\s*$", before)
            depth, e = 1, k + 1
            while depth:
                depth += {"{": 1, "}": -1}.get(text[e], 0)
                e += 1
            if not word:
                break
            j = e
        found.append(Function(path, text.count("\n", 0, m.start()) + 1, m.group(1), params, text[i:k], text[k:e]))
    return found


def all_functions(commit):
    return [f for p in paths(commit, r"/src/.*\.rt$") for f in functions(p, code(show(commit, p)))]


def lines_like(commit, pattern, where=r"/src/.*\.rt$"):
    for p in paths(commit, where):
        for n, line in enumerate(code(show(commit, p)).split("\n"), 1):
            if re.search(pattern, line):
                yield f"{p}:{n}: {line.strip()}"


def point_1(commit):
    """Enums with a variant that carries a value or is nothing; a flag beside the value that it speaks of; numbers for kinds: three constants or more
    that count on in one file, and a match whose arms are numbers."""
    for p in paths(commit, r"/src/.*\.rt$"):
        text = code(show(commit, p))
        for m in re.finditer(r"\benum (\w+)(?:<[^>]*>)? \{(.*?)\n\}", text, re.S):
            if re.search(r"\w\(|\w \{|\bNothing\b|\bNone\b", m.group(2)):
                yield f"{p}:{text.count(chr(10), 0, m.start()) + 1}: enum {m.group(1)}"
        for m in re.finditer(r"\bstruct (\w+)(?:<[^>]*>)? \{(.*?)\n\}", text, re.S):
            flags = re.findall(r"\b(taken|jumps|doubling|found|done|good|fits|goes_on|more|same|carry|holds): bool", m.group(2))
            if flags:
                yield f"{p}:{text.count(chr(10), 0, m.start()) + 1}: struct {m.group(1)}: {', '.join(flags)}"
        consts = re.findall(rf"\bconst (\w+): (?:{INTEGER}) = (\d+);", text)
        numbers = [int(n) for _, n in consts]
        runs = [n for n in numbers if n + 1 in numbers or n - 1 in numbers or n * 2 in numbers]
        if len(runs) >= 3:
            yield f"{p}: {len(runs)} constants that count on"
        for f in functions(p, text):
            if len(re.findall(r"\n\s+(?:0x[0-9a-f]+|\d+)(?: \| (?:0x[0-9a-f]+|\d+))* => ", f.body)) >= 2:
                yield f"{f}: arms are numbers"


def plain_of(f):
    """The function with its own names, its numbers and its integer types made alike."""
    t = re.sub(r"\s+", " ", f.params + f.body)
    own = re.findall(r"\b(\w+): ", f.params) + re.findall(r"\blet (?:mut )?(\w+)", f.body)
    for k, name in enumerate(dict.fromkeys(own)):
        t = re.sub(rf"(?<!\.)\b{name}\b(?!\()", f"_{k}_", t)
    t = re.sub(rf"\b({INTEGER})\b", "T", t)
    t = re.sub(r"\b(\w*?[a-z])(?:8|32)\b", r"\1", t)
    return re.sub(r"\b(?:0x[0-9a-f_]+|\d[\d_]*)\b", "N", t)


def point_2(commit):
    """Functions that are the same once numbers and integer types are alike, or whose names differ in their width alone."""
    alike = collections.defaultdict(list)
    for f in all_functions(commit):
        if len(f.body) > 20:
            alike[plain_of(f)].append(f)
    seen = set()
    for group in alike.values():
        if len(group) > 1:
            for f in group:
                seen.add(str(f))
                yield f"{f} (alike {len(group)})"
    widths = collections.defaultdict(list)
    for f in all_functions(commit):
        widths[f.path, re.sub(r"(8|32)$", "", f.name)].append(f)
    for group in widths.values():
        if len(group) > 1 and any(f.name.endswith(("8", "32")) for f in group):
            for f in group:
                if str(f) not in seen:
                    yield f"{f} (by width)"


def point_3(commit):
    """Loops that are no `for`."""
    yield from lines_like(commit, r"\bwhile\b|\bloop \{")


def point_4(commit):
    """Functions that compare, copy, convert or print by hand, by their names and results; and printing of one piece at a time."""
    for f in all_functions(commit):
        if re.match(r"(same\w*|is_same\w*|unchanged|is_done|is_wrong|apart|wide|widened|hex|digits?|decimal|column|numbered|number|value_or|weighed|plus)$", f.name):
            yield str(f)
    for p in paths(commit, r"/src/.*\.rt$"):
        n = len(re.findall(r"\b(?:say|label|text)\(\s*(?:out|err),\s*b\"", code(show(commit, p))))
        if n:
            yield f"{p}: {n} pieces of text written one at a time"


def facts(head):
    """The facts of the requires clauses, parted at their outermost products."""
    for m in re.finditer(r"requires(?:\s+\w+)?\s*\{(.*?)\}\s*(?=\n|$)", head, re.S):
        for fact in re.split(r"×", m.group(1)):
            yield re.sub(r"\s+", " ", fact).strip(" ()")


def point_5(commit):
    """A fact that three functions or more require; and functions of seven parameters or more."""
    who = collections.defaultdict(list)
    all_of = all_functions(commit)
    for f in all_of:
        for fact in set(facts(f.head)):
            who[re.sub(r"\.(old|now)\b", "", fact)].append(f)
    for fact, fs in sorted(who.items(), key=lambda item: -len(item[1])):
        if len(fs) >= 3:
            yield f"{len(fs)} functions require {fact}"
    for f in all_of:
        n = len(re.findall(r"\b\w+: ", f.params))
        if n >= 7:
            yield f"{f}: {n} parameters"


def point_6(commit):
    """A buffer with a length beside it, arrays that belong together, a list searched by hand: what is asked one name after another."""
    for f in all_functions(commit):
        if re.search(r"\[(?:u8|u32|u64)(?:; \w+)?\]", f.params) and re.search(r"\b(n|size|upto): (?:usize|u32)", f.params) \
                and re.search(r"\.\.(n|size)\b|\b(n|size) <= \w+\.len\(\)|len\(\) < (n|size)\b|< (n|size) \{", f.body):
            yield f"{f}: a buffer and a length"
        elif re.search(r"\b(slots|seen): &", f.params):
            yield f"{f}: arrays that belong together"
        elif len(re.findall(r"\bis\(\w+, \w+, b\"", f.body)) >= 3 or len(re.findall(r"=> say\(\w+, b\"", f.body)) >= 8:
            yield f"{f}: a list by hand"
    for p in paths(commit, r"/src/.*\.rt$"):
        text = code(show(commit, p))
        for m in re.finditer(r"\bstruct (\w+)(?:<[^>]*>)? \{(.*?)\n\}", text, re.S):
            if re.search(r"\bn: usize", m.group(2)) or re.search(r"\bn: \[u32", m.group(2)) or re.search(r"\bslots: \[u32", m.group(2)):
                yield f"{p}: struct {m.group(1)}: a length or a row's numbers beside"


def point_7(commit):
    """A parameter that picks what is done."""
    for f in all_functions(commit):
        m = re.search(r"\b(plain|bill|directed|keep|hex|over|call|says|asked): (bool|u32)", f.params)
        if m:
            yield f"{f}: {m.group(0)}"


def point_8(commit):
    """Lines of proofs, by crate."""
    lines = collections.Counter()
    for p in paths(commit, r"/proofs/.*\.antt$"):
        lines[p.split("/")[1]] += show(commit, p).count("\n")
    for crate, n in sorted(lines.items()):
        yield f"{crate}: {n} lines"
    yield f"all: {sum(lines.values())} lines"


def main():
    point, commit = sys.argv[1], (sys.argv[2] if len(sys.argv) > 2 else None)
    found = list(globals()[f"point_{point}"](commit))
    for place in found:
        print(place)
    print(f"point {point}: {len(found)}")


main()
