#!/usr/bin/env python3
"""Brings the repository's own definitions and lemmas to snake case: camelCase and hyphenated names that specs/ and the lemma files of
proofs/ declare. What the toolchain makes or its library declares keeps its spelling, and so does all that src/ declares.

usage: tools/snake_names.py [--list]     at the top of the repository; --list prints the names and writes nothing
"""
import collections
import glob
import os
import re
import sys

TOKEN = re.compile(r"[^\s(){}\[\],;.\"`#]+")
DECLARED = re.compile(r"^\s*(?:(?:abbrev|unfoldable|pattern|pub|data|record|axiom)\s+)*(?P<name>[^\s(){}:;,.]+)\s+:(?:\s|$)")
GENERATED = re.compile(r"\.(Tie|Lts[\w-]*|Goals|Given|Reads|Kinds|Statement|TheVariants|TheConstants)$")
CAMEL = re.compile(r"^[a-z][a-z0-9']*(?:[A-Z][A-Za-z0-9']*)+$")
IMPORT = re.compile(r"(?:ghost )?use ([\w.+'-]+)\.\{([^}]*)\}|(?:ghost )?use ([\w.+'-]+) as (\S+)")


# snake names of lemmas, each beside a definition that gets the same name
LEMMAS = ["by_way", "held_all", "place_at", "at_high", "at_low"]
# names that fall together with the name of a crate or of a function's folder alone
PATHS = ["inverse-order", "spline-exact"]
# parameters of modules, whose declarations run over several lines
PARAMETERS = ["chosenBy", "saysClaim"]


def own(path):
    return re.match(r"Rattle\.(\w+)\.(specs|proofs)\.", path + ".") and os.path.isdir("crates/" + path.split(".")[1])


def snake(name):
    name = re.sub(r"(?<=[a-z0-9'])([A-Z])", lambda m: "_" + m.group(1).lower(), name) if CAMEL.match(name) else name
    return re.sub(r"(?<=[A-Za-z0-9'])-(?=[A-Za-z0-9])", "_", name)


def wanted(name):
    return CAMEL.match(name) or re.match(r"^[a-z][A-Za-z0-9']*(?:[-_][A-Za-z0-9']+)*$", name) and "-" in name


def files(kinds):
    return sorted(f for k in kinds for f in glob.glob(k, recursive=True) if "/out/" not in f)


def read(f):
    with open(f, encoding="utf-8") as it:
        return it.read()


def is_walk(f):
    return f.endswith("/Proof.antt")


def declared():
    names = collections.defaultdict(set)
    for f in files(["crates/*/specs/**/*.antt", "crates/*/proofs/**/*.antt"]):
        if is_walk(f):
            continue
        for line in read(f).split("\n"):
            m = DECLARED.match(line)
            if m and wanted(m["name"]):
                names[m["name"]].add(f)
            for n in re.findall(r"\blet ([a-z][\w'-]*) (?:=|:)", line) + re.findall(r"[({]([a-z][\w' -]*) :", line):
                for one in n.split():
                    if wanted(one):
                        names[one].add(f)
    return names


def fields():
    """Names that records of the repository give to their parts."""
    names = set()
    for f in files(["crates/*/specs/**/*.antt", "crates/*/proofs/**/*.antt"]):
        depth = None
        for line in read(f).split("\n"):
            at = len(line) - len(line.lstrip())
            if re.match(r"\s*(?:pub )?record .* where$", line):
                depth = at
            elif line.strip() and depth is not None and at <= depth:
                depth = None
            elif depth is not None and DECLARED.match(line) and wanted(DECLARED.match(line)["name"]):
                names.add(DECLARED.match(line)["name"])
    return names


def foreign(text):
    """Names that a file takes from elsewhere than the repository's own definitions and lemmas."""
    took = set()
    for m in IMPORT.finditer(text):
        if m.group(1) and (not own(m.group(1)) or GENERATED.search(m.group(1))):
            took |= {w.split(" as ")[0].strip() for w in m.group(2).split(",")}
    return took


def turned(text, table, parts, is_source):
    took = foreign(text)
    aliases = {m.group(4).rstrip(";") for m in IMPORT.finditer(text) if m.group(3) and own(m.group(3)) and not GENERATED.search(m.group(3))}

    def one(m):
        name = m.group()
        bare = name.rstrip(":")
        if bare not in table or bare in took or (is_source and not CAMEL.match(bare)):
            return name
        if m.start() and text[m.start() - 1] == ".":
            before = TOKEN.findall(text[max(0, m.start() - 80):m.start() - 1])
            whole = re.search(r"[\w.+'-]*$", text[:m.start()]).group()
            if bare not in parts and not (before and before[-1] in aliases) and not own(whole.rstrip(".")):
                return name
        return table[bare] + name[len(bare):]

    out, at = [], 0
    for s in re.finditer(r'b?"(?:[^"\\]|\\.)*"', text) if is_source else []:
        out += [turn_part(text, at, s.start(), one), s.group()]
        at = s.end()
    out.append(turn_part(text, at, len(text), one))
    return "".join(out)


def turn_part(text, start, end, one):
    out, at = [], start
    for m in TOKEN.finditer(text, start, end):
        out += [text[at:m.start()], one(m)]
        at = m.end()
    out.append(text[at:end])
    return "".join(out)


def main():
    names = declared()
    names.update({n: set() for n in PARAMETERS})
    table = {n: snake(n) for n in names if snake(n) != n}
    clash = collections.defaultdict(set)
    for n, s in table.items():
        clash[s].add(n)
    tokens = collections.defaultdict(set)
    all_antt = files(["crates/*/specs/**/*.antt", "crates/*/proofs/**/*.antt"])
    for f in all_antt:
        for t in set(TOKEN.findall(read(f))):
            tokens[t].add(f)
    bad = []
    for s, olds in sorted(clash.items()):
        used = set().union(*(tokens[o] for o in olds))
        if len(olds) > 1 or (tokens.get(s, set()) & used):
            bad.append((s, sorted(olds), sorted(tokens.get(s, set()) & used)[:3]))
    for s, olds, where in bad:
        print("together:", s, olds, where)
    print(len(table), "names,", len(bad), "fall together")
    if "--list" in sys.argv:
        print("\n".join(f"{a} {b}" for a, b in sorted(table.items())))
        return
    # a lemma that would have its definition's name ends in _lem
    for s, olds, where in bad:
        for o in olds:
            if "-" in o and (len(olds) > 1 or where and o not in PATHS):
                table[o] = s + "_lem"
    table.update({s: s + "_lem" for s in LEMMAS})
    parts = fields()
    print("parts of records:", " ".join(sorted(parts)))
    changed = 0
    for f in all_antt + files(["crates/*/src/**/*.rt", "crates/*/must-fail/*.edit"]):
        text = read(f)
        new = turned(text, table, parts, f.endswith(".rt") or f.endswith(".edit"))
        if new != text:
            changed += 1
            with open(f, "w", encoding="utf-8") as it:
                it.write(new)
    print(changed, "files changed")


if __name__ == "__main__":
    main()
