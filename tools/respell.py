#!/usr/bin/env python3
"""Brings the repository's own names in specs/ and proofs/ to Rattle's spelling: definitions, lemmas, fields and constructors in snake case.

usage: python3 tools/respell.py [--list]     at the top of the repository, once, right after port.py

A camel-case name becomes snake case (`soundOf`, `sound_of`). A dash stays only between two names, as in `among-has` (`among` and `has`), and is `_`
elsewhere (`keys-in`, `keys_in`). A lemma that would then have the name of something else gets `_lem`. Names of src/, strings, module paths
and facts in upper camel case stay. The repository's own choice of two values, `if .. then .. else ..`, becomes `when .. then .. else ..`, since
`rt ci` keeps the other name for the library's. --list prints the table of names and writes nothing.
"""
import collections
import glob
import os
import re
import sys

NAME = r"[^\s(){}.;,@\"«»\[\]\\:]+"
DECLARED = re.compile(r"^(\s*)((?:(?:pub|abbrev|unfoldable)\s+)*)(" + NAME + r")((?:\s+" + NAME + r")*)\s*:(?!=)\s*(.*)$")
RULESET = re.compile(r"^(?:pub )?ruleset (" + NAME + r") =")
RECORD = re.compile(r"^(?:pub )?record (" + NAME + ")")
DATA = re.compile(r"^(?:pub )?data (?:pub )?(" + NAME + ")")
CAMEL = re.compile(r"^[a-z][a-z0-9]*[A-Z]")
# what Rattle makes, which is spelled as it makes it
MADE = re.compile(r"^(Need|decreases|invariant|returns)(-|$)")
# the library's names that a lemma of ours is named after
OTHERS = "if true false zero suc eqb ltb leb set take drop append length reverse map replicate refl not among and or has every".split()


def texts():
    return sorted(p for kind in ("specs", "proofs") for p in glob.glob(f"crates/*/{kind}/**/*.antt", recursive=True))


def read(path):
    with open(path, encoding="utf-8") as f:
        return f.read()


def snake(name):
    it = re.sub(r"([a-z0-9])([A-Z])", r"\1_\2", name)
    return re.sub(r"([A-Z])([A-Z])", r"\1_\2", it).lower()


def declared():
    """Each own name with where it is declared: 'top', 'local', 'field', 'constructor'."""
    found = collections.defaultdict(set)
    for path in texts():
        inside = None
        for line in read(path).split("\n"):
            if re.match(r"\s*--", line) or line.startswith("use "):
                continue
            if line and not line.startswith(" "):
                inside = "field" if RECORD.match(line) else "constructor" if DATA.match(line) else None
            ruled = RULESET.match(line)
            if ruled:
                found[ruled[1]].add("top")
            it = DECLARED.match(line)
            if not it or it[5].startswith("tie.") or RECORD.match(line) or DATA.match(line):
                continue
            kind = "top" if not it[1] else inside or "local"
            for name in [it[3]] + (it[4].split() if kind in ("field", "constructor") else []):
                found[name].add(kind)
    return found


def renamed(found):
    """The table of names, and of names that would fall together the lemmas that step aside."""
    own = {snake(n) if CAMEL.match(n) else n for n in found if "-" not in n}
    camel = {n: snake(n) for n in found if CAMEL.match(n) and "-" not in n}
    dashed = {}
    for name in (n for n in found if "-" in n and n != "--" and "◌" not in n and not n[0].isupper() and not MADE.match(n)):
        parts = [snake(p) for p in name.split("-")]
        joint = "-" if parts[-1] != "spec" and all(p in own or p in OTHERS for p in parts) else "_"
        dashed[name] = joint.join(parts)
    taken = set(camel.values()) | {n for n in found if "_" in n and n in dashed.values()}
    table = {old: new + "_lem" if new in taken else new for old, new in dashed.items() if new != old}
    table.update((n, n + "_lem") for n in found if n in camel.values() and "_" in n)
    table.update(camel)
    news = list(table.values()) + [n for n in found if n not in table]
    twice = [n for n, k in collections.Counter(news).items() if k > 1]
    return table, twice


def turned_code(code, table, fields, modules):
    def new(it):
        before = code[: it.start()]
        of_module = any(before.endswith(m + ".") for m in modules)
        return table.get(it[0], it[0]) if not before.endswith(".") or of_module or it[0] in fields else it[0]

    return re.sub(NAME, new, code)


def chosen(code, is_clause=False):
    """The repository's own choice under its name of today, in antt or in a clause of a .rt file."""
    code = code.replace("if◌then◌else◌", "when◌then◌else◌")
    code = re.sub(r"(?<![^\s(){}.,])if-(true|false)(?![\w'-])", r"when-\1", code)
    if is_clause and not re.match(r"\s*(ensures|requires)\b", code):
        return code
    return re.sub(r"(?<![\w'◌.-])if(?=\s)", "when", code)


def turned_comment(text, table):
    text = re.sub(r"`[^`]*`", lambda quoted: re.sub(NAME.replace(r"\\:", r"\\:`"), lambda it: table.get(it[0], it[0]), quoted[0]), text)
    return re.sub(r"(?<![\w'-])[a-z][a-z0-9]*[A-Z]\w*'?", lambda it: table.get(it[0], it[0]), text)


def turned(path, table, fields):
    lines = []
    text = read(path)
    modules = set(re.findall(r"(?m)^use \S+ as (\w+)$", text)) - {"tie"}
    for line in text.split("\n"):
        if path.endswith(".rt"):
            camel = {old: new for old, new in table.items() if CAMEL.match(old)}
            line = re.sub(r"(?<![\w'-])[a-z][a-z0-9]*[A-Z]\w*'?", lambda it: camel.get(it[0], it[0]), line)
            lines.append(chosen(line, is_clause=True))
            continue
        cut = re.search(r"(^|\s)--(\s|$)", line)
        at = cut.start() if cut else len(line)
        lines.append(chosen(turned_code(line[:at], table, fields, modules)) + turned_comment(line[at:], table))
    return "\n".join(lines)


def main():
    found = declared()
    table, twice = renamed(found)
    if "--list" in sys.argv:
        for old, new in sorted(table.items()):
            print(old, "->", new, ",".join(sorted(found[old])))
        for new in sorted(twice):
            print("TOGETHER", new, [o for o in table if table[o] == new])
        return
    if twice:
        sys.exit("names fall together: " + " ".join(sorted(twice)))
    fields = {n for n, kinds in found.items() if "field" in kinds}
    for path in texts() + sorted(glob.glob("crates/*/src/**/*.rt", recursive=True)):
        old, new = read(path), turned(path, table, fields)
        if new != old:
            with open(path, "w", encoding="utf-8") as f:
                f.write(new)
    print(f"{len(table)} names")


main()
