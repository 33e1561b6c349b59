#!/usr/bin/env python3
"""Brings the repository's own definitions and lemmas to Rattle's spelling: words in snake case, and a dash only between two names.

usage: tools/respell.py            rewrites crates/ in place, and writes tools/respelled.tsv
       tools/respell.py --print    prints the table and changes nothing

Only names that specs/ and the files right in proofs/ define are renamed, wherever they stand in .rt and .antt files. Run once, after port.py (whose own renamings of names of this repository are in tools/respelled_by_port.tsv).
"""
import glob
import os
import re
import sys

TOP = os.path.dirname(os.path.dirname(os.path.realpath(__file__)))
# a word of antt: no blank, bracket, separator or dot
WORD = re.compile(r"[^\s(){}\[\],;.:«»\"`|λ]+")
HEAD = re.compile(r"\s*((?:pub |abbrev |unfoldable |record |data )*)([^\s:(){}=,;.]+(?: [^\s:(){}=,;.]+)*)\s+(?=[:({])")
LIBRARY = "length get_or take drop set replicate append sum map not min max le lt".split()


def files(pattern):
    return sorted(glob.glob(os.path.join(TOP, "crates", "*", *pattern.split("/"))))


def snake(part):
    if part == "getD":
        return "get_or"
    if not part or part[0].isupper() or not part[0].isascii():
        return part
    return re.sub(r"(?<=[a-z0-9])([A-Z])", lambda m: "_" + m.group(1), part).lower() if re.search(r"[a-z0-9][A-Z]", part) else part


def defined():
    """name -> what defines it: 'field', 'word' (a definition) or 'lemma'; with the modules that do."""
    found = {}
    for path in files("specs/*.antt") + files("proofs/*.antt"):
        in_record = None
        for line in open(path, encoding="utf-8"):
            if line.strip().startswith(("--", "use ", "let ", "open ", "mod ", "pub mod", "module ")) or not line.strip():
                continue
            indent = len(line) - len(line.lstrip())
            if in_record is not None and indent <= in_record:
                in_record = None
            m = HEAD.match(line)
            if not m:
                continue
            marks, names = m.group(1), m.group(2)
            if in_record is None and re.search(r"[=∙→λ]", names):
                continue
            kind = "field" if in_record is not None else "word" if re.search(r"abbrev|unfoldable|record|data", marks) else "lemma"
            for n in names.split():
                found.setdefault(n, {}).setdefault(kind, set()).add(path)
            if "record " in marks:
                in_record = indent
    return found


def of_the_library():
    """The names that the repository's files take from anywhere but its own crates."""
    names = set()
    crates = set(os.listdir(os.path.join(TOP, "crates")))
    for path in files("specs/*.antt") + files("proofs/*.antt") + files("proofs/*/*.antt") + files("src/*.rt"):
        for module, items in re.findall(r"(?m)^(?:ghost )?use ([^\s{]+)\.\{([^}]*)\}", open(path, encoding="utf-8").read()):
            parts = module.split(".")
            if not (parts[0] == "Rattle" and len(parts) > 1 and parts[1] in crates):
                names |= {i.split(" as ")[0].strip() for i in items.split(",")}
    return names


def table(found, library):
    uses, everywhere = {}, set()
    for path in files("specs/*.antt") + files("proofs/*.antt") + files("proofs/*/*.antt") + files("src/*.rt"):
        everywhere.add(path)
        for w in set(WORD.findall(open(path, encoding="utf-8").read())):
            uses.setdefault(w, set()).add(path)
    words = {"-".join(map(snake, n.split("-"))) for n, k in found.items() if "word" in k} | set(LIBRARY)
    new = {}
    for n, kinds in found.items():
        parts = [snake(p) for p in n.split("-")]
        if n in library or n.startswith("-") or n.endswith("-") or "" in parts:
            continue
        joined = parts[0]
        for left, right in zip(parts, parts[1:]):
            both = left in words and right in words and "field" not in kinds
            joined += ("-" if both else "_") + right
        if joined != n:
            new[n] = joined
    # names that would fall together in a file keep apart by an ending
    taken = {}
    for n in found:
        if n not in new:
            taken.setdefault(n, set()).update(uses.get(n, ()))
    for n in library:
        taken[n] = everywhere
    clashes = []
    for n in sorted(new, key=lambda n: (0 if "word" in found[n] else 1, n)):
        to = new[n]
        if taken.get(to, set()) & uses.get(n, set()):
            clashes.append((n, to))
            to += "_of" if "word" in found[n] else "_is" if "field" in found[n] else "_lem"
        new[n] = to
        taken.setdefault(to, set()).update(uses.get(n, ()))
    return new, clashes


def rename(text, new, skip=()):
    return WORD.sub(lambda m: new[m.group(0)] if m.group(0) in new and m.group(0) not in skip else m.group(0), text)


def in_source(text, new):
    """Of a .rt file: ghost uses and clauses alone, so no line of code changes."""
    camel = {n: t for n, t in new.items()}
    out = []
    for line in text.split("\n"):
        ghost = re.match(r"\s*(ghost use|requires|ensures|ghost)\b", line)
        out.append(rename(line, camel) if ghost else line)
    return "\n".join(out)


def main():
    found = defined()
    new, clashes = table(found, of_the_library())
    rows = "".join(f"{n}\t{t}\n" for n, t in sorted(new.items()))
    if "--print" in sys.argv:
        print(rows, end="")
        for c in clashes:
            print("clash:", *c, file=sys.stderr)
        return
    for path in files("src/*.rt"):
        text = open(path, encoding="utf-8").read()
        done = in_source(text, new)
        if done != text:
            open(path, "w", encoding="utf-8").write(done)
    for path in files("specs/*.antt") + files("proofs/*.antt") + files("proofs/*/*.antt"):
        text = open(path, encoding="utf-8").read()
        skip = ()
        if os.path.basename(os.path.dirname(os.path.dirname(path))) == "proofs":
            skip = set(re.findall(r"(?m)^(?:abbrev )?([^\s:]+) : (?:tie|goal)\.", text))
        done = rename(text, new, skip)
        if done != text:
            open(path, "w", encoding="utf-8").write(done)
    open(os.path.join(TOP, "tools", "respelled.tsv"), "w", encoding="utf-8").write(rows)
    print(f"respell: {len(new)} names, {len(clashes)} kept apart by an ending")


if __name__ == "__main__":
    main()
