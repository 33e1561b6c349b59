#!/usr/bin/env python3
"""Counts the places of docs/DESIGN-PASS.md in the Rattle sources of a tree.

python3 tools/design_counts.py [FOLDER]   the counts, a line a point
python3 tools/design_counts.py [FOLDER] --list   each place too
"""
import collections
import pathlib
import re
import sys

arguments = [a for a in sys.argv[1:] if a != "--list"]
root = pathlib.Path(arguments[0] if arguments else ".")
sources = sorted(root.glob("crates/*/src/*.rt"))


def lines(pattern):
    """Each source line that matches, as file:line: text."""
    found = []
    for path in sources:
        for number, line in enumerate(path.read_text().split("\n"), 1):
            if not line.lstrip().startswith(("//", "ghost use")) and re.search(pattern, line):
                found.append(f"{path.relative_to(root)}:{number}: {line.strip()}")
    return found


def functions():
    """Each function as (file, name, signature with clauses, body)."""
    found = []
    start = re.compile(r'^( *)(?:pub(?:\(crate\))? )?(?:extern "C" )?fn (\w+)')
    for path in sources:
        text = path.read_text().split("\n")
        for number, line in enumerate(text):
            match = start.match(line)
            if not match:
                continue
            begin = number
            while not text[begin].endswith("{"):
                begin += 1
            end = text.index(match.group(1) + "}", begin)
            head = "\n".join(text[number:begin + 1]).rstrip("{").rstrip()
            found.append((str(path.relative_to(root)), match.group(2), head, "\n".join(text[begin + 1:end])))
    return found


def shape(head, body):
    """A function's tokens with names, numbers and widths made alike."""
    names = {}
    out = []
    for token in re.findall(r"\w+|[^\w\s]", re.sub(r"requires.*|ensures.*", "", head) + body):
        if re.fullmatch(r"[ui](8|16|32|64|128|size)", token):
            out.append("T")
        elif re.fullmatch(r"\d\w*", token):
            out.append("N")
        elif re.fullmatch(r"fn|let|mut|if|else|for|in|while|loop|match|return|as|self|pub|Ok|Err|Some|None|true|false", token):
            out.append(token)
        elif re.fullmatch(r"\w+", token):
            out.append(names.setdefault(token, f"v{len(names)}"))
        else:
            out.append(token)
    return " ".join(out)


def parameters(head):
    """The parameters of a function's signature, each as (name, type)."""
    signature = re.split(r"\) ->|\brequires\b|\bensures\b", re.sub(r"(fn \w+)<.*?>\(", r"\1(", head, flags=re.S))[0]
    return re.findall(r"([\w»«]+): ([^,)]+)", signature)


def enums():
    """Enums of two variants of which one or both hold one value: the shape of Option or Result."""
    found = []
    for path in sources:
        for match in re.finditer(r"(?m)^(?:pub )?enum (\w+)[^{]*\{\n(.*?)^\}", path.read_text(), re.S):
            variants = re.findall(r"(?m)^    (\w+)(\([^)]*\))?,$", match.group(2))
            if len(variants) == 2 and any(payload for _, payload in variants):
                found.append(f"{path.relative_to(root)}: {match.group(1)}")
    return found


every = functions()
point = collections.OrderedDict()
point["1 own enums of the shape of Option or Result"] = enums()
point["1 fields of structs that are a flag, or a number of a refusal or kind"] = lines(
    r"^\s+(pub )?((is|has)_\w+|number|fault|refusal|error|kind|operation|flag): (bool|u8|u16|u32|u64|usize),$")
point["1 a fault beside a result in a struct"] = lines(r"^\s+(pub )?\w+: Option<Fault>,$")
point["1 numbers of refusals and faults returned"] = lines(r"\breturn [1-9][0-9]*;")
point["1 tests of a number against 0"] = lines(r"\bif [\w.]+ [!=]= 0 \{$|-> u8 \{?$.*0$")
point["1 arms of matches over numbers of kinds"] = lines(r"^\s*([0-9]+ \| )*[0-9]+ => ")
groups = collections.defaultdict(list)
for file, name, head, body in every:
    s = shape(head, body)
    if len(s.split()) >= 30:
        groups[s].append(f"{file}: {name}")
point["2 groups of functions that differ in names, numbers and widths alone"] = [
    "; ".join(g) for g in groups.values() if len(g) > 1]
point["3 while and loop"] = lines(r"^\s*(while\b|loop \{)")
point["3 loops over a range whose number is multiplied to a place"] = [
    f"{file}: {name}" for file, name, _, body in every
    for variable in re.findall(r"\bfor (\w+) in [^{]*\.\.", body)
    if re.search(rf"\b\d+ \* \(?{variable}\b|\w+ \* {variable}\b|\b{variable} \* \d", body)]
point["4 casts by as"] = lines(r"\bas (u8|u16|u32|u64|usize|i64|i128|u128)\b")
point["4 equality, order, conversion and printing by hand"] = [
    f"{file}: {name}" for file, name, _, _ in every
    if name in ("wide", "flag", "less", "below", "differ", "same", "sign", "from_u64", "zero", "line", "truth", "halves",
                "equal", "copy", "of", "bit", "print_bytes", "end")]
point["5 functions of six parameters and more"] = [
    f"{file}: {name}" for file, name, head, _ in every if len(parameters(head)) >= 6]
facts = collections.defaultdict(set)
for file, name, head, _ in every:
    for clause in re.findall(r"requires(?: \w+)? \{ (.*) \}", head):
        for fact in clause.split(" × "):
            facts[fact.strip("() ")].add(f"{file}: {name}")
point["5 facts required by three functions and more"] = [
    f"{fact} ({len(where)})" for fact, where in sorted(facts.items()) if len(where) >= 3]
point["6 buffers with a place or a length that was read beside them"] = [
    f"{file}: {name}" for file, name, head, _ in every
    if not file.endswith("fields/src/lib.rt")
    and any(t.startswith(("&[u8", "&mut [u8", "&Image", "&mut Image")) for _, t in parameters(head))
    and any(t == "usize" and re.fullmatch(r"at|a|n|i|count|from|to|read|\w+_read", p) for p, t in parameters(head))]
point["7 arms of matches that pick a function to run"] = [
    place for place in lines(r"^\s*([0-9]+|_|\w+::\w+(\(\w+\))?) => [\w:]+\(.*\),$")
    if not re.search(r"=> (Ok|Some|Err)\(", place)]
answers = sorted(root.glob("crates/*/proofs/**/Answers.antt"))
point["8 answers"] = [f"{p.relative_to(root)}: {m}" for p in answers for m in re.findall(r"(?m)^pub ([\w-]+) :", p.read_text())]

for name, found in point.items():
    print(f"{len(found):5}  {name}")
    if "--list" in sys.argv:
        for place in found:
            print("       ", place)
print(f"{sum(len(p.read_text().splitlines()) for p in answers):5}  8 lines of answers")
