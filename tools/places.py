#!/usr/bin/env python3
"""Lists the places in src/ that may read like an older language, point by point: python3 tools/places.py [POINT] [--count]."""
import collections
import glob
import re
import sys

FILES = sorted(glob.glob("crates/*/src/**/*.rt", recursive=True))
GREPS = {
    "1": r"\benum |: bool,|, bool\)|\(bool,|-> bool|[!=]= 0\b|=> usize::MAX|\w+\(u8\),",
    "3": r"^\s*(while|loop)\b|for \w+ in [^{]*\.\.|\+= 1;|\benumerate\b|saturating_add\(1\)",
    "4": r"=> (true|false|[0-9]+),|=> b'|\bspells\((letters|name),|println!|fn (told|number|done|refused|see_\w+|expected_\w+|has\w*|sizing)\(",
    "6": r"\[[^]\[&]+; [0-9A-Z_]+\]|\blen: usize|&\[Ask\]",
    "7": r"match (\(?)(self\.)?(kind|bound|step|pile|base|answer|name)\b|: fn\(|\bdyn\b|Box<",
}
WORDS = set("as break const continue else enum fn for if impl in let loop match mod mut pub ref return self static struct "
            "trait true false type use where while move".split())


def sources():
    for name in FILES:
        with open(name) as file:
            yield name, file.read()


def grep(pattern):
    for name, text in sources():
        for number, line in enumerate(text.split("\n"), 1):
            code = re.sub(r"//.*", "", line)
            if re.search(pattern, code) and not re.match(r"\s*(ghost|ensures|requires)\b", code):
                yield f"{name}:{number}: {line.strip()}"


def functions():
    """Each function: its file, line, name, parameters, clauses and body."""
    for name, text in sources():
        for m in re.finditer(r"^( *)(?:pub(?:\(crate\))? )?fn (\w+)", text, re.M):
            indent = m.group(1)
            end = text.find("\n" + indent + "}", m.end())
            stop = text.find(";\n", m.end())
            head_end = text.find("\n" + indent + "{\n", m.end())
            if head_end < 0 or head_end > end:
                head_end = text.find("{\n", m.end())
            if end < 0 or (0 <= stop < head_end):
                continue
            head, body = text[m.end():head_end], text[head_end:end]
            yield name, text.count("\n", 0, m.start()) + 1, m.group(2), head, body


def shape(body):
    """The body with names and literals numbered in the order they come."""
    seen = {}
    out = []
    for token in re.findall(r"b?'(?:\\.|[^'])+'|b?\"(?:\\.|[^\"])*\"|\w+|\S", re.sub(r"//.*", "", body)):
        if token in WORDS or not re.match(r"[\w'\"]", token):
            out.append(token)
        else:
            out.append(f"#{seen.setdefault(token, len(seen))}")
    return tuple(out)


def twins():
    groups = collections.defaultdict(list)
    for name, line, fn, _, body in functions():
        if len(shape(body)) >= 14:
            groups[shape(body)].append(f"{name}:{line}: {fn}")
    return [" ~ ".join(g) for g in groups.values() if len(g) > 1]


def together():
    """Clauses of `requires` and runs of parameters that stand at three functions or more."""
    asked, params = collections.defaultdict(list), collections.defaultdict(list)
    for name, line, fn, head, _ in functions():
        crate = name.split("/")[1]
        for clause in re.findall(r"requires \w* ?\{ (.*) \}", head):
            asked[crate, re.sub(r"\.(old|now)", "", clause)].append(fn)
        names = re.findall(r"(?:\(|, |\n\s+)(?:mut )?(\w+): ", head.split(" requires")[0].split(" ensures")[0])
        for a, b in zip(names, names[1:]):
            if a != "rt":
                params[crate, a, b].append(fn)
    for table, what in ((asked, "asked"), (params, "together")):
        for key, fns in table.items():
            if len(fns) >= 3:
                yield f"{what} in {key[0]}: {', '.join(key[1:])}: {len(fns)} ({' '.join(fns)})"


def answers():
    for name in sorted(glob.glob("crates/*/proofs/**/*.antt", recursive=True)):
        with open(name) as file:
            text = file.read()
        if name.endswith("Answers.antt"):
            for goal in re.findall(r"^pub ([\w-]+) : goal", text, re.M):
                yield f"{name}: {goal}"


def places(point):
    if point == "2":
        return twins()
    if point == "5":
        return list(together())
    if point == "8":
        return list(answers())
    return list(grep(GREPS[point]))


def main():
    points = [a for a in sys.argv[1:] if a.isdigit()] or list("12345678")
    for point in points:
        found = places(point)
        print(f"{point}: {len(found)}")
        if "--count" not in sys.argv:
            print("\n".join("  " + f for f in found))


main()
