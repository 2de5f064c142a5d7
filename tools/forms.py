#!/usr/bin/env python3
"""Counts the places of older forms in crates/*/src, point by point, as docs/DESIGN-PASS.md lists them.

    tools/forms.py            counts
    tools/forms.py --list     each place too
"""
import os
import re
import sys
from collections import Counter, defaultdict

TOP = os.path.join(os.path.dirname(os.path.abspath(__file__)), "..")
FN = re.compile(r"^( *)(?:pub )?fn (\w+)(<[^(]*>)?\(", re.M)


def sources():
    for folder in sorted(os.listdir(os.path.join(TOP, "crates"))):
        src = os.path.join(TOP, "crates", folder, "src")
        for name in sorted(os.listdir(src)):
            if name.endswith(".rt"):
                with open(os.path.join(src, name), encoding="utf-8") as f:
                    yield f"{folder}/{name}", f.read()


def bodies(text):
    """Each function: name, header (parameters, result, clauses), body."""
    starts = list(FN.finditer(text))
    for m in starts:
        indent = m.group(1)
        end = text.find(f"\n{indent}}}\n", m.start())
        whole = text[m.start():end if end >= 0 else len(text)]
        cut = whole.find(f"\n{indent}{{\n")
        one = whole.find(" {\n")
        at = cut if cut >= 0 else one
        yield m.group(2), whole[:at], whole[at:]


def parameters(header):
    depth, out, word = 0, [], ""
    for c in header[header.index("(") + 1:]:
        if c in "([{<":
            depth += 1
        if c in ")]}>":
            depth -= 1
            if depth < 0:
                break
        if c == "," and depth == 0:
            out.append(word)
            word = ""
        else:
            word += c
    return [w.strip() for w in out + [word] if w.strip()]


def shape(text):
    """A function with its names, types, numbers and strings taken out, to find twins."""
    text = re.sub(r"//[^\n]*", "", text)
    text = re.sub(r'b?"[^"]*"|b?\'[^\']*\'|\b\d\w*', "0", text)
    text = re.sub(r"\b(u8|u16|u32|u64|usize|bool)\b", "T", text)
    text = re.sub(r"\b[A-Z][A-Z_0-9]+\b", "0", text)
    return re.sub(r"\s+", " ", text)


def find():
    found = defaultdict(list)
    facts, twins, types = defaultdict(set), defaultdict(list), Counter()
    for name, text in sources():
        for m in re.finditer(r"^ *(?:pub )?enum (\w+)[^{]*\{(.*?)^ *\}", text, re.M | re.S):
            variants = [v for v in re.findall(r"^\s*([A-Z]\w*)[({,]?", re.sub(r"//[^\n]*", "", m.group(2)), re.M)]
            if any(v in ("Bad", "Nothing", "Nobody", "Blank", "Failed", "Broken", "Unlisted", "Other", "Unread") for v in variants):
                found["1 enums of the shape of Option or Result"].append(f"{name} {m.group(1)}")
        for m in re.finditer(r"^ *(?:pub )?struct (\w+)[^{;]*\{(.*?)^ *\}", text, re.M | re.S):
            for field in re.findall(r"^\s*(?:pub )?(\w+): (?:bool|u32|usize|u8),", m.group(2), re.M):
                if field in ("good", "filled", "stated", "scored", "is_closed", "fault", "number", "fill", "n", "colour", "part", "short"):
                    found["1 flags and zeros that say whether there is a value"].append(f"{name} {m.group(1)}.{field}")
        for m in re.finditer(r"\bfault: \d|\bnumber: \d|refused\(\d|at_turn\(\d|^pub const \w+: u32 = \d+;|^const [A-Z_]+: u32 = \d+;", text, re.M):
            if name not in ("types/lib.rt", "rows/lib.rt"):
                found["1 numbers for refusals and kinds"].append(f"{name} {m.group(0)}")
        for m in re.finditer(r"^ *(while|loop)\b[^\n]*", text, re.M):
            found["3 loops that are no `for`"].append(f"{name} {m.group(0).strip()}")
        for fn, header, body in bodies(text):
            for m in re.finditer(r"^ *(\w+) [+-]= 1;$", body, re.M):
                if re.search(rf"while [^\n]*\b{m.group(1)}\b", body):
                    found["3 indices counted by hand"].append(f"{name} {fn} {m.group(1)}")
            if re.search(r"while \w+ < \w", body) and re.search(r"\b(\w+)\[(?:\w+ \+ )?(\w+)\] = (\w+)(?:\[[^\]]*\])?;\n *\2 \+= 1;", body):
                found["4 copies, fills and comparisons by hand"].append(f"{name} {fn}")
            if re.search(r"== b'-'\) & \(\w+\[1\]|a\[i\] != b\[i\]", body):
                found["4 copies, fills and comparisons by hand"].append(f"{name} {fn}")
            params = parameters(header)
            if len(params) > 6 and fn != "main":
                found["5 functions of more than six parameters"].append(f"{name} {fn} {len(params)}")
            for clause in re.findall(r"^\s*requires(?: \w+)? \{ (.*) \}$", header, re.M):
                for fact in clause.split(" × "):
                    facts[re.sub(r"\.(now|old|entry)\b", "", fact.strip("() "))].add((name, fn))
            for p in params:
                if re.search(r": \[Acceleration; MOST_ACCELERATIONS\]", p) and re.search(r"\b(n|count): usize|accelerations: usize", header):
                    found["6 arrays with a count beside them"].append(f"{name} {fn}")
            body_shape = shape(body)
            if body_shape.count(";") >= 2 or "if " in body_shape:
                twins[shape(re.sub(r"\w+", "w", body_shape))].append(f"{name} {fn}")
    for fact, places in facts.items():
        if len(places) >= 3:
            found["5 facts in three contracts or more"].append(f"{len(places)} {fact}")
    for places in twins.values():
        if len(places) > 1:
            found["2 functions of one shape"].append(", ".join(places))
    return found


def main(words):
    for point, places in sorted(find().items()):
        print(f"{point}: {len(places)}")
        if words == ["--list"]:
            for place in places:
                print(f"    {place}")


main(sys.argv[1:])
