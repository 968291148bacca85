#!/usr/bin/env python3
"""Lists the places of src/ that may be written in a plainer form, point by point.

    tools/places.py [TREE]        TREE is a checkout, '.' by default

Each section names what it looks for and prints file:line of each candidate; docs/DESIGN-PASS.md says of each whether it
is a place. The sections headed `other way` find the same by other means.
"""
import difflib
import os
import re
import sys
from collections import defaultdict

TREE = sys.argv[1] if len(sys.argv) > 1 else "."


def sources():
    for root, _, names in os.walk(os.path.join(TREE, "crates")):
        if "/out/" in root + "/" or "/src" not in root:
            continue
        for name in sorted(names):
            if name.endswith(".rt"):
                path = os.path.join(root, name)
                with open(path) as file:
                    yield os.path.relpath(path, TREE), file.read().splitlines()


FILES = sorted(sources())


def show(title, found):
    print(f"\n== {title}: {len(found)}")
    for line in found:
        print("   " + line)


def grep(pattern, skip=None):
    found = []
    for path, lines in FILES:
        for n, line in enumerate(lines, 1):
            if re.search(pattern, line) and not (skip and re.search(skip, line)):
                found.append(f"{path}:{n}: {line.strip()}")
    return found


def blocks(word):
    """Items: (path, line number, header, body lines), by the layout's indentation."""
    for path, lines in FILES:
        n = 0
        while n < len(lines):
            line = lines[n]
            if re.match(r"\s*(pub(\(crate\))? )?(unsafe )?(extern \"C\" )?" + word + r" \w+", line):
                indent = len(line) - len(line.lstrip())
                end = n
                while end < len(lines) and not re.match(r"\s{%d}\}" % indent, lines[end]):
                    if lines[end].rstrip().endswith(";") and len(lines[end]) - len(lines[end].lstrip()) <= indent + 8 and "{" not in "".join(lines[n:end + 1]):
                        break
                    end += 1
                yield path, n + 1, line.strip(), lines[n:end + 1]
                n = end
            n += 1


def variants(body):
    return [v.strip() for v in body[1:-1] if re.match(r"\s*[A-Z]\w*", v)]


def enums():
    """An enum of two variants, or one of whose variants is named for an error or an end beside one that carries a value."""
    found = []
    for path, n, head, body in blocks("enum"):
        names = variants(body)
        carrying = [v for v in names if "(" in v]
        if len(names) == 2 or (carrying and any(re.match(r"(TooLarge|Err|None|Missing|End|Clean|Stray|Done|Nothing)\b", v) for v in names)):
            found.append(f"{path}:{n}: {head} {' '.join(names)}")
    return found


def functions():
    for path, n, head, body in blocks("fn"):
        text = "\n".join(body)
        name = re.search(r"fn (\w+)", head).group(1)
        start = text.find("{\n", max(text.find("\n{"), 0))
        signature = text[: text.find("\n    ensures")] if "ensures" in text else text[: text.find("{")]
        code = text[start + 1:] if "\n" in text else ""
        if "ensures" in text or "requires" in text:
            cut = re.search(r"\n\s*\{\n", text)
            code = text[cut.end():] if cut else ""
        yield path, n, name, signature, code


FUNCTIONS = list(functions())


def tokens(code):
    return re.findall(r"\w+|[^\w\s]", re.sub(r"//.*", "", code))


def twins():
    found = []
    items = [(p, n, name, tokens(code)) for p, n, name, _, code in FUNCTIONS if len(tokens(code)) >= 14]
    for i, a in enumerate(items):
        for b in items[i + 1:]:
            if abs(len(a[3]) - len(b[3])) > 0.35 * max(len(a[3]), len(b[3])):
                continue
            ratio = difflib.SequenceMatcher(None, a[3], b[3], autojunk=False).ratio()
            if ratio >= 0.78:
                found.append(f"{a[0]}:{a[1]} {a[2]} ~ {b[0]}:{b[1]} {b[2]} ({ratio:.2f})")
    return found


def same_name():
    by = defaultdict(list)
    for path, n, name, _, _ in FUNCTIONS:
        by[name].append(f"{path}:{n}")
    return [f"{name}: {' '.join(places)}" for name, places in sorted(by.items()) if len(places) > 1]


def facts():
    by = defaultdict(list)
    for path, lines in FILES:
        for n, line in enumerate(lines, 1):
            m = re.match(r"\s*requires\s*\w*\s*\{(.*)\}", line)
            if m:
                fact = re.sub(r"length \([^()]*(\([^()]*\))*[^()]*\)|length [\w.]+", "length ..", m.group(1)).strip()
                by[fact].append(f"{path}:{n}")
    return [f"{len(v)} x {fact}: {' '.join(v)}" for fact, v in sorted(by.items()) if len(v) >= 3]


def together():
    by = defaultdict(set)
    for path, n, name, signature, _ in FUNCTIONS:
        names = [p for p in re.findall(r"(\w+): (?!\{)", signature[signature.find("("):].split("->")[0]) if p != "self"]
        for i, a in enumerate(names):
            for b in names[i + 1:]:
                by[(a, b)].add(f"{path}:{n} {name}")
    return [f"{len(v)} x ({a}, {b}): {'; '.join(sorted(v))}" for (a, b), v in sorted(by.items()) if len(v) >= 3]


show("1 enums of two variants, or with a value beside an end or an error", enums())
show("1 fields that count for one case only", grep(r"0 for every other|0 for all|ghost ok"))
show("1 numbers for none or for a kind: functions that answer a small number", grep(r"fn .*-> u(8|16)\b"))
show("1 other way: Err(..) => return, None => return", grep(r"(Err|End|None)(\(\w+\))? => return"))
show("2 functions whose bodies are alike", twins())
show("2 other way: functions of one name", same_name())
show("3 loops", grep(r"^\s*('\w+: )?(loop|while|for) ", r"^\s*//"))
show("3 other way: places counted or indexed by a variable", grep(r"\+= 1;|\w\[[a-z_.]+\]"))
show("4 matches that answer true or false, casts, comparisons of one byte with many", grep(r"=> (true|false),| as (u|i)(8|16|32|64|size)\b|== .*\|\|.*=="))
show("4 other way: derives and impls of the standard traits", grep(r"#\[derive\(|^impl.* (Display|From|TryFrom|PartialEq|Ord|Clone|Default)\b.* for "))
show("5 facts in the requires of three or more functions", facts())
show("5 parameters that three or more functions take together", together())
show("6 arrays and slices with a place or a length beside", grep(r"\[\w+; \w+\]|^\s*(pub(\(crate\))? )?(at|len|from|ready|all|n|missing|count): u(size|8|32),"))
show("7 matches that choose a step", grep(r"match (\*?self|form_of\(.*\)|start|self\.form|\w+_of\(.*\)) \{"))
