#!/usr/bin/env python3
"""Counts the places in crates/*/src where an older form stands for one of today's. `places.py [FOLDER] [-l]` counts, -l lists.

Each row is a pattern over the text without comments. A row is a list of places to look at and no verdict."""
import re
import sys
from collections import defaultdict
from pathlib import Path

arguments = [a for a in sys.argv[1:] if not a.startswith("-")]
listing = "-l" in sys.argv[1:]
root = Path(arguments[0] if arguments else ".")

sources = {}
for path in sorted(root.glob("crates/*/src/**/*.rt")):
    text = path.read_text()
    text = re.sub(r"//[^\n]*", lambda m: " " * len(m.group()), text)
    sources[str(path.relative_to(root / "crates"))] = text


def places(pattern, keep=lambda m, text: True):
    found = []
    for name, text in sources.items():
        for m in re.finditer(pattern, text, re.S | re.M):
            if keep(m, text):
                line = text.count("\n", 0, m.start()) + 1
                found.append((name, line, " ".join(m.group().split())[:100]))
    return found


def body_after(text, at):
    """The block that begins at the first brace from a place on."""
    start = text.index("{", at)
    depth = 0
    for i in range(start, len(text)):
        depth += {"{": 1, "}": -1}.get(text[i], 0)
        if depth == 0:
            return text[start : i + 1]
    return text[start:]


rows = []

# 1. Option, Result and `?`
NOTHING = r"\b(Unused|Free|Empty|Unbound|Wrong|Nothing|End|Wildcard|Mismatch|None|Neither|Broken)\b"
FAILURE = r"\b(Refused|Failed|Faulted|Faults|Stopped|TooLarge)\b"


def option_shaped(m, text):
    block = body_after(text, m.start())
    return bool(re.search(NOTHING + r"\s*,", block) or re.search(FAILURE, block))


rows.append(("1", "enums with a case for nothing or for a failure", places(r"^\s*(pub )?enum \w+", option_shaped)))
rows.append(("1", "errors passed on by an arm", places(r"Err\((\w+)\)\s*=>\s*(return\s+)?Err\(\1\)")))
rows.append(("1", "errors passed on by an `if let`", places(r"if let Err\((\w+)\) = [^{]*\{\s*return Err\((\1\)|Refused)")))
rows.append(("1", "arms that only ask, turn or drop an Option or a Result", places(
    r"(Some|Ok)\(_\)\s*=>\s*(true|false)\b|Err\(_\)\s*=>\s*(return\s+)?(Err\(|None\b|false)|Ok\((\w+)\)\s*=>\s*Some\(\5\)|None\s*=>\s*(return\s+)?(None|Err\()")))
rows.append(("1", "refusals and kinds by number", places(r"fn from_number|Refused\(u8|number: u8\b|fn refuse\(")))

# 2. twins
bodies = defaultdict(list)
shapes = defaultdict(list)
for name, text in sources.items():
    for m in re.finditer(r"\bfn (\w+)", text):
        if "{" not in text[m.end() :]:
            continue
        head = text[m.end() :]
        # the body begins at the first brace at the left edge or behind the signature
        start = re.search(r"^ *\{|\)[^\n{}]*\{$", head, re.M)
        if not start:
            continue
        body = body_after(text, m.end() + start.start())
        words = " ".join(body.split())
        place = (name, text.count("\n", 0, m.start()) + 1, "fn " + m.group(1))
        if len(words) > 20:
            bodies[words].append(place)
    for m in re.finditer(r"\b(struct|enum) (\w+)[^;{]*\{", text):
        words = m.group(2) + " ".join(body_after(text, m.start()).split())
        shapes[words].append((name, text.count("\n", 0, m.start()) + 1, m.group(1) + " " + m.group(2)))
rows.append(("2", "functions with one body in several places", [p for group in bodies.values() if len(group) > 1 for p in group]))
rows.append(("2", "types declared in several places", [p for group in shapes.values() if len(group) > 1 for p in group]))

# 3. loops that count
rows.append(("3", "while and loop", places(r"\b(while|loop)\b(?=[^\n]*\{)")))


def indexes(m, text):
    body = body_after(text, m.end())
    return bool(re.search(r"\[[^\]]*\b" + m.group(1) + r"\b[^\]]*\]|_at\([^)]*\b" + m.group(1) + r"\b", body))


rows.append(("3", "for over a range whose body indexes by it", places(r"\bfor (\w+) in [^\n{]*\.\.", indexes)))

# 4. equality, conversion, printing by hand
rows.append(("4", "equality by hand", places(r"fn (is_same|same|same_shape|look_same|\w+_agrees)\b")))
rows.append(("4", "conversion by hand", places(r"fn (from_number|from_sixteen_on|of_reading|of|kind_of|shape_of|plain_of|answer|nibble)\(")))
rows.append(("4", "words for printing by hand", places(r"fn (kind_name|kind_word|keyword_word|unit_of|number_word|number_form|form_word|print_token|described)\(")))

# 5. what several contracts repeat
clauses = defaultdict(list)
for name, text in sources.items():
    for m in re.finditer(r"^\s*(requires|ensures)( \w+)? \{(.*?)\}\s*$", text, re.M):
        key = (name.split("/")[0], m.group(1), " ".join(m.group(3).split()))
        clauses[key].append((name, text.count("\n", 0, m.start()) + 1, m.group(1) + " {" + m.group(3)[:80] + "}"))
rows.append(("5", "clauses with the same words in three functions of a crate or more",
             [p for group in clauses.values() if len(group) >= 3 for p in group]))
together = defaultdict(list)
for name, text in sources.items():
    for m in re.finditer(r"\bfn (\w+)(<[^(]*>)?\(([^)]*)\)", text):
        parameters = [p.strip() for p in re.split(r",(?![^<]*>)", " ".join(m.group(3).split())) if ":" in p]
        for i, p in enumerate(parameters):
            for q in parameters[i + 1 :]:
                for r in parameters[parameters.index(q) + 1 :]:
                    together[(name.split("/")[0], p, q, r)].append((name, text.count("\n", 0, m.start()) + 1, f"{m.group(1)}({p}, {q}, {r})"))
seen = {}
for group in together.values():
    if len(group) >= 3:
        for p in group:
            seen[(p[0], p[1])] = p
rows.append(("5", "functions that share three parameters with two others of their crate", list(seen.values())))

# 6. buffers with a length, parallel arrays
structs = []
for name, text in sources.items():
    for m in re.finditer(r"\bstruct \w+[^;{]*\{", text):
        block = body_after(text, m.start())
        arrays = re.findall(r": (?:&[^,\n]*)?\[[^;\]]+; ?[^\]]+\]", block)
        if len(arrays) > 1 or (arrays and re.search(r"\b(count|len|used|depth|owner_count|counts)\s*:", block)):
            structs.append((name, text.count("\n", 0, m.start()) + 1, m.group()[:-1].strip()))
rows.append(("6", "structs with an array and its count, or with arrays side by side", structs))

# 7. which step to run
def dispatches(m, text):
    block = body_after(text, m.end())
    arms = re.findall(r"::\w+(?:\([^)]*\))?\s*=>\s*\w+\(", block)
    return len(arms) >= 4


rows.append(("7", "matches that choose one of four calls or more", places(r"\bmatch \(?[\w., ]+\)? (?=\{)", dispatches)))

previous = None
for point, title, found in rows:
    print(f"{point}  {len(found):4}  {title}")
    if listing:
        for name, line, words in found:
            print(f"          {name}:{line}  {words}")
