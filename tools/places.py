#!/usr/bin/env python3
"""Counts the places of the eight points of docs/DESIGN-PASS.md in crates/*/src: tools/places.py [POINT]"""
import collections
import glob
import re
import sys

FILES = sorted(glob.glob("crates/*/src/*.rt"))
TEXT = {f: open(f).read() for f in FILES}
ONLY = sys.argv[1] if len(sys.argv) > 1 else ""


def show(point, what, places):
    if point.startswith(ONLY):
        print(f"{point} {what}: {len(places)}")
        for place in places if ONLY else []:
            print("   ", place)


def short(file):
    return re.sub(r"crates/(\w+)/src/", r"\1/", file)


def items(pattern):
    for file, text in TEXT.items():
        for found in re.finditer(pattern, text, re.M | re.S):
            yield file, text.count("\n", 0, found.start()) + 1, found


def lines(pattern):
    for file, text in TEXT.items():
        for number, line in enumerate(text.split("\n"), 1):
            if not line.lstrip().startswith("//") and re.search(pattern, line):
                yield f"{short(file)}:{number}: {line.strip()}"


def variants(body):
    body = re.sub(r"//[^\n]*", "", body)
    return re.findall(r"(?:^|,)\s*([A-Z]\w*)\s*(\([^()]*\)|\{[^{}]*\})?", body)


def outcome(body):
    """Two cases of which one is empty, or a case that says that there is nothing or why."""
    cases = variants(body)
    empty = [name for name, held in cases if not held]
    lone = len(cases) == 2 and len(empty) == 1
    return lone or any(name in ("Refused", "Cut", "Past", "TooShort") for name, _ in cases)


ENUM = r"^(?:pub(?:\(crate\))? )?enum (\w+) \{(.*?)^\}"
enums = [(f, n, m) for f, n, m in items(ENUM) if outcome(m.group(2))]
show("1a", "enums of the shape of Option or Result", [f"{short(f)}:{n}: {m.group(1)}" for f, n, m in enums])

STRUCT = r"^(?:pub(?:\(crate\))? )?struct (\w+)(?:<[^>]*>)? \{(.*?)^\}"
flags = [f"{short(f)}:{n}: {m.group(1)}" for f, n, m in items(STRUCT) if re.search(r": bool,", m.group(2))]
show("1b", "structs with a flag among their values", flags)

KINDS = r"\b(kind|which|rule): u8\b|\bNO_LANE\b|\bNO_WRITER\b|\bletter: u8\b|fn digit\b"
show("1c", "lines with a number for a kind, a lane that may be none, or a refusal", list(lines(KINDS)))
NOTHING = r"^\s*return 0;|^\s*0$|=> 0,"
show("1d", "lines that answer 0", list(lines(NOTHING)))

FN = r"^ *(?:pub(?:\(crate\))? )?(?:const )?(?:extern \"C\" )?fn (\w+)(?:<[^(]*>)?\((.*?)\)(?: -> ([^\n{]*))?\n(.*?)^ *\{\n(.*?)^ *\}\n"


def shape(body):
    """A body with its names and numbers taken out."""
    body = re.sub(r"//[^\n]*", "", body)
    body = re.sub(r"\b(if|else|while|for|in|let|mut|match|return|as|true|false)\b", r"<\1>", body)
    return re.sub(r"\s+", " ", re.sub(r"(?<!<)\b\w+\b(?!>)", "x", body))


shapes = collections.defaultdict(list)
for f, n, m in items(FN):
    if m.group(5).count("\n") >= 3:
        shapes[shape(m.group(5))].append(f"{short(f)}:{n}: {m.group(1)}")
twins = [" = ".join(group) for group in shapes.values() if len(group) > 1]
show("2", "groups of functions whose bodies have one shape (of three lines or more)", twins)

show("3", "loops with while or loop", list(lines(r"^\s*(while|loop)\b")))

CASTS = r"\bas (u8|u16|u32|u64|usize|f64)\b"
show("4a", "lines with a cast", list(lines(CASTS)))
CALLS = r"\b(wide|u8_as_u64|u32_as_u64|same_bytes|rule_of|rule_number|refusals::number|number|front_four|copy_at)\("
show("4b", "lines with a comparison, a conversion or a copy by a function of ours", list(lines(CALLS)))

params = collections.defaultdict(set)
for f, n, m in items(FN):
    names = re.findall(r"(?:^|,)\s*(?:mut )?(\w+):", re.sub(r"<[^<>]*>|\[[^\[\]]*\]", "", m.group(2)))
    for size in (2, 3, 4, 5):
        for k in range(len(names) - size + 1):
            params[tuple(names[k : k + size])].add(f"{short(f)}:{m.group(1)}")
together = {names: where for names, where in params.items() if len(where) >= 3}
for names in list(together):
    if any(len(other) > len(names) and " ".join(names) in " ".join(other) and len(where) >= len(together[names]) for other, where in together.items()):
        del together[names]
show("5a", "runs of parameters that three functions or more share", [f"{len(w)} x ({', '.join(n)})" for n, w in sorted(together.items(), key=lambda x: -len(x[1]))])
facts = collections.defaultdict(set)
for f, n, m in items(FN):
    for clause in re.findall(r"requires(?: \w+)? \{ (.*?) \}\n", m.group(4) + "\n"):
        facts[clause].add(f"{short(f)}:{m.group(1)}")
show("5b", "facts that three functions or more require", [f"{len(w)} x {c}" for c, w in facts.items() if len(w) >= 3])

show("6a", "lines that make a buffer of fixed size", list(lines(r"let mut \w+ = \[0(u8|\.0)?; \w+\]")))
show("6b", "structs or functions with parallel arrays", [f"{short(f)}:{n}: {m.group(1)}" for f, n, m in items(FN) if len(re.findall(r"\[(?:f64|u8|u32); \w+\]", m.group(2))) >= 2])
show("7", "matches on a kind, a way or a number of a function", list(lines(r"match (kind|which|way|f|function|question)\b")))
