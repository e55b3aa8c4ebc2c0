#!/usr/bin/env python3
"""Counts and lists the places in src/ that docs/DESIGN-PASS.md speaks of: tools/design_places.py [POINT] [--list], at the top of the repository."""
import re
import sys
from collections import defaultdict
from pathlib import Path

TOP = Path(__file__).resolve().parent.parent
FILES = sorted(TOP.glob("crates/*/src/**/*.rt"))


def lines():
    for path in FILES:
        for number, text in enumerate(path.read_text().split("\n"), 1):
            yield f"{path.relative_to(TOP)}:{number}", text


def matching(pattern, where=""):
    """The lines that a pattern is found in, comments left out."""
    rule = re.compile(pattern)
    return [f"{at} {text.strip()}" for at, text in lines() if where in at and rule.search(text.split("//")[0])]


def items():
    """Every function with its head and body, and every struct and enum: (place, kind, name, head, body lines)."""
    for path in FILES:
        source = path.read_text().split("\n")
        for k, text in enumerate(source):
            found = re.match(r"( *)(?:#\[.*\] *)?(?:pub(?:\(crate\))? )?(?:extern \"C\" )?(fn|struct|enum) (\w+)", text)
            if not found:
                continue
            indent, kind, name = found.groups()
            end = k
            while end < len(source) and source[end] != indent + "}" and not source[end].endswith(";"):
                end += 1
            block = source[k : end + 1]
            opens = next((j for j, t in enumerate(block) if t == indent + "{"), None)
            if kind == "fn":
                if opens is None:
                    opens = next((j for j, t in enumerate(block) if t.endswith("{")), 0)
                yield f"{path.relative_to(TOP)}:{k + 1}", kind, name, "\n".join(block[:opens + 1]), block[opens + 1 : -1]
            else:
                yield f"{path.relative_to(TOP)}:{k + 1}", kind, name, block[0], block[1:-1]


# ---- 1

NONE = {"Refused", "Bad", "Fault", "Halt", "Over", "Cut", "Open", "Out", "Absent", "Good", "Empty", "Nothing", "Refusal", "End", "Other"}


def enums():
    """Own enums that have a case for a refusal, or one for nothing."""
    for at, kind, name, head, body in items():
        cases = {m.group(1) for t in body if (m := re.match(r" +([A-Z]\w*)", t))}
        if kind == "enum" and cases & NONE:
            yield f"{at} {name}: {', '.join(sorted(cases & NONE))}"


def flags():
    """Fields that say whether the fields beside them count, values that stand for none, and tests of them."""
    return matching(r"^ +(pub )?(refused|whole|more|number|wrong): (bool|u8|usize),|0 < \w+\.number|place == 0|0 < (end|len) \{|== none\b|none: (bool|usize)")


def numbers():
    """Constants that number kinds and refusals."""
    return [place for place in matching(r"^pub const [A-Z_]+: (u8|usize|u64) = \d+;") if "LIMIT" not in place and "HEAD" not in place and "WORDS" not in place]


# ---- 2


def shape(body):
    """A body with its numbers, types and constants left out, and the names of what it calls."""
    text = " ".join(t.split("//")[0].strip() for t in body)
    text = re.sub(r"b'[^']*'|b\"[^\"]*\"|\b0x\w+|\b\d+\b", "N", text)
    text = re.sub(r"\b[A-Z]\w*(::\w+)*\b", "T", text)
    text = re.sub(r"\b\w+(::\w+)+\b", "P", text)
    text = re.sub(r"\b[a-z_]\w*(?=\()", "f", text)
    return re.sub(r"\s+", " ", text)


def twins():
    """Functions of one crate whose bodies, of three lines or more, have one shape; and structs and enums that have the same fields or cases."""
    groups = defaultdict(list)
    for at, kind, name, head, body in items():
        crate = at.split("/")[1]
        if crate.endswith("_c"):
            continue
        if kind == "fn" and len(body) >= 3:
            groups[crate, kind, shape(body)].append(f"{at} {name}")
        elif kind != "fn" and body:
            cases = tuple(sorted(m.group(1) for t in body if (m := re.match(r" +(?:pub )?(\w+)[,:({]", t))))
            groups[crate, kind, cases].append(f"{at} {name}")
    for key in sorted(groups):
        if len(groups[key]) > 1:
            yield " ~ ".join(groups[key])


# ---- 3


def loops():
    """Loops that are no `for`."""
    return matching(r"^ *(while|loop)\b")


# ---- 4


def underived():
    """Types that have no equality of their own."""
    return matching(r"^ *#\[derive\((Clone, Copy|Drop)\)\]$")


def by_hand():
    """Functions that compare, copy, convert or print by hand: a match whose arms are single names or numbers, and the like."""
    for at, kind, name, head, body in items():
        text = [t.strip() for t in body if t.strip()]
        if kind != "fn" or not text or re.search(r"\bfn (fmt|from|try_from)\b", head):
            continue
        arms = [t for t in text if re.match(r"[\w:]+(\([\w, ]*\)| \{[\w, :]*\})? => .*,$", t)]
        plain = [t for t in arms if re.match(r".* => (-?\d+|true|false|[A-Z][\w:]*(\([\w, ]*\))?|[A-Z_]+|\{\}),$", t)]
        if text[0].startswith("match ") and len(plain) >= 2 and len(plain) >= len(arms) - 1:
            yield f"{at} {name}"
        elif re.match(r"(as_signed|as_unsigned|show_refusal|refusal_words|bit|flag_in|half_in|half_of)$", name):
            yield f"{at} {name}"


# ---- 5


def parameters(head):
    inner = re.search(r"\((.*?)\)\s*(?:->|\n|$|requires|ensures)", head, re.S)
    return frozenset(re.findall(r"(\w+): (?=[&\w\[])", inner.group(1))) if inner else frozenset()


def facts():
    """Facts that stand in the `requires` of three or more functions of a crate."""
    found = defaultdict(set)
    for at, kind, name, head, body in items():
        for clause in re.findall(r"requires(?: \w+)? \{(.*?)\}\n", head + "\n", re.S):
            for fact in re.split(r"\) × \(|\) × | × \(| × ", clause.strip()):
                fact = fact.strip()
                while fact.startswith("(") and fact.count("(") > fact.count(")"):
                    fact = fact[1:]
                while fact.endswith(")") and fact.count(")") > fact.count("("):
                    fact = fact[:-1]
                found[at.split("/")[1], fact].add(name)
    for (crate, fact), names in sorted(found.items()):
        if len(names) >= 3:
            yield f"{crate}: {fact}: {', '.join(sorted(names))}"


def travellers():
    """Sets of three or more parameters that three or more functions of a crate have; the largest sets."""
    heads = defaultdict(dict)
    for at, kind, name, head, body in items():
        crate = at.split("/")[1]
        if kind == "fn" and not crate.endswith("_c"):
            heads[crate][at, name] = parameters(head)
    for crate, all_of in sorted(heads.items()):
        sets = set()
        names = list(all_of.values())
        for a in names:
            for b in names:
                if len(a & b) >= 3:
                    sets.add(a & b)
        kept = []
        for s in sorted(sets, key=lambda s: (-len(s), sorted(s))):
            users = sorted(n for (_, n), p in all_of.items() if s <= p)
            if len(users) >= 3 and not any(s < t and set(users) == set(u) for t, u in kept):
                kept.append((s, users))
        for s, users in kept:
            yield f"{crate}: {', '.join(sorted(s))}: {', '.join(users)}"


# ---- 6


def buffers():
    """Arrays that are filled up to a length, and functions that take a buffer and the length of what is in it."""
    yield from matching(r"\[(u8|u64); [\w:]+\]|= \[0(u8|u64)?; |vec!\[|from_elem\(")
    for at, kind, name, head, body in items():
        if kind == "fn" and {"page", "n"} <= parameters(head):
            yield f"{at} {name}(page, n)"


# ---- 7


def switches():
    """Functions that only choose which function to call, by three or more arms."""
    for at, kind, name, head, body in items():
        text = [t.strip() for t in body if t.strip()]
        start = next((k for k, t in enumerate(text) if t.startswith("match ")), None)
        if kind != "fn" or start is None or start > 3:
            continue
        arms = [t for t in text[start:] if "=>" in t]
        calls = [t for t in arms if re.match(r".*=> [\w:]+\(.*\),$", t)]
        if len(calls) >= 3 and len(calls) * 2 >= len(arms):
            yield f"{at} {name}"


# ---- 8


def answers():
    return [f"{path.relative_to(TOP)}: {t.strip()}" for path in sorted(TOP.glob("crates/*/proofs/**/Answers.antt")) for t in path.read_text().split("\n") if re.match(r"(abbrev )?pub [\w+-]+ : goal\.", t)]


def lemmas():
    return [f"{path.relative_to(TOP)}: {t.strip()}" for path in sorted(TOP.glob("crates/*/proofs/**/*.antt")) if path.name not in ("Invariants.antt",) for t in path.read_text().split("\n") if re.match(r" *(abbrev )?(pub )?[a-z][\w'-]* : ", t) and ": goal." not in t]


POINTS = {
    "1 own enums with a case for a refusal or for nothing": enums,
    "1 flags, and values that stand for none": flags,
    "1 numbers for kinds and refusals": numbers,
    "2 functions of one shape, types with the same fields": twins,
    "3 loops that are no `for`": loops,
    "4 types without equality": underived,
    "4 comparing, copying, converting, printing by hand": by_hand,
    "5 facts in three or more contracts": facts,
    "5 parameters that travel together": travellers,
    "6 buffers with a length": buffers,
    "7 functions that only choose a function": switches,
    "8 answers": answers,
    "8 lemmas": lemmas,
}

asked = [word for word in sys.argv[1:] if word != "--list"]
for title, places in POINTS.items():
    if asked and title.split()[0] not in asked:
        continue
    found = list(places())
    print(f"{len(found):5} {title}")
    if "--list" in sys.argv:
        for place in found:
            print(f"      {place}")
