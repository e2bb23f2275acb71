#!/usr/bin/env python3
"""Counts the places in src/ that docs/DESIGN-PASS.md speaks of, by its points, and shows them.

usage: tools/count_forms.py [ROOT]     ROOT is a checkout; this one if there is none

It goes by the text alone: what it shows is read by a person, and docs/DESIGN-PASS.md says of each place whether it is one.
"""
import collections
import glob
import os
import re
import sys

CLAUSES = ("requires", "ensures")
PRINTS = r"(say|print|show|put|write)(_\w+)?"
CONVERTS = r"(number|field|letter|reason|requested\w*|airspeed_by|request_number|present_number|airframe\w*|cut_for|is_mode|is_waypoint|fallen_back|flag|wide|made|kind\w*|option)"


class Source:
    """A file of src/, without its comments."""

    def __init__(self, root, path):
        self.path = os.path.relpath(path, os.path.join(root, "crates")).replace("/src/", "/").replace(".rt", "")
        with open(path, encoding="utf-8") as f:
            self.text = re.sub(r"//[^\n]*", "", f.read())

    def functions(self):
        """Each function: its name, its clauses and the rest of its text."""
        for m in re.finditer(r"^ *(pub(\(crate\))? )?(extern \"C\" )?fn (\w+)", self.text, re.M):
            clauses, rest, depth, begun = [], [], 0, False
            for line in self.text[m.start() :].split("\n"):
                word = line.strip()
                if not begun and word.startswith(CLAUSES):
                    clauses.append(word)
                    continue
                rest.append(word)
                depth += word.count("{") - word.count("}")
                begun = begun or "{" in word
                if (begun and depth <= 0) or (not begun and word.endswith(";")):
                    break
            yield m.group(4), clauses, " ".join(rest)

    def items(self, kind):
        """Each struct or enum: its name and its lines."""
        for m in re.finditer(rf"^(?:pub(?:\(crate\))? )?{kind} (\w+)[^\n;(]*\{{\n((?: +[^\n]*\n)*)\}}", self.text, re.M):
            yield m.group(1), [line.strip() for line in m.group(2).split("\n") if line.strip()]


def sources(root):
    return [Source(root, path) for path in sorted(glob.glob(os.path.join(root, "crates/*/src/*.rt"))) if not path.endswith("tests.rt")]


def enums(found):
    """1: enums of the shape of Option or Result: of two cases one has no value, or a case is named for a refusal."""
    for s in found:
        for name, cases in s.items("enum"):
            plain = [c for c in cases if "(" not in c]
            if any(c.startswith(("Refused", "Bad")) for c in cases) or (len(cases) == 2 and len(plain) == 1):
                yield f"{s.path} {name}"


def flags(found):
    """1: flags among the fields of a struct."""
    for s in found:
        for name, fields in s.items("struct"):
            for field in fields:
                if re.search(r": (bool|\[bool; \d+\]),", field):
                    yield f"{s.path} {name} {field.split(':')[0].split()[-1]}"


def codes(found):
    """1: matches on numbers, and numbers that stand for nothing."""
    for s in found:
        for name, _, body in s.functions():
            arms = len(re.findall(r"(?:^| )\d[\d_x]*(?:\.\.=\d+)? =>", body)) + len(re.findall(r" [A-Z]{3,} =>", body))
            if arms > 1:
                yield f"{s.path} {name} ({arms} arms)"
            if "-> isize" in body or "return -1" in body:
                yield f"{s.path} {name} (-1)"
        yield from (f"{s.path} const {m}" for m in re.findall(r"const ([A-Z]+): u8 = \d", s.text))


def twins(found):
    """2: functions whose texts are the same once the names of types, numbers and their own names are struck."""
    groups = collections.defaultdict(list)
    for s in found:
        for name, _, body in s.functions():
            text = re.sub(r"\b[A-Z]\w*\b", "T", re.sub(r"\b\d[\w.]*\b|b'.'", "N", re.sub(r"\bfn \w+", "fn", body)))
            if len(text) > 60:
                groups[re.sub(r"pub(\(crate\))? ", "", text)].append(f"{s.path} {name}")
    yield from (" ~ ".join(g) for g in groups.values() if len(g) > 1)


def twin_types(found):
    """2: structs and enums whose texts are the same once the names of types are struck."""
    groups = collections.defaultdict(list)
    for s in found:
        for kind in ("struct", "enum"):
            for name, lines in s.items(kind):
                if len(lines) > 1:
                    text = re.sub(r"\b\w+(?=[(:])|\b[A-Z]\w*\b", "T", " ".join(lines))
                    if re.search(r"\b[A-Z]\w*\b", text):
                        groups[kind + text].append(f"{s.path} {name}")
    yield from (" ~ ".join(g) for g in groups.values() if len(g) > 1)


def loops(found):
    """3: loops that step a number, by `while` or over a range of numbers."""
    for s in found:
        for name, _, body in s.functions():
            if re.search(r"\bwhile ", body) and re.search(r"\w+ [+-]= 1;|= next\(", body):
                yield f"{s.path} {name} (while)"
            yield from (f"{s.path} {name} ({m})" for m in re.findall(r"for \w+ in [^{]*\.\.[^{]*", body))


def by_hand(found):
    """4: functions that compare, convert or print."""
    for s in found:
        for name, _, _ in s.functions():
            if re.fullmatch(PRINTS + "|" + CONVERTS, name) or s.path.endswith("/show"):
                yield f"{s.path} {name}"


def facts(found):
    """5: facts that stand in the contracts of three functions or more, and parameters that travel together through three or more."""
    facts_of, pairs = collections.defaultdict(set), collections.defaultdict(set)
    for s in found:
        crate = s.path.split("/")[0]
        for name, clauses, body in s.functions():
            for c in clauses:
                for fact in re.split("×", re.sub(r"^\w+( \w+)? \{|\}$", "", c)):
                    facts_of[crate, re.sub(r"\d+", "N", fact.strip(" ()"))].add(f"{s.path} {name}")
            given = re.findall(r"(\w+): (&?(?:mut )?[\w\[\]; ]+)", body.split("->")[0].split("{")[0])
            names = tuple(n for n, t in given if t.strip() in ("usize", "&[u8]", "&mut [u8]", "&[u8; 80]", "&[f32]"))
            for k in range(2, len(names) + 1):
                pairs[crate, " ".join(names[:k])].add(f"{s.path} {name}")
            if "b: &[u8; 80]" in body:
                pairs[crate, "b: &[u8; 80]"].add(f"{s.path} {name}")
    yield from (f"{c}: {f} ({len(v)} functions)" for (c, f), v in facts_of.items() if len(v) > 2)
    yield from (f"{c}: parameters {p} ({len(v)} functions)" for (c, p), v in pairs.items() if len(v) > 2)


def buffers(found):
    """6: arrays with a count, and texts of names with a separator in them."""
    for s in found:
        yield from (f"{s.path} const {m}" for m in re.findall(r"const (\w+): \[u8; \d+\]", s.text))
        for name, _, body in s.functions():
            head = body.split("{")[0]
            if re.search(r": \[\w+; \d+\]", head) and re.search(r"\b(n|count|given): usize", head):
                yield f"{s.path} {name}"


def switches(found):
    """7: a function that chooses a step by a kind, with an arm for all others."""
    for s in found:
        for name, _, body in s.functions():
            if re.search(r"match \w*(kind|name|section)\b.*_ => \w+\(", body) and len(re.findall(r"=> \w*(?:::)?\w+\(|=> \{", body)) > 2:
                yield f"{s.path} {name}"


def proofs(root):
    """8: files of proofs of functions, and lines of lemmas."""
    files = sorted(glob.glob(os.path.join(root, "crates/*/proofs/**/*.antt"), recursive=True))
    for crate in sorted({f.split("/crates/")[1].split("/")[0] for f in files}):
        own = [f for f in files if f"/crates/{crate}/" in f]
        answers = [f for f in own if f.endswith(("/Answers.antt", "/Invariants.antt", "/Proof.antt")) and "/Laws/" not in f]
        count = sum(len(open(f, encoding="utf-8").read().split("\n")) - 1 for f in own)
        yield f"{crate}: {len(answers)} files of functions' proofs, {count} lines in all"


def main():
    if sys.argv[1:] in (["--help"], ["-h"]) or len(sys.argv) > 2:
        print(__doc__.strip())
        return 0 if len(sys.argv) == 2 else 2
    root = os.path.abspath(sys.argv[1] if len(sys.argv) > 1 else os.path.join(os.path.dirname(os.path.realpath(__file__)), ".."))
    found = sources(root)
    for count in (enums, flags, codes, twins, twin_types, loops, by_hand, facts, buffers, switches):
        places = list(count(found))
        print(f"{count.__doc__.strip()} {len(places)}")
        print("".join(f"    {p}\n" for p in places), end="")
    places = list(proofs(root))
    print(f"{proofs.__doc__.strip()} {len(places)} crates")
    print("".join(f"    {p}\n" for p in places), end="")
    return 0


sys.exit(main())
