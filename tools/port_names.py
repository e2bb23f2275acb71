#!/usr/bin/env python3
"""Brings the repository's own definitions and lemmas to snake case, once, after the kit's port.py.

usage: tools/port_names.py [--list]     at the top of the repository; --list prints the names and changes nothing

Types, modules and what Rattle makes keep their names. In comments and pages a name is turned only between backquotes.
"""

import os
import re
import sys

WORD = r"[^\s(){}\[\].;,:@\"`|]+"
MARKS = r"(?:pattern |unfoldable |abbrev |pub |axiom )*"
DECLARED = re.compile(r"^\s*(?:\| )?" + MARKS + r"((?:" + WORD + r" )*" + WORD + r") :(?: |$)")
KIND = re.compile(r"^\s*" + MARKS + r"(?:data|record|module|ruleset) ")
TOKEN = re.compile(WORD)
# Where two names would fall together, or one would be that of a field of the code.
OTHER = {
    "after-cut": "after_cut_lem",
    "back-share": "back_share_lem",
    "backThrust": "back_thrust_of",
    "copter-row": "copter_row_lem",
    "floor-trips": "floor_tripped",
    "high-enough": "high_enough_lem",
    "mode-is": "mode_is_lem",
    "new-handoff": "new_handoff_lem",
    "new-with": "new_with_lem",
    "quadplane-thrust": "quadplane_thrust_lem",
    "ramp-in": "ramp_in_lem",
    "report-at": "report_at_height",
    "root-of": "root_of_lem",
    "row-abandons": "row_abandons_lem",
    "step-abandons": "step_abandons_lem",
    "tailsitter-thrust": "tailsitter_thrust_lem",
    "thrust-in": "thrust_in_lem",
    "tilt-in": "tilt_in_lem",
    "times-out": "times_out_lem",
    "whole-root": "whole_root_lem",
}
# Names that the kit's script turned already, and that a definition's new name would meet.
MET = {
    "crates/card/proofs/Laws/Binary32.antt": {"with_call": "with_call_lem"},
    "crates/card/proofs/Laws/WriterAnswers.antt": {"in_order": "in_order_lem"},
    "crates/joined/proofs/Laws/Answers.antt": {"new_by": "new_by_lem"},
    "crates/joined/proofs/Laws/Effects.antt": {"new_by": "new_by_lem"},
    "crates/joined/proofs/Laws/RangesQuadplane.antt": {"share_in": "share_in_lem"},
    "crates/joined/proofs/Laws/RangesThrust.antt": {"run_up": "run_up_lem"},
    "crates/joined/proofs/Laws/WrongTurns.antt": {"found_in": "now_in"},
    "crates/numbers/proofs/Laws/Tilt.antt": {"run_up": "run_up_lem"},
}
MADE = re.compile(r"tie\.|: \{M : Type 1\} → statement M")


def files(*endings):
    for top in ("crates", "docs", "oracle"):
        for folder, dirs, names in os.walk(top):
            dirs[:] = sorted(d for d in dirs if d not in ("out", "target"))
            for name in sorted(names):
                if name.endswith(endings):
                    yield os.path.join(folder, name)


def snake(name):
    name = name.replace("-", "_")
    return re.sub(r"(?<=[a-z0-9])(?=[A-Z])", "_", name).lower()


def turned(name):
    """A name in camel case or with a dash, and no type."""
    return name[0].islower() and bool(re.search(r"[a-z0-9][A-Z]|\w-\w", name))


def split(line, mark):
    """The line before its comment, and the comment. A mark in a string does not count."""
    at = line.find(mark)
    while at >= 0 and line[:at].count('"') % 2:
        at = line.find(mark, at + 1)
    return (line, "") if at < 0 else (line[:at], line[at:])


def declared(wanted):
    found = set()
    for path in files(".antt"):
        for line in open(path, encoding="utf-8"):
            code = split(line, "--")[0]
            m = DECLARED.match(code)
            if not m or KIND.match(code) or MADE.search(code) or re.search(r"[λ↦=]|\blet\b|\belim\b", m.group(1)):
                continue
            found.update(n for n in m.group(1).split() if wanted(n))
    return found


def in_code(text, names):
    parts = re.split(r'("(?:[^"\\]|\\.)*")', text)
    return "".join(p if p.startswith('"') else TOKEN.sub(lambda m: names.get(m.group(), m.group()), p) for p in parts)


def in_quotes(text, names):
    return re.sub(r"`[^`]+`", lambda m: TOKEN.sub(lambda t: names.get(t.group(), t.group()), m.group()), text)


def in_page(text, names):
    """Between backquotes, and in blocks that hold definitions or clauses."""
    parts = re.split(r"(^```.*?^```$)", text, flags=re.M | re.S)
    for i, part in enumerate(parts):
        if not part.startswith("```"):
            parts[i] = "\n".join(in_quotes(line, names) for line in part.split("\n"))
        elif re.search("[→≡⌜]", part):
            parts[i] = in_code(part, names)
    return "".join(parts)


def turn(path, names):
    old = open(path, encoding="utf-8").read()
    mark = {"antt": "--", "rt": "//"}.get(path.rsplit(".", 1)[1])
    if mark is None:
        new = in_page(old, names)
    else:
        pairs = (split(line, mark) for line in old.split("\n"))
        new = "\n".join(in_code(code, names) + in_quotes(comment, names) for code, comment in pairs)
    if new != old:
        open(path, "w", encoding="utf-8").write(new)


def main():
    names = {n: OTHER.get(n, snake(n)) for n in sorted(declared(turned))}
    if "--list" in sys.argv:
        print("\n".join(f"{a} {b}" for a, b in names.items()))
        return
    for path in files(".antt", ".rt"):
        turn(path, names | MET.get(path, {}))
    # The pages have the names that the kit's script turned too.
    now = declared(bool)
    for path in [*files(".md"), "README.md"]:
        words = {w for w in TOKEN.findall(open(path, encoding="utf-8").read()) if w not in names and w not in now and w[0].islower() and turned(w) and snake(w) in now}
        turn(path, names | {w: snake(w) for w in words})


main()
