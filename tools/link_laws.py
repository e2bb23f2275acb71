#!/usr/bin/env python3
"""Writes proofs/Laws/Linked.antt of numbers, machines and joined: that an environment has the code of the functions of `Joined` and of all that they call.

usage: tools/link_laws.py     at the top of the repository, where the functions of the three crates are proved; then rt fmt in each. Run it again when a function comes or goes, or calls another one

It reads the calls of each function from the link that `rt check --generated` prints of it. A call of a function outside the three crates, as one of core, is an error: no law can name its link.
"""

import os
import re
import subprocess
import tempfile

CRATES = ("numbers", "machines", "joined")
TOPS = ("new", "call", "prime", "step", "cut", "set", "enter")
WHAT = {
    "numbers": "the functions of this crate that the joined machine's functions call",
    "machines": "the functions of this crate that the joined machine's functions call",
    "joined": "the exported functions of `Joined` and all that they call in this crate",
}


def called(link):
    """The functions whose code a link asks for, in that order. A closure's call and a drop that a generic function does stand in the crate that makes them."""
    symbols = {alias or "Symbol": path for path, alias in re.findall(r"^use Rattle\.(\S+)\.Symbol(?: as (\S+))?$", link, re.M)}
    asked = re.findall(r"HasT look pool (Symbol\S*)\.code →$", link, re.M)
    return [symbols[alias].replace(".proofs.", "::", 1).replace(".", "::") for alias in asked]


def calls():
    """Each function of the three crates, with those that it calls."""
    found = {}
    for crate in CRATES:
        with tempfile.TemporaryDirectory() as to:
            # it fails where the Linked.antt that stands here is out of date, and prints the links all the same
            subprocess.run(["rt", "check", "--generated", to], cwd=f"crates/{crate}", check=False, stdout=subprocess.DEVNULL, stderr=subprocess.DEVNULL)
            top = f"{to}/Rattle-{crate}-proofs"
            for folder, _, files in os.walk(top):
                if "TheLink.antt" in files:
                    path = os.path.relpath(folder, top).split(os.sep)
                    with open(f"{folder}/TheLink.antt", encoding="utf-8") as f:
                        found["::".join([crate, *path])] = called(f.read())
    return found


def below(found):
    """The functions of `Joined` and all that they call, each after those that it calls."""
    order = []

    def go(f):
        if f not in order:
            if f not in found:
                raise SystemExit(f"{f} is of none of the crates {', '.join(CRATES)}: no law can name its link")
            for g in found[f]:
                go(g)
            order.append(f)

    for top in TOPS:
        go(f"joined::joined::Joined::{top}")
    return order


def name(f):
    return re.sub(r"\W", "_", "_".join(f.split("::")[1:]))


def module(f):
    crate, *path = f.split("::")
    return f"Rattle.{crate}.proofs.{'.'.join(path)}"


def law(f, found, crate):
    """That the world has f's code and that of all that it calls."""
    given = {"numbers": ["numbers"], "machines": ["numbers", "machines"], "joined": list(CRATES)}
    rest = []
    for g in found[f]:
        of = g.split("::")[0]
        rest.append(f"has_{name(g)}" if of == crate else f"({of}-has.has_{name(g)} W {' '.join('in_' + c for c in given[of])})")
    return "".join(" " + h for h in rest)


def page(crate, order, found):
    own = sorted(f for f in order if f.startswith(crate + "::"))
    under = [c for c in CRATES[: CRATES.index(crate)]]
    called = sorted({g for f in own for g in found[f]} - set(own))
    wanted = {g for f in order if not f.startswith(crate + "::") for g in found[f] if g.startswith(crate + "::")}
    lines = [
        f"-- A table of {WHAT[crate]}: where it stands in a world of tables, each name means the code that the function has. tools/link_laws.py writes this file. Assumes nothing.",
        "use mathlib.Core.Path.{refl}",
        "use mathlib.Core.Bool.{false}",
        "use prog.Linked.{Tree, leaf, fork, World, in_world, Holds, in_table}",
        "use prog.LinkedThreads.{HasT}",
    ]
    for f in own:
        lines += [f"use {module(f)}.Symbol as {name(f)}", f"use {module(f)}.TheLink as {name(f)}-link"]
    for c in under:
        lines += [f"use Rattle.{c}.proofs.Laws.Linked as {c}-has"]
    lines += [
        "",
        "pub table : Tree",
        "table =",
    ]
    lines += [f"    fork leaf {name(f)}.symbol {name(f)}-link.entry (" for f in own[:-1]]
    f = own[-1]
    lines += [f"    fork leaf {name(f)}.symbol {name(f)}-link.entry leaf" + ")" * (len(own) - 1)]
    premises = " ".join(f'(in_{c} : Holds W "{c}" {c + "-has." if c != crate else ""}table)' for c in [*under, crate])
    lines += ["", f"module _ (W : World) {premises} where"]
    for f in order:
        if f in own:
            n = name(f)
            mark = "pub " if f in wanted or f in [f"joined::joined::Joined::{t}" for t in TOPS] else ""
            lines += [
                f"  {mark}has_{n} : HasT (in_world W) false {n}.code",
                "  unfolding table",
                f'  has_{n} = {n}-link.has (in_world W) false (in_table W "{crate}" table in_{crate} {n}.symbol refl){law(f, found, crate)}',
                "",
            ]
    return "\n".join(lines).rstrip("\n") + "\n"


def main():
    found = calls()
    order = below(found)
    for crate in CRATES:
        with open(f"crates/{crate}/proofs/Laws/Linked.antt", "w", encoding="utf-8") as f:
            f.write(page(crate, order, found))


main()
