#!/usr/bin/env python3
"""Brings the names of this repository's own definitions and lemmas to today's spelling, once, after the kit's own script.

usage: python3 tools/respell.py        at the top of the checkout

Words of specs/, fields of records and lemmas go to snake case, facts and types to camel case. A lemma on a word of the library keeps its
dash, as length-laid. Names of src/, strings and comments stay. Two names that would fall together stop the script.
"""

import glob
import re
import sys

# Names that no rule gives.
BY_HAND = {
    "getD-marks": "get_or-marks",
    "natAbs-add": "unsigned_abs-add",
    "ltZ-add": "int_lt_add",
    "holdOf": "hold_from",
    "gainOf": "gain_from",
    # a name that looks made, names of imports, variables and parts of a lemma
    "apart-init": "apart_init",
    "Drawing-faults": "DrawingFaults",
}
BY_HAND |= {
    n: n.replace("-", "_")
    for n in """agree-x allowed-is deep-enough first-long four-of head-is hours-is i-xs in-marks no-open not-complete not-head old-clear
    on-two others-lines pos-size refused-texts right-in same-front second-long second-same site-fits stations-in within-take
    zero-at""".split()
}
# Words of the library: a lemma on one of them keeps its dash, as length-laid.
WORDS = set("length take map get_or cond unsigned_abs".split())
TOKEN = re.compile(r"[^\s(){}\[\].,;:«»\"`]+")
HEAD = re.compile(r"^\s*(?:where\s+)?((?:abbrev |unfoldable |pub |data |record )*)([^\s:(){}.;=]+(?: [^\s:(){}.;=]+)*)\s*(?:[({][^:]*:|:)(?!=)")
MADE = re.compile(r"^(invariant|decreases|loop|returns|bounds|overflow)-|^(c|w|l)$|-(requires|preserved|init|smaller)(-|$)")


def files(kind):
    for p in sorted(glob.glob(f"crates/*/{kind}/**/*.antt", recursive=True)):
        yield p


def in_function(path):
    return "/proofs/" in path and path.split("/proofs/")[1].count("/") > 0


def snake(name):
    return re.sub(r"(?<=[a-z0-9])([A-Z])", lambda m: "_" + m.group(1).lower(), name.replace("-", "_"))


def declared():
    """Each name with the crates and kinds of its declarations."""
    found = {}
    for kind in ("specs", "proofs"):
        for p in files(kind):
            with open(p) as f:
                text = f.read()
            made = set(re.findall(r"^(?:abbrev )?(?:pub )?(\S+) : (?:goal|need|given|Given|Goals|Needs)\.", text, re.M)) if in_function(p) else set()
            for line in text.splitlines():
                if line.lstrip().startswith(("--", "use ", "open ", "let ", "λ", "(", "∙", "elim")):
                    continue
                m = HEAD.match(line)
                for name in m.group(2).split() if m else []:
                    if name not in made and not MADE.search(name) and not name.startswith("◌"):
                        found.setdefault(name, set()).add((p.split("/")[1], kind))
    return found


def new_name(name, where):
    if name in BY_HAND:
        return BY_HAND[name]
    if not name[0].isalpha():
        return name
    if name[0].isupper():
        return "".join(p[:1].upper() + p[1:] for p in name.split("-"))
    first, dash, rest = name.partition("-")
    if dash and first in WORDS and all(kind == "proofs" for _, kind in where):
        return first + "-" + snake(rest)
    return snake(name)


def turn(text, names, rust):
    out = []
    for line in text.split("\n"):
        head, tail = line, ""
        cut = re.search(r"(^|\s)//" if rust else r"(^|\s)--(\s|$)", line)
        if cut:
            head, tail = line[: cut.start()], line[cut.start() :]
        parts = re.split(r'("(?:[^"\\]|\\.)*")', head)
        for i in range(0, len(parts), 2):
            parts[i] = TOKEN.sub(lambda m: names.get(m.group(0), m.group(0)), parts[i])
        out.append("".join(parts) + tail)
    return "\n".join(out)


def main():
    found = declared()
    names = dict(BY_HAND)
    for name, where in found.items():
        new = new_name(name, where)
        if new != name:
            names[name] = new
    clash = False
    for old, new in sorted((o, n) for o, n in names.items() if o in found):
        others = [o for o, n in names.items() if n == new and o != old] + ([new] if new in found else [])
        for other in others:
            both = {c for c, _ in found[old]} & {c for c, _ in found[other]}
            print(f"{'same crate' if both else 'apart'}: {old} and {other} -> {new} {sorted(found[old])} {sorted(found[other])}")
            clash = clash or bool(both)
    if clash:
        sys.exit("names fall together")
    for kind, pattern, rust in (("specs", "antt", False), ("proofs", "antt", False), ("src", "rt", True)):
        for p in sorted(glob.glob(f"crates/*/{kind}/**/*.{pattern}", recursive=True)):
            with open(p) as f:
                text = f.read()
            turned = turn(text, names, rust)
            if turned != text:
                with open(p, "w") as f:
                    f.write(turned)
    for old in sorted(names):
        print(f"{old} {names[old]}")


main()
