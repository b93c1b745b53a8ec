#!/usr/bin/env python3
"""Where the time of a crate's proofs goes: seconds by function, the slowest first.

Run `rt check --jobs 1` in crates/NAME from nothing (without its folder out/incremental), and then
`bench/proofs.py NAME [LINES]` at the top. A check writes each module as it ends with it, so the times
of writing tell how long each took. Modules that were kept from an earlier check tell nothing.
"""
import collections
import os
import re
import sys

# A function's modules: its borrows are Lts, what search and the answers close is Proof.
KINDS = r"\.(Proof|Lts|Code|Tie|Answers|Statement|Met|Reads|Invariants|Goals|Given)\b.*"
# A longer gap lies between two checks.
GAP = 60


def modules(folder):
    """The times at which modules were written, with their names, the first first."""
    found = []
    for at, _, names in os.walk(folder):
        for name in names:
            if name.endswith(".oantt"):
                found.append((os.stat(os.path.join(at, name)).st_mtime, name))
    return sorted(found)


def main():
    name = sys.argv[1]
    lines = int(sys.argv[2]) if len(sys.argv) > 2 else 20
    functions, kinds = collections.Counter(), collections.Counter()
    found = modules(f"crates/{name}/out/incremental")
    for (before, _), (at, module) in zip(found, found[1:]):
        seconds = at - before if at - before < GAP else 0
        module = module.removesuffix(".oantt").removesuffix(".decls")
        kind = re.search(KINDS, module)
        functions[re.sub(KINDS, "", module)] += seconds
        kinds[kind[1] if kind else "others"] += seconds
    print(f"{name}: {sum(kinds.values()):.0f} s,", ", ".join(f"{kind} {seconds:.0f}" for kind, seconds in kinds.most_common(6)))
    for function, seconds in functions.most_common(lines):
        print(f"{seconds:7.1f} {function}")


main()
