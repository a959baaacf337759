"""Prints the tables of docs/GATE.md from what the rt ci of a kit before rattle-kit-13f printed: gate_seconds.py LOG. A gate's whole
log will do. Later kits print no seconds."""

import re
import sys

PROOF = re.compile(r"rt: (\w+) proved \((\d+) s\)")
EDIT = re.compile(r"rt: must-fail (\w+)/(\w+): refused, as it must be \(.*?(\d+) s\)")


def seconds(lines):
    """The seconds of each crate's proof, and of each crate's edits by name."""
    proofs, edits = {}, {}
    for line in lines:
        if proof := PROOF.match(line):
            proofs[proof[1]] = int(proof[2])
        elif edit := EDIT.match(line):
            edits.setdefault(edit[1], {})[edit[2]] = int(edit[3])
    return proofs, edits


def row(name, proof, edits):
    took = sum(edits)
    share = f"{len(edits)} | {took} | {took / len(edits):.0f}" if edits else " |  | "
    return f"| {name} | {proof} | {share} |"


def crate_table(proofs, edits):
    """The dearest first."""
    tried = {crate: list(edits.get(crate, {}).values()) for crate in proofs}
    yield "| Crate | Proof, s | Edits | Edits, s in all | s an edit |"
    yield "|---|---|---|---|---|"
    for crate in sorted(proofs, key=lambda crate: -(proofs[crate] + sum(tried[crate]))):
        yield row(f"`{crate}`", proofs[crate], tried[crate])
    yield row("all", sum(proofs.values()), [took for crate in tried.values() for took in crate])


def edit_table(edits):
    yield "| Crate | Edits, with their seconds |"
    yield "|---|---|"
    for crate in sorted(edits, key=lambda crate: -sum(edits[crate].values())):
        names = ", ".join(f"`{name}` {took}" for name, took in sorted(edits[crate].items()))
        yield f"| `{crate}` | {names} |"


def main():
    with open(sys.argv[1], encoding="utf-8", errors="replace") as log:
        proofs, edits = seconds(log)
    if not proofs:
        sys.exit("gate_seconds: no crate was proved in this log")
    print(*crate_table(proofs, edits), "", "## Each edit", "", *edit_table(edits), sep="\n")


main()
