"""Wrong definitions, each tried on a copy of `meaning`, `laws` and `tender`: the laws or the promises must refuse it.

    tests/wrong.py          all of tests/wrong, some 30 s each
    tests/wrong.py --gate   those that the gate tries
    tests/wrong.py NAME..   these

An entry, tests/wrong/NAME.edit, is like a must-fail edit: comments, `file:` (below crates/meaning), and pairs of `old:` and
`new:`, whole lines that stand there once. A comment `# Promise: ..` names the promise that it would make false, and `# gate`
marks it for the gate. The wrong definition must itself be in order: what is refused is a law or a promise, by a fact. The last
line is 'N passed, M failed'.
"""
import os
import re
import shutil
import subprocess
import sys
import tempfile
from concurrent.futures import ThreadPoolExecutor

ROOT = os.path.dirname(os.path.dirname(os.path.abspath(__file__)))
EDITS = os.path.join(ROOT, "tests", "wrong")
CRATES = ["meaning", "laws", "tender"]
PROVERS = min(4, os.cpu_count() or 1)
# What only says that a text is not in order.
NOT_A_FACT = re.compile(r"not in scope|expected `|cannot go on|no `mod`|has no (field )?`|can(not)? be named|is not a constructor")


def read_edit(name):
    """The comments of an entry, and for each file the pairs of lines."""
    comments, files = [], []
    with open(os.path.join(EDITS, name + ".edit"), encoding="utf-8") as lines:
        for line in lines.read().splitlines():
            if line.startswith("#"):
                comments.append(line[1:].strip())
            elif line.startswith("file: "):
                files.append((line[6:], []))
            elif line.startswith("old: "):
                files[-1][1].append([line[5:], None])
            elif line.startswith("new: "):
                last = files[-1][1][-1]
                last[1] = line[5:] if last[1] is None else last[1] + "\n" + line[5:]
    return comments, files


def copy_tree(room):
    """The three crates, with a list of crates of their own."""
    for crate in CRATES:
        shutil.copytree(os.path.join(ROOT, "crates", crate), os.path.join(room, "crates", crate), ignore=shutil.ignore_patterns("must-fail", "out"))
    with open(os.path.join(ROOT, "crates.txt"), encoding="utf-8") as lines:
        kept = [line for line in lines if line.split(":")[0] in CRATES]
    with open(os.path.join(room, "crates.txt"), "w", encoding="utf-8") as out:
        out.writelines(kept)


def prove(room):
    """The first crate that is not proved, or None; and what its check said."""
    for crate in CRATES:
        done = subprocess.run(["rt", "check"], cwd=os.path.join(room, "crates", crate), stdout=subprocess.PIPE, stderr=subprocess.STDOUT, check=False)
        if done.returncode != 0:
            return crate, done.stdout.decode("utf-8", "replace")
    return None, ""


def apply_edit(room, files):
    """What was there before, to be put back; or what is wrong with the entry."""
    saved = []
    for name, pairs in files:
        path = os.path.join(room, "crates", "meaning", name)
        with open(path, encoding="utf-8") as text:
            before = text.read()
        after = before
        for old, new in pairs:
            if after.count("\n" + old + "\n") != 1:
                return saved, f"{name}: no such line, or more than one: {old}"
            after = after.replace("\n" + old + "\n", "\n" + (new or "") + "\n")
        saved.append((path, before))
        with open(path, "w", encoding="utf-8") as out:
            out.write(after)
    return saved, None


def judge(crate, said):
    """None if laws or promises refuse by a fact, else what is wrong; and where it was refused."""
    errors = [line for line in said.splitlines() if ": error" in line and not line.startswith("so far:")]
    errors = [line for line in errors if "not admitted" not in line and "was rejected" not in line]
    if crate is None:
        return "still proved", ""
    if crate == CRATES[0]:
        return "the wrong definition is not in order itself", "\n".join(errors[:3])
    if not errors:
        return "refused with no error", said[-400:]
    facts = [line for line in errors if not NOT_A_FACT.search(line)]
    if not facts:
        return "refused on no fact", "\n".join(errors[:3])
    where = re.search(r"^\./proofs/([^:]*)\.antt:\d+:\d+: error: `([^`]*)`", facts[0])
    return None, f"{crate}/{where[1]}, {where[2]}" if where else facts[0][:120]


def try_edit(room, name, comments, files):
    """What is wrong with the entry, or None; and where it was refused."""
    saved, fault = apply_edit(room, files)
    where = ""
    if fault is None and not any(comment.startswith("Promise: ") for comment in comments):
        fault = "it names no promise"
    if fault is None:
        fault, where = judge(*prove(room))
    for path, before in saved:
        with open(path, "w", encoding="utf-8") as out:
            out.write(before)
    print(f"wrong: {name}: " + (f"refused ({where})" if fault is None else f"FAILED: {fault} {where}"), flush=True)
    return fault is None


def chosen(args):
    names = sorted(entry[:-5] for entry in os.listdir(EDITS) if entry.endswith(".edit"))
    edits = {name: read_edit(name) for name in names}
    if args == ["--gate"]:
        names = [name for name in names if "gate" in edits[name][0]]
    elif args:
        names = args
    return [(name, *edits[name]) for name in names]


def main(args):
    edits = chosen(args)
    with tempfile.TemporaryDirectory() as top:
        first = os.path.join(top, "0")
        copy_tree(first)
        crate, said = prove(first)
        if crate is not None:
            print(said[-2000:])
            print("wrong: the definitions as they are are not proved")
            print("0 passed, 1 failed")
            return 1
        # a copy for each prover, with what is proved
        rooms = [first] + [os.path.join(top, str(k)) for k in range(1, PROVERS)]
        for room in rooms[1:]:
            shutil.copytree(first, room, symlinks=True)
        with ThreadPoolExecutor(PROVERS) as pool:
            share = lambda k: [try_edit(rooms[k], *edit) for edit in edits[k::PROVERS]]
            results = [good for goods in pool.map(share, range(PROVERS)) for good in goods]
    print(f"{sum(results)} passed, {len(results) - sum(results)} failed")
    return 0 if all(results) else 1


if __name__ == "__main__":
    sys.exit(main(sys.argv[1:]))
