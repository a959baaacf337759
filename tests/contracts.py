"""Holds the papers to the tree, and prints what is missing: contracts.py [TREE]. The exit status is 0 if nothing is.

docs/CONTRACTS.md
- A row of four columns for each public function, its path from outside in the first: `crate::module::Type::name(..)`. Public is
  what another crate can call: a `pub fn` of src/lib.rt, or of a module that is declared `pub mod` all the way.
- Two edits or more in the third column, one or more for a call for C, `edit`: fact, of the crate's must-fail folder. Every edit
  of the tree stands in a row, or somewhere as `crate/edit`.
- In the last column the lemma by which two answers are equal. Its file, crate/proofs/File.antt, is the next one that is named
  behind the lemma, in some paragraph or table row; it declares the lemma, or for `Record.field` the record and its field.
- Under the heading Exceptions, exactly the public functions that have a `requires`. A name without its crate stands beside the
  one before it.
Static libraries, NAME_c: the functions of src/lib.rt and their clauses are those of the crate NAME.
docs/ARCHITECTURE.md: under the heading of layers, each crate of crates.txt once in the second column, and no other.
README.md: no crates/NAME that is not there."""

import re
import sys
from pathlib import Path

ROOT = Path(sys.argv[1] if len(sys.argv) > 1 else Path(__file__).resolve().parent.parent)
FN = re.compile(r'^\s*(pub )?(?:extern "C" )?fn (\w+)')
NAMES = re.compile(r"`([^`]+)`")


def read(path):
    return (ROOT / path).read_text()


def crates():
    lines = (line.split("#")[0] for line in read("crates.txt").splitlines())
    return [line.split(":")[0].split()[0] for line in lines if ":" in line]


def static():
    """The static libraries: their functions are calls of a library's, for C."""
    lines = (line.split("#")[0] for line in read("crates.txt").splitlines())
    return [line.split(":")[0].split()[0] for line in lines if "staticlib" in line.split(":")[0].split()]


# ---- the tree


def modules(crate, path=()):
    """Each public module of a library, as its path and its lines without comments."""
    file = ROOT / "crates" / crate / "src" / (Path(*path).with_suffix(".rt") if path else "lib.rt")
    if not file.exists():
        return
    lines = [line.split("//")[0] for line in file.read_text().splitlines()]
    yield path, lines
    for line in lines:
        if module := re.match(r"pub mod (\w+);", line):
            yield from modules(crate, (*path, module[1]))


def functions(lines):
    """Each function of a module: its type's and its own name, whether it is public, and its lines."""
    owner, found = None, []
    for line in lines:
        if block := re.match(r"impl(?:<[^>]*>)? (\w+)", line):
            owner = block[1]
        if line.startswith("}"):
            owner = None
        if head := FN.match(line):
            names = (owner, head[2]) if owner else (head[2],)
            found.append((names, bool(head[1]), []))
        if found:
            found[-1][2].append(line)
    return found


def public():
    """Path of each public function: the words `requires` and `ensures`, as far as it has them."""
    found = {}
    for crate in [crate for crate in crates() if crate not in static()]:
        for path, lines in modules(crate):
            for names, is_public, body in functions(lines):
                if is_public:
                    words = set(re.findall(r"\b(requires|ensures)(?: \w+)? \{", "\n".join(body)))
                    found["::".join((crate, *path, *names))] = words
    return found


def edits():
    return {f"{path.parts[-3]}/{path.stem}" for path in ROOT.glob("crates/*/must-fail/*.edit")}


def declares(text, lemma):
    """Whether an antt file declares a lemma, or a record and its field."""
    record, _, field = lemma.rpartition(".")
    if record:
        block = re.search(rf"^(?:pub )?record {re.escape(record)}\b.*\n((?:\s+.*\n|\n)*)", text, re.MULTILINE)
        text = block[1] if block else ""
    return re.search(rf"^\s*(?:pub )?{re.escape(field)} :", text, re.MULTILINE) is not None


def calls(crate):
    """The functions of a library by name: the words between the name and the body, layout aside."""
    text = re.sub(r"\s+", " ", read(f"crates/{crate}/src/lib.rt"))
    return {name: head for name, head in re.findall(r'pub (?:extern "C" )?fn (\w+)(\(.*?\}) \{ ', text)}


# ---- the papers


def cells(line):
    return re.split(r"(?<!\\)\|", line.strip().strip("|"))


def section(paper, heading):
    """The table rows under the first heading that begins so."""
    found = re.search(rf"^#+ {heading}[^\n]*\n(.*?)(?=^#|\Z)", paper, re.MULTILINE | re.DOTALL)
    return [cells(line) for line in found[1].splitlines() if line.startswith("|")] if found else []


def rows(paper):
    """Path of each function that has a row: its edits and its lemmas."""
    found = {}
    for line in paper.splitlines():
        parts = cells(line)
        call = re.match(r"\s*`((?:\w+::)+\w+)[(`]", parts[0])
        if call and len(parts) == 4:
            lemmas = [name for name in NAMES.findall(parts[3]) if not name.endswith(".antt")]
            found[call[1]] = re.findall(r"`(\w+)`:", parts[2]), lemmas
    return found


def files(paper):
    """Lemma: the file that is named behind it."""
    found = {}
    for part in re.split(r"\n\n|(?<=\|)\n", paper):
        before = []
        for name in NAMES.findall(part):
            if name.endswith(".antt"):
                found.update((lemma, name) for lemma in before)
                before = []
            else:
                before.append(name)
    return found


def exceptions(paper, known):
    """The paths that stand in the table of exceptions."""
    for row in section(paper, "Exceptions"):
        before = ()
        for name in NAMES.findall(row[0]):
            path = tuple(name.split("(")[0].split("::"))
            before = path if path[0] in known and len(path) > 1 else (*before[:-1], *path)
            yield "::".join(before)


# ---- what is missing


def of_rows(table, found):
    for name, words in found.items():
        if name not in table:
            yield f"no row: {name}"
        if "ensures" not in words:
            yield f"no contract: {name}"
    for name, (named, lemmas) in table.items():
        if name not in found:
            yield f"a row for what is no public function: {name}"
        if len(set(named)) < (1 if name.startswith("exports::") else 2):
            yield f"too few edits: {name}"
        if not lemmas:
            yield f"no lemma in the last column: {name}"


def of_edits(table, paper, known):
    tried = edits()
    named = {f"{name.split('::')[0]}/{edit}" for name, (list_, _) in table.items() for edit in list_}
    told = {name for name in NAMES.findall(paper) if re.fullmatch(r"\w+/\w+", name) and name.split("/")[0] in known}
    for edit in sorted((named | told) - tried):
        yield f"named, and not there: crates/{edit.replace('/', '/must-fail/')}.edit"
    for edit in sorted(tried - named - told):
        yield f"an edit that is named nowhere: {edit}"


def of_lemmas(table, paper):
    where = files(paper)
    for lemma in sorted({lemma for _, lemmas in table.values() for lemma in lemmas}):
        if lemma not in where:
            yield f"no file is named for the lemma {lemma}"
        elif not (ROOT / "crates" / where[lemma]).is_file():
            yield f"the lemma {lemma} is to stand in crates/{where[lemma]}, and there is no such file"
        elif not declares(read(f"crates/{where[lemma]}"), lemma):
            yield f"no lemma {lemma} in crates/{where[lemma]}"


def of_exceptions(paper, found, known):
    listed = list(exceptions(paper, known))
    asking = {name for name, words in found.items() if "requires" in words}
    for name in sorted(asking - set(listed)):
        yield f"has a requires, and is not among the exceptions: {name}"
    for name in sorted(set(listed) - asking):
        yield f"among the exceptions, and {'has no requires' if name in found else 'is no public function'}: {name}"
    for name in sorted({name for name in listed if listed.count(name) > 1}):
        yield f"twice among the exceptions: {name}"


def of_static():
    """Each export of NAME_c is the call of the crate NAME, under the same clauses."""
    for crate in static():
        ours, theirs = calls(crate), calls(crate.removesuffix("_c"))
        for name in sorted(ours.keys() | theirs.keys()):
            if ours.get(name) != theirs.get(name):
                yield f"not the same in {crate} and {crate.removesuffix('_c')}: {name}"


def of_layers(known):
    listed = [name for row in section(read("docs/ARCHITECTURE.md"), "The layers") for name in NAMES.findall(row[1])]
    for name in known:
        if listed.count(name) != 1:
            yield f"{listed.count(name)} times in ARCHITECTURE's layers: {name}"
    for name in sorted(set(listed) - set(known)):
        yield f"in ARCHITECTURE's layers, and no crate: {name}"
    for name in sorted(set(re.findall(r"crates/(\w+)", read("README.md"))) - set(known)):
        yield f"in README.md, and no crate: {name}"


def missing():
    paper, known, found = read("docs/CONTRACTS.md"), crates(), public()
    table = rows(paper)
    yield from of_rows(table, found)
    yield from of_edits(table, paper, known)
    yield from of_lemmas(table, paper)
    yield from of_exceptions(paper, found, known)
    yield from of_static()
    yield from of_layers(known)


faults = list(missing())
for fault in faults:
    print(f"contracts: {fault}")
sys.exit(1 if faults else 0)
