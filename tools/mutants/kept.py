"""Outcomes that are kept: `tools/mutants/kept` has a line `CRATE SUM` for each crate whose mutants
were all killed over the texts of this sum. docs/GATE.md says what it covers.
"""

import functools
import hashlib
import re
import subprocess

import functions
import mutants

FILE = "tools/mutants/kept"
ONE_IN = 20
# What makes and judges mutants, beside the logic, which toolchains of other names may have too.
JUDGES = ["functions.py", *(f"mutants/{it}.py" for it in "by_test copies mutants verdicts".split())]
LOGIC = re.compile(r"logic \w+$")
# The files in which a function's proof is written, but for lemmas.
OF_PROOFS = ("Proof.antt", "Invariants.antt", "Answers.antt")


def sum_of(*texts):
    """One sum of these texts, each with its length, so that no text passes for two."""
    data = [text.encode(errors="surrogateescape") for text in texts]
    return hashlib.sha256(b"".join(b"%d:%b" % (len(it), it) for it in data)).hexdigest()


def read(path):
    return path.read_text(encoding="utf-8", errors="surrogateescape") if path.is_file() else ""


@functools.cache
def texts_of(crate, is_below):
    """The line of a crate and its files, without comments and blank lines. A crate below has no
    bodies of functions, and nothing that is written of their proofs."""
    found, bodies = [crate.line], {}
    for it in functions.functions_of(crate.folder) if is_below else ():
        if not it.keeps_body:
            bodies.setdefault(it.file, []).append(range(it.body + 1, it.last))
    for path in crate.files():
        if not is_below or path.name not in OF_PROOFS:
            place = path.relative_to(crate.folder).as_posix()
            mark = "//" if path.suffix == ".rt" else "--"
            taken = {at for it in bodies.get(place, ()) for at in it}
            lines = [it for at, it in enumerate(read(path).split("\n")) if at not in taken]
            left = [it for it in lines if it.strip() and not it.lstrip().startswith(mark)]
            found.append("\n".join([place, *left]))
    return found


@functools.cache
def judges(root):
    """The sum of what judges mutants."""
    told = subprocess.run(["rt", "version"], capture_output=True, text=True, check=True).stdout
    logic = LOGIC.search(told.strip())[0]
    return sum_of(logic, *(read(root / "tools" / it) for it in JUDGES))


def sum_for(root, crate):
    """The sum of all that the outcomes of the crate's mutants rest on."""
    below = [text for it in crate.below() for text in texts_of(it, True)]
    file = crate.folder / mutants.FILE
    return sum_of(judges(root), read(file), *texts_of(crate, False), *below)


def listed(root):
    """The sum of each crate for which one is kept."""
    return dict(it.split() for it in read(root / FILE).splitlines() if len(it.split()) == 2)


def write(root, sums):
    lines = [f"{name} {of}\n" for name, of in sorted(sums.items())]
    (root / FILE).write_text("".join(lines), encoding="utf-8")


def drawn(root, names):
    """Those of these mutants' names that are tried though an outcome is kept."""
    words = ["git", "-C", str(root), "rev-parse", "HEAD^{tree}"]
    tree = subprocess.run(words, capture_output=True, text=True, check=False).stdout
    return {it for it in names if int(sum_of(tree, it), 16) % ONE_IN == 0}
