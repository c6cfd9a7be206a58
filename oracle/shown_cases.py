#!/usr/bin/env -S python3 -B
"""Compares each refusal of code that stands in the cases and the examples with what a second
verifier says (`verifier.py`).

usage: shown_cases.py PROGRAM

The program only assembles the scripts. The fault must be the first that there is, and a run that a
refusal shows must show it. The cases in `cases/check/forced-runs.cases` must have no other run: but
for replies of one sort, which lead to the same place and show the same, just one run shows the
fault.
"""

import functools
import multiprocessing
import re
import subprocess

from comparing import ROOT, compare, parser_of
from model import SECTIONS, code_of
from verifier import odd_answer, runs_apart

import cases  # which comparing finds

FORCED = "cases/check/forced-runs.cases"


def expected_answers():
    """Each input that may be refused, with what must be printed, and where that stands."""
    for path in sorted((ROOT / "cases").rglob("*.cases")):
        for it in cases.cases_in(path):
            if it.words and it.words[0] in ("check", "drive", "run"):
                yield it.name, it.input, it.output.decode(errors="replace")
    for path in sorted((ROOT / "examples").glob("*.script")):
        checked = path.with_suffix(".checked").read_text(encoding="utf-8")
        yield path.name, path.read_bytes(), checked.rpartition("exit status")[0]


def image_in(program, given):
    """The image that is given, or that of the script at the front."""
    if given.startswith(b"MCR"):
        return given
    lines = given.split(b"\n")
    end = next(at for at, line in enumerate(lines) if line.split() == [b"end"])
    script = b"".join(line + b"\n" for line in lines[: end + 1])
    return subprocess.run([program, "asm"], input=script, capture_output=True, check=True).stdout


def answer_for(program, name, given, printed):
    """The first words of a refusal, and what is wrong with it or None."""
    # after the run stands what `--why` says of it
    run = re.match(r"(?s).*?^end\n", printed, re.M)
    code, printed = code_of(image_in(program, given)), run[0] if run else printed
    fault = odd_answer(code, printed, 3)
    if not fault and name.startswith(FORCED):
        first, *lines = printed.splitlines()
        kind, _, section, place = first.split()[2:]
        found = list(runs_apart(code, (int(kind), SECTIONS.index(section), int(place))))
        fault = None if len(found) == 1 else f"{len(found)} runs show {lines}: {found}"
    return " ".join(printed.split()[:4]), fault and f"{name}: {fault}"


def answers(given):
    refusals = [it for it in expected_answers() if it[2].startswith("refused verify ")]
    with multiprocessing.Pool() as pool:
        yield from pool.starmap(functools.partial(answer_for, given.program), refusals, chunksize=4)


if __name__ == "__main__":
    compare(parser_of(__doc__), answers)
