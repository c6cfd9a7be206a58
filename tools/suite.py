"""Writes the scripts of `mcrace test` as rows of data: crates/mc_suite/src/races.rt and alone.rt,
from examples/races and examples/alone."""

import pathlib
import re

ROOT = pathlib.Path(__file__).resolve().parents[1]
WIDTH = 110
VERBS = "set add replace cas append prepend incr decr delete touch get gets".split()
REQUEST = re.compile(rf"^({'|'.join(VERBS)}) ", re.M)
RACES = """//! The races that are looked for. `tools/tables` writes this file from `examples/races`.

use crate::race::Race;

/// Each race, in the order of their names.
pub(crate) static RACES: &[Race] = &[
"""
ALONE = """//! What each verb is asked alone. `tools/tables` writes this file from `examples/alone`.

use crate::race::Alone;

/// A script for each verb.
pub(crate) static VERBS_ALONE: &[Alone] = &[
"""


def literal(text, indent):
    """The text as a literal of several lines."""
    words, lines, line = [f"{it}\\n" for it in text.splitlines()], [], ""
    for word in words:
        if line and len(line) + len(word) > WIDTH - indent:
            lines.append(line)
            line = ""
        line += word
    lines.append(line)
    return '"' + ("\\\n" + " " * indent).join(lines) + '"'


def read(file):
    """The sentence of a script's first line, and the lines below it."""
    first, script = file.read_text(encoding="utf-8").split("\n", 1)
    return first.split(": ", 1)[1].rstrip("."), script


def races():
    rows = []
    files = sorted((ROOT / "examples/races").glob("*.script"))
    names = sorted({it.stem.rsplit("-", 1)[0] for it in files})
    for name in names:
        own = [it for it in files if it.stem.rsplit("-", 1)[0] == name]
        sentence, scripts = read(own[0])[0], [read(it)[1] for it in own]
        asked = {it for script in scripts for it in REQUEST.findall(script)}
        verbs = " ".join(it for it in VERBS if it in asked)
        rows += ["    Race {", f'        name: "{name}",', f'        sentence: "{sentence}",',
                 f'        verbs: "{verbs}",', "        scripts: &["]
        rows += [f"            {literal(it, 16)}," for it in scripts]
        rows += ["        ],", "    },"]
    return RACES + "\n".join(rows) + "\n];\n"


def alone():
    rows = []
    for verb in VERBS:
        script = read(ROOT / f"examples/alone/{verb}.script")[1]
        rows += ["    Alone {", f'        verb: "{verb}",',
                 f"        script: {literal(script, 12)},", "    },"]
    return ALONE + "\n".join(rows) + "\n];\n"
