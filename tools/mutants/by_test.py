"""Mutants that a test kills: it must fail with its mutant. That it passes without `rt ci` has seen.

One program runs the tests of many mutants, since most of its time goes into reading the libraries
below. For each mutant it has a copy, with a number after its name, of the mutant's crate and of
those between it and the tests; and the crate of the tests as a module over these, with that test
alone.
"""

import re
import shutil

import crates
import parts

RAN = re.compile(r"(?m)^test mutant_(\d+)::\S+ \.\.\. (\w+)")
# A test, with the comments above it.
TEST = re.compile(r"(?m)(?:^ *//.*\n)*^( *)#\[test\]\n\1fn (\w+)(?:.*\n)*?\1\}\n")
OF_CRATE = re.compile(r"(?m)^#!\[.*\]\n")
LIB = "#![tactic(auto)]\n"


def add(mutant, number, program, crate, home):
    """Adds to a program the copies with this number and the module of the mutant's test. Answers
    whether the crate has that test once."""
    is_above = lambda it: mutant.crate in (it.name, *(of.name for of in it.below()))
    found, copies = [it for it in crate.below() if is_above(it)], {}
    name = re.compile(rf"\b({'|'.join(re.escape(it.name) for it in found)})\b")
    numbered = lambda text: name.sub(rf"\1_{number}", text)
    for it in found:
        folder = home / numbered(it.name)
        own = [copies.get(used, used) for used in it.own]
        copies[it] = crates.Crate(folder.name, folder, own, it.of_kit)
        shutil.copytree(it.folder / "src", folder / "src")
        if it.name == mutant.crate:
            mutant.apply(folder)
        for file in (folder / "src").rglob("*.rt"):
            file.write_text(numbered(file.read_text(encoding="utf-8")), encoding="utf-8")
    program.own += [copies.get(it, it) for it in crate.own]
    program.of_kit += crate.of_kit
    return add_module(mutant.test[1], f"mutant_{number}", numbered, program.folder / "src", crate)


def add_module(test, module, numbered, to, crate):
    """Adds the crate of the test as a module, over the copies, with no other test than this."""
    with open(to / "lib.rt", "a", encoding="utf-8") as lib:
        lib.write(f"#[cfg(test)]\nmod {module};\n")
    count = 0
    for file in (crate.folder / "src").rglob("*.rt"):
        text = file.read_text(encoding="utf-8")
        count += [found[2] for found in TEST.finditer(text)].count(test)
        text = TEST.sub(lambda found: found[0] if found[2] == test else "", text)
        text = numbered(text).replace("crate::", f"crate::{module}::")
        place = file.relative_to(crate.folder / "src")
        made = to / (f"{module}.rt" if str(place) == "lib.rt" else module / place)
        made.parent.mkdir(exist_ok=True)
        made.write_text(OF_CRATE.sub("", text), encoding="utf-8")
    return count == 1


def run(batch, crate, kit, home):
    """Runs the tests of these mutants, which are of this crate. Answers of each whether its test
    passed, or None if that didn't run, with what was said and the seconds."""
    program = crates.Crate("program", home / "program", [], [])
    (program.folder / "src").mkdir(parents=True)
    (program.folder / "src/lib.rt").write_text(LIB, encoding="utf-8")
    has_it = [add(it, number, program, crate, home) for number, it in enumerate(batch, 1)]
    program.own = list(dict.fromkeys(program.own))
    (home / "tmp").mkdir()
    words = ["env", f"TMPDIR={home / 'tmp'}", *crates.words_of_try(program, kit)]
    _, said, seconds = parts.run(words, program.folder)
    words = dict(RAN.findall(said))
    ran = [words.get(str(number)) if has else None for number, has in enumerate(has_it, 1)]
    return [it and it == "ok" for it in ran], said, seconds
