"""The mutants of a crate, `crates/NAME/mutants`, in the form that docs/GATE.md has: blocks between
blank lines, of lines `WORD: TEXT` below a name. Each pair `old: TEXT` and `new: TEXT` changes a
part of one line, which stands exactly once in what the pairs above made of the file. A line with
`#` is a comment. A block of a public function's path and `none: WHY` says why it has no mutant.
"""

import re
from dataclasses import dataclass, field

import functions

FILE = "mutants"
# What kills a mutant: an open goal of its function, what is written of the function's proof, or
# a test.
GOAL, PROOF, TEST = "goal", "proof", "test"


class BadMutant(Exception):
    """A mutant that isn't in the form, or whose source has changed."""


@dataclass(eq=False)
class Mutant:
    """Of each file the lines that the mutant changes, by their place, and what it makes of them."""

    crate: str
    name: str
    changed: dict = field(default_factory=dict)
    # The functions in which it stands: one, unless a test kills it.
    functions: list = field(default_factory=list)
    # The crate and the name of the test that kills it.
    test: tuple = ()
    named: str = ""
    by: str = GOAL

    def __str__(self):
        return f"{self.crate}/{self.name}"

    @property
    def function(self):
        return self.functions[0]

    def apply(self, folder):
        """Writes what it makes of the files in this copy of its crate's folder."""
        for file, changed in self.changed.items():
            lines = lines_of(folder / file)
            for at, line in changed.items():
                lines[at] = line
            (folder / file).write_text("\n".join(lines), encoding="utf-8")


def path_of(crate, function):
    """The path of a function as `rattle` has it."""
    return "::".join((crate, *function.path))


def lines_of(file):
    return file.read_text(encoding="utf-8").split("\n")


def read_all(crate, of_crate):
    """The mutants of a crate with these functions, and what is wrong with others or with functions
    that have none."""
    file, found, none, faults = crate.folder / FILE, {}, set(), {}
    text = file.read_text(encoding="utf-8") if file.is_file() else ""
    for block in re.split(r"\n\s*\n", re.sub(r"(?m)^#.*\n", "", text).strip("\n")):
        name, *lines = block.split("\n")
        what = f"{crate.name}/{name}"
        try:
            if lines and lines[0].startswith("none: "):
                none.add(name)
            elif name and (not re.fullmatch(r"\w+", name) or what in found):
                raise BadMutant("its name is no word, or is that of another")
            elif name:
                found[what] = read(Mutant(crate.name, name), lines, crate, of_crate)
        except BadMutant as fault:
            faults[what] = f"bad mutant: {fault}"
    return list(found.values()), faults | faults_of_cover(crate, of_crate, found.values(), none)


def read(mutant, lines, crate, of_crate):
    """The mutant that these lines describe."""
    texts, file, old = {}, None, None
    for line in lines:
        word, _, rest = line.partition(":")
        rest = rest.removeprefix(" ")
        if word == "file" and rest.startswith("src/") and (crate.folder / rest).is_file():
            file = rest
            texts.setdefault(file, "\n".join(lines_of(crate.folder / file)))
        elif word == "old" and file and rest and old is None:
            old = rest
            if (count := texts[file].count(old)) != 1:
                raise BadMutant(f"its old text stands {count} times in {file}: {old.strip()}")
        elif word == "new" and old:
            texts[file], old = texts[file].replace(old, rest), None
        elif word == "test" and re.fullmatch(r"\w+::\w+", rest):
            mutant.test, mutant.by = tuple(rest.split("::")), TEST
        elif word == "named" and rest.strip():
            mutant.named = rest
        elif word == "by" and rest == PROOF:
            mutant.by = PROOF
        else:
            raise BadMutant(f"a line isn't in the form: {line[:40]}")
    if old is not None:
        raise BadMutant("its last line 'old:' has no 'new:'")
    for file, text in texts.items():
        place(mutant, file, lines_of(crate.folder / file), text.split("\n"), of_crate)
    if not any(mutant.changed.values()):
        raise BadMutant("it changes nothing")
    if not mutant.test and len(mutant.functions) != 1:
        raise BadMutant(f"it stands in {len(mutant.functions)} functions, and not in one")
    return mutant


def place(mutant, file, lines, new, of_crate):
    """Notes what the mutant makes of a file's lines, and in which functions. It changes no
    contract, and nothing outside of functions unless a test kills it."""
    mutant.changed[file] = {at: new[at] for at, line in enumerate(lines) if new[at] != line}
    for at in mutant.changed[file]:
        within = [it for it in of_crate if it.file == file and it.holds(at)]
        if functions.CLAUSE.match(lines[at]) or any(it.has_clause_at(lines, at) for it in within):
            raise BadMutant(f"{file}, line {at + 1}: this is part of a contract")
        if not within and not mutant.test:
            raise BadMutant(f"{file}, line {at + 1}: this is part of no function")
        mutant.functions += [it for it in within if it not in mutant.functions]


def faults_of_cover(crate, of_crate, found, none):
    """The public functions in which no mutant stands, and what is wrong with a line `none:`."""
    mutated = {path_of(crate.name, function) for it in found for function in it.functions}
    public = functions.public_functions(crate.folder, of_crate)
    names = {path_of(crate.name, it) for it in public}
    lacking = dict.fromkeys(names - mutated - none, "no mutant stands in this function")
    odd = none - (names - mutated)
    return lacking | dict.fromkeys(odd, "`none:` is of no public function without a mutant")
