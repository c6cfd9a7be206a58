"""The public calls of the libraries, and the list of those whose answer can say want of memory."""

import re

import functions

FILE = "tools/memory/calls.txt"
# What the program does, reads and says: its allocations are refused on each case and example.
PROGRAM = {"mc_answers", "mc_cli", "mc_command", "mc_hints", "mc_suite"}
# The words of answers that say it: of std, of ended connections, and a count of missing threads.
WORDS = {"OutOfMemory", "AllocError", "Memory", "Listened"}
DECLARED = re.compile(r"^pub (?:enum|struct) (\w+)[^;{]*\{(.*?)^\}", re.S | re.M)
ALIAS = re.compile(r"^pub type (\w+)[^=]*= ([^;]*);", re.M)
ANSWER = re.compile(r"->\s*(.*?)(?:\b(?:where|ensures|requires)\b|\{|;|\Z)", re.S)


def libraries(root):
    """The folders of the libraries below the program's own."""
    found = sorted(it.parents[1] for it in root.glob("crates/*/src/lib.rt"))
    return [it for it in found if it.name not in PROGRAM and not it.name.startswith("test_")]


def types_that_say_so(texts):
    """The types that have want of memory among their values, and those with such a type in them."""
    declared = {}
    for name, body in (it for text in texts for it in DECLARED.findall(text) + ALIAS.findall(text)):
        declared[name] = set(re.findall(r"\b[A-Z]\w+", re.sub(r"//.*", "", body)))
    found, size = set(WORDS), 0
    while len(found) > size:
        size = len(found)
        found |= {name for name, words in declared.items() if words & found}
    return found


def public_calls(folder):
    """What a library offers or its traits ask for, but for laws: names, and texts up to a body."""
    of_crate = functions.functions_of(folder)
    root = (folder / "src/lib.rt").read_text(encoding="utf-8")
    used = set(re.findall(r"\w+", " ".join(re.findall(r"(?m)^pub use ([^;]*);", root))))
    asked = [it for it in of_crate if it.kind == "trait" and it.owner in used]
    for it in functions.public_functions(folder, of_crate) + asked:
        lines = (folder / it.file).read_text(encoding="utf-8").split("\n")
        head = [at for at in lines[it.first : it.body + 1] if not at.lstrip().startswith("//")]
        yield "::".join(filter(None, [it.owner, it.name])), "\n".join(head)


def calls(root):
    """The public calls whose answer can say want of memory, by crate and name."""
    folders = libraries(root)
    texts = (it.read_text(encoding="utf-8") for of in folders for it in of.glob("src/*.rt"))
    types, found = types_that_say_so(texts), set()
    for folder in folders:
        for name, text in public_calls(folder):
            answer = ANSWER.search(text)
            if answer and types & set(re.findall(r"\w+", answer[1])):
                found.add(f"{folder.name}::{name}")
    return found


def listed(root):
    """Each call of the list with its test, or with None if it takes no memory."""
    found = []
    for line in (root / FILE).read_text(encoding="utf-8").splitlines():
        if line.strip() and not line.startswith("#"):
            test, _, names = line.rpartition(": ")
            found += [(it, None if test.startswith("none, ") else test) for it in names.split()]
    return found


def faults(root):
    """What is wrong with the list: a call that it lacks, or one that is no such call."""
    wanted, found = calls(root), {call for call, _ in listed(root)}
    lacks = [f"{FILE} lacks {it}, whose answer can say want of memory" for it in wanted - found]
    has = [f"{FILE} has {it}, which is no public function that can say it" for it in found - wanted]
    return sorted(lacks) + sorted(has)
