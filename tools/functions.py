"""The functions of a crate's sources: where each stands, and its path.

It goes by the layout that `rt fmt` gives, which `rt ci` asks for: functions stand at the margin or
in a block there, and an item begins and ends at its own indent.
"""

import re
from dataclasses import dataclass

ITEM = re.compile(
    r"(?P<public>pub )?(?:pub\([^)]*\) )?(?:const |unsafe )*"
    r"(?P<kind>fn|trait|impl)\b *(?P<name>\w*)"
)
# What ends an item, after its indent; the last clause ends a function that has no body.
END = r"(?:(?=\S)(?:\}|.*(?:\{\}|;| \})$)| {4}(?:requires|ensures)\b.*;$)"
# What stands in angle brackets, with others inside.
ANGLES = r"<(?:[^<>]|<(?:[^<>]|<[^<>]*>)*>)*>"
OF_TESTS = re.compile(r"#\[cfg\(test\)\]\n(?:pub )?mod (\w+);")
DECLARED = re.compile(r"(?m)^(?:pub(?:\([^)]*\))? )?(?:struct|enum) (\w+)")
CLAUSE = re.compile(r" *(requires|ensures|ghost)\b")
CYCLE = re.compile(r"#\[cycle\((\w+)\)")


@dataclass(eq=False)
class Function:
    """A function in the lines from first to last, of which one opens its body. Its path is that of
    its module, its block and itself."""

    file: str
    path: tuple
    first: int
    body: int
    last: int
    is_public: bool
    # Of a method: the kind of its block, and the name that `rattle` gives the block.
    kind: str
    owner: str
    # A law has an empty body.
    is_law: bool
    # The functions of one cycle are proved as one.
    cycle: str
    # Whether its body is used by more than its own proof, or there is none.
    keeps_body: bool

    @property
    def name(self):
        return self.path[-1]

    def holds(self, at):
        return self.first <= at <= self.last

    def has_clause_at(self, lines, at):
        """Whether this line is part of the contract."""
        return at < self.body and any(CLAUSE.match(it) for it in lines[self.first : at + 1])


@dataclass
class Block:
    """What functions stand in: a file, or methods of a type or a trait in it."""

    file: str
    lines: list
    module: tuple
    kind: str = ""
    owner: str = ""
    indent: str = ""


def items_in(lines, first, last, indent):
    """The functions and blocks at this indent, but those of tests: of each its head, the first of
    the lines of `#` and comments above it, the line of the head, and the last one."""
    end_of_item, at = re.compile(indent + END), first
    while at <= last:
        head = ITEM.match(lines[at], len(indent)) if lines[at].startswith(indent) else None
        if head:
            above = at
            while above > first and lines[above - 1].startswith((indent + "#", indent + "//")):
                above -= 1
            end = next((it for it in range(at, last) if end_of_item.match(lines[it])), last)
            if not re.search(r"#\[(cfg\()?test\b", "".join(lines[above:at])):
                yield head, above, at, end
            at = end
        at += 1


def name_of(text):
    """The name of a type or a trait, without its modules and arguments."""
    return (re.findall(r"\w+", re.sub(ANGLES, "", text).rpartition("::")[2]) or [""])[0]


def owner_of(header):
    """The kind of a block, and the name that `rattle` gives it: that of its type, and of a trait's
    block the type's with the trait's and those of its arguments."""
    text = re.sub(rf"^.*?\b(impl|trait)\b({ANGLES})?| where .*|->|[ {{]+$", "", header)
    trait, of, owner = text.partition(" for ")
    if not of:
        return "trait" if "trait " in header else "impl", name_of(text.partition(":")[0])
    arguments = trait.partition("<")[2].rpartition(">")[0].split(",")
    types = [it for it in arguments if not it.strip().startswith("'")]
    return "impl of a trait", "".join(map(name_of, (owner, trait, *types)))


def functions_in(block, first, last, homes):
    """The functions among these lines of a block. A type's own methods are named by the module
    that declares it."""
    for head, above, at, end in items_in(block.lines, first, last, block.indent):
        if head["kind"] == "fn":
            yield function(block, head, above, at, end)
        elif not block.kind:
            opens = next((it for it in range(at, end + 1) if block.lines[it].endswith("{")), end)
            kind, owner = owner_of(" ".join(block.lines[at : opens + 1]))
            module = homes.get(owner, block.module) if kind == "impl" else block.module
            inner = Block(block.file, block.lines, module, kind, owner, " " * 4)
            yield from functions_in(inner, opens + 1, end - 1, homes)


def function(block, head, first, at, last):
    """The function with this head, in the line at."""
    opens = re.compile(block.indent + r"(?=\S).*\{$")
    body = next((it for it in range(at, last + 1) if opens.match(block.lines[it])), last)
    above, end = "\n".join(block.lines[first : body + 1]), block.lines[last]
    cycle, is_law = CYCLE.search(above), end.endswith("{}")
    is_used = cycle or "const fn" in above or block.kind == "trait"
    is_used = is_used or block.kind and head["name"] == "drop"
    has_body = not end.endswith(";") and (body < last or is_law)
    return Function(
        block.file,
        (*block.module, *filter(None, [block.owner]), head["name"]),
        *(first, body, last),
        is_public=bool(head["public"]),
        kind=block.kind,
        owner=block.owner,
        is_law=is_law,
        cycle=cycle[1] if cycle else "",
        keeps_body=bool(is_used or not has_body),
    )


def functions_of(folder):
    """The functions of all sources below a crate's folder, but those of its tests."""
    texts, homes, of_tests, found = {}, {}, set(), []
    for path in sorted((folder / "src").rglob("*.rt")):
        place = path.relative_to(folder / "src").with_suffix("")
        module = place.parent.parts if place.name in ("lib", "main", "mod") else place.parts
        text = path.read_text(encoding="utf-8")
        texts[module] = path.relative_to(folder).as_posix(), text
        of_tests |= {(*module, it) for it in OF_TESTS.findall(text)}
        homes |= dict.fromkeys(DECLARED.findall(text), module)
    for module, (file, text) in texts.items():
        if not any(module[: len(it)] == it for it in of_tests):
            lines = text.split("\n")
            found += functions_in(Block(file, lines, module), 0, len(lines) - 1, homes)
    return found


def public_functions(folder, functions):
    """The functions that a library offers, but for laws."""
    if not (folder / "src/lib.rt").is_file():
        return []
    text = (folder / "src/lib.rt").read_text(encoding="utf-8")
    used = " ".join(re.findall(r"(?m)^pub use ([^;]*);", text))
    names = set(re.findall(r"(\w+)(?=\s*(?:[,} ]|\Z))", used))
    modules = {(), *((it,) for it in re.findall(r"(?m)^pub mod (\w+);", text))}
    return [
        it
        for it in functions
        if it.is_public
        and it.kind in ("", "impl")
        and not it.is_law
        and ((it.owner or it.name) in names or it.path[: -2 if it.owner else -1] in modules)
    ]
