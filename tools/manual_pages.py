"""Manual pages, made from the pages of the program's help and the table of examples/README.md."""

import re

ESCAPES = {"\\": r"\e", "-": r"\-", "'": r"\(aq", "^": r"\(ha", "~": r"\(ti"}
PART = re.compile(r"(?:^\S.*\n)+|(?:^ .+\n)+", re.M)
PAIR = r"  \S+( \S+)* {2,}\S+( \S+)*\n"
TABLE = re.compile(rf"{PAIR}({PAIR}|(  | {{4,}})\S+( \S+)*\n)*")
ROW = re.compile(r"^  (\S+(?: \S+)*)(.*(?:\n {4}.*)*)", re.M)
EXAMPLE = re.compile(r"^\| (\S.*) \| `(mcrace (\w+).*)` \|$", re.M)


def roff(text):
    """A text in the language of manual pages, with what stands between backquotes in bold."""
    text = re.sub("`([^`]+)`", r"\\fB\1\\fR", "".join(ESCAPES.get(it, it) for it in text))
    return re.sub(r"^(?=\.)", r"\\&", text.replace("`", r"\(ga"), flags=re.M)


def as_it_stands(text):
    text = roff(text.replace("`", "\1")).replace("\1", r"\(ga")
    return f".PP\n.RS 2\n.nf\n{text.rstrip()}\n.fi\n.RE\n"


def listed(rows):
    """Terms in bold, each with its text beside it, or below if the term is long."""
    width = max((len(term) + 2 for term, _ in rows if len(term) < 20), default=8)
    return "".join(f".TP {width}\n{roff(f'`{term}`')}\n{roff(text)}\n" for term, text in rows)


def body(text):
    """Prose as paragraphs, tables of two columns as lists, what else is indented as it stands."""
    out = []
    for part in PART.findall(f"{text.strip()}\n"):
        if TABLE.fullmatch(part):
            out.append(listed([(it, " ".join(text.split())) for it, text in ROW.findall(part)]))
        elif part[0] == " ":
            out.append(as_it_stands(part.replace("\n  ", "\n")[2:]))
        else:
            is_title = part.count("\n") == 1 and part[-2] not in ".:"
            out.append(f"{'.SS' if is_title else '.PP'}\n{roff(' '.join(part.split()))}\n")
    return "".join(out)


def manual(commands, topics, examples, head):
    """The files of the manual pages by their paths. Those of topics are in section 5."""
    pages = {f"mcrace-{it.name}".rstrip("-"): it for it in (*commands, *topics)}
    section, made = {name: 5 if it in topics else 1 for name, it in pages.items()}, {}
    for name, it in pages.items():
        options = [(f"{', '.join(one.names)} {one.value}".rstrip(), one.text)
                   for one in it.arguments + it.options]
        found = EXAMPLE.findall(examples.replace(r"\|", "|"))
        lines = "".join(f".PP\nTo see {roff(what)}:\n{as_it_stands(line)}"
                        for what, line, command in found if it.name in ("", command))
        usage = roff(re.sub("^mcrace( [a-z]+)?", r"`\g<0>`", it.usage))
        others = [rf"\fB{roff(one)}\fR({section[one]})" for one in sorted(pages) if one != name]
        parts = {
            "NAME": rf"{roff(name)} \- {roff(it.about)}",
            "SYNOPSIS": re.sub(r"\b[A-Z]+(:[A-Z]+)?\b", r"\\fI\g<0>\\fR", usage),
            "DESCRIPTION": body(it.text),
            "COMMANDS": listed(it.choices),
            "OPTIONS": listed(options),
            "EXIT STATUS": listed(it.statuses),
            "TOPICS OF HELP": listed(it.topics),
            "EXAMPLES": lines and f"The examples are in share/doc/mcrace.\n{lines}",
            "SEE ALSO": ",\n".join(others),
        }
        text = "".join(f".SH {part}\n{text.rstrip()}\n" for part, text in parts.items() if text)
        made[f"share/man/man{section[name]}/{name}.{section[name]}.gz"] = (
            f".TH {roff(name.upper())} {section[name]} {head}\n.nh\n.ad l\n{text}")
    return made
