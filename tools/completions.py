"""What completions for shells say of the pages of the program's help."""

import re


def quoted(text):
    return "'" + text.replace("'", r"'\''") + "'"


def bash(pages):
    cases = []
    for it in pages:
        cases += [(f"{it.name} {one.names[-1]}", "", one.words) for one in it.options if one.value]
        names = [name for one in it.options for name in one.names]
        cases.append((f"{it.name} ", "*", [name for name, _ in it.choices] + names))
    return "\n".join(f"    {quoted(at)}{more}) words={quoted(' '.join(words))} ;;"
                     for at, more, words in cases)


def zsh(pages):
    escaped = lambda text, what=r"[][:\\]": re.sub(what, r"\\\g<0>", text)
    lines = []
    for it in pages:
        rows = " ".join(rf"{name}\:{escaped(text, '[^a-zA-Z0-9]')}" for name, text in it.choices)
        specs = [f"1:word:(({rows}))"] if rows else []
        specs += [f":{escaped(one.names[0])}: " for one in it.arguments]
        for one in it.options:
            value = f":{escaped(one.value)}:({' '.join(one.words)})" if one.value else ""
            specs += [f"{name}[{escaped(one.text)}]{value}" for name in one.names]
        lines.append(f"({quoted(it.name)}) _arguments {' '.join(map(quoted, specs))} ;;")
    return "\n".join(lines)


def fish(pages):
    lines = []
    for it in pages:
        at = f"'__fish_seen_subcommand_from {it.name}'" if it.name else "__fish_use_subcommand"
        lines += [f"{at} -a {name} -d {quoted(text)}" for name, text in it.choices]
        for one in it.options:
            names = " ".join(f"-l {it[2:]}" if it[1] == "-" else f"-s {it[1]}" for it in one.names)
            value = f" -x -a {quoted(' '.join(one.words))}" if one.value else ""
            lines.append(f"{at} {names}{value} -d {quoted(one.text)}")
    return "\n".join(f"complete -c mcrace -n {it}" for it in lines)
