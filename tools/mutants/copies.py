"""Copies of a crate in which one check tries many mutants.

A check has a long start, whatever it is asked for. So a copy has many mutants, each in a function
of its own. All other functions have the body `unreachable!()` and one hole for their proofs: a
proof uses the contracts of what a function calls and not their bodies, and `rt ci` has proved
those.
"""

import shutil

import mutants

# How many mutants one check carries at most: about 6 processor seconds each, beside its start.
MOST = 64
OF_HOLE = "TakenProof"
HOLE = """-- Stands for the proofs that were taken.
pub taken_proof : {A : Type 2} → A
taken_proof = ?
"""
PROOF = """use Rattle.{place}.Statement.{{statement}}
use Rattle.{crate}.proofs.{of_hole}.{{taken_proof}}

pub {name}_spec : {{M : Type 1}} → statement M
{name}_spec = taken_proof
"""
# An answer with an error, which stands for no goal. For the open goals of a function a check
# offers a file to begin with, which takes a fifth of its time; but not if the function's own file
# has an error.
NO_OFFER = "no_offer"
TEXT_OF_NO_OFFER = f"\npub {NO_OFFER} : Type 2\n{NO_OFFER} = Type 0\n"


def batches_of(found):
    """These mutants in lists, of which each has at most one of a function, or of a cycle."""
    batches = []
    for it in found:
        place = it.function.cycle or it.function.path
        fitting = [of for of in batches if place not in of and len(of) < MOST]
        if not fitting:
            batches += [{}]
        (fitting or batches[-1:])[0][place] = it
    return [list(it.values()) for it in batches]


def make(batch, crate, of_crate, folder):
    """Makes a copy of a crate, which has these functions, in a new folder, with these mutants."""
    shutil.copytree(crate.folder, folder, ignore=shutil.ignore_patterns("out", "must-fail"))
    (folder / "proofs").mkdir(exist_ok=True)
    (folder / f"proofs/{OF_HOLE}.antt").write_text(HOLE, encoding="utf-8")
    with open(folder / "proofs/Lib.antt", "a", encoding="utf-8") as lib:
        lib.write(f"\npub mod {OF_HOLE}\n")
    tried = [it.function for it in batch]
    for it in of_crate:
        if it not in tried and not it.keeps_body:
            take_body(it, folder)
            take_proof(it, crate, folder)
    for it in batch:
        it.apply(folder)
        leave_out_offers(it.function, folder)


def take_body(function, folder):
    """Puts `unreachable!()` in place of the body, in as many lines. A law has none to take."""
    inner = range(function.body + 1, function.last)
    if inner and not function.is_law:
        lines = mutants.lines_of(folder / function.file)
        end = lines[function.last]
        indent = len(end) - len(end.lstrip()) + 4
        lines[inner.start : inner.stop] = [""] * len(inner)
        lines[inner.start] = " " * indent + "unreachable!()"
        (folder / function.file).write_text("\n".join(lines), encoding="utf-8")


def take_proof(function, crate, folder):
    """Puts a hole in place of what is written of the function's proof and its closures', which
    stand in folders `fn`."""
    path = function.path
    for at in range(len(path)):
        shutil.rmtree(folder.joinpath("proofs", *path[:at], "fn", *path[at:]), ignore_errors=True)
    home = folder.joinpath("proofs", *path)
    for it in ("Invariants", "Answers"):
        (home / f"{it}.antt").unlink(missing_ok=True)
    home.mkdir(parents=True, exist_ok=True)
    place = ".".join((crate.name, "proofs", *path))
    text = PROOF.format(place=place, crate=crate.name, of_hole=OF_HOLE, name=function.name)
    (home / "Proof.antt").write_text(text, encoding="utf-8")


def leave_out_offers(function, folder):
    """Has a check offer no file for the open goals of the function. One whose whole proof is
    written gets none anyway, nor do functions of a cycle, or one that calls itself."""
    home = folder.joinpath("proofs", *function.path)
    of_cycle = function.cycle or home.with_name(f"+{home.name}").is_dir()
    if not (home / "Proof.antt").is_file() and not of_cycle:
        home.mkdir(parents=True, exist_ok=True)
        with open(home / "Answers.antt", "a", encoding="utf-8") as file:
            file.write(TEXT_OF_NO_OFFER)
